/* The quantisation tables of a JPEG file, or of one DQT segment. */
#ifndef TOOLS_DQT_H
#define TOOLS_DQT_H

#include "sheet.h"

enum { DESTINATIONS = 4 };

/* Stores the tables of all DQT segments before the first scan by their destinations, which are noted in `named`. REFUSED, which is said, for a file that has none or a table that can't be used. */
enum status dqt_tables(const char *name, const struct bytes *file, uint16_t tables[SMOOTHER_QUANTISERS], bool named[DESTINATIONS]);

#endif
