/* The folders of a batch: of sheets, of pictures, and of rows with the summary. The pictures' folder may be sent to a partner as it is, the rows' stays at home. */
#ifndef TOOLS_FOLDERS_H
#define TOOLS_FOLDERS_H

#include "say.h"

#include <stdbool.h>

struct folders {
    const char *in, *out;
    char *rows; /* null: OUT.rows beside OUT; to be freed */
};

/* Makes the folders for pictures and rows where there are none. TROUBLE, which is said, where one is the sheets' own, and for a partner where the rows would stand within the
 * pictures' folder. */
enum status folders_make(struct folders *f, bool partner);

/* TROUBLE where something stands in the pictures' folder that is no picture of one of the sheets, which is said. While there is work to do (`done` is false) a picture that is
 * not yet whole may be there too. */
enum status folders_check(const struct folders *f, bool done);

#endif
