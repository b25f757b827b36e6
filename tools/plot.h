/* The totals of a sheet's runs over the steps, as an SVG picture. */
#ifndef TOOLS_PLOT_H
#define TOOLS_PLOT_H

#include "solve.h"

/* Two panels, the first and the second total; a curve for each run. The scale starts at 0; a total that is infinite or not a number is left out. */
void plot_totals(const struct solved *s, struct bytes *svg);

#endif
