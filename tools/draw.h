/* A sheet's text to the bytes of its picture: what sheet2png and the batch share. */
#ifndef TOOLS_DRAW_H
#define TOOLS_DRAW_H

#include "solve.h"

struct drawing {
    struct reading how;
    bool start_only; /* the picture at iteration 0 */
};

/* What came of a sheet. All but `why` is empty where it was refused. */
struct drawn {
    struct refusal why;
    uint32_t channels;
    struct bytes png;
    struct solved solved;
};

/* DONE, REFUSED with why, or TROUBLE, which is said. *out is to be freed by drawn_free in any case. `bar_unit` names the bar's steps; null: no bar. */
enum status draw(const struct bytes *text, struct drawing how, const char *bar_unit, struct drawn *out);
void drawn_free(struct drawn *d);

/* Options that sheet2png and the batch share: --page N, --start, --partner. 0: argv[*i] is none of them; 1: it was one, and *i is at its last word; 2: it is wrong, which is said. */
int drawing_option(int argc, char **argv, int *i, struct drawing *how);

#endif
