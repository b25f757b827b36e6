/* The runs of a sheet, step by step through the library's calls. By the library's theorem one_by_one_served this leaves what smoother_solve leaves. */
#ifndef TOOLS_SOLVE_H
#define TOOLS_SOLVE_H

#include "bar.h"
#include "sheet.h"

struct solved {
    float *plane; /* channels x W x H */
    size_t values;
    uint32_t runs;     /* 1 in joint mode, in separate mode one for each channel */
    uint32_t steps[3]; /* of each run */
    double *totals;    /* both totals of each step, run after run */
    uint32_t clipped[3];
    uint32_t blown_channel, blown_step; /* where the answer is 10 */
};

/* The number of runs, and the steps of run r. */
uint32_t runs_of(const struct sheet *s);
uint32_t steps_of(const struct sheet *s, uint32_t r);

/* No answer of the library: a call was not made, since the processor does not fit it, which is said. */
enum { NOT_MADE = 256 };

/* Makes all steps, or with `start_only` none. 0; 10 where a channel blew; NOT_MADE; another number of the table only where the library is another than the header's.
 * *out is to be freed by solved_free in any case. `bar` may be null. */
uint32_t solve_sheet(const struct sheet *s, bool start_only, struct bar *bar, struct solved *out);
void solved_free(struct solved *s);

/* Both totals of step k, from 0, of run r. */
const double *totals_at(const struct solved *s, uint32_t r, uint32_t k);

/* The picture's bytes: 3 x picture width x picture height, to be freed. Null where the call was not made or is refused, which is said. */
uint8_t *picture_of(const struct sheet *s, const struct solved *solved, size_t *len);

#endif
