#include "solve.h"

#include "features.h"

#include <stdlib.h>
#include <string.h>

/* What one run is lent. */
struct lent {
    struct smoother_run run;
    const int16_t *lows, *highs;
    const uint16_t *tables;
    size_t levels, quantisers, values;
    float *plane, *prior, *gradient, *across, *down, *saved;
};

/* A call that computes: the processor is looked at before each, since any code between two calls may set it otherwise. */
#define COMPUTED(call) (processor_fits() == DONE ? (call) : NOT_MADE)

static float value(uint32_t bits)
{
    float x;
    memcpy(&x, &bits, sizeof x);
    return x;
}

uint32_t runs_of(const struct sheet *s)
{
    return s->numbers[SMOOTHER_AT_JOINT] ? 1 : s->numbers[SMOOTHER_AT_CHANNELS];
}

uint32_t steps_of(const struct sheet *s, uint32_t r)
{
    return s->numbers[SMOOTHER_AT_ITERATIONS + r];
}

/* Channel c of the sheet in a run; in separate mode the data weight is always the first. */
static struct smoother_channel channel_of(const struct sheet *s, uint32_t c)
{
    const uint32_t *n = s->numbers, *own = n + SMOOTHER_AT_OWN + 4 * c;
    return (struct smoother_channel){.width = own[0],
                                     .height = own[1],
                                     .across = own[2],
                                     .down = own[3],
#if HAVE_HOLD
                                     .held = n[SMOOTHER_AT_HELD + c],
#endif
                                     .weight = value(n[SMOOTHER_AT_DATA + (n[SMOOTHER_AT_JOINT] ? c : 0)])};
}

/* The record of run r. */
static struct smoother_run run_of(const struct sheet *s, uint32_t r)
{
    const uint32_t *n = s->numbers;
    struct smoother_run run = {.w = n[SMOOTHER_AT_W],
                               .h = n[SMOOTHER_AT_H],
                               .n = steps_of(s, r),
                               .smoothing = value(n[SMOOTHER_AT_SMOOTHING + r]),
                               .reorder = n[SMOOTHER_AT_REORDER],
                               .count = n[SMOOTHER_AT_JOINT] ? n[SMOOTHER_AT_CHANNELS] : 1};
    for (uint32_t c = 0; c < run.count; c++)
        run.channels[c] = channel_of(s, r + c);
    return run;
}

/* Levels, tables and parts of the six buffers of run r. `six` has the sheet's buffers one after the other. */
static struct lent lent_to(const struct sheet *s, uint32_t r, float *six)
{
    const size_t area = (size_t)s->numbers[SMOOTHER_AT_W] * s->numbers[SMOOTHER_AT_H], all = area * s->numbers[SMOOTHER_AT_CHANNELS];
    struct lent l = {.run = run_of(s, r), .lows = s->lows + levels_before(s, r), .highs = s->highs + levels_before(s, r), .tables = s->tables + 64 * r};
    float *at = six + area * r;
    l.levels = levels_before(s, r + l.run.count) - levels_before(s, r);
    l.quantisers = 64 * l.run.count;
    l.values = area * l.run.count;
    l.plane = at, l.prior = at + all, l.gradient = at + 2 * all, l.across = at + 3 * all, l.down = at + 4 * all, l.saved = at + 5 * all;
    return l;
}

static uint32_t start(struct lent *l)
{
    size_t k = l->values;
    return COMPUTED(smoother_start(&l->run, l->lows, l->levels, l->highs, l->levels, l->tables, l->quantisers, l->plane, k, l->prior, k, l->gradient, k,
                                   l->across, k, l->down, k, l->saved, k));
}

/* The first three jobs of a step. */
static uint32_t to_blend(struct lent *l, double *totals)
{
    size_t k = l->values;
    uint32_t answer = SMOOTHER_OK;
    for (uint32_t c = 0; c < l->run.count && !answer; c++) {
        answer = COMPUTED(smoother_push(&l->run, c, l->plane, k, l->prior, k));
        if (!answer)
            answer = COMPUTED(smoother_data(&l->run, c, l->lows, l->levels, l->highs, l->levels, l->tables, l->quantisers, l->gradient, k, l->saved, k));
    }
    return answer ? answer : COMPUTED(smoother_blend(&l->run, l->plane, k, l->gradient, k, l->across, k, l->down, k, totals, 2));
}

/* The last two jobs of a step: 10 where a channel blew, which is *blown. */
static uint32_t to_project(struct lent *l, uint32_t *blown)
{
    size_t k = l->values;
    uint32_t answer = SMOOTHER_OK;
    for (uint32_t c = 0; c < l->run.count && !answer; c++) {
        answer = COMPUTED(smoother_move(&l->run, c, l->plane, k, l->gradient, k));
        if (!answer)
            answer = COMPUTED(smoother_project(&l->run, c, l->lows, l->levels, l->highs, l->levels, l->tables, l->quantisers, l->plane, k, l->across, k,
                                               l->down, k, l->saved, k));
        if (answer == SMOOTHER_NOW_BLOWN) {
            *blown = c;
            answer = SMOOTHER_BLOWN;
        }
    }
    return answer;
}

/* Run r of the sheet; `made` counts the steps of the runs before. */
static uint32_t solve_run(struct lent *l, uint32_t r, size_t made, struct bar *bar, struct solved *out)
{
    uint32_t answer = start(l);
    for (uint32_t step = 0; step < out->steps[r] && !answer; step++) {
        answer = to_blend(l, out->totals + 2 * (made + step));
        if (!answer)
            answer = to_project(l, &out->blown_channel);
        if (answer == SMOOTHER_BLOWN) {
            out->blown_channel += r;
            out->blown_step = step + 1;
        }
        if (bar)
            bar_at(bar, made + step + 1, "");
    }
    for (uint32_t c = 0; c < l->run.count; c++)
        out->clipped[r + c] = l->run.channels[c].clipped;
    return answer;
}

uint32_t solve_sheet(const struct sheet *s, bool start_only, struct bar *bar, struct solved *out)
{
    const uint32_t *n = s->numbers;
    *out = (struct solved){.runs = runs_of(s), .values = (size_t)n[SMOOTHER_AT_CHANNELS] * n[SMOOTHER_AT_W] * n[SMOOTHER_AT_H]};
    size_t all = 0, made = 0;
    for (uint32_t r = 0; r < out->runs; r++)
        all += out->steps[r] = start_only ? 0 : steps_of(s, r);
    out->totals = space(2 * all, sizeof *out->totals);
    out->plane = space(6 * out->values, sizeof *out->plane);
    uint32_t answer = SMOOTHER_OK;
    for (uint32_t r = 0; r < out->runs && !answer; r++) {
        struct lent l = lent_to(s, r, out->plane);
        answer = solve_run(&l, r, made, bar, out);
        made += out->steps[r];
    }
    return answer;
}

void solved_free(struct solved *s)
{
    free(s->plane);
    free(s->totals);
    *s = (struct solved){0};
}

const double *totals_at(const struct solved *s, uint32_t r, uint32_t k)
{
    size_t at = k;
    for (uint32_t i = 0; i < r; i++)
        at += s->steps[i];
    return s->totals + 2 * at;
}

uint8_t *picture_of(const struct sheet *s, const struct solved *solved, size_t *len)
{
    const uint32_t *n = s->numbers;
    *len = (size_t)3 * n[SMOOTHER_AT_PICTURE_WIDTH] * n[SMOOTHER_AT_PICTURE_HEIGHT];
    uint8_t *rgb = space(*len, 1);
    uint32_t answer = COMPUTED(smoother_finish(n[SMOOTHER_AT_ROUNDING], n[SMOOTHER_AT_W], n[SMOOTHER_AT_H], n[SMOOTHER_AT_PICTURE_WIDTH],
                                               n[SMOOTHER_AT_PICTURE_HEIGHT], n[SMOOTHER_AT_CHANNELS], solved->plane, solved->values, rgb, *len));
    if (answer == SMOOTHER_OK)
        return rgb;
    if (answer != NOT_MADE) /* no sheet that was read is refused */
        say("the library refuses to draw: %u", answer);
    free(rgb);
    return NULL;
}
