#include "draw.h"

#include "features.h"
#include "options.h"
#include "pixels.h"

#include <stdio.h>
#include <stdlib.h>
#include <string.h>

static struct refusal blown(const struct solved *s)
{
    struct refusal why = refuse(SMOOTHER_BLOWN, 0);
    snprintf(why.words, sizeof why.words, "the values of channel %u overflowed in step %u; smaller weights are needed", s->blown_channel, s->blown_step);
    return why;
}

static enum status paint(const struct sheet *s, struct drawn *out)
{
    size_t len;
    const uint32_t *n = s->numbers;
    uint8_t *rgb = picture_of(s, &out->solved, &len);
    if (!rgb)
        return TROUBLE;
    enum status status = png_bytes(rgb, n[SMOOTHER_AT_PICTURE_WIDTH], n[SMOOTHER_AT_PICTURE_HEIGHT], n[SMOOTHER_AT_CHANNELS] == 1, &out->png);
    free(rgb);
    return status;
}

static size_t all_steps(const struct sheet *s)
{
    size_t n = 0;
    for (uint32_t r = 0; r < runs_of(s); r++)
        n += steps_of(s, r);
    return n;
}

enum status draw(const struct bytes *text, struct drawing how, const char *bar_unit, struct drawn *out)
{
    struct sheet s;
    *out = (struct drawn){0};
    if (!sheet_read(text, how.how, &s, &out->why))
        return REFUSED;
    out->channels = s.numbers[SMOOTHER_AT_CHANNELS];
    struct bar bar = bar_begin(bar_unit, bar_unit && !how.start_only ? all_steps(&s) : 0);
    uint32_t answer = solve_sheet(&s, how.start_only, &bar, &out->solved);
    bar_clear(&bar);
    enum status status = REFUSED;
    if (answer == SMOOTHER_OK)
        status = paint(&s, out);
    else if (answer == NOT_MADE)
        status = TROUBLE;
    else
        out->why = answer == SMOOTHER_BLOWN ? blown(&out->solved) : refuse(answer, 0);
    sheet_free(&s);
    return status;
}

void drawn_free(struct drawn *d)
{
    drop(&d->png);
    solved_free(&d->solved);
}

int drawing_option(int argc, char **argv, int *i, struct drawing *how)
{
    if (strcmp(argv[*i], "--start") == 0) {
        how->start_only = true;
        return 1;
    }
    if (strcmp(argv[*i], "--partner") == 0) {
        how->how.partner = true;
        if (!HAVE_PARTNER)
            say(NO_FEATURE, "--partner");
        return HAVE_PARTNER ? 1 : 2;
    }
    if (strcmp(argv[*i], "--page") == 0)
        return ++*i < argc && whole_number(argv[*i], 0, SMOOTHER_MOST_ITERATIONS, &how->how.limits.iterations) ? 1 : (int)trouble("--page needs a number, 0 to 1000");
    return 0;
}
