#include "sheet.h"

#include "features.h"
#include "words.h"

#include <fenv.h>
#include <inttypes.h>
#include <stdio.h>
#include <stdlib.h>

_Static_assert(SMOOTHER_NUMBERS == (HAVE_HOLD ? 32 : 29), "HAVE_HOLD of features.h is not what include/smoother.h says");

const struct reading whole_reading = {{SMOOTHER_MOST_SIDE, SMOOTHER_MOST_ITERATIONS}, false};

enum status library_fits(void)
{
    if (smoother_run_bytes() == sizeof(struct smoother_run) && smoother_sheet_numbers() == SMOOTHER_NUMBERS)
        return processor_fits();
    return trouble("libsmoother.a is another than include/smoother.h: build both anew (scripts/staticlib smoother, make -C tools)");
}

enum status processor_fits(void)
{
    if (smoother_rounds_to_nearest() && fegetround() == FE_TONEAREST)
        return DONE;
    return trouble("the processor is set to round otherwise than to the nearest, or to drop subnormals (MXCSR %#x, x87 rounding %#x): nothing is computed", _mm_getcsr(),
                   (unsigned)fegetround());
}

struct refusal refuse(uint32_t number, size_t line)
{
    struct refusal why = {.number = number, .line = line};
    snprintf(why.words, sizeof why.words, "%s", refusal_plain(number));
    return why;
}

enum status say_refusal(const char *name, const struct refusal *why)
{
    if (why->line > 0)
        say("%s: refused, %" PRIu32 " (%s), line %zu: %s", name, why->number, refusal_word(why->number), why->line, why->words);
    else
        say("%s: refused, %" PRIu32 " (%s): %s", name, why->number, refusal_word(why->number), why->words);
    return REFUSED;
}

/* The refusal of a text, with the field where it is found. */
static struct refusal text_refusal(const struct bytes *text, struct limits limits, uint32_t number, size_t line)
{
    struct refusal why = refuse(number, line);
    struct finding found = line > 0 ? explain(text->at, text->len, limits, line) : (struct finding){0};
    if (found.number == number)
        snprintf(why.words, sizeof why.words, "%s", found.words);
    return why;
}

static uint32_t call_read(const struct bytes *text, struct reading how, struct sheet *s, size_t *line)
{
    return smoother_read(text->at, text->len, how.limits.side, how.limits.iterations,
#if HAVE_PARTNER
                         how.partner,
#endif
                         s->lows, s->levels, s->highs, s->levels, s->tables, s->quantisers, s->numbers, SMOOTHER_NUMBERS, line);
}

bool sheet_read(const struct bytes *text, struct reading how, struct sheet *out, struct refusal *why)
{
    size_t line = 0;
    *out = (struct sheet){0};
    uint32_t number = smoother_measure(text->at, text->len, how.limits.side, how.limits.iterations, &out->levels, &out->quantisers, &line);
    if (number == SMOOTHER_OK) {
        out->lows = space(out->levels, sizeof *out->lows);
        out->highs = space(out->levels, sizeof *out->highs);
        out->tables = space(out->quantisers, sizeof *out->tables);
        number = call_read(text, how, out, &line);
    }
    if (number == SMOOTHER_OK)
        return true;
    *why = text_refusal(text, how.limits, number, line);
    sheet_free(out);
    return false;
}

void sheet_free(struct sheet *s)
{
    free(s->lows);
    free(s->highs);
    free(s->tables);
    *s = (struct sheet){0};
}

enum status sheet_load(const char *name, struct reading how, struct bytes *text, struct sheet *out)
{
    struct refusal why;
    *text = (struct bytes){0};
    enum status status = file_read(name, text);
    if (status == DONE && !sheet_read(text, how, out, &why))
        status = say_refusal(name, &why);
    if (status != DONE)
        drop(text);
    return status;
}

size_t levels_of(const struct sheet *s, uint32_t c)
{
    const uint32_t *own = s->numbers + SMOOTHER_AT_OWN + 4 * c;
    return (size_t)own[0] * own[1];
}

size_t levels_before(const struct sheet *s, uint32_t c)
{
    size_t n = 0;
    for (uint32_t i = 0; i < c; i++)
        n += levels_of(s, i);
    return n;
}
