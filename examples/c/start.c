/* Reads a sheet, starts its run, does some steps, whose totals it reports, and prints the first row of channel 0's plane, each value as the bits of its f32.
 *
 *     scripts/staticlib smoother
 *     gcc -std=c11 -Wall -Wextra -Werror -Iinclude examples/c/start.c target/staticlib/libsmoother.a -o target/start
 *     target/start samples/whole.tsv          # all steps of the sheet
 *     target/start samples/colour.tsv 3       # the first three
 *
 * In joint mode the run has all channels; in separate mode this program runs the first channel alone. */
#include "smoother.h"

#include <inttypes.h>
#include <stdio.h>
#include <stdlib.h>
#include <string.h>

static void *space(size_t count, size_t size)
{
    void *p = calloc(count + 1, size); /* never null for an empty buffer */
    if (!p) {
        fputs("no memory\n", stderr);
        exit(2);
    }
    return p;
}

static uint8_t *contents(const char *name, size_t *len)
{
    FILE *f = fopen(name, "rb");
    if (!f) {
        perror(name);
        exit(2);
    }
    size_t room = 1 << 16;
    uint8_t *text = space(room, 1);
    size_t got;
    *len = 0;
    while ((got = fread(text + *len, 1, room - *len, f)) > 0) {
        *len += got;
        if (*len == room) {
            room *= 2;
            text = realloc(text, room);
            if (!text) {
                fputs("no memory\n", stderr);
                exit(2);
            }
        }
    }
    fclose(f);
    return text;
}

static float value(uint32_t bits)
{
    float x;
    memcpy(&x, &bits, sizeof x);
    return x;
}

static uint32_t bits(float x)
{
    uint32_t b;
    memcpy(&b, &x, sizeof b);
    return b;
}

/* The joint run of a sheet, or the first channel's run in separate mode: what both take from the sheet is the same but for the count. */
static struct smoother_run run_of(const uint32_t *s)
{
    struct smoother_run run = {.w = s[SMOOTHER_AT_W],
                               .h = s[SMOOTHER_AT_H],
                               .n = s[SMOOTHER_AT_ITERATIONS],
                               .smoothing = value(s[SMOOTHER_AT_SMOOTHING]),
                               .reorder = s[SMOOTHER_AT_REORDER],
                               .count = s[SMOOTHER_AT_JOINT] ? s[SMOOTHER_AT_CHANNELS] : 1};
    for (uint32_t c = 0; c < run.count; c++) {
        const uint32_t *own = s + SMOOTHER_AT_OWN + 4 * c;
        run.channels[c] = (struct smoother_channel){.width = own[0],
                                                    .height = own[1],
                                                    .across = own[2],
                                                    .down = own[3],
                                                    .weight = value(s[SMOOTHER_AT_DATA + c]),
                                                    .held = s[SMOOTHER_AT_HELD + c]};
    }
    return run;
}

/* Ends the program unless the call was done. */
static void done(const char *call, uint32_t answer)
{
    if (answer != SMOOTHER_OK) {
        fprintf(stderr, "%s: refused, %" PRIu32 "\n", call, answer);
        exit(1);
    }
}

/* The same of project, the one call here that can blow its channel: true where it did. */
static bool blown(uint32_t answer)
{
    if (answer == SMOOTHER_NOW_BLOWN)
        return true;
    done("project", answer);
    return false;
}

int main(int argc, char **argv)
{
    if (argc < 2) {
        fputs("usage: start FILE [STEPS]\n", stderr);
        return 2;
    }
    if (smoother_run_bytes() != sizeof(struct smoother_run) || smoother_sheet_numbers() != SMOOTHER_NUMBERS) {
        fputs("the library is another than the header's\n", stderr);
        return 2;
    }
    size_t text_len, n, m, line;
    uint8_t *text = contents(argv[1], &text_len);
    uint32_t refused = smoother_measure(text, text_len, SMOOTHER_MOST_SIDE, SMOOTHER_MOST_ITERATIONS, &n, &m, &line);
    if (refused) {
        fprintf(stderr, "%s: refused, %" PRIu32 " at line %zu\n", argv[1], refused, line);
        return 1;
    }
    int16_t *lows = space(n, sizeof *lows), *highs = space(n, sizeof *highs);
    uint16_t *tables = space(m, sizeof *tables);
    uint32_t sheet[SMOOTHER_NUMBERS];
    done("read", smoother_read(text, text_len, SMOOTHER_MOST_SIDE, SMOOTHER_MOST_ITERATIONS, SMOOTHER_STAFF, lows, n, highs, n, tables, m, sheet, SMOOTHER_NUMBERS, &line));

    struct smoother_run run = run_of(sheet);
    n = 0;
    for (uint32_t c = 0; c < run.count; c++)
        n += (size_t)run.channels[c].width * run.channels[c].height;
    m = 64 * (size_t)run.count;
    size_t k = (size_t)run.count * run.w * run.h;
    float *plane = space(k, sizeof(float)), *prior = space(k, sizeof(float)), *gradient = space(k, sizeof(float));
    float *across = space(k, sizeof(float)), *down = space(k, sizeof(float)), *saved = space(k, sizeof(float));
    done("start", smoother_start(&run, lows, n, highs, n, tables, m, plane, k, prior, k, gradient, k, across, k, down, k, saved, k));

    unsigned long steps = argc > 2 ? strtoul(argv[2], NULL, 10) : run.n;
    bool ended = false;
    for (unsigned long step = 0; step < steps && step < run.n && !ended; step++) {
        for (uint32_t c = 0; c < run.count; c++) {
            done("push", smoother_push(&run, c, plane, k, prior, k));
            done("data", smoother_data(&run, c, lows, n, highs, n, tables, m, gradient, k, saved, k));
        }
        double totals[2];
        done("blend", smoother_blend(&run, plane, k, gradient, k, across, k, down, k, totals, 2));
        fprintf(stderr, "step %lu: totals %g and %g\n", step + 1, totals[0], totals[1]);
        for (uint32_t c = 0; c < run.count; c++) {
            done("move", smoother_move(&run, c, plane, k, gradient, k));
            if (blown(smoother_project(&run, c, lows, n, highs, n, tables, m, plane, k, across, k, down, k, saved, k))) {
                fprintf(stderr, "channel %" PRIu32 " is blown in step %lu\n", c, step + 1);
                ended = true;
            }
        }
    }
    for (uint32_t x = 0; x < run.w; x++)
        printf("%08" PRIx32 "%c", bits(plane[x]), x + 1 < run.w ? ' ' : '\n');

    free(text), free(lows), free(highs), free(tables);
    free(plane), free(prior), free(gradient), free(across), free(down), free(saved);
    return ended;
}
