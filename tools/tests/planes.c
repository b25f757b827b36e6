/* planes SHEET.tsv: what the tools make of a sheet, as lines: T and K as `smooth` prints them, P with a channel and the bits of its plane's values, I and R as `smooth` prints
 * them. A refusal is one line X. The oracle's program `whole` prints the same by the published Rust. */
#include "solve.h"

#include <inttypes.h>
#include <stdio.h>
#include <stdlib.h>
#include <string.h>

static uint64_t total_bits(double x)
{
    uint64_t b;
    memcpy(&b, &x, sizeof b);
    return x == x ? b : 0x7ff8000000000000;
}

static uint32_t value_bits(float x)
{
    uint32_t b;
    memcpy(&b, &x, sizeof b);
    return x == x ? b : 0x7fc00000;
}

static void print_picture(const struct sheet *s, const struct solved *d)
{
    size_t len;
    uint8_t *rgb = picture_of(s, d, &len);
    if (!rgb)
        exit(TROUBLE);
    uint32_t width = s->numbers[SMOOTHER_AT_PICTURE_WIDTH], height = s->numbers[SMOOTHER_AT_PICTURE_HEIGHT];
    printf("I\t%u\t%u\n", width, height);
    for (uint32_t y = 0; y < height; y++) {
        printf("R");
        for (uint32_t x = 0; x < width; x++) {
            const uint8_t *p = rgb + 3 * ((size_t)width * y + x);
            printf("\t%02x%02x%02x", p[0], p[1], p[2]);
        }
        printf("\n");
    }
    free(rgb);
}

static void print_all(const struct sheet *s, const struct solved *d)
{
    uint32_t channels = s->numbers[SMOOTHER_AT_CHANNELS];
    for (uint32_t r = 0; r < d->runs; r++)
        for (uint32_t k = 0; k < d->steps[r]; k++) {
            const double *t = totals_at(d, r, k);
            printf("T\t%u\t%u\t%016" PRIx64 "\t%016" PRIx64 "\n", r, k + 1, total_bits(t[0]), total_bits(t[1]));
        }
    for (uint32_t c = 0; c < channels; c++)
        printf("K\t%u\t%u\n", c, d->clipped[c]);
    for (uint32_t c = 0; c < channels; c++) {
        size_t area = d->values / channels;
        printf("P\t%u", c);
        for (size_t i = 0; i < area; i++)
            printf("\t%08" PRIx32, value_bits(d->plane[c * area + i]));
        printf("\n");
    }
    print_picture(s, d);
}

int main(int argc, char **argv)
{
    struct bytes text = {0};
    struct sheet s;
    struct solved d = {0};
    struct refusal why = {0};
    program = "planes";
    if (argc != 2 || file_read(argv[1], &text) != DONE)
        return TROUBLE;
    if (!sheet_read(&text, whole_reading, &s, &why)) {
        printf("X\t%u\t%zu\n", why.number, why.line);
        return DONE;
    }
    uint32_t answer = solve_sheet(&s, false, NULL, &d);
    if (answer)
        printf("X\t%u\t0\n", answer);
    else
        print_all(&s, &d);
    solved_free(&d);
    sheet_free(&s);
    drop(&text);
    return DONE;
}
