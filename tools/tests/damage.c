/* damage COUNT SEED FILE.jpg ..: damages the files in memory COUNT times, cut short or with bits, bytes or runs changed, and asks for the sheet and for the tables of
 * each. Built with AddressSanitizer. jpeg_sheet itself holds every text that it hands on against the library's reader; TROUBLE means that one was refused. */
#include "dqt.h"
#include "jpeg.h"

#include <stdio.h>
#include <stdlib.h>
#include <string.h>

static uint64_t state;

static size_t below(size_t n)
{
    state = state * 6364136223846793005ull + 1442695040888963407ull;
    return n ? (size_t)(state >> 33) % n : 0;
}

static void damage(struct bytes *b)
{
    size_t kind = below(6), at = below(b->len);
    if (kind == 0)
        b->len = at;
    for (size_t n = kind == 1 ? 1 : kind == 2 ? 1 + below(20) : 0; n > 0; n--)
        b->at[below(b->len)] ^= (uint8_t)(1u << below(8));
    if (kind == 3)
        b->at[at] = (uint8_t)below(256);
    for (size_t n = kind == 4 ? 1 + below(40) : 0; n > 0 && at < b->len; n--)
        b->at[at++] = (uint8_t)below(256);
    if (kind == 5) { /* the head: markers, sides, factors, tables */
        size_t head = b->len < 700 ? b->len : 700;
        for (size_t n = 1 + below(4); n > 0; n--)
            b->at[below(head)] = (uint8_t)(below(2) ? below(256) : below(5));
    }
}

int main(int argc, char **argv)
{
    size_t counts[3] = {0}, with_tables = 0, total = argc > 3 ? strtoul(argv[1], NULL, 10) : 0;
    if (total == 0)
        return TROUBLE;
    program = "damage";
    state = strtoull(argv[2], NULL, 10);
    struct bytes *files = space((size_t)argc, sizeof *files);
    size_t n = (size_t)argc - 3;
    for (size_t i = 0; i < n; i++)
        if (file_read(argv[i + 3], &files[i]) != DONE)
            return TROUBLE;
    for (size_t i = 0; i < total; i++) {
        struct wishes wishes = usual_wishes;
        struct bytes copy = {0}, text;
        char why[400];
        wishes.damaged = below(2);
        add(&copy, files[i % n].at, files[i % n].len);
        damage(&copy);
        uint8_t *exact = malloc(copy.len ? copy.len : 1); /* no byte past its end, for AddressSanitizer */
        memcpy(exact, copy.at, copy.len);
        enum status status = jpeg_sheet(&(struct bytes){exact, copy.len, copy.len}, &wishes, &text, why, sizeof why);
        uint16_t tables[SMOOTHER_QUANTISERS] = {0};
        counts[status]++;
        with_tables += dqt_tables("", &(struct bytes){exact, copy.len, copy.len}, tables, (bool[DESTINATIONS]){false}) == DONE;
        if (status == TROUBLE || (status == REFUSED && (!*why || strchr(why, '\n'))))
            printf("file %zu: %s\n", i, why);
        free(exact);
        drop(&copy);
        drop(&text);
    }
    for (size_t i = 0; i < n; i++)
        drop(&files[i]);
    free(files);
    printf("%zu damaged files: %zu became sheets, %zu were refused, %zu at fault; tables were found in %zu\n", total, counts[DONE], counts[REFUSED], counts[TROUBLE],
           with_tables);
    return counts[TROUBLE] > 0;
}
