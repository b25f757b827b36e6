/* words COUNT SEED SHEET.tsv ..: damages sheet texts COUNT times and holds the words of `explain` against the library: the number that the words are for has to be the
 * library's. Prints how often each number was met. */
#include "sheet.h"

#include <stdio.h>
#include <stdlib.h>
#include <string.h>

static uint64_t state;

static size_t below(size_t n)
{
    state = state * 6364136223846793005ull + 1442695040888963407ull;
    return n ? (size_t)(state >> 33) % n : 0;
}

static const char *const spellings[] = {"0",  "1",     "3",     "4",  "5",   "7",    "8",  "9",       "16", "255",  "256", "257",       "512",       "520",      "999", "1000", "1001",
                                        "-1", "-2047", "-2048", "-0", "2047", "2048", "01", "1234567", "",   "x",    "j",   "s",         "t",         "n",        "m",   "o",    "w0",
                                        "w1", "w255",  "w256",  "w",  "h",   "+1",   " 1", "1 ",      "h3f800000", "h7f800000", "hff800000", "h80000000", "h3F800000", "h7fc00000", "H", "N", "S", "E", "G", "B", "C"};

static const char *spelling(void)
{
    return spellings[below(sizeof spellings / sizeof *spellings)];
}

/* The text with `len` bytes at `at` replaced. */
static void splice(struct bytes *b, size_t at, size_t len, const char *with)
{
    struct bytes out = {0};
    add(&out, b->at, at);
    add(&out, with, strlen(with));
    add(&out, b->at + at + len, b->len - at - len);
    drop(b);
    *b = out;
}

/* The field about a place: from after the tab or line end before it to the one behind it. */
static void field_about(const struct bytes *b, size_t place, size_t *at, size_t *len)
{
    size_t from = place, to = place;
    while (from > 0 && b->at[from - 1] != '\t' && b->at[from - 1] != '\n')
        from--;
    while (to < b->len && b->at[to] != '\t' && b->at[to] != '\n')
        to++;
    *at = from;
    *len = to - from;
}

static void damage(struct bytes *b)
{
    size_t at, len, head = b->len < 700 ? b->len : 700;
    size_t place = below(3) ? below(head) : below(b->len);
    field_about(b, place, &at, &len);
    switch (below(8)) {
    case 0: b->len = place; break;                           /* cut */
    case 1: splice(b, place, 1, ""); break;                  /* a byte less */
    case 2: splice(b, place, 0, "\t"); break;                /* a field more */
    case 3: splice(b, place, 0, "\n"); break;                /* a line more */
    case 4: splice(b, b->len, 0, below(2) ? "x" : "E\n"); break;
    default: splice(b, at, len, spelling());
    }
    if (b->len > 0 && below(40) == 0)
        for (int i = 0; i < 600; i++)
            splice(b, at, 0, "9\t");
}

int main(int argc, char **argv)
{
    size_t counts[32] = {0}, wrong = 0, total = argc > 3 ? strtoul(argv[1], NULL, 10) : 0;
    program = "words";
    if (total == 0)
        return TROUBLE;
    state = strtoull(argv[2], NULL, 10);
    struct bytes *files = space((size_t)argc, sizeof *files);
    size_t n = (size_t)argc - 3;
    for (size_t i = 0; i < n; i++)
        if (file_read(argv[i + 3], &files[i]) != DONE)
            return TROUBLE;
    for (size_t i = 0; i < total; i++) {
        struct bytes text = {0};
        struct limits limits = {below(2) ? 512 : 32, below(2) ? 1000 : 50};
        size_t levels, tables, line;
        add(&text, files[i % n].at, files[i % n].len);
        for (size_t k = 1 + below(2); k > 0; k--)
            damage(&text);
        uint32_t number = smoother_measure(text.at, text.len, limits.side, limits.iterations, &levels, &tables, &line);
        counts[number & 31]++;
        struct finding found = line > 0 ? explain(text.at, text.len, limits, line) : (struct finding){0};
        if (number != SMOOTHER_OK && (found.number != number || strpbrk(found.words, "\t\n\""))) {
            printf("text %zu: %u at line %zu, words for %u: %s\n", i, number, line, found.number, found.words);
            wrong++;
        }
        drop(&text);
    }
    for (size_t i = 0; i < n; i++)
        drop(&files[i]);
    free(files);
    printf("%zu damaged texts, words of another number for %zu;", total, wrong);
    for (int k = 0; k < 32; k++)
        if (counts[k])
            printf(" %d: %zu", k, counts[k]);
    printf("\n");
    return wrong > 0;
}
