#include "words.h"

static const struct {
    uint32_t number;
    const char *word, *plain;
} table[] = {
    {1, "form", "a line with a wrong tag, number of fields or spelling, over 1,024 bytes, or in the wrong place"},
    {2, "size", "a side, channel count or iteration count out of range, or a channel larger than the picture"},
    {3, "factor", "an across or down factor that isn't 1 to 4"},
    {4, "table", "a quantiser that isn't 1 to 255"},
    {5, "level", "a level beyond -2047 to 2047"},
    {6, "weight", "a weight with its sign bit set, infinite, not a number, or a whole number above 255"},
    {7, "cut", "the text ends early, its last line has no end, or something follows E"},
    {8, "length", "another length than the sheet says"},
    {10, "blown", "a channel's values overflowed in the run"},
    {13, "record", "numbers of no legal sheet"},
    {14, "range", "a lowest level above the highest of its place"},
    {15, "page", "an iteration count above the limit of this page"},
    {16, "seam", "two sheets that don't fit together"},
    {17, "hold", "a held count above the iterations"},
    {18, "mark", "a marked block that isn't there, or is marked twice"},
    {19, "segment", "a DQT segment with a wrong marker or stated length, or with fewer than 64 bytes left for a table"},
    {20, "precision", "a table of a DQT segment with a precision other than 0 or a destination above 3"},
};

enum { ROWS = sizeof table / sizeof *table };

const char *refusal_word(uint32_t number)
{
    for (int i = 0; i < ROWS; i++)
        if (table[i].number == number)
            return table[i].word;
    return "unknown";
}

const char *refusal_plain(uint32_t number)
{
    for (int i = 0; i < ROWS; i++)
        if (table[i].number == number)
            return table[i].plain;
    return "a number that these tools don't know: the library is another than theirs";
}
