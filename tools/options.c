#include "options.h"

#include <errno.h>
#include <inttypes.h>
#include <math.h>
#include <stdio.h>
#include <stdlib.h>
#include <string.h>

bool whole_number(const char *word, uint32_t least, uint32_t most, uint32_t *out)
{
    size_t len = strlen(word);
    if (len < 1 || len > 9 || strspn(word, "0123456789") != len)
        return false;
    *out = (uint32_t)strtoul(word, NULL, 10);
    return *out >= least && *out <= most;
}

/* Cuts a word at its commas into one or three parts. */
static int parts(const char *word, char out[3][32])
{
    int n = 0;
    for (const char *from = word;; n++) {
        size_t len = strcspn(from, ",");
        if (n == 3 || len >= 32)
            return 0;
        memcpy(out[n], from, len);
        out[n][len] = 0;
        if (!from[len])
            break;
        from += len + 1;
    }
    return n + 1 == 1 || n + 1 == 3 ? n + 1 : 0;
}

bool three_numbers(const char *word, uint32_t least, uint32_t most, uint32_t out[3])
{
    char part[3][32];
    int n = parts(word, part);
    for (int i = 0; i < 3; i++)
        if (n == 0 || !whole_number(part[n == 1 ? 0 : i], least, most, &out[i]))
            return false;
    return true;
}

static bool bits_field(float x, weight_field out)
{
    uint32_t bits;
    memcpy(&bits, &x, sizeof bits);
    snprintf(out, sizeof(weight_field), "h%08" PRIx32, bits);
    return bits < 0x7f800000;
}

static bool weight(const char *word, weight_field out)
{
    char *end;
    uint32_t whole;
    if (word[0] == 'h' && strlen(word) == 9 && strspn(word + 1, "0123456789abcdef") == 8) {
        strcpy(out, word);
        return strtoul(word + 1, NULL, 16) < 0x7f800000;
    }
    if (whole_number(word + (word[0] == 'w'), 0, 255, &whole)) {
        snprintf(out, sizeof(weight_field), "w%" PRIu32, whole);
        return true;
    }
    if (word[0] == 'w' || strspn(word, "0123456789.eE-") != strlen(word) || word[0] == '-' || word[0] == 0)
        return false;
    float x = strtof(word, &end);
    return *end == 0 && end != word && bits_field(x, out);
}

bool three_weights(const char *word, weight_field out[3])
{
    char part[3][32];
    int n = parts(word, part);
    for (int i = 0; i < 3; i++)
        if (n == 0 || !weight(part[n == 1 ? 0 : i], out[i]))
            return false;
    return true;
}
