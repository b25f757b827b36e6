#include "fields.h"

#include <stdarg.h>
#include <stdio.h>
#include <string.h>

struct cut cut_line(const char *at, size_t len)
{
    struct cut c = {0};
    for (size_t from = 0, i = 0; i <= len; i++)
        if (i == len || at[i] == '\t') {
            if (c.count < MOST_FIELDS)
                c.fields[c.count] = (struct field){at + from, i - from};
            c.count++;
            from = i + 1;
        }
    return c;
}

long number_of(struct field f)
{
    long n = 0;
    if (f.len < 1 || f.len > 6 || (f.len > 1 && f.at[0] == '0'))
        return -1;
    for (size_t i = 0; i < f.len; i++) {
        if (f.at[i] < '0' || f.at[i] > '9')
            return -1;
        n = 10 * n + (f.at[i] - '0');
    }
    return n;
}

/* A level: a number, or a minus and a number that isn't 0. */
static bool level_of(struct field f, long *level)
{
    bool minus = f.len > 0 && f.at[0] == '-';
    long n = number_of(minus ? (struct field){f.at + 1, f.len - 1} : f);
    *level = minus ? -n : n;
    return n > 0 || (n == 0 && !minus);
}

bool letter_of(struct field f, const char *letters)
{
    return f.len == 1 && f.at[0] != 0 && strchr(letters, f.at[0]);
}

struct finding line_fault(uint32_t number, const char *format, ...)
{
    struct finding out = {.number = number};
    va_list words;
    va_start(words, format);
    vsnprintf(out.words, sizeof out.words, format, words);
    va_end(words);
    return out;
}

const char *shown(struct field f, char out[32])
{
    size_t n = f.len < 24 ? f.len : 24;
    for (size_t i = 0; i < n; i++)
        out[i] = f.at[i] > 32 && f.at[i] < 127 && f.at[i] != '"' ? f.at[i] : '?';
    strcpy(out + n, f.len > n ? ".." : "");
    return out;
}

static struct finding fault(uint32_t number, const struct cut *c, size_t i, const char *name, const char *expected)
{
    char text[32];
    return line_fault(number, "field %zu (%s) is '%s', expected %s", i, name, shown(c->fields[i], text), expected);
}

static const struct finding nothing = {0};

/* A number from `least` to `most`; `number` is the refusal's. */
static struct finding in_range(uint32_t number, const struct cut *c, size_t i, const char *name, long least, long most, bool eights)
{
    char expected[64];
    long n = number_of(c->fields[i]);
    if (n >= least && n <= most && !(eights && n % 8))
        return nothing;
    if (most > 999999)
        snprintf(expected, sizeof expected, "%sat least %ld", eights ? "a multiple of 8, " : "", least);
    else
        snprintf(expected, sizeof expected, "%s%ld to %ld", eights ? "a multiple of 8, " : "", least, most);
    return fault(n < 0 ? 1 : number, c, i, name, expected);
}

static struct finding level_fault(const struct cut *c, size_t i, const char *name, long *level)
{
    bool spelt = level_of(c->fields[i], level);
    if (spelt && *level >= -2047 && *level <= 2047)
        return nothing;
    return fault(spelt ? 5 : 1, c, i, name, "-2047 to 2047");
}

static struct finding weight_fault(const struct cut *c, size_t i, const char *name)
{
    struct field f = c->fields[i];
    static const char expected[] = "w with 0 to 255, or h with the eight lowercase hexadecimal digits of a number that is finite and not negative";
    struct field rest = {f.at + 1, f.len - 1};
    if (f.len == 9 && f.at[0] == 'h') {
        static const char digits[] = "0123456789abcdef";
        uint32_t bits = 0;
        for (size_t k = 0; k < 8; k++) {
            const char *digit = rest.at[k] ? strchr(digits, rest.at[k]) : NULL;
            if (!digit)
                return fault(1, c, i, name, expected);
            bits = 16 * bits + (uint32_t)(digit - digits);
        }
        return bits < 0x7f800000 ? nothing : fault(6, c, i, name, expected);
    }
    long n = f.len > 1 && f.at[0] == 'w' ? number_of(rest) : -1;
    return n < 0 ? fault(1, c, i, name, expected) : n > 255 ? fault(6, c, i, name, expected) : nothing;
}

static struct finding header(const struct place *p, const struct cut *c)
{
    static const char *const names[] = {"full width", "full height", "picture width", "picture height"};
    struct finding found = nothing;
    for (size_t i = 1; i <= 2 && !found.number; i++)
        found = in_range(2, c, i, names[i - 1], 8, p->limits.side, true);
    for (size_t i = 3; i <= 4 && !found.number; i++)
        found = in_range(2, c, i, names[i - 1], 1, number_of(c->fields[i - 2]), false);
    if (!found.number) {
        long n = number_of(c->fields[5]);
        if (n != 1 && n != 3)
            found = fault(n < 0 ? 1 : 2, c, 5, "channels", "1 or 3");
    }
    if (!found.number && !letter_of(c->fields[6], "js"))
        found = fault(1, c, 6, "mode", "j or s");
    for (size_t i = 7; i <= 9 && !found.number; i++) {
        found = in_range(2, c, i, "iterations", 0, 1000, false);
        if (!found.number)
            found = in_range(15, c, i, "iterations", 0, p->limits.iterations, false);
    }
    for (size_t i = 10; i <= 15 && !found.number; i++)
        found = weight_fault(c, i, i < 13 ? "smoothing weight" : "data weight");
    return found;
}

static struct finding letter(const struct cut *c, const char *name, const char *letters, const char *expected)
{
    return letter_of(c->fields[1], letters) ? nothing : fault(1, c, 1, name, expected);
}

static struct finding hold(const struct place *p, const struct cut *c)
{
    struct finding found = nothing;
    for (size_t i = 1; i <= 3 && !found.number; i++)
        found = in_range(17, c, i, "held count", 0, p->counts[p->joint && p->channels == 3 ? 0 : i - 1], false);
    return found;
}

static struct finding channel(const struct place *p, const struct cut *c)
{
    static const char *const names[] = {"own width", "own height", "across factor", "down factor"};
    struct finding found = nothing;
    for (size_t i = 1; i <= 2 && !found.number; i++)
        found = in_range(2, c, i, names[i - 1], 8, 1000000, true);
    for (size_t i = 3; i <= 4 && !found.number; i++)
        found = in_range(3, c, i, names[i - 1], 1, 4, false);
    for (size_t i = 5; i <= 68 && !found.number; i++) {
        char name[32];
        snprintf(name, sizeof name, "quantiser %zu of 64", i - 4);
        found = in_range(4, c, i, name, 1, 255, false);
    }
    for (size_t i = 1; i <= 2 && !found.number; i++) {
        long covered = number_of(c->fields[i]) * number_of(c->fields[i + 2]);
        if (covered > (long)p->full[i - 1])
            found = line_fault(2, "fields %zu and %zu (%s times %s) make %ld, expected at most %u, the full %s", i, i + 2,
                               names[i - 1], names[i + 1], covered, p->full[i - 1], i == 1 ? "width" : "height");
    }
    return found;
}

static struct finding block(const struct cut *c)
{
    struct finding found = nothing;
    for (size_t i = 1; i <= 64 && !found.number; i++) {
        char name[32];
        long level;
        snprintf(name, sizeof name, "level %zu of 64", i);
        found = level_fault(c, i, name, &level);
    }
    return found;
}

static struct finding ranges(const struct cut *c)
{
    for (size_t i = 1; i <= 127; i += 2) {
        char low[32], high[32];
        long least, most;
        snprintf(low, sizeof low, "lowest level %zu of 64", (i + 1) / 2);
        snprintf(high, sizeof high, "highest level %zu of 64", (i + 1) / 2);
        struct finding found = level_fault(c, i, low, &least);
        if (!found.number)
            found = level_fault(c, i + 1, high, &most);
        if (!found.number && least > most)
            found = line_fault(14, "fields %zu and %zu (lowest and highest level %zu of 64) are %ld and %ld, expected the lowest not above the highest",
                               i, i + 1, (i + 1) / 2, least, most);
        if (found.number)
            return found;
    }
    return nothing;
}

static struct finding mark(const struct place *p, const struct cut *c)
{
    static const char *const names[] = {"channel", "block row", "block column"};
    long n[3];
    for (size_t i = 0; i < 3; i++)
        if ((n[i] = number_of(c->fields[i + 1])) < 0)
            return fault(1, c, i + 1, names[i], "a number");
    if (n[0] >= (long)p->channels)
        return in_range(18, c, 1, names[0], 0, (long)p->channels - 1, false);
    for (size_t i = 1; i < 3; i++) {
        long most = (long)p->own[n[0]][2 - i] / 8 - 1;
        if (n[i] > most)
            return in_range(18, c, i + 1, names[i], 0, most, false);
    }
    return line_fault(18, "the block is marked by a line before");
}

size_t fields_of(char tag)
{
    switch (tag) {
    case 'S': return 15;
    case 'F': case 'A': return 1;
    case 'H': case 'N': return 3;
    case 'C': return 68;
    case 'B': return 64;
    case 'G': return 128;
    default: return 0;
    }
}

struct finding fields_fault(const struct place *p, const struct cut *c, char tag)
{
    switch (tag) {
    case 'S': return header(p, c);
    case 'F': return letter(c, "rounding", "tn", "t or n");
    case 'A': return letter(c, "reordering", "mo", "m or o");
    case 'H': return hold(p, c);
    case 'C': return channel(p, c);
    case 'B': return block(c);
    case 'G': return ranges(c);
    case 'N': return mark(p, c);
    default: return nothing;
    }
}
