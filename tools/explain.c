#include "explain.h"

#include "features.h"
#include "fields.h"

#include <stdio.h>
#include <string.h>

enum { MOST_LINE = 1024 };

/* The tags that may stand here. */
static const char *tags(const struct place *p)
{
    static const char *const settings[] = {"FAHC", "AHC", "HC", "C"};
    if (!p->headed)
        return "S";
    if (p->blocks > 0)
        return "BG";
    if (p->channel < p->channels)
        return p->channel == 0 ? settings[p->setting] : "C";
    return p->ended ? "" : "NE";
}

static bool known(char tag)
{
    return (tag != 'H' || HAVE_HOLD) && (tag != 'N' || HAVE_PARTNER);
}

/* The same as words: "B or G". */
static void tag_words(const struct place *p, char out[32])
{
    size_t n = 0;
    for (const char *t = tags(p); *t; t++)
        if (known(*t))
            n += (size_t)snprintf(out + n, 32 - n, "%s%c", n ? " or " : "", *t);
    out[n] = 0;
}

static struct finding look(const struct place *p, const char *at, size_t len, bool ended)
{
    char text[32], expected[32];
    if (p->ended)
        return line_fault(7, "something follows the line E");
    tag_words(p, expected);
    if (len == 0 && !ended)
        return line_fault(7, "the text ends here, expected a line %s", expected);
    if (len > MOST_LINE)
        return line_fault(1, "the line has %zu bytes, expected at most 1024", len);
    if (!ended)
        return line_fault(7, "the line has no end, expected byte 10 after it");
    struct cut c = cut_line(at, len);
    char tag = c.fields[0].len == 1 ? c.fields[0].at[0] : 0;
    if (!tag || !strchr(tags(p), tag) || !known(tag))
        return line_fault(1, "the tag is '%s', expected %s", shown(c.fields[0], text), expected);
    if (c.count != fields_of(tag) + 1)
        return line_fault(1, "%zu fields after %c, expected %zu", c.count - 1, tag, fields_of(tag));
    return fields_fault(p, &c, tag);
}

static void pass_header(struct place *p, const struct cut *c)
{
    p->headed = true;
    for (int i = 0; i < 2; i++)
        p->full[i] = (uint32_t)number_of(c->fields[i + 1]);
    p->channels = (uint32_t)number_of(c->fields[5]);
    p->joint = letter_of(c->fields[6], "j");
    for (int i = 0; i < 3; i++)
        p->counts[i] = (uint32_t)number_of(c->fields[i + 7]);
}

/* A legal line goes by. */
static void pass(struct place *p, const char *at, size_t len)
{
    struct cut c = cut_line(at, len);
    switch (len ? at[0] : 0) {
    case 'S': pass_header(p, &c); break;
    case 'F': p->setting = 1; break;
    case 'A': p->setting = 2; break;
    case 'H': p->setting = 3; break;
    case 'B': case 'G': p->blocks -= p->blocks > 0; break;
    case 'E': p->ended = true; break;
    case 'C':
        for (int i = 0; i < 2; i++)
            p->own[p->channel < 3 ? p->channel : 2][i] = (uint32_t)number_of(c.fields[i + 1]);
        p->blocks = (uint32_t)(number_of(c.fields[1]) * number_of(c.fields[2]) / 64);
        p->channel++;
        break;
    }
}

struct finding explain(const uint8_t *text, size_t len, struct limits limits, size_t line)
{
    struct place p = {.limits = limits};
    const char *at = (const char *)text, *end = at + len;
    for (size_t number = 1; at <= end; number++) {
        const char *stop = at < end ? memchr(at, '\n', (size_t)(end - at)) : NULL;
        size_t size = (size_t)((stop ? stop : end) - at);
        if (number == line)
            return look(&p, at, size, stop != NULL);
        pass(&p, at, size);
        if (!stop)
            break;
        at = stop + 1;
    }
    return (struct finding){0};
}
