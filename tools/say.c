#define _GNU_SOURCE
#include "say.h"

#include <stdarg.h>
#include <stdbool.h>
#include <stdint.h>
#include <stdio.h>
#include <stdlib.h>
#include <string.h>

const char *program = "tools";

/* Reads one character of UTF-8 as `*code`: its bytes, or 0 where these are none, too long a spelling or half of a pair among them. */
static size_t character(const uint8_t *at, uint32_t *code)
{
    static const uint32_t least[] = {0, 0, 0x80, 0x800, 0x10000};
    size_t len = at[0] < 0x80 ? 1 : at[0] < 0xC0 ? 0 : at[0] < 0xE0 ? 2 : at[0] < 0xF0 ? 3 : at[0] < 0xF8 ? 4 : 0;
    *code = len < 2 ? at[0] : at[0] & (0xFFu >> (len + 1));
    for (size_t i = 1; i < len; i++) {
        if ((at[i] & 0xC0) != 0x80) /* the text's end is none either */
            return 0;
        *code = *code << 6 | (at[i] & 0x3F);
    }
    return len > 0 && *code >= least[len] && *code <= 0x10FFFF && (*code < 0xD800 || *code > 0xDFFF) ? len : 0;
}

/* What a terminal obeys instead of showing it: control characters, and the marks that end a line or turn the order of letters. */
static bool obeyed(uint32_t code)
{
    return code < 0x20 || (code >= 0x7F && code < 0xA0) || code == 0x61C || code == 0x200E || code == 0x200F || (code >= 0x2028 && code <= 0x202E) ||
           (code >= 0x2066 && code <= 0x2069);
}

enum { MOST_WORDS = 3 * 4096 }; /* two names of the greatest length, and more */

/* The text as it can be shown, in room for four times its bytes. */
static void show(const char *text, char *out)
{
    for (const uint8_t *at = (const uint8_t *)text; *at;) {
        uint32_t code;
        size_t len = character(at, &code), bytes = len > 0 ? len : 1;
        if (len > 0 && *at != '\\' && !obeyed(code))
            out = mempcpy(out, at, len);
        else
            for (size_t i = 0; i < bytes; i++)
                out += sprintf(out, *at == '\\' ? "\\\\" : "\\%03o", at[i]);
        at += bytes;
    }
    *out = 0;
}

/* One write, so that lines of several processes do not mix. */
static void line(const char *format, va_list words)
{
    char text[MOST_WORDS], shown[4 * MOST_WORDS];
    vsnprintf(text, sizeof text, format, words);
    show(text, shown);
    fprintf(stderr, "%s: %s\n", program, shown);
}

void say(const char *format, ...)
{
    va_list words;
    va_start(words, format);
    line(format, words);
    va_end(words);
}

enum status trouble(const char *format, ...)
{
    va_list words;
    va_start(words, format);
    line(format, words);
    va_end(words);
    return TROUBLE;
}

void *space(size_t count, size_t size)
{
    void *p = calloc(count + 1, size);
    if (!p) {
        say("no memory for %zu values of %zu bytes", count, size);
        exit(TROUBLE);
    }
    return p;
}
