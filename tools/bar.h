/* A progress bar on standard error: what is done, time left. None where standard error is no terminal. */
#ifndef TOOLS_BAR_H
#define TOOLS_BAR_H

#include <stdbool.h>
#include <stddef.h>

struct bar {
    bool shown;
    const char *unit; /* "steps" */
    size_t total;
    double begun, drawn; /* seconds */
};

/* Seconds of a clock that only goes forward. */
double seconds(void);

struct bar bar_begin(const char *unit, size_t total);

/* `done` of the total; `more` is put behind it. At most ten times a second. */
void bar_at(struct bar *b, size_t done, const char *more);

/* Clears the bar, before a message and at the end. */
void bar_clear(struct bar *b);

#endif
