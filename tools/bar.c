#define _POSIX_C_SOURCE 200809L
#include "bar.h"

#include <stdio.h>
#include <time.h>
#include <unistd.h>

enum { CELLS = 30 };

double seconds(void)
{
    struct timespec t;
    clock_gettime(CLOCK_MONOTONIC, &t);
    return (double)t.tv_sec + 1e-9 * (double)t.tv_nsec;
}

struct bar bar_begin(const char *unit, size_t total)
{
    return (struct bar){.shown = isatty(STDERR_FILENO) && total > 0, .unit = unit, .total = total, .begun = seconds()};
}

static void time_left(double s, char *out, size_t room)
{
    if (s < 100)
        snprintf(out, room, "%.0f s left", s);
    else if (s < 6000)
        snprintf(out, room, "%.0f min left", s / 60);
    else
        snprintf(out, room, "%.1f h left", s / 3600);
}

void bar_at(struct bar *b, size_t done, const char *more)
{
    double now = seconds();
    if (!b->shown || (now - b->drawn < 0.1 && done < b->total))
        return;
    b->drawn = now;
    char cells[CELLS + 1], left[32] = "";
    for (size_t i = 0; i < CELLS; i++)
        cells[i] = i * b->total < done * CELLS ? '#' : '.';
    cells[CELLS] = 0;
    if (done > 0)
        time_left((now - b->begun) / (double)done * (double)(b->total - done), left, sizeof left);
    fprintf(stderr, "\r[%s] %zu of %zu %s%s  %s\033[K", cells, done, b->total, b->unit, more, left);
    fflush(stderr);
}

void bar_clear(struct bar *b)
{
    if (b->shown)
        fputs("\r\033[K", stderr);
    b->drawn = 0;
}
