/* A shared library for LD_PRELOAD: sets the processor before main to what MODE says, or where LATE is set in mid-work, when the program asks whether its standard error is a
 * terminal, which it does before the first call of the library. */
#define _GNU_SOURCE
#include "mode.h"

#include <stdlib.h>
#include <unistd.h>

static void set(void)
{
    const char *mode = getenv("MODE");
    if (mode)
        mode_set((unsigned)strtoul(mode, NULL, 0));
}

__attribute__((constructor)) static void before_main(void)
{
    if (!getenv("LATE"))
        set();
}

int isatty(int f)
{
    (void)f;
    if (getenv("LATE"))
        set();
    return 0;
}
