/* modes SHEET.tsv: sets the processor otherwise after each of the calls that solving and drawing a sheet makes: the next call is not made. The calls are counted on their way to
 * the library (the linker's --wrap), and the mode is set there before call number `due`, from 0. */
#include "mode.h"
#include "solve.h"

#include <stdio.h>
#include <stdlib.h>
#include <string.h>

uint64_t made, due;
uint32_t due_mxcsr;

/* Counts a call of the library, and hands it on with all that it was given. */
#define COUNTED(call)                                                                                                                                                    \
    __asm__(".globl __wrap_" #call "\n__wrap_" #call ":\n push %rax\n mov made(%rip), %rax\n incq made(%rip)\n cmp %rax, due(%rip)\n pop %rax\n jne 1f\n"                 \
            " ldmxcsr due_mxcsr(%rip)\n1: jmp __real_" #call "\n")

COUNTED(smoother_start);
COUNTED(smoother_push);
COUNTED(smoother_data);
COUNTED(smoother_blend);
COUNTED(smoother_move);
COUNTED(smoother_project);
COUNTED(smoother_finish);

/* The picture, or null where a call was not made. With `at` above 0 the mode is set in call number at - 1, with 0 before all. */
static uint8_t *drawn(const struct sheet *s, uint64_t at, unsigned mode, size_t *len)
{
    struct solved d;
    uint8_t *rgb = NULL;
    made = 0;
    due = at - 1;
    due_mxcsr = 0x1F80 | (mode & 0xFFFF);
    if (at == 0)
        mode_set(mode);
    uint32_t answer = solve_sheet(s, false, NULL, &d);
    if (answer == SMOOTHER_OK)
        rgb = picture_of(s, &d, len);
    else if (answer != NOT_MADE)
        printf("answer %u\n", answer);
    mode_set(0);
    solved_free(&d);
    return rgb;
}

/* Whether the call after the one that leaves the mode is not made, and the next picture is right again. */
static bool stops(const struct sheet *s, uint64_t at, unsigned mode, const uint8_t *right, size_t len)
{
    uint8_t *rgb = drawn(s, at, mode, &len);
    bool good = !rgb && made == at;
    if (!good)
        printf("mode %#x at call %u: %u calls were made\n", mode, (unsigned)at, (unsigned)made);
    free(rgb);
    rgb = drawn(s, UINT64_MAX, 0, &len);
    good = good && rgb && memcmp(rgb, right, len) == 0;
    free(rgb);
    return good;
}

int main(int argc, char **argv)
{
    struct bytes text;
    struct sheet s;
    size_t len, wrong = 0, tried = 0;
    program = "modes";
    if (argc != 2 || sheet_load(argv[1], whole_reading, &text, &s) != DONE)
        return TROUBLE;
    uint8_t *right = drawn(&s, UINT64_MAX, 0, &len);
    uint64_t calls = made;
    for (size_t m = 0; right && m < sizeof modes / sizeof *modes; m++)
        for (uint64_t at = 0; at < (modes[m] == X87_DOWN ? 1 : calls); at++, tried++)
            wrong += !stops(&s, at, modes[m], right, len);
    printf("%u calls, each left with the processor set otherwise: the next one was not made, %zu of %zu wrong\n", (unsigned)calls, wrong, tried);
    free(right);
    sheet_free(&s);
    drop(&text);
    return !right || wrong > 0;
}
