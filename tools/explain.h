/* Which field of a refused line is at fault, and what was expected there. The library says the number and the line; this only finds the words, and a finding
 * whose number is another than the library's is not to be shown. */
#ifndef TOOLS_EXPLAIN_H
#define TOOLS_EXPLAIN_H

#include <stddef.h>
#include <stdint.h>

/* What the caller allowed: the largest full side and the largest iteration count. */
struct limits {
    uint32_t side, iterations;
};

struct finding {
    uint32_t number; /* 0: nothing found */
    char words[224];
};

/* Looks at line `line`, from 1, of a text whose lines before it are legal. */
struct finding explain(const uint8_t *text, size_t len, struct limits limits, size_t line);

#endif
