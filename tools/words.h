/* Document 01's table of refusals in words. */
#ifndef TOOLS_WORDS_H
#define TOOLS_WORDS_H

#include <stdint.h>

/* "table" for 4; "unknown" for a number that the table has not. */
const char *refusal_word(uint32_t number);

/* The same in plain words. */
const char *refusal_plain(uint32_t number);

#endif
