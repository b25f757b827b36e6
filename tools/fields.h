/* The fields of a sheet's line, and the first of them that breaks a rule. */
#ifndef TOOLS_FIELDS_H
#define TOOLS_FIELDS_H

#include "explain.h"

#include <stdbool.h>

enum { MOST_FIELDS = 129 }; /* no legal line has more, its tag counted */

struct field {
    const char *at;
    size_t len;
};

/* A line cut at its tabs: fields[0] is the tag. `count` may be larger than what is kept. */
struct cut {
    size_t count;
    struct field fields[MOST_FIELDS];
};

/* What the lines before say. */
struct place {
    struct limits limits;
    bool headed, ended; /* S, E were met */
    int setting;        /* the last setting line: 1 F, 2 A, 3 H */
    uint32_t full[2], channels, counts[3];
    bool joint;
    uint32_t channel; /* C lines met */
    uint32_t blocks;  /* block lines still to come for the last C line */
    uint32_t own[3][2];
};

struct cut cut_line(const char *at, size_t len);

/* The field's number; -1 for another spelling: one to six digits, no zero before another digit. */
long number_of(struct field f);

/* Whether the field is one of these letters. */
bool letter_of(struct field f, const char *letters);

/* The field as it can be shown: at most 24 bytes of it, those that are not printable as '?'. */
const char *shown(struct field f, char out[32]);

struct finding line_fault(uint32_t number, const char *format, ...) __attribute__((format(printf, 2, 3)));

/* How many fields follow a tag. */
size_t fields_of(char tag);

/* The first field at fault of a line with this tag and as many fields; number 0 where there is none. */
struct finding fields_fault(const struct place *p, const struct cut *c, char tag);

#endif
