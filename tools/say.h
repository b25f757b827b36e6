/* Messages, and what a program ends with. */
#ifndef TOOLS_SAY_H
#define TOOLS_SAY_H

#include <stddef.h>

enum status {
    DONE = 0,
    REFUSED = 1, /* the input can't be used */
    TROUBLE = 2  /* usage, a file that can't be read or written, no memory */
};

/* The program's name, for the front of each message. */
extern const char *program;

/* One line on standard error. Names and words of a file stand in it as they are but for what a terminal would obey: a control character, a byte that is no UTF-8 and
 * the like is a backslash and three octal digits, a backslash two, as printf of a shell takes them. */
void say(const char *format, ...) __attribute__((format(printf, 1, 2)));

/* The same, and TROUBLE. */
enum status trouble(const char *format, ...) __attribute__((format(printf, 1, 2)));

/* Memory of count x size bytes, all 0, never null; without memory the program ends with TROUBLE. */
void *space(size_t count, size_t size);

#endif
