/* Files: read whole, and saved whole or not at all. */
#ifndef TOOLS_FILE_H
#define TOOLS_FILE_H

#include "say.h"

#include <stdbool.h>
#include <stdint.h>

/* Bytes that grow. All zeros is the empty one. */
struct bytes {
    uint8_t *at;
    size_t len, room;
};

void add(struct bytes *b, const void *from, size_t len);
void add_text(struct bytes *b, const char *format, ...) __attribute__((format(printf, 2, 3)));
void drop(struct bytes *b);

/* No sheet and no JPEG file that becomes one is larger: the longest sheet has 9,581,734 bytes. */
#define MOST_BYTES ((size_t)64 << 20)

/* Reads an input file, or standard input for "-", and ends it with a 0 that is not counted. What is wrong is said. */
enum status file_read(const char *name, struct bytes *out);

/* The same for a file that was written here and may be written again: it is no input. */
enum status file_read_own(const char *name, struct bytes *out);

/* Inputs are never written over. A file that was read, or is noted here before it is read, is an input, under whatever name: a link's, a hard link's, that of a
 * redirected standard input. */
void file_input(const char *name);

/* DONE where a save under this name, or standard output for "-", would not go to an input; else it is said. file_save asks it too: who asks before the work saves the work. */
enum status file_output(const char *name);

/* Writes a file, or standard output for "-". The bytes are written beside the file, to a name that begins with a dot and ends with ".part", and the file is
 * renamed when all are on the disk: whatever happens, the file is the old one or the new one, whole. A link stays a link: the file is the one that it leads to, be
 * it there or not. What is wrong is said. */
enum status file_save(const char *name, const void *at, size_t len);

/* Removes a file and what an interrupted file_save may have left beside it. */
void file_remove(const char *name);

/* Whether an interrupted file_save has left something beside the file, or one is still writing it. */
bool file_unfinished(const char *name);

/* Whether two saves would go to one file, be it there yet or not. */
bool file_same(const char *a, const char *b);

/* Closed pipes and file size limits are then answers of write, which file_save says, and no sudden end. To be called first. */
void file_signals(void);

/* A new text: folder, '/', the name's last part without `old` at its end, then `ending`. */
char *name_in(const char *folder, const char *name, const char *old, const char *ending);

#endif
