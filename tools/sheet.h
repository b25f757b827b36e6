/* A sheet that was read, and a refusal in words. */
#ifndef TOOLS_SHEET_H
#define TOOLS_SHEET_H

#include "explain.h"
#include "file.h"
#include "smoother.h"

struct sheet {
    uint32_t numbers[SMOOTHER_NUMBERS]; /* by enum smoother_header */
    int16_t *lows, *highs;              /* channel after channel */
    size_t levels;                      /* of lows, and of highs */
    uint16_t *tables;
    size_t quantisers;
};

/* How a text is read. */
struct reading {
    struct limits limits;
    bool partner; /* the levels of marked blocks are hidden but for the first */
};

/* The largest limits, the staff's reader. */
extern const struct reading whole_reading;

struct refusal {
    uint32_t number; /* 0: none */
    size_t line;     /* 0: a fault that no line has */
    char words[256]; /* field and what was expected, or the refusal in plain words; no tab, line end or double quote */
};

/* A refusal in plain words. */
struct refusal refuse(uint32_t number, size_t line);

/* Says it with the file's name; answers REFUSED. */
enum status say_refusal(const char *name, const struct refusal *why);

/* Reads a text. True: *out is the sheet, to be freed by sheet_free. False: *why says why not. */
bool sheet_read(const struct bytes *text, struct reading how, struct sheet *out, struct refusal *why);
void sheet_free(struct sheet *s);

/* Reads a file's sheet; what is wrong is said. */
enum status sheet_load(const char *name, struct reading how, struct bytes *text, struct sheet *out);

/* Own width times own height of channel c, and the number of levels before it. */
size_t levels_of(const struct sheet *s, uint32_t c);
size_t levels_before(const struct sheet *s, uint32_t c);

/* DONE where the library is the header's and the processor fits. */
enum status library_fits(void);

/* DONE where the processor rounds to the nearest and keeps subnormals, else it is said: for the library, and for the C library, which turns text into floats and back by the
 * rounding of the x87 control word. */
enum status processor_fits(void);

#endif
