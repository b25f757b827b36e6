/* A JPEG file's quantised levels, tables and sampling factors as a sheet text. */
#ifndef TOOLS_JPEG_H
#define TOOLS_JPEG_H

#include "file.h"
#include "options.h"

/* What the sheet's lines S, F, A and H are to say. */
struct wishes {
    char mode; /* j or s */
    uint32_t iterations[3];
    weight_field smoothing[3], data[3];
    char rounding, reorder; /* t or n, m or o */
    bool holds;
    uint32_t hold[3];
    bool damaged; /* take a damaged file for what libjpeg makes of it */
};

/* The settings of the published Rust, joint mode; colours rounded as T.871 has it, blocks placed as T.81 has it. */
extern const struct wishes usual_wishes;

/* DONE: *text is a sheet text that the library accepts. REFUSED or TROUBLE: `why` says why, in one line. */
enum status jpeg_sheet(const struct bytes *jpeg, const struct wishes *w, struct bytes *text, char *why, size_t room);

#endif
