/* A picture's bytes as a PNG file's. */
#ifndef TOOLS_PIXELS_H
#define TOOLS_PIXELS_H

#include "file.h"

#include <stdbool.h>

/* Red, green and blue of each pixel, row by row; `grey` where the three are always equal: then the file has one value a pixel. What is wrong is said. */
enum status png_bytes(const uint8_t *rgb, uint32_t width, uint32_t height, bool grey, struct bytes *out);

#endif
