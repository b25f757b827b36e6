#include "pixels.h"

#include <png.h>
#include <setjmp.h>
#include <stdlib.h>

static void keep(png_structp png, png_bytep at, png_size_t len)
{
    add(png_get_io_ptr(png), at, len);
}

static void nothing(png_structp png)
{
    (void)png;
}

static void failed(png_structp png, png_const_charp words)
{
    say("the picture can't be made: %s", words);
    png_longjmp(png, 1);
}

static void warned(png_structp png, png_const_charp words)
{
    (void)png;
    say("%s", words);
}

/* All calls of libpng, which leave by png_longjmp where one fails. `row` has room for a row. */
static void write_rows(png_structp png, png_infop info, const uint8_t *rgb, uint32_t width, uint32_t height, bool grey, uint8_t *row)
{
    size_t bytes = grey ? width : 3 * (size_t)width;
    png_set_IHDR(png, info, width, height, 8, grey ? PNG_COLOR_TYPE_GRAY : PNG_COLOR_TYPE_RGB, PNG_INTERLACE_NONE, PNG_COMPRESSION_TYPE_DEFAULT,
                 PNG_FILTER_TYPE_DEFAULT);
    png_write_info(png, info);
    for (uint32_t y = 0; y < height; y++) {
        const uint8_t *from = rgb + 3 * (size_t)width * y;
        for (size_t i = 0; i < bytes; i++)
            row[i] = from[grey ? 3 * i : i];
        png_write_row(png, row);
    }
    png_write_end(png, NULL);
}

enum status png_bytes(const uint8_t *rgb, uint32_t width, uint32_t height, bool grey, struct bytes *out)
{
    png_structp png = png_create_write_struct(PNG_LIBPNG_VER_STRING, NULL, failed, warned);
    png_infop info = png ? png_create_info_struct(png) : NULL;
    if (!info) {
        png_destroy_write_struct(&png, NULL);
        return trouble("no memory for a picture");
    }
    uint8_t *row = space(3 * (size_t)width, 1);
    volatile enum status status = TROUBLE;
    png_set_write_fn(png, out, keep, nothing);
    if (setjmp(png_jmpbuf(png)) == 0) {
        write_rows(png, info, rgb, width, height, grey, row);
        status = DONE;
    }
    png_destroy_write_struct(&png, &info);
    free(row);
    return status;
}
