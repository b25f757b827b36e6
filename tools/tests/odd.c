/* odd KIND > FILE.jpg: JPEG files that can't be sheets, which cjpeg does not write. KIND is cmyk, rgb, two (two channels), level (first levels up to 4,000)
 * or thirds (sampling factors 3, 2 and 1 across). */
#include <stdio.h>
#include <stdlib.h>
#include <string.h>

#include <jpeglib.h>

enum { SIDE = 24 };

static void pixels(struct jpeg_compress_struct *c, int channels, J_COLOR_SPACE colours)
{
    JSAMPLE row[4 * SIDE];
    JSAMPROW rows[] = {row};
    c->input_components = channels;
    c->in_color_space = colours;
    jpeg_set_defaults(c);
    jpeg_set_colorspace(c, colours);
    jpeg_start_compress(c, TRUE);
    for (int y = 0; y < SIDE; y++) {
        for (int i = 0; i < channels * SIDE; i++)
            row[i] = (JSAMPLE)(y * 9 + i);
        jpeg_write_scanlines(c, rows, 1);
    }
}

/* First levels 0, 2,000, 4,000, 2,000, 0, 0, ..: each difference can be coded. */
static void levels(struct jpeg_compress_struct *c)
{
    c->input_components = 1;
    c->in_color_space = JCS_GRAYSCALE;
    jpeg_set_defaults(c);
    jvirt_barray_ptr array = c->mem->request_virt_barray((j_common_ptr)c, JPOOL_IMAGE, TRUE, SIDE / 8, SIDE / 8, 1);
    jpeg_write_coefficients(c, &array);
    for (JDIMENSION y = 0; y < SIDE / 8; y++) {
        JBLOCKROW blocks = *c->mem->access_virt_barray((j_common_ptr)c, array, y, 1, TRUE);
        for (int x = 0; x < SIDE / 8; x++) {
            memset(blocks[x], 0, sizeof blocks[x]);
            blocks[x][0] = (JCOEF)(y == 0 ? 2000 * x : y == 1 && x == 0 ? 2000 : 0);
        }
    }
}

/* All levels 0. */
static void thirds(struct jpeg_compress_struct *c)
{
    jvirt_barray_ptr arrays[3];
    c->input_components = 3;
    c->in_color_space = JCS_YCbCr;
    jpeg_set_defaults(c);
    for (int i = 0; i < 3; i++) {
        c->comp_info[i].h_samp_factor = 3 - i;
        c->comp_info[i].v_samp_factor = 1;
        arrays[i] = c->mem->request_virt_barray((j_common_ptr)c, JPOOL_IMAGE, TRUE, (JDIMENSION)(3 - i), SIDE / 8, 1);
    }
    jpeg_write_coefficients(c, arrays);
}

int main(int argc, char **argv)
{
    struct jpeg_compress_struct c;
    struct jpeg_error_mgr errors;
    const char *kind = argc > 1 ? argv[1] : "";
    c.err = jpeg_std_error(&errors);
    jpeg_create_compress(&c);
    jpeg_stdio_dest(&c, stdout);
    c.image_width = c.image_height = SIDE;
    if (strcmp(kind, "cmyk") == 0)
        pixels(&c, 4, JCS_CMYK);
    else if (strcmp(kind, "rgb") == 0)
        pixels(&c, 3, JCS_RGB);
    else if (strcmp(kind, "two") == 0)
        pixels(&c, 2, JCS_UNKNOWN);
    else if (strcmp(kind, "thirds") == 0)
        thirds(&c);
    else
        levels(&c);
    jpeg_finish_compress(&c);
    jpeg_destroy_compress(&c);
    return 0;
}
