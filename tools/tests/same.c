/* same A.png B.pnm MOST MEAN: compares two pictures. Status 0 where sides are equal, no value differs by more than MOST and the mean difference is at most MEAN; prints both.
 * same A.png: status 0 where A is a whole PNG picture. */
#include <png.h>
#include <stdio.h>
#include <stdlib.h>
#include <string.h>

/* A PNG file's rows as RGB, null where it can't be read. */
static unsigned char *png_rows(const char *name, unsigned *width, unsigned *height)
{
    png_image image = {.version = PNG_IMAGE_VERSION};
    if (!png_image_begin_read_from_file(&image, name))
        return NULL;
    image.format = PNG_FORMAT_RGB;
    unsigned char *rows = malloc(PNG_IMAGE_SIZE(image));
    if (!rows || !png_image_finish_read(&image, NULL, rows, 0, NULL))
        return NULL;
    *width = image.width;
    *height = image.height;
    return image.warning_or_error ? NULL : rows;
}

/* The same of a PPM or PGM file. */
static unsigned char *pnm_rows(const char *name, unsigned *width, unsigned *height)
{
    FILE *f = fopen(name, "rb");
    char kind;
    if (!f || fscanf(f, "P%c %u %u 255", &kind, width, height) != 3)
        return NULL;
    fgetc(f);
    size_t n = (size_t)*width * *height;
    unsigned char *rows = malloc(3 * n);
    for (size_t i = 0; i < 3 * n; i++)
        rows[i] = kind == '5' && i % 3 ? rows[i - 1] : (unsigned char)fgetc(f);
    fclose(f);
    return rows;
}

int main(int argc, char **argv)
{
    unsigned wide[2], high[2];
    unsigned char *a = argc > 1 ? png_rows(argv[1], &wide[0], &high[0]) : NULL;
    if (!a)
        return 2;
    if (argc == 2) {
        free(a);
        return 0;
    }
    unsigned char *b = pnm_rows(argv[2], &wide[1], &high[1]);
    if (argc < 5 || !b || wide[0] != wide[1] || high[0] != high[1])
        return 2;
    int most = 0;
    double sum = 0;
    size_t n = (size_t)3 * wide[0] * high[0];
    for (size_t i = 0; i < n; i++) {
        int d = abs(a[i] - b[i]);
        sum += d;
        most = d > most ? d : most;
    }
    free(a);
    free(b);
    printf("%d %.4f\n", most, sum / (double)n);
    return !(most <= atoi(argv[3]) && sum / (double)n <= atof(argv[4]));
}
