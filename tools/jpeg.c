#include "jpeg.h"

#include "smoother.h"

#include <setjmp.h>
#include <stdarg.h>
#include <stdio.h>
#include <stdlib.h>
#include <string.h>

#include <jpeglib.h>

#include <jerror.h>

/* A file with more scans than this only takes time. */
enum { MOST_SCANS = 500 };

const struct wishes usual_wishes = {.mode = 'j',
                                    .iterations = {50, 50, 50},
                                    .smoothing = {"h3e99999a", "h3e99999a", "h3e99999a"},
                                    .data = {"h3a83126f", "h3a83126f", "h3a83126f"},
                                    .rounding = 'n',
                                    .reorder = 'o'};

/* A channel as the sheet has it. */
struct channel {
    uint32_t width, height, across, down; /* own sides, factors */
    uint32_t real_columns, real_rows;     /* blocks that the file has */
};

/* One decoding. libjpeg's errors come back by `back`. */
struct decoding {
    struct jpeg_decompress_struct file;
    struct jpeg_error_mgr errors;
    struct jpeg_progress_mgr progress;
    jmp_buf back;
    const struct wishes *wishes;
    struct bytes *text;
    char *why;
    size_t room;
    enum status status;
    uint32_t full_width, full_height;
    struct channel channels[3];
};

static void leave(struct decoding *d, const char *format, ...) __attribute__((format(printf, 2, 3), noreturn));
static void leave(struct decoding *d, const char *format, ...)
{
    va_list words;
    va_start(words, format);
    vsnprintf(d->why, d->room, format, words);
    va_end(words);
    d->status = REFUSED;
    longjmp(d->back, 1);
}

static void on_error(j_common_ptr file)
{
    struct decoding *d = file->client_data;
    char words[JMSG_LENGTH_MAX];
    file->err->format_message(file, words);
    if (file->err->msg_code == JERR_BAD_PRECISION)
        leave(d, "samples of %d bits, a sheet has samples of 8", d->file.data_precision);
    leave(d, "can't be decoded: %s", words);
}

/* Level -1 is libjpeg's for damaged data. */
static void on_message(j_common_ptr file, int level)
{
    struct decoding *d = file->client_data;
    char words[JMSG_LENGTH_MAX];
    if (level >= 0)
        return;
    file->err->num_warnings++;
    if (d->wishes->damaged)
        return;
    file->err->format_message(file, words);
    leave(d, "damaged: %s (--damaged takes what can be decoded)", words);
}

static void on_progress(j_common_ptr file)
{
    struct decoding *d = file->client_data;
    if (d->file.input_scan_number > MOST_SCANS)
        leave(d, "more than %d scans", MOST_SCANS);
}

static void check_colours(struct decoding *d)
{
    switch (d->file.jpeg_color_space) {
    case JCS_GRAYSCALE:
    case JCS_YCbCr:
        return;
    case JCS_CMYK:
    case JCS_YCCK:
        leave(d, "colours are CMYK, a sheet has grey or YCbCr");
    case JCS_RGB:
        leave(d, "colours are RGB, a sheet has grey or YCbCr");
    default:
        leave(d, "%d channels of unknown colours, a sheet has grey or YCbCr", d->file.num_components);
    }
}

/* One side: own blocks and factor of a channel, by T.81 A.1.1 and A.2.4. Full sides are whole MCUs, so each channel covers the sheet. */
static uint32_t full_side(uint32_t side, int most)
{
    uint32_t unit = 8 * (uint32_t)most;
    return (side + unit - 1) / unit * unit;
}

static void check_sides(struct decoding *d)
{
    struct jpeg_decompress_struct *f = &d->file;
    bool one = f->num_components == 1; /* the factors of a single channel say nothing */
    int most_across = one ? 1 : f->max_h_samp_factor, most_down = one ? 1 : f->max_v_samp_factor;
    d->full_width = full_side(f->image_width, most_across);
    d->full_height = full_side(f->image_height, most_down);
    if (d->full_width > SMOOTHER_MOST_SIDE || d->full_height > SMOOTHER_MOST_SIDE)
        leave(d, "%u x %u pixels are %u x %u in whole blocks, a sheet has at most %d x %d", f->image_width, f->image_height, d->full_width, d->full_height,
              SMOOTHER_MOST_SIDE, SMOOTHER_MOST_SIDE);
    for (int c = 0; c < f->num_components; c++) {
        const jpeg_component_info *own = &f->comp_info[c];
        int across = one ? 1 : own->h_samp_factor, down = one ? 1 : own->v_samp_factor;
        if (most_across % across || most_down % down)
            leave(d, "sampling factors %d x %d of channel %d beside %d x %d, a sheet has whole factors", across, down, c, most_across, most_down);
        struct channel *out = &d->channels[c];
        out->across = (uint32_t)(most_across / across);
        out->down = (uint32_t)(most_down / down);
        out->width = d->full_width / out->across;
        out->height = d->full_height / out->down;
        out->real_columns = own->width_in_blocks;
        out->real_rows = own->height_in_blocks;
    }
}

/* A progressive file that ends before the last bits of each coefficient were sent. */
static void check_whole(struct decoding *d)
{
    const struct jpeg_decompress_struct *f = &d->file;
    for (int c = 0; c < f->num_components; c++) {
        if (!f->comp_info[c].quant_table)
            leave(d, "damaged: channel %d has no scan", c);
        for (int k = 0; f->progressive_mode && f->coef_bits && !d->wishes->damaged && k < 64; k++)
            if (f->coef_bits[c][k] != 0)
                leave(d, "damaged: scans of channel %d are missing (--damaged takes what can be decoded)", c);
    }
}

static void write_header(struct decoding *d)
{
    const struct wishes *w = d->wishes;
    const struct jpeg_decompress_struct *f = &d->file;
    add_text(d->text, "S\t%u\t%u\t%u\t%u\t%d\t%c", d->full_width, d->full_height, f->image_width, f->image_height, f->num_components, w->mode);
    for (int i = 0; i < 3; i++)
        add_text(d->text, "\t%u", w->iterations[i]);
    for (int i = 0; i < 3; i++)
        add_text(d->text, "\t%s", w->smoothing[i]);
    for (int i = 0; i < 3; i++)
        add_text(d->text, "\t%s", w->data[i]);
    add_text(d->text, "\nF\t%c\nA\t%c\n", w->rounding, w->reorder);
    if (w->holds)
        add_text(d->text, "H\t%u\t%u\t%u\n", w->hold[0], w->hold[1], w->hold[2]);
}

static void write_table(struct decoding *d, int c)
{
    const struct channel *own = &d->channels[c];
    const JQUANT_TBL *table = d->file.comp_info[c].quant_table;
    add_text(d->text, "C\t%u\t%u\t%u\t%u", own->width, own->height, own->across, own->down);
    for (int k = 0; k < 64; k++) {
        unsigned q = table->quantval[k];
        if (q < 1 || q > 255)
            leave(d, "quantiser %u in the table of channel %d, a sheet has 1 to 255 (encode with 8 bit tables, as cjpeg -baseline)", q, c);
        add_text(d->text, "\t%u", q);
    }
    add_text(d->text, "\n");
}

/* A block's levels. A block past the picture's last one has the first level of the nearest that the file has and no other: what encoders put there, whatever the order of the scans. */
static void write_block(struct decoding *d, int c, const short *block, bool real)
{
    add_text(d->text, "B");
    for (int k = 0; k < 64; k++) {
        int level = real || k == 0 ? block[k] : 0;
        if (level < -2047 || level > 2047)
            leave(d, "level %d in channel %d, a sheet has -2047 to 2047", level, c);
        add_text(d->text, "\t%d", level);
    }
    add_text(d->text, "\n");
}

static void write_blocks(struct decoding *d, jvirt_barray_ptr array, int c)
{
    const struct channel *own = &d->channels[c];
    struct jpeg_memory_mgr *memory = d->file.mem;
    for (uint32_t y = 0; y < own->height / 8; y++) {
        uint32_t row = y < own->real_rows ? y : own->real_rows - 1;
        JBLOCKROW blocks = *memory->access_virt_barray((j_common_ptr)&d->file, array, row, 1, FALSE);
        for (uint32_t x = 0; x < own->width / 8; x++) {
            uint32_t column = x < own->real_columns ? x : own->real_columns - 1;
            write_block(d, c, blocks[column], x == column && y == row);
        }
    }
}

/* All calls of libjpeg, which leave by longjmp where one fails. */
static void decode(struct decoding *d, const struct bytes *jpeg)
{
    struct jpeg_decompress_struct *f = &d->file;
    jpeg_create_decompress(f);
    f->client_data = d;
    f->progress = &d->progress;
    jpeg_mem_src(f, jpeg->at, jpeg->len);
    jpeg_read_header(f, TRUE);
    check_colours(d);
    check_sides(d);
    jvirt_barray_ptr *arrays = jpeg_read_coefficients(f);
    check_whole(d);
    write_header(d);
    for (int c = 0; c < f->num_components; c++) {
        write_table(d, c);
        write_blocks(d, arrays[c], c);
    }
    add_text(d->text, "E\n");
    d->status = DONE;
}

/* Whatever the file was: what is handed on is a sheet. */
static enum status check_text(const struct bytes *text, char *why, size_t room)
{
    size_t levels, tables, line;
    uint32_t answer = smoother_measure(text->at, text->len, SMOOTHER_MOST_SIDE, SMOOTHER_MOST_ITERATIONS, &levels, &tables, &line);
    if (answer == SMOOTHER_OK)
        return DONE;
    if (answer == 17) /* hold: the one wish that is not looked at before, since the channels decide what it is measured against */
        snprintf(why, room, "--hold has a count above the iterations");
    else
        snprintf(why, room, "the sheet that was made is refused, %u at line %zu; this is a fault of jpeg2sheet", answer, line);
    return TROUBLE;
}

enum status jpeg_sheet(const struct bytes *jpeg, const struct wishes *w, struct bytes *text, char *why, size_t room)
{
    struct decoding *d = space(1, sizeof *d);
    *text = (struct bytes){0};
    *why = 0;
    d->wishes = w;
    d->text = text;
    d->why = why;
    d->room = room;
    d->file.err = jpeg_std_error(&d->errors);
    d->file.client_data = d;
    d->errors.error_exit = on_error;
    d->errors.emit_message = on_message;
    d->progress.progress_monitor = on_progress;
    if (jpeg->len == 0) {
        snprintf(why, room, "the file is empty");
        d->status = REFUSED;
    } else if (setjmp(d->back) == 0) {
        decode(d, jpeg);
    }
    enum status status = d->status;
    jpeg_destroy_decompress(&d->file);
    free(d);
    if (status == DONE)
        status = check_text(text, why, room);
    if (status != DONE)
        drop(text);
    return status;
}
