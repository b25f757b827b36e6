#define _POSIX_C_SOURCE 200809L
#include "row.h"

#include <inttypes.h>
#include <stdio.h>
#include <stdlib.h>
#include <string.h>
#include <sys/stat.h>
#include <unistd.h>

const char row_head[] = "sheet\trefusal\tline\twords\tsteps\ttv_0\ttgv_0\ttv_1\ttgv_1\ttv_2\ttgv_2\tclipped_0\tclipped_1\tclipped_2\tseconds\n";

struct one one_of(const char *in, const char *out_dir, const char *rows_dir, struct drawing how)
{
    file_input(in);
    return (struct one){.in = strdup(in), .png = name_in(out_dir, in, ".tsv", ".png"), .row = name_in(rows_dir, in, ".tsv", ".row"), .how = how};
}

void one_free(struct one *o)
{
    free(o->in);
    free(o->png);
    free(o->row);
}

/* What the row was made from: settings, and the input's size and time. Empty where there is no such file. */
static struct bytes made_from(const struct one *o)
{
    struct stat in;
    struct bytes b = {0};
    add_text(&b, "%s", "");
    if (stat(o->in, &in) == 0)
        add_text(&b, "from\t%s\t%s\t%" PRIu32 "\t%jd\t%jd.%09ld\n", o->how.how.partner ? "partner" : "staff", o->how.start_only ? "start" : "end",
                 o->how.how.limits.iterations, (intmax_t)in.st_size, (intmax_t)in.st_mtim.tv_sec, in.st_mtim.tv_nsec);
    return b;
}

/* Which picture the row is of: FNV-1a of its bytes, or that there is none. */
static void add_picture(struct bytes *row, const struct bytes *picture)
{
    uint64_t sum = 0xcbf29ce484222325;
    for (size_t i = 0; i < picture->len; i++)
        sum = (sum ^ picture->at[i]) * 0x100000001b3;
    if (picture->len > 0)
        add_text(row, "picture\t%016" PRIx64 "\n", sum);
    else
        add_text(row, "picture\tnone\n");
}

/* The file's name without its folder, as a field: no tab, line end or double quote. */
static void add_name(struct bytes *row, const char *in)
{
    const char *slash = strrchr(in, '/');
    for (const char *p = slash ? slash + 1 : in; *p; p++)
        add(row, (unsigned char)*p < 32 || *p == '"' || *p == 127 ? "?" : p, 1);
}

char *row_not_done(const char *in, const char *why)
{
    struct bytes row = {0};
    add_name(&row, in);
    add_text(&row, "\tNA\tNA\tnot done: %s\tNA\tNA\tNA\tNA\tNA\tNA\tNA\tNA\tNA\tNA\tNA\n", why);
    return (char *)row.at;
}

static void add_totals(struct bytes *row, const struct solved *s)
{
    for (uint32_t r = 0; r < 3; r++)
        if (r < s->runs && s->steps[r] > 0) {
            const double *t = totals_at(s, r, s->steps[r] - 1);
            add_text(row, "\t%.10g\t%.10g", t[0], t[1]);
        } else {
            add_text(row, "\tNA\tNA");
        }
}

static void add_row(struct bytes *row, const struct one *o, const struct drawn *d, double took)
{
    add_name(row, o->in);
    if (d->why.number == 0)
        add_text(row, "\t0\tNA\tdrawn\t%" PRIu32, d->solved.steps[0] + d->solved.steps[1] + d->solved.steps[2]);
    else if (d->why.line > 0)
        add_text(row, "\t%" PRIu32 "\t%zu\t%s\tNA", d->why.number, d->why.line, d->why.words);
    else
        add_text(row, "\t%" PRIu32 "\tNA\t%s\tNA", d->why.number, d->why.words);
    add_totals(row, d->why.number == 0 ? &d->solved : &(struct solved){0});
    for (uint32_t c = 0; c < 3; c++)
        if (c < d->channels && d->why.number == 0)
            add_text(row, "\t%" PRIu32, d->solved.clipped[c]);
        else
            add_text(row, "\tNA");
    add_text(row, "\t%.3f\n", took);
}

/* The sheet's picture, or none where it is refused. */
static enum status save_picture(const struct one *o, const struct bytes *text, struct drawn *d)
{
    enum status status = draw(text, o->how, NULL, d);
    if (status == DONE)
        return file_save(o->png, d->png.at, d->png.len);
    if (status == REFUSED)
        file_remove(o->png);
    return status;
}

enum status one_draw(const struct one *o)
{
    double begun = seconds();
    struct bytes row = made_from(o), text = {0};
    struct drawn d = {0};
    enum status status = file_read(o->in, &text);
    if (file_output(o->png) != DONE || file_output(o->row) != DONE)
        status = TROUBLE;
    if (status == DONE)
        status = save_picture(o, &text, &d);
    if (status != TROUBLE) {
        add_picture(&row, &d.png);
        add_row(&row, o, &d, seconds() - begun);
        if (file_save(o->row, row.at, row.len) != DONE)
            status = TROUBLE;
    }
    drawn_free(&d);
    drop(&text);
    drop(&row);
    return status;
}

/* The row's file, and the lines that it begins with where it is of this sheet, these settings and the picture that is there. */
static bool read_row(const struct one *o, struct bytes *row, struct bytes *due)
{
    struct bytes picture = {0};
    *due = made_from(o);
    bool read = due->len > 0 && access(o->row, R_OK) == 0 && file_read_own(o->row, row) == DONE &&
                (access(o->png, F_OK) != 0 || file_read_own(o->png, &picture) == DONE);
    add_picture(due, &picture);
    drop(&picture);
    return read;
}

enum status one_before(const struct one *o, char **line)
{
    struct bytes row = {0}, due;
    enum status status = TROUBLE;
    if (read_row(o, &row, &due) && !file_unfinished(o->png) && row.len > due.len && memcmp(row.at, due.at, due.len) == 0) {
        const char *at = (const char *)row.at + due.len, *tab = strchr(at, '\t');
        if (tab) {
            status = tab[1] == '0' ? DONE : REFUSED;
            *line = strdup(at);
        }
    }
    drop(&row);
    drop(&due);
    return status;
}

void one_forget(const struct one *o)
{
    if (o->how.how.partner && file_output(o->png) == DONE)
        unlink(o->png);
}
