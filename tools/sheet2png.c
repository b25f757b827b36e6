/* sheet2png: the picture of a sheet. */
#include "draw.h"
#include "plot.h"

#include <stdio.h>
#include <string.h>

static const char usage[] =
    "usage: sheet2png IN.tsv OUT.png [--totals FILE.svg] [--start] [--page N] [--partner]\n"
    "  IN.tsv     a sheet, sides up to 512; - is standard input\n"
    "  OUT.png    the picture; - is standard output\n"
    "  --totals   also plots both totals of each step\n"
    "  --start    the picture at iteration 0\n"
    "  --page N   refuses a sheet with more than N iterations, as a page that redraws while a slider moves\n"
    "  --partner  shows of marked blocks only their mean\n"
    "status: 0 drawn, 1 refused, 2 usage or a file that can't be read or written\n";

struct request {
    const char *in, *out, *totals;
    struct drawing how;
};

static enum status request_of(int argc, char **argv, struct request *r)
{
    for (int i = 1; i < argc; i++) {
        int shared = drawing_option(argc, argv, &i, &r->how);
        if (shared == 1)
            continue;
        if (shared == 2)
            return TROUBLE;
        if (strcmp(argv[i], "--totals") == 0 && i + 1 < argc)
            r->totals = argv[++i];
        else if (argv[i][0] == '-' && argv[i][1])
            return trouble("%s: no such option, or its word is missing (--help)", argv[i]);
        else if (!r->in)
            r->in = argv[i];
        else if (!r->out)
            r->out = argv[i];
        else
            return trouble("%s: a third file (--help)", argv[i]);
    }
    return r->out ? DONE : trouble("two files are needed, IN.tsv and OUT.png (--help)");
}

/* Both outputs are other files than the input and than one another. */
static enum status check_outputs(const struct request *r)
{
    file_input(r->in);
    if (file_output(r->out) != DONE || (r->totals && file_output(r->totals) != DONE))
        return TROUBLE;
    return r->totals && file_same(r->out, r->totals) ? trouble("%s: can't be written: --totals names it too", r->out) : DONE;
}

static enum status save_all(const struct request *r, const struct drawn *d)
{
    enum status status = DONE;
    if (r->totals) {
        struct bytes svg = {0};
        plot_totals(&d->solved, &svg);
        status = file_save(r->totals, svg.at, svg.len);
        drop(&svg);
    }
    return status == DONE ? file_save(r->out, d->png.at, d->png.len) : status;
}

int main(int argc, char **argv)
{
    program = "sheet2png";
    file_signals();
    if (argc == 2 && strcmp(argv[1], "--help") == 0)
        return fputs(usage, stdout) < 0 ? TROUBLE : DONE;
    struct request r = {.how = {.how = whole_reading}};
    struct bytes text = {0};
    struct drawn d = {0};
    enum status status = request_of(argc, argv, &r);
    if (status == DONE)
        status = library_fits();
    if (status == DONE)
        status = check_outputs(&r);
    if (status == DONE)
        status = file_read(r.in, &text);
    if (status == DONE) {
        status = draw(&text, r.how, "steps", &d);
        if (status == REFUSED)
            say_refusal(r.in, &d.why);
    }
    if (status == DONE)
        status = save_all(&r, &d);
    drawn_free(&d);
    drop(&text);
    return status;
}
