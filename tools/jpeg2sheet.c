/* jpeg2sheet: a JPEG file as a sheet. */
#include "features.h"
#include "jpeg.h"
#include "sheet.h"

#include <stdio.h>
#include <string.h>

static const char usage[] =
    "usage: jpeg2sheet IN.jpg [-o OUT.tsv] [options]\n"
    "  IN.jpg              grey or YCbCr, 8 bits, sides up to 512; - is standard input\n"
    "  -o OUT.tsv          the sheet; without it standard output\n"
    "  --iterations N      0 to 1000, one for all channels or three as A,B,C (50)\n"
    "  --smoothing W       smoothing weight, likewise (0.3); a decimal number, or a field of the sheet as w3 or h3e99999a\n"
    "  --data W            data weight, likewise (0.001)\n"
    "  --mode j|s          all channels in one run, or each alone (j)\n"
    "  --rounding n|t      bytes of the picture rounded as in T.871, or truncated as in the published Rust (n)\n"
    "  --reorder o|m       blocks placed once as in T.81, or after each block as in the published Rust (o)\n"
    "  --hold A,B,C        steps after which each channel is held\n"
    "  --damaged           takes a damaged file for what can be decoded\n"
    "status: 0 done, 1 the file can't be a sheet, 2 usage or a file that can't be read or written\n";

struct request {
    const char *in, *out;
    struct wishes wishes;
};

/* A letter of two. */
static bool letter(const char *word, const char *letters, char *out)
{
    *out = word[0];
    return word[0] && !word[1] && strchr(letters, word[0]);
}

/* An option with a word after it. -1: no such option. */
static int option(struct request *r, const char *name, const char *word)
{
    struct wishes *w = &r->wishes;
    if (strcmp(name, "-o") == 0)
        return r->out = word, 1;
    if (strcmp(name, "--iterations") == 0)
        return three_numbers(word, 0, SMOOTHER_MOST_ITERATIONS, w->iterations);
    if (strcmp(name, "--smoothing") == 0)
        return three_weights(word, w->smoothing);
    if (strcmp(name, "--data") == 0)
        return three_weights(word, w->data);
    if (strcmp(name, "--mode") == 0)
        return letter(word, "js", &w->mode);
    if (strcmp(name, "--rounding") == 0)
        return letter(word, "tn", &w->rounding);
    if (strcmp(name, "--reorder") == 0)
        return letter(word, "mo", &w->reorder);
    if (strcmp(name, "--hold") == 0)
        return (w->holds = true), three_numbers(word, 0, SMOOTHER_MOST_ITERATIONS, w->hold);
    return -1;
}

static enum status request_of(int argc, char **argv, struct request *r)
{
    for (int i = 1; i < argc; i++) {
        if (argv[i][0] != '-' || !argv[i][1]) {
            if (r->in)
                return trouble("%s: a second file (--help)", argv[i]);
            r->in = argv[i];
        } else if (strcmp(argv[i], "--damaged") == 0) {
            r->wishes.damaged = true;
        } else if (i + 1 == argc) {
            return trouble("%s: no such option, or its word is missing (--help)", argv[i]);
        } else {
            int good = option(r, argv[i], argv[i + 1]);
            if (good != 1)
                return good < 0 ? trouble("%s: no such option (--help)", argv[i]) : trouble("%s %s: not a usable value (--help)", argv[i], argv[i + 1]);
            i++;
        }
    }
    if (r->wishes.holds && !HAVE_HOLD)
        return trouble(NO_FEATURE, "--hold");
    return r->in ? DONE : trouble("a file is needed, IN.jpg (--help)");
}

int main(int argc, char **argv)
{
    program = "jpeg2sheet";
    file_signals();
    if (argc == 2 && strcmp(argv[1], "--help") == 0)
        return fputs(usage, stdout) < 0 ? TROUBLE : DONE;
    struct request r = {.out = "-", .wishes = usual_wishes};
    struct bytes jpeg = {0}, text = {0};
    char why[400];
    enum status status = library_fits(); /* first: the weights of the command line are floats */
    if (status == DONE)
        status = request_of(argc, argv, &r);
    if (status == DONE)
        status = file_read(r.in, &jpeg);
    if (status == DONE) {
        status = jpeg_sheet(&jpeg, &r.wishes, &text, why, sizeof why);
        if (status != DONE)
            say("%s: %s%s", r.in, status == REFUSED ? "no sheet: " : "", why);
    }
    if (status == DONE)
        status = file_save(r.out, text.at, text.len);
    drop(&jpeg);
    drop(&text);
    return status;
}
