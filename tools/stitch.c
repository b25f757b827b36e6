/* sheet stitch: two sheets that follow one another in time as one (M-107). */
#include "commands.h"
#include "features.h"
#include "sheet.h"

#if HAVE_STITCH

#include <stdio.h>
#include <stdlib.h>

/* The refusal of the left or the right text, or of both together (16, 2). */
static enum status stitch_refusal(const char *left, const char *right, const struct bytes *l, const struct bytes *r, uint32_t number)
{
    struct sheet s;
    struct refusal why;
    const struct bytes *texts[] = {l, r};
    for (int i = 0; i < 2; i++) {
        if (!sheet_read(texts[i], whole_reading, &s, &why))
            return say_refusal(i ? right : left, &why);
        sheet_free(&s);
    }
    why = refuse(number, 0);
    if (number == SMOOTHER_SIZE)
        snprintf(why.words, sizeof why.words, "the widths add up to more than %d", SMOOTHER_MOST_SIDE);
    return say_refusal(right, &why);
}

enum status stitch_command(int argc, char **argv)
{
    if (argc != 3)
        return trouble("stitch: LEFT.tsv RIGHT.tsv OUT.tsv");
    struct bytes left = {0}, right = {0};
    uint8_t *out = NULL;
    size_t len = 0, line = 0;
    uint32_t which = 0; /* the text at fault, 1 or 2; the words are found by reading it */
    enum status status = file_read(argv[0], &left);
    if (status == DONE)
        status = file_read(argv[1], &right);
    if (status == DONE) {
        uint32_t answer = smoother_stitch_measure(left.at, left.len, right.at, right.len, &len, &which, &line);
        if (answer == SMOOTHER_OK) {
            out = space(len, 1);
            answer = smoother_stitch(left.at, left.len, right.at, right.len, out, len, &which, &line);
        }
        status = answer == SMOOTHER_OK ? file_save(argv[2], out, len) : stitch_refusal(argv[0], argv[1], &left, &right, answer);
    }
    free(out);
    drop(&left);
    drop(&right);
    return status;
}

#else

enum status stitch_command(int argc, char **argv)
{
    (void)argc;
    (void)argv;
    return trouble(NO_FEATURE, "stitch");
}

#endif
