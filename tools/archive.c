/* sheet archive: the levels of a sheet as the archive tapes store them, and back.
 *
 * A tape file has the stored values of each channel, one channel after the other, each value as two bytes, the low one first. */
#include "commands.h"
#include "sheet.h"

#include <stdio.h>
#include <stdlib.h>
#include <string.h>

/* The line of the first block with a range: a tape has one level a place. 0: there is none. */
static size_t ranged_line(const struct bytes *text, const struct sheet *s)
{
    size_t line = 0, block = 0;
    for (const char *at = (const char *)text->at; *at; at = strchr(at, '\n') + 1) {
        line++;
        if (*at != 'B' && *at != 'G')
            continue;
        for (size_t k = 64 * block; k < 64 * block + 64; k++)
            if (*at == 'G' && s->lows[k] != s->highs[k])
                return line;
        block++;
    }
    return 0;
}

static void put(struct bytes *out, const int16_t *values, size_t n)
{
    for (size_t i = 0; i < n; i++) {
        uint16_t v = (uint16_t)values[i];
        add(out, (uint8_t[]){v & 255, v >> 8}, 2);
    }
}

static void take(const uint8_t *at, int16_t *values, size_t n)
{
    for (size_t i = 0; i < n; i++)
        values[i] = (int16_t)(uint16_t)(at[2 * i] | at[2 * i + 1] << 8);
}

/* Hands each channel's part of `from` to a call of the library, which fills that of `to`. */
static enum status each_channel(const struct sheet *s, uint32_t (*call)(const int16_t *, size_t, int16_t *, size_t), const int16_t *from, int16_t *to,
                                const char *name)
{
    for (uint32_t c = 0; c < s->numbers[SMOOTHER_AT_CHANNELS]; c++) {
        size_t at = levels_before(s, c), n = levels_of(s, c);
        uint32_t answer = call(from + at, n, to + at, n);
        if (answer != SMOOTHER_OK) {
            struct refusal why = refuse(answer, 0);
            snprintf(why.words, sizeof why.words, "channel %u has a value that leaves -2047 to 2047", c);
            return say_refusal(name, &why);
        }
    }
    return DONE;
}

static enum status store(const char *in, const char *out)
{
    struct bytes text, tape = {0};
    struct sheet s;
    enum status status = sheet_load(in, whole_reading, &text, &s);
    if (status != DONE)
        return status;
    int16_t *stored = space(s.levels, sizeof *stored);
    size_t line = ranged_line(&text, &s);
    if (line > 0) {
        say("%s: line %zu: a range of levels, the tapes store one level a place", in, line);
        status = REFUSED;
    }
    if (status == DONE)
        status = each_channel(&s, smoother_rearrange, s.lows, stored, in);
    if (status == DONE) {
        put(&tape, stored, s.levels);
        status = file_save(out, tape.at, tape.len);
    }
    free(stored);
    drop(&tape);
    drop(&text);
    sheet_free(&s);
    return status;
}

/* The text of `like` with other levels: each block line becomes a line B. */
static void relevelled(const struct bytes *like, const int16_t *levels, struct bytes *out)
{
    for (const char *at = (const char *)like->at; *at;) {
        const char *next = strchr(at, '\n') + 1;
        if (*at == 'B' || *at == 'G') {
            add_text(out, "B");
            for (int k = 0; k < 64; k++)
                add_text(out, "\t%d", *levels++);
            add_text(out, "\n");
        } else {
            add(out, at, (size_t)(next - at));
        }
        at = next;
    }
}

static enum status restore_like(const char *in, const struct bytes *tape, const struct bytes *like, const struct sheet *s, const char *out)
{
    if (tape->len != 2 * s->levels) {
        struct refusal why = refuse(SMOOTHER_LENGTH, 0);
        snprintf(why.words, sizeof why.words, "%zu bytes, expected %zu for the sheet's channels", tape->len, 2 * s->levels);
        return say_refusal(in, &why);
    }
    int16_t *stored = space(s->levels, sizeof *stored), *levels = space(s->levels, sizeof *levels);
    struct bytes text = {0};
    take(tape->at, stored, s->levels);
    enum status status = each_channel(s, smoother_restore, stored, levels, in);
    if (status == DONE) {
        relevelled(like, levels, &text);
        status = file_save(out, text.at, text.len);
    }
    drop(&text);
    free(stored);
    free(levels);
    return status;
}

static enum status restore(const char *in, const char *like, const char *out)
{
    struct bytes text, tape = {0};
    struct sheet s;
    enum status status = sheet_load(like, whole_reading, &text, &s);
    if (status != DONE)
        return status;
    status = file_read(in, &tape);
    if (status == DONE)
        status = restore_like(in, &tape, &text, &s, out);
    drop(&tape);
    drop(&text);
    sheet_free(&s);
    return status;
}

enum status archive_command(int argc, char **argv)
{
    if (argc == 2 && strncmp(argv[0], "--", 2) != 0)
        return store(argv[0], argv[1]);
    if (argc == 4 && strcmp(argv[0], "--restore") == 0)
        return restore(argv[1], argv[2], argv[3]);
    return trouble("archive: IN.tsv OUT.tape, or --restore IN.tape LIKE.tsv OUT.tsv");
}
