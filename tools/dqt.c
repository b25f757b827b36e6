/* sheet dqt: the tables of a JPEG file's DQT segments, and a sheet's tables as such a segment. */
#include "dqt.h"

#include "commands.h"

#include <string.h>

enum { DQT = 0xDB, SCAN = 0xDA };

/* Which destinations a segment that was imported names. */
static void note_named(const uint8_t *segment, size_t len, bool named[DESTINATIONS])
{
    for (size_t at = 4; at < len; at += 65)
        named[segment[at] & 3] = true;
}

static enum status import_one(const char *name, const uint8_t *segment, size_t len, uint16_t *tables, bool named[DESTINATIONS])
{
    uint32_t answer = smoother_dqt_import(segment, len, tables, SMOOTHER_QUANTISERS);
    if (answer != SMOOTHER_OK) {
        struct refusal why = refuse(answer, 0);
        return say_refusal(name, &why);
    }
    note_named(segment, len, named);
    return DONE;
}

/* The segments of a file from the one after FF D8 to the first scan. */
static enum status import_file(const char *name, const struct bytes *file, uint16_t *tables, bool named[DESTINATIONS])
{
    size_t at = 2;
    while (at + 4 <= file->len) {
        const uint8_t *p = file->at + at;
        if (p[0] != 0xFF) {
            say("%s: no marker at byte %zu", name, at);
            return REFUSED;
        }
        if (p[1] == 0xFF) { /* a fill byte */
            at++;
            continue;
        }
        if (p[1] == SCAN)
            return DONE;
        size_t len = 2 + ((size_t)p[2] << 8 | p[3]);
        if (len > file->len - at)
            break;
        if (p[1] == DQT && import_one(name, p, len, tables, named) != DONE)
            return REFUSED;
        at += len;
    }
    say("%s: ends before its first scan", name);
    return REFUSED;
}

/* Q, destination, 64 quantisers row by row, as a line C has them. */
static enum status print_tables(const uint16_t *tables, const bool named[DESTINATIONS])
{
    struct bytes text = {0};
    for (int d = 0; d < DESTINATIONS; d++) {
        if (!named[d])
            continue;
        add_text(&text, "Q\t%d", d);
        for (int k = 0; k < 64; k++)
            add_text(&text, "\t%u", tables[64 * d + k]);
        add_text(&text, "\n");
    }
    enum status status = file_save("-", text.at, text.len);
    drop(&text);
    return status;
}

enum status dqt_tables(const char *name, const struct bytes *file, uint16_t tables[SMOOTHER_QUANTISERS], bool named[DESTINATIONS])
{
    bool whole = file->len >= 2 && file->at[0] == 0xFF && file->at[1] == 0xD8;
    enum status status = whole ? import_file(name, file, tables, named) : import_one(name, file->at, file->len, tables, named);
    if (status == DONE && !named[0] && !named[1] && !named[2] && !named[3]) {
        say("%s: no quantisation table before the first scan", name);
        status = REFUSED;
    }
    return status;
}

static enum status import(const char *name)
{
    struct bytes file = {0};
    uint16_t tables[SMOOTHER_QUANTISERS] = {0};
    bool named[DESTINATIONS] = {false};
    enum status status = file_read(name, &file);
    if (status == DONE)
        status = dqt_tables(name, &file, tables, named);
    if (status == DONE)
        status = print_tables(tables, named);
    drop(&file);
    return status;
}

/* Channel c's table goes to destination c; the destinations past the last channel repeat its table, since a segment of 264 bytes has four. */
static enum status export(const char *in, const char *out)
{
    struct bytes text;
    struct sheet s;
    enum status status = sheet_load(in, whole_reading, &text, &s);
    if (status != DONE)
        return status;
    uint16_t tables[SMOOTHER_QUANTISERS];
    uint8_t segment[SMOOTHER_DQT];
    uint32_t last = s.numbers[SMOOTHER_AT_CHANNELS] - 1;
    for (uint32_t d = 0; d < DESTINATIONS; d++)
        memcpy(tables + 64 * d, s.tables + 64 * (d < last ? d : last), 64 * sizeof *tables);
    uint32_t answer = smoother_dqt_export(tables, SMOOTHER_QUANTISERS, segment, SMOOTHER_DQT);
    if (answer == SMOOTHER_OK) {
        status = file_save(out, segment, SMOOTHER_DQT);
    } else {
        struct refusal why = refuse(answer, 0);
        status = say_refusal(in, &why);
    }
    drop(&text);
    sheet_free(&s);
    return status;
}

enum status dqt_command(int argc, char **argv)
{
    if (argc == 1 && strncmp(argv[0], "--", 2) != 0)
        return import(argv[0]);
    if (argc == 3 && strcmp(argv[0], "--export") == 0)
        return export(argv[1], argv[2]);
    return trouble("dqt: FILE.jpg, or --export IN.tsv OUT");
}
