#define _GNU_SOURCE
#include "folders.h"

#include "file.h"

#include <dirent.h>
#include <errno.h>
#include <stdlib.h>
#include <string.h>
#include <sys/stat.h>
#include <unistd.h>

/* A folder is made where there is none; *made says whether. */
static enum status make_folder(const char *name, bool *made)
{
    struct stat s;
    *made = mkdir(name, 0777) == 0;
    if (*made || (errno == EEXIST && stat(name, &s) == 0 && S_ISDIR(s.st_mode)))
        return DONE;
    return trouble("%s: is no folder and can't be made one: %s", name, strerror(errno));
}

static bool same_folder(const char *a, const char *b)
{
    struct stat x, y;
    return stat(a, &x) == 0 && stat(b, &y) == 0 && x.st_ino == y.st_ino && x.st_dev == y.st_dev;
}

/* Whether a folder is `outer` or stands in it, at whatever depth. */
static bool within(const char *folder, const char *outer)
{
    char *a = realpath(folder, NULL), *b = realpath(outer, NULL);
    size_t len = b ? strlen(b) : 0;
    bool yes = a && b && strncmp(a, b, len) == 0 && (a[len] == '/' || a[len] == 0);
    free(a);
    free(b);
    return yes;
}

static char *rows_beside(const char *out)
{
    struct bytes name = {0};
    char *real = realpath(out, NULL);
    add_text(&name, "%s.rows", real ? real : out);
    free(real);
    return (char *)name.at;
}

static enum status make_rows(struct folders *f, bool partner)
{
    bool made;
    if (!f->rows)
        f->rows = rows_beside(f->out);
    if (make_folder(f->rows, &made) != DONE)
        return TROUBLE;
    if (same_folder(f->in, f->rows))
        return trouble("%s: rows need another folder than the sheets", f->rows);
    if (!partner || !within(f->rows, f->out))
        return DONE;
    if (made)
        rmdir(f->rows);
    return trouble("%s: rows can't stand in the folder that a partner gets", f->rows);
}

enum status folders_make(struct folders *f, bool partner)
{
    bool made;
    if (make_folder(f->out, &made) != DONE)
        return TROUBLE;
    if (same_folder(f->in, f->out))
        return trouble("%s: pictures need another folder than the sheets", f->out);
    return make_rows(f, partner);
}

static bool ends_with(const char *name, const char *ending)
{
    size_t len = strlen(name), cut = strlen(ending);
    return len > cut && strcmp(name + len - cut, ending) == 0;
}

/* Whether an entry of the pictures' folder is the picture of a sheet: a file, and no link, which would lead elsewhere. */
static bool is_picture(const struct folders *f, const char *entry)
{
    struct stat s;
    if (entry[0] == '.' || !ends_with(entry, ".png"))
        return false;
    char *picture = name_in(f->out, entry, "", ""), *sheet = name_in(f->in, entry, ".png", ".tsv");
    bool yes = lstat(picture, &s) == 0 && S_ISREG(s.st_mode) && access(sheet, F_OK) == 0;
    free(picture);
    free(sheet);
    return yes;
}

static bool may_stand(const struct folders *f, const char *entry, bool done)
{
    if (strcmp(entry, ".") == 0 || strcmp(entry, "..") == 0)
        return true;
    return is_picture(f, entry) || (!done && entry[0] == '.' && ends_with(entry, ".part"));
}

enum status folders_check(const struct folders *f, bool done)
{
    struct dirent **entries;
    int n = scandir(f->out, &entries, NULL, alphasort);
    if (n < 0)
        return trouble("%s: can't be read: %s", f->out, strerror(errno));
    enum status status = DONE;
    for (int i = 0; i < n; i++) {
        if (!may_stand(f, entries[i]->d_name, done))
            status = trouble("%s/%s: is no picture of these sheets; a partner gets the whole folder, so it has to go", f->out, entries[i]->d_name);
        free(entries[i]);
    }
    free(entries);
    return status;
}
