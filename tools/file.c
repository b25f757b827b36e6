#define _GNU_SOURCE
#include "file.h"

#include <errno.h>
#include <fcntl.h>
#include <limits.h>
#include <signal.h>
#include <stdarg.h>
#include <stdbool.h>
#include <stdio.h>
#include <stdlib.h>
#include <string.h>
#include <sys/file.h>
#include <sys/stat.h>
#include <unistd.h>

static void reserve(struct bytes *b, size_t more)
{
    if (b->room - b->len >= more)
        return;
    size_t room = b->len + more > 2 * b->room ? b->len + more : 2 * b->room;
    uint8_t *at = realloc(b->at, room);
    if (!at) {
        say("no memory for %zu bytes", room);
        exit(TROUBLE);
    }
    b->at = at;
    b->room = room;
}

void add(struct bytes *b, const void *from, size_t len)
{
    reserve(b, len + 1);
    memcpy(b->at + b->len, from, len);
    b->len += len;
    b->at[b->len] = 0;
}

void add_text(struct bytes *b, const char *format, ...)
{
    va_list words, again;
    va_start(words, format);
    va_copy(again, words);
    int len = vsnprintf(NULL, 0, format, words);
    reserve(b, (size_t)len + 1);
    vsnprintf((char *)b->at + b->len, (size_t)len + 1, format, again);
    b->len += (size_t)len;
    va_end(again);
    va_end(words);
}

void drop(struct bytes *b)
{
    free(b->at);
    *b = (struct bytes){0};
}

void file_signals(void)
{
    signal(SIGPIPE, SIG_IGN);
    signal(SIGXFSZ, SIG_IGN);
}

/* A file that is read. */
struct input {
    dev_t device;
    ino_t number;
    char *name;
};

static struct bytes inputs; /* of struct input */

/* The input that a file is. Pipes and terminals are none: one may well be read and written. */
static const struct input *input_of(const struct stat *s)
{
    const struct input *all = (const struct input *)inputs.at;
    if (S_ISREG(s->st_mode) || S_ISBLK(s->st_mode))
        for (size_t i = 0; i < inputs.len / sizeof *all; i++)
            if (all[i].number == s->st_ino && all[i].device == s->st_dev)
                return &all[i];
    return NULL;
}

static void note_input(const char *name, const struct stat *s)
{
    if (!input_of(s))
        add(&inputs, &(struct input){s->st_dev, s->st_ino, strdup(name)}, sizeof(struct input));
}

/* A file's numbers, or those of a standard stream for "-". */
static bool numbers_of(const char *name, int standard, struct stat *s)
{
    return (strcmp(name, "-") == 0 ? fstat(standard, s) : stat(name, s)) == 0;
}

void file_input(const char *name)
{
    struct stat s;
    if (numbers_of(name, STDIN_FILENO, &s))
        note_input(name, &s);
}

static enum status not_input(const char *name, const struct stat *s)
{
    const struct input *in = input_of(s);
    return in ? trouble("%s: can't be written: it is the input %s", name, in->name) : DONE;
}

enum status file_output(const char *name)
{
    struct stat s;
    return numbers_of(name, STDOUT_FILENO, &s) ? not_input(name, &s) : DONE;
}

enum status file_read(const char *name, struct bytes *out)
{
    file_input(name);
    return file_read_own(name, out);
}

enum status file_read_own(const char *name, struct bytes *out)
{
    bool standard = strcmp(name, "-") == 0;
    int f = standard ? STDIN_FILENO : open(name, O_RDONLY | O_CLOEXEC);
    if (f < 0)
        return trouble("%s: can't be read: %s", name, strerror(errno));
    enum status status = DONE;
    for (;;) {
        reserve(out, 1 << 16);
        ssize_t got = read(f, out->at + out->len, out->room - out->len - 1);
        if (got == 0)
            break;
        if (got < 0 && errno == EINTR)
            continue;
        if (got < 0)
            status = trouble("%s: can't be read: %s", name, strerror(errno));
        else if ((out->len += (size_t)got) > MOST_BYTES)
            status = trouble("%s: over %zu MB, larger than anything that is read here", name, MOST_BYTES >> 20);
        if (status != DONE)
            break;
    }
    out->at[out->len] = 0;
    if (!standard)
        close(f);
    return status;
}

static bool write_all(int f, const uint8_t *at, size_t len)
{
    while (len > 0) {
        ssize_t put = write(f, at, len);
        if (put < 0 && errno == EINTR)
            continue;
        if (put < 0)
            return false;
        at += put;
        len -= (size_t)put;
    }
    return true;
}

/* Opens the file beside and takes its lock. Who finds it renamed or removed by another process meanwhile tries again. -1: errno says why. */
static int open_beside(const char *part, struct stat *held)
{
    for (;;) {
        struct stat named;
        int f = open(part, O_WRONLY | O_CREAT | O_NOFOLLOW | O_CLOEXEC, 0666);
        if (f < 0)
            return -1;
        if (flock(f, LOCK_EX | LOCK_NB) != 0 && errno == EWOULDBLOCK) {
            close(f);
            errno = EBUSY;
            return -1;
        }
        if (fstat(f, held) == 0 && stat(part, &named) == 0 && held->st_ino == named.st_ino && held->st_dev == named.st_dev)
            return f;
        close(f);
    }
}

static enum status save_open(int f, const char *name, const void *at, size_t len)
{
    return write_all(f, at, len) ? DONE : trouble("%s: can't be written: %s", name, strerror(errno));
}

/* A pipe or a device: there is nothing to rename. */
static enum status save_device(const char *name, const void *at, size_t len)
{
    int f = open(name, O_WRONLY | O_CLOEXEC);
    if (f < 0)
        return trouble("%s: can't be written: %s", name, strerror(errno));
    enum status status = save_open(f, name, at, len);
    if (close(f) != 0 && status == DONE)
        status = trouble("%s: can't be written: %s", name, strerror(errno));
    return status;
}

static enum status save_beside(const char *name, const char *part, const char *target, mode_t mode, const void *at, size_t len)
{
    struct stat held;
    int f = open_beside(part, &held);
    if (f < 0 && errno == EBUSY)
        return trouble("%s: another process is writing it", name);
    if (f < 0)
        return trouble("%s: can't be written: %s", name, strerror(errno));
    if (not_input(part, &held) != DONE) {
        close(f);
        return TROUBLE;
    }
    bool good = ftruncate(f, 0) == 0 && (mode == 0 || fchmod(f, mode) == 0) && write_all(f, at, len) && fsync(f) == 0 &&
                rename(part, target) == 0;
    int why = errno;
    if (!good)
        unlink(part);
    if (close(f) != 0 && good) {
        good = false;
        why = errno;
    }
    return good ? DONE : trouble("%s: can't be written: %s", name, strerror(why));
}

/* How much of a name is its folder, '/' included. */
static int folder_of(const char *name)
{
    const char *slash = strrchr(name, '/');
    return slash ? (int)(slash - name) + 1 : 0;
}

/* The name beside: a dot before, ".part" after. */
static char *name_beside(const char *name)
{
    int folder = folder_of(name);
    struct bytes part = {0};
    add_text(&part, "%.*s.%s.part", folder, name, name + folder);
    return (char *)part.at;
}

/* What a link's text leads to, as a name. */
static char *linked(const char *name, const char *to)
{
    struct bytes b = {0};
    add_text(&b, "%.*s%s", to[0] == '/' ? 0 : folder_of(name), name, to);
    return (char *)b.at;
}

/* The name in its folder, whose name is without links. */
static char *in_real_folder(const char *name)
{
    struct bytes b = {0};
    int folder = folder_of(name);
    add_text(&b, "%.*s", folder ? folder : 1, folder ? name : ".");
    char *real = realpath((char *)b.at, NULL);
    drop(&b);
    if (real)
        add_text(&b, "%s/%s", strcmp(real, "/") == 0 ? "" : real, name + folder);
    free(real);
    return (char *)b.at;
}

/* The full name of the file that a save goes to: links are followed, the last one also where it leads to no file yet. Null: errno says why. */
static char *place_of(const char *name)
{
    char to[PATH_MAX], *real = realpath(name, NULL);
    if (real || errno != ENOENT)
        return real;
    ssize_t len = readlink(name, to, sizeof to - 1);
    if (len < 0)
        return in_real_folder(name);
    to[len] = 0;
    char *next = linked(name, to), *place = place_of(next);
    free(next);
    return place;
}

enum status file_save(const char *name, const void *at, size_t len)
{
    struct stat old;
    if (file_output(name) != DONE)
        return TROUBLE;
    if (strcmp(name, "-") == 0)
        return save_open(STDOUT_FILENO, "standard output", at, len);
    bool there = stat(name, &old) == 0;
    if (there && S_ISDIR(old.st_mode))
        return trouble("%s: is a folder", name);
    if (there && !S_ISREG(old.st_mode))
        return save_device(name, at, len);
    char *target = place_of(name);
    if (!target)
        return trouble("%s: can't be written: %s", name, strerror(errno));
    char *part = name_beside(target);
    enum status status = save_beside(name, part, target, there ? old.st_mode & 07777 : 0, at, len);
    free(part);
    free(target);
    return status;
}

bool file_same(const char *a, const char *b)
{
    struct stat s;
    char *x = place_of(a), *y = place_of(b);
    bool same = x && y && strcmp(x, y) == 0 && (stat(x, &s) != 0 || S_ISREG(s.st_mode));
    free(x);
    free(y);
    return same;
}

void file_remove(const char *name)
{
    char *part = name_beside(name);
    unlink(name);
    unlink(part);
    free(part);
}

bool file_unfinished(const char *name)
{
    char *part = name_beside(name);
    bool there = access(part, F_OK) == 0;
    free(part);
    return there;
}

char *name_in(const char *folder, const char *name, const char *old, const char *ending)
{
    const char *slash = strrchr(name, '/');
    const char *base = slash ? slash + 1 : name;
    size_t len = strlen(base), cut = strlen(old);
    if (len > cut && strcmp(base + len - cut, old) == 0)
        len -= cut;
    struct bytes b = {0};
    add_text(&b, "%s/%.*s%s", folder, (int)len, base, ending);
    return (char *)b.at;
}
