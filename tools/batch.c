/* sheet batch: a folder of sheets to a folder of pictures, each sheet in a process of its own. Rows and summary go to a folder beside, so that the pictures' folder can be
 * sent to a partner as it is. */
#define _GNU_SOURCE
#include "commands.h"
#include "folders.h"
#include "options.h"
#include "row.h"
#include "words.h"

#include <dirent.h>
#include <errno.h>
#include <signal.h>
#include <stdio.h>
#include <stdlib.h>
#include <string.h>
#include <sys/prctl.h>
#include <sys/wait.h>
#include <unistd.h>

enum { MOST_PROCESSES = 256 };

/* A sheet of the folder. */
struct item {
    struct one one;
    pid_t process; /* 0: none runs */
    char *row;     /* null until it is done */
};

struct batch {
    struct folders folders; /* `in` is a folder, or for `one` a sheet */
    struct drawing how;
    uint32_t processes; /* 0 for `one`, which takes no -j */
    struct item *items;
    size_t count, missing, ended, refused, failed;
    struct bar bar;
};

static volatile sig_atomic_t stopped;

static void on_stop(int signal)
{
    (void)signal;
    stopped = 1;
}

static void catch_stops(void)
{
    struct sigaction act = {.sa_handler = on_stop}; /* no SA_RESTART: waiting ends */
    sigaction(SIGINT, &act, NULL);
    sigaction(SIGTERM, &act, NULL);
    sigaction(SIGHUP, &act, NULL);
}

static int is_sheet(const struct dirent *entry)
{
    size_t len = strlen(entry->d_name);
    return len > 4 && entry->d_name[0] != '.' && strcmp(entry->d_name + len - 4, ".tsv") == 0;
}

/* The folder's sheets by name. */
static enum status list_items(struct batch *b)
{
    struct dirent **names;
    int n = scandir(b->folders.in, &names, is_sheet, alphasort);
    if (n < 0)
        return trouble("%s: can't be read: %s", b->folders.in, strerror(errno));
    b->count = (size_t)n;
    b->items = space(b->count, sizeof *b->items);
    for (int i = 0; i < n; i++) {
        char *name = name_in(b->folders.in, names[i]->d_name, "", "");
        b->items[i].one = one_of(name, b->folders.out, b->folders.rows, b->how);
        free(name);
        free(names[i]);
    }
    free(names);
    return DONE;
}

/* Takes the rows of the sheets that are done already. */
static void take_rows(struct batch *b)
{
    for (size_t i = 0; i < b->count; i++) {
        struct item *it = &b->items[i];
        enum status before = one_before(&it->one, &it->row);
        b->missing += before == TROUBLE;
        b->refused += before == REFUSED;
        if (before == TROUBLE)
            one_forget(&it->one);
    }
}

/* What the child does: the signals are as usual again, and it ends with its parent. */
static void work(const struct one *o, pid_t parent)
{
    signal(SIGINT, SIG_DFL);
    signal(SIGTERM, SIG_DFL);
    signal(SIGHUP, SIG_DFL);
    prctl(PR_SET_PDEATHSIG, SIGTERM);
    _exit(getppid() == parent ? one_draw(o) : TROUBLE);
}

static enum status begin(struct item *it)
{
    pid_t parent = getpid(), child = fork();
    if (child == 0)
        work(&it->one, parent);
    if (child < 0)
        return trouble("no process for %s: %s", it->one.in, strerror(errno));
    it->process = child;
    return DONE;
}

static struct item *item_of(struct batch *b, pid_t process)
{
    for (size_t i = 0; i < b->count; i++)
        if (b->items[i].process == process)
            return &b->items[i];
    return NULL;
}

/* A refusal is reported by its row: number, line, words. */
static void report(struct batch *b, const struct item *it)
{
    char line[16] = "";
    unsigned number = 0;
    bar_clear(&b->bar);
    const char *tab = strchr(it->row, '\t');
    sscanf(tab, "\t%u\t%15[^\t]", &number, line);
    const char *words = strchr(strchr(tab + 1, '\t') + 1, '\t') + 1;
    int len = (int)strcspn(words, "\t");
    if (strcmp(line, "NA") == 0)
        say("%s: refused, %u (%s): %.*s", it->one.in, number, refusal_word(number), len, words);
    else
        say("%s: refused, %u (%s), line %s: %.*s", it->one.in, number, refusal_word(number), line, len, words);
}

static void fail(struct batch *b, struct item *it, int ended)
{
    char why[64] = "a file can't be read or written";
    if (WIFSIGNALED(ended))
        snprintf(why, sizeof why, "its process was ended by signal %d", WTERMSIG(ended));
    bar_clear(&b->bar);
    say("%s: not done: %s", it->one.in, why);
    it->row = row_not_done(it->one.in, why);
    b->failed++;
}

/* A child has ended. */
static void take(struct batch *b, struct item *it, int ended)
{
    char more[48] = "";
    it->process = 0;
    b->ended++;
    enum status status = WIFEXITED(ended) ? (enum status)WEXITSTATUS(ended) : TROUBLE;
    if (status == TROUBLE || one_before(&it->one, &it->row) == TROUBLE)
        fail(b, it, ended);
    else if (status == REFUSED) {
        b->refused++;
        report(b, it);
    }
    if (b->refused + b->failed > 0)
        snprintf(more, sizeof more, ", %zu refused, %zu not done", b->refused, b->failed);
    bar_at(&b->bar, b->ended, more);
}

/* Waits for a child of ours; false where none runs or a signal came. */
static bool wait_one(struct batch *b)
{
    int ended;
    pid_t process = waitpid(-1, &ended, 0);
    struct item *it = process > 0 ? item_of(b, process) : NULL;
    if (it && stopped)
        it->process = 0;
    else if (it)
        take(b, it, ended);
    return process > 0;
}

static enum status stop(struct batch *b)
{
    for (size_t i = 0; i < b->count; i++)
        if (b->items[i].process > 0)
            kill(b->items[i].process, SIGTERM);
    while (waitpid(-1, NULL, 0) > 0 || errno == EINTR)
        ;
    bar_clear(&b->bar);
    return trouble("stopped with %zu of %zu sheets still to do; the same command goes on", b->missing - b->ended, b->count);
}

static enum status run(struct batch *b)
{
    enum status status = DONE;
    uint32_t running = 0;
    catch_stops();
    b->bar = bar_begin("sheets", b->missing);
    for (size_t next = 0; status == DONE && !stopped;) {
        while (next < b->count && b->items[next].row)
            next++;
        if (next < b->count && running < b->processes) {
            status = begin(&b->items[next++]);
            running += status == DONE;
        } else if (running > 0) {
            running -= wait_one(b);
        } else {
            break;
        }
    }
    if (stopped)
        return stop(b);
    while (running > 0 && wait_one(b)) /* no further process could be begun */
        running--;
    bar_clear(&b->bar);
    return status;
}

static enum status summarise(const struct batch *b)
{
    struct bytes text = {0};
    char *name = name_in(b->folders.rows, "summary.tsv", "", "");
    add_text(&text, "%s", row_head);
    for (size_t i = 0; i < b->count; i++)
        add_text(&text, "%s", b->items[i].row);
    enum status status = file_save(name, text.at, text.len);
    if (status == DONE)
        say("%zu sheets: %zu drawn, %zu refused, %zu not done; %zu of them done before; %s", b->count, b->count - b->refused - b->failed, b->refused, b->failed,
            b->count - b->missing, name);
    drop(&text);
    free(name);
    return status != DONE || b->failed > 0 ? TROUBLE : b->refused > 0 ? REFUSED : DONE;
}

/* Two words and the options; -j and a number of processes where there is one already. */
static enum status words_of(int argc, char **argv, struct batch *b)
{
    int n = 0;
    const char **words[] = {&b->folders.in, &b->folders.out};
    for (int i = 0; i < argc; i++) {
        int shared = drawing_option(argc, argv, &i, &b->how);
        if (shared == 2)
            return TROUBLE;
        if (shared == 1)
            continue;
        if (b->processes > 0 && strcmp(argv[i], "-j") == 0) {
            if (++i == argc || !whole_number(argv[i], 1, MOST_PROCESSES, &b->processes))
                return trouble("-j needs a number of processes, 1 to %d", MOST_PROCESSES);
        } else if (strcmp(argv[i], "--rows") == 0 && i + 1 < argc) {
            free(b->folders.rows);
            b->folders.rows = strdup(argv[++i]);
        } else if (argv[i][0] == '-' || n == 2) {
            return trouble("%s: no such option, or a word too many (sheet --help)", argv[i]);
        } else {
            *words[n++] = argv[i];
        }
    }
    return n == 2 ? DONE : trouble("two words are needed, what to read and OUT_DIR (sheet --help)");
}

static void batch_free(struct batch *b)
{
    for (size_t i = 0; i < b->count; i++) {
        one_free(&b->items[i].one);
        free(b->items[i].row);
    }
    free(b->items);
    free(b->folders.rows);
}

/* For a partner the folder is looked at before the work and after it. */
static enum status do_all(struct batch *b)
{
    bool partner = b->how.how.partner;
    enum status status = partner ? folders_check(&b->folders, false) : DONE;
    if (status == DONE)
        status = list_items(b);
    if (status == DONE) {
        take_rows(b);
        status = run(b);
    }
    if (status == DONE)
        status = summarise(b);
    return status != TROUBLE && partner && folders_check(&b->folders, true) != DONE ? TROUBLE : status;
}

static enum status do_one(struct batch *b)
{
    struct item it = {.one = one_of(b->folders.in, b->folders.out, b->folders.rows, b->how)};
    enum status status = one_before(&it.one, &it.row);
    if (status == TROUBLE) {
        one_forget(&it.one);
        status = one_draw(&it.one);
        if (status != TROUBLE)
            status = one_before(&it.one, &it.row);
    }
    if (status == REFUSED)
        report(b, &it);
    free(it.row);
    one_free(&it.one);
    return status;
}

static enum status command(int argc, char **argv, struct batch b, enum status (*work)(struct batch *b))
{
    enum status status = words_of(argc, argv, &b);
    if (status == DONE)
        status = folders_make(&b.folders, b.how.how.partner);
    if (status == DONE)
        status = work(&b);
    batch_free(&b);
    return status;
}

enum status batch_command(int argc, char **argv)
{
    long processors = sysconf(_SC_NPROCESSORS_ONLN);
    uint32_t usual = processors > 0 && processors <= MOST_PROCESSES ? (uint32_t)processors : 1;
    return command(argc, argv, (struct batch){.how = {.how = whole_reading}, .processes = usual}, do_all);
}

enum status one_command(int argc, char **argv)
{
    return command(argc, argv, (struct batch){.how = {.how = whole_reading}}, do_one);
}
