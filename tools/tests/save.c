/* save FOLDER ROUNDS SEED: a child saves a file again and again, old and new contents by turns, and is killed (signal 9) after a random while; the file has to be one of the
 * two, whole. Killing during a write is the point, so the contents are large. */
#define _POSIX_C_SOURCE 200809L
#include "file.h"

#include <signal.h>
#include <stdbool.h>
#include <stdio.h>
#include <stdlib.h>
#include <string.h>
#include <sys/wait.h>
#include <time.h>
#include <unistd.h>

enum { SIZE = 3 << 20 };

/* Contents k: its number, then bytes that follow from it. */
static void fill(uint8_t *at, unsigned k)
{
    for (size_t i = 0; i < SIZE; i++)
        at[i] = (uint8_t)(k + i * 7 + (i >> 8));
}

static void child(const char *name, uint8_t *at)
{
    for (unsigned k = 0;; k++) {
        fill(at, k % 2 ? 111 : 7);
        if (file_save(name, at, SIZE) != DONE)
            _exit(TROUBLE);
    }
}

static bool whole(const char *name, uint8_t *due)
{
    struct bytes b = {0};
    bool good = file_read_own(name, &b) == DONE && b.len == SIZE;
    if (good) {
        fill(due, b.at[0]);
        good = (b.at[0] == 111 || b.at[0] == 7) && memcmp(b.at, due, SIZE) == 0;
    }
    drop(&b);
    return good;
}

int main(int argc, char **argv)
{
    if (argc != 4)
        return TROUBLE;
    program = "save";
    char *name = name_in(argv[1], "saved", "", ""), *part = name_in(argv[1], ".saved.part", "", "");
    uint8_t *at = space(SIZE, 1);
    int broken = 0, midway = 0, rounds = atoi(argv[2]);
    srand((unsigned)atoi(argv[3]));
    fill(at, 7);
    if (file_save(name, at, SIZE) != DONE)
        return TROUBLE;
    for (int i = 0; i < rounds; i++) {
        pid_t process = fork();
        if (process == 0)
            child(name, at);
        nanosleep(&(struct timespec){0, 2000000 + rand() % 40000000}, NULL);
        kill(process, SIGKILL);
        waitpid(process, NULL, 0);
        midway += access(part, F_OK) == 0;
        broken += !whole(name, at);
    }
    fill(at, 7);
    bool mended = file_save(name, at, SIZE) == DONE && access(part, F_OK) != 0;
    printf("killed %d times, %d of them in mid-write; broken files: %d; saved afterwards and nothing left beside: %s\n", rounds, midway, broken, mended ? "yes" : "no");
    free(name);
    free(part);
    free(at);
    return broken > 0 || midway == 0 || !mended;
}
