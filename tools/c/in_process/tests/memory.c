/* Memory that fails at each request in turn, of the library and of the C code: a call is refused, the service may end, and what was
 * synced is there when memory is. memory FIRST LAST. Each run is a process of its own; the status is 0 where none ended badly. */
#define _GNU_SOURCE
#include "ram_part.h"
#include <stdio.h>
#include <stdlib.h>
#include <string.h>
#include <sys/wait.h>
#include <unistd.h>

static long left = -1; /* so many requests until one fails; below 0: none does */

static int fails(void) { return left >= 0 && left-- == 0; }

void *__real_malloc(size_t count);
void *__real_calloc(size_t count, size_t size);
void *__real_realloc(void *at, size_t count);
void *__wrap_malloc(size_t count);
void *__wrap_calloc(size_t count, size_t size);
void *__wrap_realloc(void *at, size_t count);

void *__wrap_malloc(size_t count) { return fails() ? NULL : __real_malloc(count); }
void *__wrap_calloc(size_t count, size_t size) { return fails() ? NULL : __real_calloc(count, size); }
void *__wrap_realloc(void *at, size_t count) { return fails() ? NULL : __real_realloc(at, count); }

enum { SHORT = 2000, LONG = 40000, NO_MEMORY_TOLD = 25, WRONG = 100, MET = 1, DONE = 0 };

static uint8_t bytes[LONG], found[LONG + 1];

/* Whether an answer may come of memory that fails. */
static int is_for_memory(int why) { return why == 0 || why == NO_MEMORY_TOLD || why == UNDOFS_NO_MEMORY || why == UNDOFS_GONE; }

static int has(struct undofs *u, const char *path, size_t count) {
    size_t got = 0;
    int why = undofs_read_file(u, path, NULL, 0, found, sizeof found, &got);
    return why == 0 && got == count && memcmp(found, bytes, count) == 0;
}

static void stop(const char *what, int number) {
    fprintf(stderr, "%s: %d\n", what, number);
    _exit(WRONG);
}

static int take(int why, const char *what) {
    if (!is_for_memory(why)) stop(what, why);
    return why == 0;
}

/* A file that was refused is not there, and one that was not is. */
static void check(struct undofs *u, const char *path, int is_written, size_t count) {
    struct undofs_stat stat;
    if (!undofs_is_there(u)) return;
    if (is_written ? !has(u, path, count) : undofs_stat(u, path, NULL, &stat) != UNDOFS_ENOENT) stop("a file is other than it was told", is_written);
}

enum { MORE = 20 };

/* Some more files, each synced: which were written. */
static void write_more(struct undofs *u, int written[MORE]) {
    char path[16];
    for (int i = 0; i < MORE; i++) {
        snprintf(path, sizeof path, "/%d", i);
        written[i] = take(undofs_write_file(u, path, bytes, SHORT), "write of one more file");
        if (written[i]) take(undofs_sync(u), "sync of one more file");
    }
}

static void check_more(struct undofs *u, const int written[MORE]) {
    char path[16];
    for (int i = 0; i < MORE; i++) {
        snprintf(path, sizeof path, "/%d", i);
        check(u, path, written[i], SHORT);
    }
}

static int session(long number) {
    struct ram_part part;
    struct undofs *u;
    size_t got;
    int more[MORE] = {0};
    ram_part_make(&part, (struct undofs_sizes){256, 16, 128});
    struct undofs_driver driver = ram_part_driver(&part);
    left = number;
    int is_made = take(undofs_start(&u, NULL, &driver, 8), "start");
    int has_short = is_made && take(undofs_write_file(u, "/short", bytes, SHORT), "write of a short file");
    int is_synced = has_short && take(undofs_sync(u), "sync");
    int has_long = is_made && take(undofs_write_file(u, "/long", bytes, LONG), "write of a long file");
    int are_synced = has_long && take(undofs_sync(u), "second sync");
    int why = is_made ? undofs_read_file(u, "/long", NULL, 0, found, sizeof found, &got) : 0;
    if (has_long || why != UNDOFS_ENOENT) take(why, "read");
    if (is_made) write_more(u, more);
    int is_met = left < 0;
    left = -1;
    if (is_made) check(u, "/short", has_short, SHORT), check(u, "/long", has_long, LONG), check_more(u, more);
    undofs_end(u);
    if (!is_made) return is_met ? MET : DONE;
    if (undofs_start(&u, NULL, &driver, 0) != 0) stop("no start with memory", 0);
    if ((is_synced && !has(u, "/short", SHORT)) || (are_synced && !has(u, "/long", LONG))) stop("what was synced is lost", 0);
    undofs_end(u);
    ram_part_free(&part);
    return is_met ? MET : DONE;
}

int main(int count, char **words) {
    unsigned runs = 0, met = 0, wrong = 0;
    if (count != 3) return 2;
    for (size_t i = 0; i < LONG; i++) bytes[i] = (uint8_t)(i * 2654435761u >> 13);
    for (long number = atol(words[1]); number < atol(words[2]); number++) {
        int status = -1;
        fflush(stdout);
        pid_t child = fork();
        if (child == 0) _exit(session(number));
        if (child < 0 || waitpid(child, &status, 0) != child) return 2;
        runs++;
        int is_ended = WIFEXITED(status) && WEXITSTATUS(status) <= MET;
        met += is_ended && WEXITSTATUS(status) == MET;
        wrong += !is_ended;
        if (!is_ended) fprintf(stderr, "request %ld: status %d\n", number, status);
    }
    printf("%u requests, %u met, %u ended badly\n", runs, met, wrong);
    return wrong != 0;
}
