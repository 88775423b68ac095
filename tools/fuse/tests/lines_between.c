/* For tests of a daemon with the file system in itself, by -Wl,--wrap=undofs_exchange,--wrap=undofs_reply,--wrap=undofs_is_there: what a
 * program between it and a child does to its lines. In the folder BETWEEN
 *   lines   has a byte for each line that was given
 *   verbs   has verbs, and a line that begins with one finds no room and is not given
 *   ended   once it is there, and it is removed then, the file system ends, as one does that finds no memory at the wrong moment */
#define _GNU_SOURCE
#include "../../c/in_process/service.h"
#include <fcntl.h>
#include <stdio.h>
#include <stdlib.h>
#include <string.h>
#include <unistd.h>

enum { VERBS = 256 };

int __real_undofs_exchange(struct undofs *u, const struct undofs_lines *lines);
char *__real_undofs_reply(struct undofs *u, size_t index);
int __real_undofs_is_there(const struct undofs *u);
int __wrap_undofs_exchange(struct undofs *u, const struct undofs_lines *lines);
char *__wrap_undofs_reply(struct undofs *u, size_t index);
int __wrap_undofs_is_there(const struct undofs *u);

static struct undofs_replies replied;

static const char *file_of(const char *name) {
    static char file[512];
    const char *folder = getenv("BETWEEN");
    if (folder == NULL) abort();
    snprintf(file, sizeof file, "%s/%s", folder, name);
    return file;
}

static void put_reply(const char *reply) {
    size_t length = (size_t)(undofs_end_of_reply(reply) - reply);
    if (!undofs_has_room(&replied, length)) abort();
    memcpy(replied.text + replied.length, reply, length);
    replied.length += length;
}

static void count_line(void) {
    static int counted = -1;
    if (counted < 0) counted = open(file_of("lines"), O_WRONLY | O_CREAT | O_APPEND | O_CLOEXEC, 0600);
    if (write(counted, ".", 1) != 1) abort();
}

static int is_refused(const char *line) {
    char verbs[VERBS], *rest = verbs, *verb;
    size_t length = strcspn(line, " \n");
    FILE *file = fopen(file_of("verbs"), "re");
    if (file == NULL) return 0;
    verbs[fread(verbs, 1, sizeof verbs - 1, file)] = 0;
    fclose(file);
    while ((verb = strsep(&rest, " \n")) != NULL) {
        if (length > 0 && strlen(verb) == length && memcmp(verb, line, length) == 0) return 1;
    }
    return 0;
}

/* Gives one line. Not 0 where it has no reply. */
static int give(struct undofs *u, char *line, size_t length) {
    const struct undofs_lines one = {line, length, length, 0};
    if (is_refused(line)) {
        put_reply("err ENOSPC 15");
        return 0;
    }
    count_line();
    int why = __real_undofs_exchange(u, &one);
    if (why > UNDOFS_UNMOUNTED) return why;
    put_reply(__real_undofs_reply(u, 0));
    return 0;
}

/* The lines are at their end after one more. */
static void end_as_planned(struct undofs *u) {
    static char last[] = "log\n";
    if (u->gone || unlink(file_of("ended")) != 0) return;
    u->is_ending = 1;
    (void)__real_undofs_exchange(u, &(struct undofs_lines){last, sizeof last - 1, sizeof last - 1, 0});
}

/* Past its LF, which may be among the bytes of a file too. */
static char *end_of_line(char *at) {
    while (*at != '\n') at += *at == 0 ? UNDOFS_BYTES_HEAD + undofs_count_at(at) : 1;
    return at + 1;
}

int __wrap_undofs_exchange(struct undofs *u, const struct undofs_lines *lines) {
    size_t count = 0;
    replied.length = 0;
    if (lines->failed) return UNDOFS_NO_MEMORY;
    char *end = lines->text + lines->length;
    for (char *line = lines->text, *next; line < end; line = next, count++) {
        next = end_of_line(line);
        int why = give(u, line, (size_t)(next - line));
        if (why != 0) return why;
    }
    return undofs_first_refusal(&replied, count);
}

char *__wrap_undofs_reply(struct undofs *u, size_t index) {
    (void)u;
    return undofs_reply_of(&replied, index);
}

int __wrap_undofs_is_there(const struct undofs *u) {
    end_as_planned((struct undofs *)u);
    return __real_undofs_is_there(u);
}
