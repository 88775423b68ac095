/* A file over a longer one, which is one version: with room, on a full flash, and where power goes or the child is killed in each order
 * of it and of the sync after it. Then words that are spelled specially, and the end of a child.
 *
 *   demo_long_files PROGRAM      PROGRAM is `uffs`; `-` where there is no child, and a call has more bytes */
#define _GNU_SOURCE
#include "undofs_client.h"
#include <errno.h>
#include <signal.h>
#include <stdio.h>
#include <stdlib.h>
#include <string.h>
#include <sys/wait.h>
#include <unistd.h>

enum { PAGE = 4096, MOST_BLOCKS = 320, MOST = 450000 };

struct part {
    uint8_t states[MOST_BLOCKS];
    uint8_t bytes[MOST_BLOCKS][PAGE];
    unsigned orders, cut_at, kill_at; /* 0 for never */
    int has_power;
};

static struct part part;
static struct undofs_driver driver;
static struct undofs *handle;
static const char *program;
static int has_child;
static size_t old_count, new_count; /* each more than one call has */
static uint8_t old_bytes[MOST], new_bytes[MOST], found[MOST + 1];
static unsigned wrong;

static void want(long long got, long long wanted, const char *what) {
    if (got == wanted) return;
    fprintf(stderr, "%s: %lld in place of %lld\n", what, got, wanted);
    wrong++;
}

/* ---- the driver: a part in memory ---- */

/* The only child of this process; 0 for none. */
static pid_t child(void) {
    int number = 0;
    FILE *children = fopen("/proc/thread-self/children", "r");
    if (children == NULL || fscanf(children, "%d", &number) != 1) number = 0;
    if (children != NULL) fclose(children);
    return number;
}

static int is_cut(void) {
    part.orders++;
    if (part.orders == part.kill_at) (void)kill(child(), SIGKILL);
    if (part.orders == part.cut_at) part.has_power = 0;
    return !part.has_power;
}

static enum undofs_state read_page(void *with, uint32_t page, uint8_t *bytes) {
    (void)with;
    memcpy(bytes, part.bytes[page], PAGE);
    return (enum undofs_state)part.states[page];
}

static enum undofs_answer program_page(void *with, uint32_t page, const uint8_t *bytes) {
    (void)with;
    if (is_cut()) return UNDOFS_CUT;
    part.states[page] = UNDOFS_DATA;
    memcpy(part.bytes[page], bytes, PAGE);
    return UNDOFS_DONE;
}

static enum undofs_answer erase_block(void *with, uint32_t block) {
    (void)with;
    if (is_cut()) return UNDOFS_CUT;
    part.states[block] = UNDOFS_ERASED;
    return UNDOFS_DONE;
}

static void start(uint32_t blocks, uint32_t history) {
    driver = (struct undofs_driver){{PAGE, 1, blocks}, &part, read_page, program_page, erase_block};
    part.has_power = 1;
    part.orders = part.cut_at = part.kill_at = 0;
    int why = undofs_start(&handle, program, &driver, history);
    want(why, 0, "start");
    if (why != 0) exit(1);
}

/* ---- a file over a longer one ---- */

enum file { OTHER, OLD, NEW };

/* Which file stands at /f, whole: that of the old bytes or of the new ones, or another. */
static enum file file_found(void) {
    size_t got = 0;
    if (undofs_read_file(handle, "/f", NULL, 0, found, sizeof found, &got) != 0) return OTHER;
    if (got == old_count && memcmp(found, old_bytes, old_count) == 0) return OLD;
    return got == new_count && memcmp(found, new_bytes, new_count) == 0 ? NEW : OTHER;
}

static void save_old(uint32_t blocks) {
    memset(part.states, UNDOFS_ERASED, sizeof part.states);
    start(blocks, 4);
    want(undofs_write_file(handle, "/f", old_bytes, old_count), 0, "write");
    want(undofs_sync(handle), 0, "sync");
}

static void with_room(void) {
    save_old(MOST_BLOCKS);
    want(undofs_write_file(handle, "/f", new_bytes, new_count), 0, "write over it");
    want(file_found(), NEW, "the file");
    want(undofs_undo(handle), 0, "undo");
    want(file_found(), OLD, "the file after undo");
    want(undofs_redo(handle), 0, "redo");
    want(undofs_write_file(handle, "/f", NULL, 0), 0, "no bytes over it");
    struct undofs_stat stat = {1, 1};
    want(undofs_stat(handle, "/f", NULL, &stat), 0, "stat");
    want((long long)stat.length, 0, "its length");
    undofs_end(handle);
}

static void without_room(void) {
    save_old(8 + (uint32_t)old_count / 3000);
    want(undofs_write_file(handle, "/f", new_bytes, new_count), UNDOFS_ENOSPC, "write on a full flash");
    want(file_found(), OLD, "the file then");
    want(undofs_begin(handle), 0, "begin: no group is open");
    want(undofs_abandon(handle), 0, "abandon");
    undofs_end(handle);
}

/* Writes and syncs with a cut or a kill in an order. Whether that came; a new child finds one file or the other, and that which was synced. */
static int is_ended(unsigned cut_at, unsigned kill_at) {
    start(MOST_BLOCKS, 0);
    part.cut_at = cut_at;
    part.kill_at = kill_at;
    int why = undofs_write_file(handle, "/f", new_bytes, new_count);
    if (why == 0) why = undofs_sync(handle);
    undofs_end(handle);
    start(MOST_BLOCKS, 0);
    enum file file = file_found();
    want(why == 0 ? file == NEW : file == NEW || file == OLD, 1, "which file is found");
    undofs_end(handle);
    return why != 0;
}

static unsigned end_in_each(int is_kill) {
    static struct part before;
    unsigned ends = 0;
    save_old(MOST_BLOCKS);
    undofs_end(handle);
    before = part;
    while (is_ended(is_kill ? 0 : ends + 1, is_kill ? ends + 1 : 0)) {
        part = before;
        ends++;
    }
    return ends;
}

/* ---- words, and the end of a child ---- */

enum { EINVAL_OF_LINES = 7 };

static void spell_words(void) {
    const char *log;
    save_old(MOST_BLOCKS);
    want(undofs_checkpoint(handle, "-"), 0, "a checkpoint of the name -");
    want(undofs_checkpoint(handle, ""), EINVAL_OF_LINES, "a checkpoint of no name");
    want(undofs_log(handle, &log), 0, "log");
    want(strstr(log, " checkpoints -") != NULL, 1, "the checkpoint in the log");
    want(undofs_write_file(handle, "/-", new_bytes, 3), 0, "a file of the name -");
    want(undofs_rollback(handle, "-"), 0, "rollback");
    struct undofs_stat stat;
    want(undofs_stat(handle, "/-", NULL, &stat), UNDOFS_ENOENT, "the file after it");
    want(undofs_stat(handle, "", NULL, &stat), UNDOFS_ENOENT, "a path of no bytes");
    want(undofs_write_file(handle, "-", new_bytes, 3), EINVAL_OF_LINES, "a path that is - alone");
    want(undofs_write_file(handle, "/", new_bytes, new_count), 3, "a long file in the place of the root");
    want(undofs_rmcheckpoint(handle, "-"), 0, "rmcheckpoint");
    undofs_end(handle);
}

/* The end waits for a child, also for one that stands still, which is killed then. */
static void end_children(void) {
    save_old(MOST_BLOCKS);
    undofs_end(handle);
    want(waitpid(-1, NULL, WNOHANG), -1, "a child after the end");
    want(errno, ECHILD, "why there is none");
    start(MOST_BLOCKS, 0);
    undofs_set_wait(handle, 1);
    (void)kill(child(), SIGSTOP);
    want(undofs_sync(handle), UNDOFS_GONE, "sync of a child that stands still");
    undofs_end(handle);
    want(waitpid(-1, NULL, WNOHANG), -1, "a child that stood still, after the end");
}

int main(int count, char **words) {
    if (count != 2) return 2;
    program = words[1];
    has_child = strcmp(program, "-") != 0;
    old_count = has_child ? MOST / 3 : MOST;
    new_count = old_count / 3 * 2;
    for (size_t i = 0; i < old_count; i++) old_bytes[i] = (uint8_t)(i * 7 + i / 251);
    for (size_t i = 0; i < new_count; i++) new_bytes[i] = (uint8_t)(i * 11 + i / 241);
    want(new_count > undofs_most_data(), 1, "more bytes than one call has");
    with_room();
    without_room();
    unsigned cuts = end_in_each(0), kills = has_child ? end_in_each(1) : cuts;
    spell_words();
    if (has_child) end_children();
    printf("long files: some cuts %d, as many kills %d, %u wrong\n", cuts > 50, kills == cuts, wrong);
    return wrong != 0;
}
