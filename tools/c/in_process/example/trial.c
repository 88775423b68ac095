/* An update on trial, in a C program with the file system inside: docs/updates.md tells the steps.
 *
 *   trial FILE update NAME TEXT     writes a file as an update that is on trial for three starts
 *   trial FILE start                starts once: an update on trial has one start less, or is given up
 *   trial FILE keep                 the update proved good
 *
 * FILE is a part in a flat file, which is made where it is missing. A device has its driver of raw flash in that place. Each
 * command prints what it found and did. */
#include "../../flat_file.h"
#include <stdio.h>
#include <stdlib.h>
#include <string.h>

static struct undofs *fs;

/* Ends the program where a call was refused. */
static void want(int why, const char *what) {
    if (why == 0) return;
    fprintf(stderr, "%s was refused: %d %s\n", what, why, undofs_message(fs));
    exit(1);
}

static int is_there(const char *path) {
    struct undofs_stat found;
    int why = undofs_stat(fs, path, NULL, &found);
    if (why != UNDOFS_ENOENT) want(why, "stat");
    return why == 0;
}

static void write_text(const char *path, const char *text) { want(undofs_write_file(fs, path, (const uint8_t *)text, strlen(text)), "write"); }

/* Makes the file system on a new part: an empty tree, which is known to work. */
static void make_ready(void) {
    want(undofs_checkpoint(fs, "good"), "checkpoint");
    want(undofs_sync(fs), "sync");
}

/* The update and its three starts are one version: after a cut all of it is there, or none. */
static void update(const char *path, const char *text) {
    want(undofs_begin(fs), "begin");
    write_text(path, text);
    write_text("/trial", "3");
    want(undofs_end_group(fs), "end");
    want(undofs_sync(fs), "sync");
    printf("updated, on trial for 3 starts\n");
}

static char starts_left(void) {
    uint8_t digit = '0';
    size_t got;
    want(undofs_read_file(fs, "/trial", NULL, 0, &digit, 1, &got), "read");
    return (char)digit;
}

static void start(void) {
    if (!is_there("/trial")) {
        printf("started\n");
        return;
    }
    char left = starts_left();
    if (left > '0') {
        write_text("/trial", (char[]){(char)(left - 1), 0});
        printf("started on trial, %c starts left\n", left - 1);
    } else {
        want(undofs_rollback(fs, "good"), "rollback");
        printf("given up\n");
    }
    want(undofs_sync(fs), "sync");
}

/* One record has the new checkpoint and no file of the trial any more. */
static void keep(void) {
    if (!is_there("/trial")) return;
    want(undofs_begin(fs), "begin");
    want(undofs_unlink(fs, "/trial"), "unlink");
    want(undofs_end_group(fs), "end");
    want(undofs_rmcheckpoint(fs, "good"), "rmcheckpoint");
    want(undofs_checkpoint(fs, "good"), "checkpoint");
    want(undofs_sync(fs), "sync");
    printf("kept\n");
}

static void print_entry(void *with, const char *name, int is_directory) {
    (void)with;
    printf(" %s%s", name, is_directory ? "/" : "");
}

int main(int count, char **words) {
    const struct undofs_sizes sizes = {256, 16, 256};
    struct flat_file file;
    if (count < 3 || flat_file_open(&file, words[1], &sizes, NULL) != 0) return 2;
    struct undofs_driver driver = flat_file_driver(&file);
    want(undofs_start(&fs, NULL, &driver, file.is_new ? 16 : 0), "start");
    if (file.is_new) make_ready();
    if (strcmp(words[2], "update") == 0 && count == 5) update(words[3], words[4]);
    if (strcmp(words[2], "start") == 0) start();
    if (strcmp(words[2], "keep") == 0) keep();
    printf("files:");
    want(undofs_list(fs, "/", NULL, print_entry, NULL), "list");
    printf("\n");
    undofs_end(fs);
    flat_file_close(&file);
    return 0;
}
