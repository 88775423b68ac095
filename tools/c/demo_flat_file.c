/* A part in a flat file through the client: two files saved as one version, taken back, and found by a new child.
 *
 *   demo_flat_file PROGRAM FILE      PROGRAM is `uffs`; FILE is made where it is missing */
#include "flat_file.h"
#include <stdio.h>
#include <stdlib.h>
#include <string.h>

static struct undofs *handle;

static void want(int why, const char *what) {
    if (why == 0) return;
    fprintf(stderr, "%s: %d %s\n", what, why, undofs_message(handle));
    exit(1);
}

static void print_entry(void *with, const char *name, int is_directory) {
    (void)with;
    printf(" %s%s", name, is_directory ? "/" : "");
}

static void print_entries(void) {
    printf("entries");
    want(undofs_list(handle, "/pump", NULL, print_entry, NULL), "list");
    printf("\n");
}

int main(int count, char **words) {
    static uint8_t large[100000], found[100001];
    struct undofs_sizes sizes = {256, 16, 256};
    struct flat_file file;
    size_t got;
    uint32_t opened;
    if (count != 3 || flat_file_open(&file, words[2], &sizes, NULL) != 0) return 2;
    struct undofs_driver driver = flat_file_driver(&file);
    want(undofs_start(&handle, words[1], &driver, file.is_new ? 8 : 0), "start");

    want(undofs_mkdir(handle, "/pump"), "mkdir");
    want(undofs_begin(handle), "begin");
    want(undofs_write_file(handle, "/pump/name", (const uint8_t *)"north", 5), "write");
    memset(large, 'x', sizeof large);
    want(undofs_write_file(handle, "/pump/a name of 100 %", large, sizeof large), "write");
    want(undofs_end_group(handle), "end");
    want(undofs_sync(handle), "sync");
    print_entries();
    want(undofs_undo(handle), "undo");
    print_entries();
    want(undofs_redo(handle), "redo");
    undofs_end(handle);

    want(undofs_start(&handle, words[1], &driver, 0), "start again");
    print_entries();
    want(undofs_read_file(handle, "/pump/a name of 100 %", NULL, 0, found, sizeof found, &got), "read");
    printf("%zu bytes, %s\n", got, got == sizeof large && memcmp(large, found, got) == 0 ? "the same" : "OTHERS");
    want(undofs_open(handle, "/pump/name", UNDOFS_READ | UNDOFS_WRITE, &opened), "open");
    want(undofs_pwrite(handle, opened, 3, large, sizeof large), "write"); /* more lines than a pipe holds */
    want(undofs_ftruncate(handle, opened, 6), "truncate");
    want(undofs_pread(handle, opened, 0, found, sizeof found, &got), "read");
    want(undofs_close(handle, opened), "close");
    printf("%.*s\n", (int)got, (const char *)found);
    printf("missing: %d\n", undofs_unlink(handle, "/none"));
    undofs_end(handle);
    flat_file_close(&file);
    return 0;
}
