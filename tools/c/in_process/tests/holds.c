/* What a mounted file system holds in memory: heap, and how deep the service's stack went. holds FILE makes a part of 16,384 blocks of
 * one page with 64 files of 64 KiB, mounts it anew and prints what is held then, after reads, and after changes. */
#include "../turns_context.c"
#include "../../flat_file.h"
#include "../service.h"
#include <malloc.h>
#include <stdio.h>

enum { FILES = 64, LENGTH = 65536 };

static const struct undofs_sizes sizes = {4096, 1, 16384};
static uint8_t bytes[LENGTH];
static size_t before;

static size_t held(void) {
    struct mallinfo2 now = mallinfo2();
    return now.uordblks + now.hblkhd;
}

static size_t depth(const struct turns *turns) {
    size_t at = GUARD;
    while (at < STACK && turns->stack[at] == 0) at++;
    return STACK - at;
}

static void tell(const char *when, const struct undofs *handle) {
    printf("%s: %zu bytes of heap, the stack %zu deep\n", when, held() - before, depth(handle->turns));
}

static void want(int why) {
    if (why == 0) return;
    fprintf(stderr, "refused: %d\n", why);
    exit(1);
}

static const char *name_of(int i) {
    static char name[16];
    snprintf(name, sizeof name, "/f%d", i);
    return name;
}

static void write_files(struct undofs *handle) {
    for (int i = 0; i < FILES; i++) {
        for (size_t at = 0; at < LENGTH; at++) bytes[at] = (uint8_t)(at * 2654435761u >> (i % 24));
        want(undofs_write_file(handle, name_of(i), bytes, LENGTH));
    }
    want(undofs_sync(handle));
}

static void read_files(struct undofs *handle) {
    size_t got;
    for (int i = 0; i < FILES; i++) want(undofs_read_file(handle, name_of(i), NULL, 0, bytes, LENGTH, &got));
}

static void change(struct undofs *handle) {
    int more;
    want(undofs_write_file(handle, "/new", bytes, LENGTH));
    want(undofs_sync(handle));
    want(undofs_mkdir(handle, "/d"));
    want(undofs_rename(handle, "/new", "/d/x"));
    want(undofs_reclaim(handle, 100, &more));
}

int main(int count, char **words) {
    struct undofs *handle;
    struct flat_file file;
    if (count != 2 || flat_file_open(&file, words[1], &sizes, NULL) != 0) return 2;
    struct undofs_driver driver = flat_file_driver(&file);
    want(undofs_start(&handle, NULL, &driver, 8));
    write_files(handle);
    undofs_end(handle);
    before = held();
    want(undofs_start(&handle, NULL, &driver, 0));
    tell("mounted", handle);
    read_files(handle);
    tell("after reads", handle);
    change(handle);
    tell("after changes", handle);
    undofs_end(handle);
    flat_file_close(&file);
    return 0;
}
