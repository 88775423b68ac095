#include "nor_sessions.h"
#include <stdio.h>
#include <stdlib.h>
#include <string.h>

enum { FILES = 3, LENGTH = 900 };

static struct nor_memory part;
static struct undofs_nor driver;

static void name_of(char *name, unsigned i) { snprintf(name, 16, "/f%u", i); }

static void fill(uint8_t *bytes, unsigned i) { memset(bytes, 'a' + (int)i, LENGTH); }

/* Saves files one by one. How many were synced; `*tried` of how many a save was begun. */
static unsigned save_files(struct undofs *handle, unsigned *tried) {
    uint8_t bytes[LENGTH];
    char name[16];
    unsigned synced = 0;
    for (*tried = 0; *tried < FILES;) {
        name_of(name, *tried);
        fill(bytes, *tried);
        ++*tried;
        if (undofs_write_file(handle, name, bytes, LENGTH) != 0 || undofs_sync(handle) != 0) break;
        synced++;
    }
    return synced;
}

static int has_file(struct undofs *handle, unsigned i) {
    uint8_t bytes[LENGTH + 1], wanted[LENGTH];
    char name[16];
    size_t got;
    name_of(name, i);
    fill(wanted, i);
    return undofs_read_file(handle, name, NULL, 0, bytes, sizeof bytes, &got) == 0 && got == LENGTH && memcmp(bytes, wanted, LENGTH) == 0;
}

int nor_has_files(struct undofs *handle, unsigned least, unsigned most) {
    struct undofs_stat root;
    int is_right = undofs_stat(handle, "/", NULL, &root) == 0 && root.length >= least && root.length <= most;
    for (unsigned i = 0; is_right && i < root.length; i++) is_right = has_file(handle, i);
    return is_right;
}

/* A restart of the handle, and then a new start: both find what was synced. */
static int is_found(nor_starts *starts, struct undofs *handle, unsigned least, unsigned most) {
    nor_memory_power_on(&part);
    int is_there = undofs_restart(handle) == 0 && nor_has_files(handle, least, most);
    undofs_end(handle);
    struct undofs *again;
    is_there = starts(&again, &driver, 0) == 0 && nor_has_files(again, least, most) && is_there;
    undofs_end(again);
    return is_there;
}

/* How many operations the saves took; 0 where something was wrong. */
static uint64_t run(nor_starts *starts, uint32_t pages, uint64_t cut_at, enum nor_end end, uint64_t fails_at) {
    struct undofs *handle;
    unsigned tried = 0, synced = 0;
    nor_memory_make(&part, pages);
    driver = nor_memory_driver(&part);
    int why = starts(&handle, &driver, 8);
    uint64_t formatted = part.operations;
    part.end = end;
    part.cut_at = cut_at == 0 ? 0 : formatted + cut_at;
    part.fails_at = fails_at == 0 ? 0 : formatted + fails_at;
    if (why == 0) synced = save_files(handle, &tried);
    uint64_t operations = part.operations - formatted;
    int is_right = why == 0 && (cut_at != 0 || synced == FILES) && is_found(starts, handle, synced, tried) && !part.is_misused;
    nor_memory_free(&part);
    return is_right ? operations : 0;
}

struct nor_counts nor_sessions(nor_starts *starts, uint32_t pages) {
    struct nor_counts counts = {run(starts, pages, 0, NOR_ENDS, 0), 0, 0};
    for (uint64_t at = 1; at <= counts.operations; at++) {
        for (enum nor_end end = NOR_BEFORE; end < NOR_ENDS; end++) counts.cut += run(starts, pages, at, end, 0) != 0;
        counts.failed += run(starts, pages, 0, NOR_ENDS, at) != 0;
    }
    return counts;
}
