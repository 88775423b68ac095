/* Bytes of files of many lengths, each byte value among them, written and read by each call that has bytes. */
#define _GNU_SOURCE
#include "../../undofs_wire.h"
#include "ram_part.h"
#include <stdio.h>
#include <stdlib.h>
#include <string.h>

enum { MOST = 700000 };

static const struct undofs_sizes sizes = {2048, 64, 64};
static uint8_t bytes[MOST], found[MOST + 1];
static unsigned right, wrong;

static void tell(const char *what, int is_right) {
    printf("%s %s\n", is_right ? "ok   " : "WRONG", what);
    right += is_right != 0;
    wrong += is_right == 0;
}

static int has(struct undofs *u, const char *path, size_t count) {
    size_t got = 0;
    memset(found, 1, sizeof found);
    return undofs_read_file(u, path, NULL, 0, found, count + 1, &got) == 0 && got == count && memcmp(found, bytes, count) == 0;
}

/* Lengths about the most that one line has, and some others. */
static size_t length_of(unsigned i) {
    size_t most = undofs_most_data();
    const size_t lengths[] = {0, 1, 2, 255, 4096, 32748, 32749, 65535, 65536, 65537, most - 1, most, most + 1, 2 * most, 2 * most + 1, MOST};
    return i < sizeof lengths / sizeof *lengths ? lengths[i] : SIZE_MAX;
}

static void whole_files(struct undofs *u) {
    int is_right = 1;
    for (unsigned i = 0; length_of(i) != SIZE_MAX; i++) {
        is_right &= undofs_write_file(u, "/a name of 100 % name", bytes, length_of(i)) == 0 && has(u, "/a name of 100 % name", length_of(i));
    }
    tell("whole files of each length", is_right);
}

static void open_files(struct undofs *u) {
    int is_right = 1;
    for (unsigned i = 0; length_of(i) != SIZE_MAX; i++) {
        uint32_t file = 0;
        size_t count = length_of(i), got = 0;
        is_right &= undofs_open(u, "/p", UNDOFS_READ | UNDOFS_WRITE | UNDOFS_CREAT | UNDOFS_TRUNC, &file) == 0;
        is_right &= undofs_pwrite(u, file, 0, bytes, count) == 0 && undofs_pread(u, file, 0, found, count, &got) == 0;
        is_right &= got == count && memcmp(found, bytes, count) == 0 && undofs_close(u, file) == 0;
    }
    tell("writes to an open file of each length", is_right);
}

/* Lines whose bytes are of several pieces, between lines with none. */
static void pieces(struct undofs *u) {
    struct undofs_lines lines = {NULL, 0, 0, 0};
    undofs_put_text(&lines, "mkdir /d\nwrite /d/f ");
    for (size_t i = 0; i < 1000; i++) undofs_put_data(&lines, bytes + i, 1);
    undofs_put_text(&lines, "\nread /d/f 0 1000\nwrite /d/none ");
    undofs_put_data(&lines, bytes, 0);
    undofs_put_text(&lines, "\nread /d/none 0 1000\nread /d/f 990 20\nstat /d/f\n");
    int why = undofs_exchange(u, &lines);
    int is_right = why == 0 && undofs_take_data(undofs_reply(u, 2), found, MOST) == 1000 && memcmp(found, bytes, 1000) == 0;
    is_right &= undofs_take_data(undofs_reply(u, 4), found, MOST) == 0 && undofs_take_data(undofs_reply(u, 5), found, MOST) == 10;
    is_right &= memcmp(found, bytes + 990, 10) == 0 && strcmp(undofs_reply(u, 6), "file 1000") == 0 && *undofs_reply(u, 7) == 0;
    tell("bytes of several pieces, and replies after replies with bytes", is_right);
    lines.length = 0;
    undofs_put_text(&lines, "read /d/f 0 1000\nread /d/f 0 1000\nread /d/f 1 999\nread /d/f 0 999\n");
    is_right = undofs_exchange(u, &lines) == 0 && undofs_is_same_reply(undofs_reply(u, 0), undofs_reply(u, 1));
    is_right &= !undofs_is_same_reply(undofs_reply(u, 0), undofs_reply(u, 3)) && !undofs_is_same_reply(undofs_reply(u, 2), undofs_reply(u, 3));
    tell("replies with other bytes are not the same", is_right);
    free(lines.text);
}

/* Bytes where a line has no data. */
static void stray_bytes(struct undofs *u) {
    struct undofs_lines lines = {NULL, 0, 0, 0};
    struct undofs_stat stat;
    undofs_put_text(&lines, "mkdir /stray ");
    undofs_put_data(&lines, bytes, 300);
    undofs_put_text(&lines, "\n");
    tell("bytes in a line that has no data are refused", undofs_exchange(u, &lines) == UNDOFS_SYNTAX && undofs_stat(u, "/stray", NULL, &stat) == UNDOFS_ENOENT);
    lines.length = 0;
    undofs_put_text(&lines, "write /no/such/folder ");
    undofs_put_data(&lines, bytes, 300);
    undofs_put_text(&lines, "\n");
    tell("and a file in no folder is refused for that", undofs_exchange(u, &lines) == UNDOFS_ENOENT);
    free(lines.text);
}

int main(int count, char **words) {
    struct ram_part part;
    struct undofs *u;
    uint32_t seed = 1;
    for (size_t i = 0; i < MOST; i++) bytes[i] = (uint8_t)(i < 256 ? i : (seed = seed * 1664525u + 1013904223u) >> 24);
    ram_part_make(&part, sizes);
    struct undofs_driver driver = ram_part_driver(&part);
    if (undofs_start(&u, count > 1 ? words[1] : NULL, &driver, 8) != 0) return 2;
    whole_files(u);
    open_files(u);
    pieces(u);
    stray_bytes(u);
    int is_synced = undofs_sync(u) == 0;
    undofs_end(u);
    int is_started = is_synced && undofs_start(&u, count > 1 ? words[1] : NULL, &driver, 0) == 0;
    tell("what was written is there after a new start", is_started && has(u, "/a name of 100 % name", MOST) && !part.is_misused);
    undofs_end(u);
    ram_part_free(&part);
    printf("%u right, %u wrong\n", right, wrong);
    return wrong != 0;
}
