#include "calls.h"
#include <stdio.h>
#include <string.h>

uint32_t below(uint32_t *seed, uint32_t most) {
    *seed = *seed * 1664525u + 1013904223u;
    return (*seed >> 8) % most;
}

/* Files are opened seldom and closed soon, for an undo is refused beside one. */
static enum kind kind_of(uint32_t *seed) {
    static const uint8_t often[] = {WRITE, WRITE, WRITE, WRITE, READ, READ, READ, MKDIR, LIST, UNDO, SYNC, CLOSE, CLOSE, STAT};
    uint32_t at = below(seed, KINDS + sizeof often);
    return at < KINDS ? (enum kind)at : (enum kind)often[at - KINDS];
}

/* A directory, or a file of the root or of a directory. */
static void name_one(char *to, size_t room, int is_directory, uint32_t *seed) {
    uint32_t directory = below(seed, 2), name = below(seed, 4), is_in_root = below(seed, 2);
    if (is_directory || !is_in_root) snprintf(to, room, is_directory ? "/d%u" : "/d%u/f%u", directory, name);
    else snprintf(to, room, "/f%u", name);
}

struct call call_of(uint32_t *seed) {
    struct call call = {.kind = kind_of(seed)};
    int is_directory = call.kind == MKDIR || call.kind == RMDIR || call.kind == LIST;
    name_one(call.path, sizeof call.path, is_directory, seed);
    name_one(call.other, sizeof call.other, 0, seed);
    call.number = below(seed, 3);
    call.length = below(seed, 8) == 0 ? below(seed, MOST_BYTES) : below(seed, 1500);
    call.seed = below(seed, 1 << 20);
    return call;
}

static void keep(void *with, const char *name, int is_directory) {
    struct answer *answer = with;
    size_t room = MOST_TEXT - answer->count, length = strlen(name);
    if (room <= length + 1) return;
    memcpy(answer->bytes + answer->count, name, length);
    answer->count += length;
    answer->bytes[answer->count++] = is_directory ? '/' : ' ';
}

static void write_some(struct undofs *u, const struct call *call, struct answer *answer) {
    static _Thread_local uint8_t bytes[MOST_BYTES];
    uint32_t seed = call->seed;
    for (uint32_t i = 0; i < call->length; i++) bytes[i] = (uint8_t)below(&seed, 256);
    answer->why = call->kind == WRITE ? undofs_write_file(u, call->path, bytes, call->length)
                                      : undofs_pwrite(u, call->number, call->seed % 9000, bytes, call->length);
}

static void read_some(struct undofs *u, const struct call *call, struct answer *answer) {
    answer->why = call->kind == READ ? undofs_read_file(u, call->path, NULL, call->seed % 4000, answer->bytes, call->length, &answer->count)
                                     : undofs_pread(u, call->number, call->seed % 4000, answer->bytes, call->length, &answer->count);
}

static void stat_one(struct undofs *u, const struct call *call, struct answer *answer) {
    struct undofs_stat found;
    answer->why = undofs_stat(u, call->path, NULL, &found);
    if (answer->why == 0) answer->count = (size_t)snprintf((char *)answer->bytes, 64, "%d %llu", found.is_directory, (unsigned long long)found.length);
}

static void log_all(struct undofs *u, struct answer *answer) {
    const char *log;
    answer->why = undofs_log(u, &log);
    if (answer->why == 0) answer->count = (size_t)snprintf((char *)answer->bytes, MOST_TEXT, "%s", log);
}

static void open_one(struct undofs *u, const struct call *call, struct answer *answer) {
    uint32_t file = 0;
    answer->why = undofs_open(u, call->path, UNDOFS_READ | UNDOFS_WRITE | UNDOFS_CREAT, &file);
    if (answer->why == 0) answer->bytes[answer->count++] = (uint8_t)file;
}

/* A call that tells nothing but why it was refused. */
static int plain(struct undofs *u, const struct call *call) {
    int more;
    switch (call->kind) {
    case MKDIR: return undofs_mkdir(u, call->path);
    case RMDIR: return undofs_rmdir(u, call->path);
    case UNLINK: return undofs_unlink(u, call->path);
    case RENAME: return undofs_rename(u, call->path, call->other);
    case UNDO: return undofs_undo(u);
    case REDO: return undofs_redo(u);
    case SYNC: return undofs_sync(u);
    case CHECKPOINT: return undofs_checkpoint(u, call->number == 0 ? "good" : "better");
    case ROLLBACK: return undofs_rollback(u, call->number == 0 ? "good" : "better");
    case FORGET: return undofs_forget(u, 1);
    case RECLAIM: return undofs_reclaim(u, 3, &more);
    case TRUNCATE: return undofs_ftruncate(u, call->number, call->length);
    case FSYNC: return undofs_fsync(u, call->number);
    case CLOSE: return undofs_close(u, call->number);
    default: return undofs_restart(u);
    }
}

void carry_out(struct undofs *u, const struct call *call, struct answer *answer) {
    answer->why = 0;
    answer->count = 0;
    switch (call->kind) {
    case WRITE:
    case PWRITE: write_some(u, call, answer); break;
    case READ:
    case PREAD: read_some(u, call, answer); break;
    case STAT: stat_one(u, call, answer); break;
    case LIST: answer->why = undofs_list(u, call->path, NULL, keep, answer); break;
    case LOG: log_all(u, answer); break;
    case OPEN: open_one(u, call, answer); break;
    default: answer->why = plain(u, call);
    }
}

int are_same(const struct answer *one, const struct answer *other) {
    return one->why == other->why && one->count == other->count && memcmp(one->bytes, other->bytes, one->count) == 0;
}
