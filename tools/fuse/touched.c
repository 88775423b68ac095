/* A change writes the nodes of a file from the first byte that differs to its end, and each directory on the way to the root anew, which is
 * a chain of a node for each 32 entries. In between a directory may be there twice. So a change of bytes FROM to TO of a file of LENGTH takes
 *   (max(LENGTH, TO) - 1) / D - FROM / D + 1    nodes, of D bytes each, and for each directory on the way
 *   2 (ENTRIES / 32 + 1)                        nodes
 * at most. */
#define _GNU_SOURCE
#include "touched.h"
#include "group_writes.h"
#include "saves.h"
#include <stdlib.h>
#include <string.h>

enum { BUCKETS = 1024, MOST = 65536, ENTRIES_OF_NODE = 32, HEADER_OF_NODE = 80, UNKNOWN_BLOCKS = 64, MOST_LENGTH = 1 << 24 };

static struct touched *buckets[BUCKETS], **all;
static size_t count, room;
static int is_lost;
struct touch last_touch;

void touched_clear(void) {
    for (size_t i = 0; i < count; i++) free(all[i]);
    memset(buckets, 0, sizeof buckets);
    count = 0;
    is_lost = 0;
}

void touched_lose(void) { is_lost = 1; }

size_t touched_count(void) { return count; }
struct touched *touched_at(size_t place) { return all[place]; }
int touched_is_lost(void) { return is_lost; }

static struct touched **bucket_of(const char *path, enum touched_kind kind) {
    uint32_t hash = 2166136261u ^ (uint32_t)kind;
    for (; *path != 0; path++) hash = (hash ^ (unsigned char)*path) * 16777619u;
    return &buckets[hash % BUCKETS];
}

/* One more in the list, or null. */
static struct touched *add(const char *path, enum touched_kind kind) {
    if (count == room) {
        size_t more = room == 0 ? 64 : 2 * room;
        struct touched **list = count == MOST ? NULL : realloc(all, more * sizeof *list);
        if (list == NULL) return NULL;
        all = list;
        room = more;
    }
    struct touched *t = calloc(1, sizeof *t + strlen(path) + 1);
    if (t == NULL) return NULL;
    *t = (struct touched){.kind = kind, .from = TOUCHED_ALL, .length = TOUCHED_ALL};
    strcpy(t->path, path);
    return all[count++] = t;
}

/* What is known of a path, made where nothing is; null where there is no room for more. */
static struct touched *touched_for(const char *path, enum touched_kind kind) {
    struct touched **bucket = bucket_of(path, kind), *t = *bucket;
    while (t != NULL && (t->kind != kind || strcmp(t->path, path) != 0)) t = t->next;
    if (t != NULL) return t;
    t = add(path, kind);
    if (t == NULL) {
        is_lost = 1;
        return NULL;
    }
    t->next = *bucket;
    return *bucket = t;
}

static void widen(struct touched *t, uint64_t from, uint64_t to) {
    if (from < t->from) t->from = from;
    if (to > t->to) t->to = to;
}

/* ---- blocks ---- */

static uint64_t data_of_node(void) { return saves.block - HEADER_OF_NODE; }

static uint64_t blocks_of_bytes(uint64_t from, uint64_t to) { return to <= from ? 0 : (to - 1) / data_of_node() - from / data_of_node() + 1; }

static uint64_t blocks_of_way(const struct touched *t) { return t->length == TOUCHED_ALL ? 0 : 2 * (t->length / ENTRIES_OF_NODE + 1); }

/* Asks for the length of a file, or the entries of a directory, once in a group. */
static void ask_length(struct touched *t) {
    struct undofs_stat found;
    if (t->length != TOUCHED_ALL || (t->kind == TOUCHED_PATH && writes_know_length(t->path, &t->length))) return;
    t->length = undofs_stat(saves.child, t->path, NULL, &found) == 0 ? found.length : 0;
}

/* The blocks of the directories on the way to a path; with `more` entries in the last of them. */
static uint64_t blocks_to(const char *path, uint64_t more) {
    char folder[4096];
    uint64_t blocks = 0;
    for (const char *slash = path; slash != NULL; slash = strchr(slash + 1, '/')) {
        size_t length = slash == path ? 1 : (size_t)(slash - path);
        if (length >= sizeof folder) return UNKNOWN_BLOCKS;
        memcpy(folder, path, length);
        folder[length] = 0;
        struct touched *t = touched_for(folder, TOUCHED_WAY);
        if (t == NULL) return UNKNOWN_BLOCKS;
        ask_length(t);
        if (strchr(slash + 1, '/') == NULL) t->length += more;
        blocks += blocks_of_way(t);
    }
    return blocks;
}

uint64_t touched_blocks(void) {
    uint64_t blocks = is_lost ? UNKNOWN_BLOCKS : 0;
    for (size_t i = 0; i < count; i++) {
        const struct touched *t = all[i];
        uint64_t end = t->to < t->length ? t->length : t->to == TOUCHED_ALL ? t->length : t->to;
        if (t->kind == TOUCHED_WAY) blocks += blocks_of_way(t);
        if (t->kind == TOUCHED_PATH && t->is_written) blocks += blocks_of_bytes(t->from, end);
    }
    return blocks;
}

/* ---- changes ---- */

/* A file that would be too long is refused as that, and not for want of room. */
static enum growth growth_to(uint64_t length) { return length > MOST_LENGTH ? GROWS_NOT : GROWS_LONGER; }

void touched_made(const char *path) {
    struct touched *t = touched_for(path, TOUCHED_PATH);
    last_touch = (struct touch){blocks_to(path, 1) + 1, GROWS_LONGER}; /* a directory has a node */
    if (t == NULL) return;
    widen(t, 0, TOUCHED_ALL);
    t->length = 0;
    t->is_written = 1;
}

void touched_written(const char *path, uint64_t from, uint64_t to) {
    struct touched *t = touched_for(path, TOUCHED_PATH);
    last_touch = (struct touch){UNKNOWN_BLOCKS, GROWS_LONGER};
    if (t == NULL) return;
    ask_length(t);
    uint64_t start = from < t->length ? from : t->length, end = to > t->length ? to : t->length; /* a gap is filled with zeros */
    last_touch.blocks = blocks_of_bytes(start, end) + blocks_to(path, 0);
    last_touch.growth = to > t->length ? growth_to(to) : t->is_written ? GROWS_NOT : GROWS_ANEW;
    widen(t, start, to);
    t->length = end;
    t->is_written = 1;
}

void touched_cut(const char *path, uint64_t length) {
    struct touched *t = touched_for(path, TOUCHED_PATH);
    last_touch = (struct touch){UNKNOWN_BLOCKS, GROWS_NOT};
    if (t == NULL) return;
    ask_length(t);
    last_touch.blocks = blocks_of_bytes(t->length, length) + 1 + blocks_to(path, 0);
    last_touch.growth = length > t->length ? growth_to(length) : GROWS_NOT;
    widen(t, 0, TOUCHED_ALL);
    t->length = length;
    t->is_written = 1;
}

void touched_removed(const char *path) {
    struct touched *t = touched_for(path, TOUCHED_PATH);
    last_touch = (struct touch){blocks_to(path, 0), GROWS_NOT};
    if (t == NULL) return;
    widen(t, 0, TOUCHED_ALL);
    t->length = TOUCHED_ALL;
    t->is_written = 0;
}

void touched_tree(const char *path) {
    struct touched *t = touched_for(path, TOUCHED_TREE);
    if (t != NULL) widen(t, 0, TOUCHED_ALL);
}

/* What was touched below the old path stands below the new one now. */
static void move_below(const char *from, const char *to) {
    size_t length = strlen(from), before = count;
    for (size_t i = 0; i < before; i++) {
        const struct touched *t = all[i];
        if (t->kind == TOUCHED_WAY || strncmp(t->path, from, length) != 0 || t->path[length] != '/') continue;
        char *path = malloc(strlen(to) + strlen(t->path + length) + 1);
        if (path == NULL) abort();
        strcpy(stpcpy(path, to), t->path + length);
        touched_tree(path);
        free(path);
    }
}

void touched_moved(const char *from, const char *to, int is_directory) {
    if (is_directory) {
        touched_tree(from);
        touched_tree(to);
        move_below(from, to);
    }
    uint64_t blocks = blocks_to(from, 0) + blocks_to(to, 1);
    touched_removed(from);
    touched_removed(to);
    last_touch = (struct touch){blocks, GROWS_NOT};
}
