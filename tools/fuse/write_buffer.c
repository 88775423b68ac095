#define _GNU_SOURCE
#include "write_buffer.h"
#include <stdio.h>
#include <stdlib.h>
#include <string.h>

enum { RECORD = 128 }; /* so much memory a file or a run takes beside its path or its bytes, about */

static uint64_t lower(uint64_t a, uint64_t b) { return a < b ? a : b; }
static uint64_t higher(uint64_t a, uint64_t b) { return a > b ? a : b; }
static uint64_t end_of(const struct run *run) { return run->at + run->length; }

/* ---- files ---- */

static size_t bucket_of(const char *path) {
    uint32_t hash = 2166136261u;
    for (; *path != 0; path++) hash = (hash ^ (unsigned char)*path) * 16777619u;
    return hash % WRITTEN_BUCKETS;
}

struct written_file *written_find(const struct write_buffer *buffer, const char *path) {
    struct written_file *file = buffer->files[bucket_of(path)];
    while (file != NULL && strcmp(file->path, path) != 0) file = file->next;
    return file;
}

struct written_file *written_know(struct write_buffer *buffer, const char *path, uint64_t given_length) {
    struct written_file *file = calloc(1, sizeof *file);
    char *kept = strdup(path);
    if (file == NULL || kept == NULL) {
        free(file);
        free(kept);
        return NULL;
    }
    struct written_file **bucket = &buffer->files[bucket_of(path)];
    *file = (struct written_file){.next = *bucket, .path = kept, .given_length = given_length, .memory = RECORD + strlen(path)};
    *bucket = file;
    buffer->memory += file->memory;
    return file;
}

uint64_t written_length(const struct written_file *file) {
    const struct run *last = file->runs;
    while (last != NULL && last->next != NULL) last = last->next;
    return last == NULL ? file->given_length : higher(file->given_length, end_of(last));
}

int written_is_full(const struct written_file *file) { return file->run_bytes > MOST_OF_FILE || file->run_count > MOST_RUNS; }

/* The file system writes anew each node from the first that changes to the end of the file, since a later node points to earlier
 * ones; bytes between its end and the first run are written too, as 0. One more is the last node, where a piece ends in the middle
 * of it. A change over bytes that are there may be several lines, and until one of them is done the nodes of the line before it are
 * in use as well: then all of these count twice. */
static uint64_t most_nodes(const struct write_buffer *buffer, const struct written_file *file, uint64_t at, uint64_t end) {
    uint64_t first = lower(at, file->given_length) / buffer->node, last = (end + buffer->node - 1) / buffer->node;
    return (last - first) * (at < file->given_length ? 2 : 1) + 1;
}

uint64_t written_nodes_with(const struct write_buffer *buffer, const struct written_file *file, uint64_t at, size_t added) {
    uint64_t first = file->runs == NULL ? at : lower(at, file->runs->at);
    return most_nodes(buffer, file, first, higher(written_length(file), at + added));
}

uint64_t written_twice(const struct write_buffer *buffer) {
    uint64_t nodes = 0;
    for (size_t i = 0; i < WRITTEN_BUCKETS; i++) {
        for (const struct written_file *file = buffer->files[i]; file != NULL; file = file->next) {
            if (file->runs != NULL && file->runs->at < file->given_length) nodes += file->most_nodes / 2;
        }
    }
    return nodes;
}

/* Counts a file anew, after its runs changed. */
static void count(struct write_buffer *buffer, struct written_file *file) {
    size_t memory = RECORD + strlen(file->path);
    file->run_count = file->run_bytes = 0;
    for (const struct run *run = file->runs; run != NULL; run = run->next) {
        memory += RECORD + run->room;
        file->run_bytes += run->length;
        file->run_count++;
    }
    uint64_t nodes = (uint64_t)file->is_new;
    if (file->runs != NULL) nodes = most_nodes(buffer, file, file->runs->at, written_length(file));
    buffer->memory += memory - file->memory;
    buffer->most_nodes += nodes - file->most_nodes;
    file->memory = memory;
    file->most_nodes = nodes;
}

struct written_file *written_make(struct write_buffer *buffer, const char *path) {
    struct written_file *file = written_know(buffer, path, 0);
    if (file == NULL) return NULL;
    file->is_new = 1;
    count(buffer, file);
    return file;
}

/* ---- runs ---- */

static void free_run(struct run *run) {
    if (run != NULL) free(run->bytes);
    free(run);
}

static int has_room(struct run *run, size_t length) {
    if (run->room >= length) return 1;
    size_t room = length + length / 4;
    uint8_t *bytes = realloc(run->bytes, room);
    if (bytes == NULL) return 0;
    run->bytes = bytes;
    run->room = room;
    return 1;
}

/* The link to the first run that ends at a place or after it. */
static struct run **link_at(struct written_file *file, uint64_t at) {
    struct run **link = &file->runs;
    while (*link != NULL && end_of(*link) < at) link = &(*link)->next;
    return link;
}

/* Where the bytes up to `end` and the runs that they meet end together. */
static uint64_t end_together(const struct run *run, uint64_t end) {
    uint64_t furthest = end;
    for (; run != NULL && run->at <= end; run = run->next) furthest = higher(furthest, end_of(run));
    return furthest;
}

/* The run takes in those after it that the bytes up to `end` meet. It has room for them. */
static void take_in(struct run *run, uint64_t end) {
    while (run->next != NULL && run->next->at <= end) {
        struct run *other = run->next;
        memcpy(run->bytes + (other->at - run->at), other->bytes, other->length);
        run->length = (size_t)(higher(end_of(run), end_of(other)) - run->at);
        run->next = other->next;
        free_run(other);
    }
}

int written_keep(struct write_buffer *buffer, struct written_file *file, uint64_t at, const uint8_t *bytes, size_t added) {
    uint64_t end = at + added;
    struct run **link = link_at(file, at), *run = *link;
    int is_made = run == NULL || run->at > at;
    if (is_made) run = calloc(1, sizeof *run);
    if (run == NULL) return 0;
    if (is_made) *run = (struct run){.next = *link, .at = at};
    if (!has_room(run, (size_t)(end_together(is_made ? run->next : run, end) - run->at))) {
        if (is_made) free_run(run);
        return 0;
    }
    *link = run;
    take_in(run, end);
    memcpy(run->bytes + (at - run->at), bytes, added);
    run->length = (size_t)(higher(end_of(run), end) - run->at);
    count(buffer, file);
    return 1;
}

size_t written_read(const struct written_file *file, uint64_t at, uint8_t *bytes, size_t wanted, size_t had) {
    uint64_t length = written_length(file), end = lower(at + wanted, length);
    if (at >= end) return had;
    if (had < end - at) memset(bytes + had, 0, (size_t)(end - at) - had);
    for (const struct run *run = file->runs; run != NULL && run->at < end; run = run->next) {
        uint64_t from = higher(run->at, at), to = lower(end_of(run), end);
        if (from < to) memcpy(bytes + (from - at), run->bytes + (from - run->at), (size_t)(to - from));
    }
    return (size_t)(end - at);
}

struct run *written_longest_of(const struct written_file *file) {
    struct run *longest = file->runs;
    for (struct run *run = file->runs; run != NULL; run = run->next) {
        if (run->length > longest->length) longest = run;
    }
    return longest;
}

struct run *written_longest(const struct write_buffer *buffer, struct written_file **file) {
    struct run *longest = NULL;
    for (size_t i = 0; i < WRITTEN_BUCKETS; i++) {
        for (struct written_file *f = buffer->files[i]; f != NULL; f = f->next) {
            struct run *run = f->run_bytes == 0 ? NULL : written_longest_of(f);
            if (run == NULL || (longest != NULL && run->length <= longest->length)) continue;
            longest = run;
            *file = f;
        }
    }
    return longest;
}

/* ---- lines ---- */

/* The bytes [at, end) of a run, as lines of an open file. */
static void put_pieces(const struct write_buffer *buffer, const struct run *run, uint64_t end, struct undofs_lines *lines) {
    for (uint64_t at = run->at, to; at < end; at = to) {
        to = lower(at + undofs_most_data(), end);
        uint64_t node = to / buffer->node * buffer->node;
        if (node > at && to < end) to = node;
        undofs_put_text(lines, "pwrite 0 ");
        undofs_put_number(lines, at);
        undofs_put_text(lines, " ");
        undofs_put_data(lines, run->bytes + (at - run->at), (size_t)(to - at));
        undofs_put_end(lines);
    }
}

static void put_open(const struct written_file *file, struct undofs_lines *lines) {
    undofs_put_text(lines, "open ");
    undofs_put_word(lines, file->path);
    undofs_put_text(lines, file->is_new ? " 6\n" : " 2\n");
}

static void put_zeroes(struct undofs_lines *lines, uint64_t wanted) {
    static const uint8_t zeroes[512];
    for (uint64_t put = 0; put < wanted; put += sizeof zeroes) undofs_put_data(lines, zeroes, (size_t)lower(sizeof zeroes, wanted - put));
}

/* The whole file in one line. */
static void put_whole(const struct written_file *file, const char *path, struct undofs_lines *lines) {
    uint64_t at = 0;
    undofs_put_text(lines, "write ");
    undofs_put_word(lines, path);
    undofs_put_text(lines, file->runs == NULL ? " -" : " ");
    for (const struct run *run = file->runs; run != NULL; run = run->next) {
        put_zeroes(lines, run->at - at);
        undofs_put_data(lines, run->bytes, run->length);
        at = end_of(run);
    }
    undofs_put_end(lines);
}

/* A line `write` has the whole path, of which a byte may be spelled as three. */
static int is_one_line(const struct written_file *file, const char *path) {
    uint64_t length = written_length(file);
    return file->given_length == 0 && undofs_fits(3 * strlen(path) + strlen("write  "), length);
}

int written_put_at(const struct written_file *file, const char *path, struct undofs_lines *lines) {
    if (!is_one_line(file, path)) return 0;
    put_whole(file, path, lines);
    return 1;
}

void written_put(const struct write_buffer *buffer, const struct written_file *file, struct undofs_lines *lines) {
    if ((file->runs == NULL && !file->is_new) || written_put_at(file, file->path, lines)) return;
    put_open(file, lines);
    for (const struct run *run = file->runs; run != NULL; run = run->next) put_pieces(buffer, run, end_of(run), lines);
    undofs_put_text(lines, "close 0\n");
}

size_t written_put_run(const struct write_buffer *buffer, const struct written_file *file, const struct run *run, struct undofs_lines *lines) {
    uint64_t end = end_of(run) / buffer->node * buffer->node;
    if (end <= run->at) end = end_of(run);
    put_open(file, lines);
    put_pieces(buffer, run, end, lines);
    undofs_put_text(lines, "close 0\n");
    return (size_t)(end - run->at);
}

/* ---- what is kept no more ---- */

static void drop_runs(struct written_file *file) {
    for (struct run *run = file->runs, *next; run != NULL; run = next) {
        next = run->next;
        free_run(run);
    }
    file->runs = NULL;
}

void written_given(struct write_buffer *buffer, struct written_file *file) {
    file->given_length = written_length(file);
    file->is_new = 0;
    drop_runs(file);
    count(buffer, file);
}

void written_run_given(struct write_buffer *buffer, struct written_file *file, struct run *run, size_t given) {
    file->given_length = higher(file->given_length, run->at + given);
    file->is_new = 0;
    memmove(run->bytes, run->bytes + given, run->length - given);
    run->at += given;
    run->length -= given;
    if (run->length > 0) {
        uint8_t *shorter = realloc(run->bytes, run->length);
        if (shorter != NULL) run->bytes = shorter;
        if (shorter != NULL) run->room = run->length;
    } else {
        struct run **link = &file->runs;
        while (*link != run) link = &(*link)->next;
        *link = run->next;
        free_run(run);
    }
    count(buffer, file);
}

int written_is_below(const struct written_file *file, const char *path) {
    size_t length = strlen(path);
    if (length == 1) return 1;
    return strncmp(file->path, path, length) == 0 && (file->path[length] == 0 || file->path[length] == '/');
}

void written_drop_below(struct write_buffer *buffer, const char *path) {
    for (size_t i = 0; i < WRITTEN_BUCKETS; i++) {
        for (struct written_file **link = &buffer->files[i], *file; (file = *link) != NULL;) {
            if (!written_is_below(file, path)) {
                link = &file->next;
                continue;
            }
            *link = file->next;
            drop_runs(file);
            buffer->memory -= file->memory;
            buffer->most_nodes -= file->most_nodes;
            free(file->path);
            free(file);
        }
    }
}
