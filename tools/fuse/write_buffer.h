/* Bytes that programs wrote and that the file system was not given yet, by file: runs, which are put together where they meet. What
 * is to be seen of a file is the bytes that the file system has, and these over them. */
#ifndef WRITE_BUFFER_H
#define WRITE_BUFFER_H

#include "../c/undofs_client.h"

/* Bytes of a file, from `at` on. */
struct run {
    struct run *next; /* the next one of the file; between the two lie bytes that were not written */
    uint64_t at;
    size_t length, room;
    uint8_t *bytes;
};

struct written_file {
    struct written_file *next;
    char *path;
    uint64_t given_length; /* how many bytes the file system has of it */
    int is_new;            /* the file system has no such file yet */
    struct run *runs;
    size_t run_count, run_bytes;
    size_t memory;       /* how much it takes, about */
    uint64_t most_nodes; /* how many nodes the file system writes at most, once it is given the runs */
};

enum { WRITTEN_BUCKETS = 256 };

/* Begin with zeroes and `node`. */
struct write_buffer {
    struct written_file *files[WRITTEN_BUCKETS];
    uint32_t node;       /* so many bytes of a file are in a node */
    size_t memory;       /* of all files */
    uint64_t most_nodes; /* of all files */
};

enum {
    MOST_OF_FILE = 1 << 20, /* so many bytes of a file are kept, */
    MOST_RUNS = 256,        /* in so many runs */
};

/* What is known of a file; null where nothing is. */
struct written_file *written_find(const struct write_buffer *buffer, const char *path);
/* The file, of which nothing was known, is known to have so many bytes. Null where there is no memory. */
struct written_file *written_know(struct write_buffer *buffer, const char *path, uint64_t given_length);
/* The same of a file that the lines which give it make. */
struct written_file *written_make(struct write_buffer *buffer, const char *path);
/* Keeps bytes of a file, over those that are kept. 0 where there is no memory; then nothing has changed. */
int written_keep(struct write_buffer *buffer, struct written_file *file, uint64_t at, const uint8_t *bytes, size_t count);
/* How many nodes the file system would write at most, if these bytes were kept too. */
uint64_t written_nodes_with(const struct write_buffer *buffer, const struct written_file *file, uint64_t at, size_t count);
/* How many of the nodes of all files are counted twice. */
uint64_t written_twice(const struct write_buffer *buffer);
/* How long the file is. */
uint64_t written_length(const struct written_file *file);
/* Puts what is kept over `count` bytes from `at` on: of these the file system has the first `had`, and the others become 0 first.
 * How many of the bytes the file has. */
size_t written_read(const struct written_file *file, uint64_t at, uint8_t *bytes, size_t count, size_t had);
/* Whether more is kept of a file than may be. */
int written_is_full(const struct written_file *file);
/* The longest run of a file, or of all with its file; null where there is none. */
struct run *written_longest_of(const struct written_file *file);
struct run *written_longest(const struct write_buffer *buffer, struct written_file **file);

/* Puts the lines that give the runs of a file: `write` where the file has no bytes and that is enough, else `open`, a `pwrite` for each
 * piece, and `close`. A piece ends where a node ends, or with its run. A new file is made by them. */
void written_put(const struct write_buffer *buffer, const struct written_file *file, struct undofs_lines *lines);
/* Puts all of a file in the one line `write`, at another path; whether that is enough. */
int written_put_at(const struct written_file *file, const char *path, struct undofs_lines *lines);
/* As `written_put`, of one run, up to the last end of a node in it; of the whole run where there is none. How many bytes that is. */
size_t written_put_run(const struct write_buffer *buffer, const struct written_file *file, const struct run *run, struct undofs_lines *lines);
/* The file system has taken these lines: what they gave is kept no more. */
void written_given(struct write_buffer *buffer, struct written_file *file);
void written_run_given(struct write_buffer *buffer, struct written_file *file, struct run *run, size_t count);

/* Whether a file stands at a path or below it; of "/" each one does. */
int written_is_below(const struct written_file *file, const char *path);
/* Nothing is known any more of what stands at a path or below it; its runs are for nothing. */
void written_drop_below(struct write_buffer *buffer, const char *path);

#endif
