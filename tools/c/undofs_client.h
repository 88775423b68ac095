/* undofs through a child process, `uffs serve` (docs/serve.md), over a driver of the caller.
 *
 * A handle is one child over one part. Each call writes a line of docs/scripts.md and reads its reply; the
 * driver is asked while a call waits, in the caller's thread. Each call answers 0, or why it was refused:
 *
 *   1 to 31    a number of docs/scripts.md
 *   201 ..     the names of `enum undofs_fault`
 *
 * Paths and names are bytes up to a NUL, spelled as they are; no pointer is null but a view, which is null for
 * the present tree, "@5" for the version of serial 5, or "=name" for a checkpoint. One thread at a time uses a
 * handle. A start has the process ignore SIGPIPE, since a child may end at any time.
 *
 * in_process/in_process.c has the same functions with the file system in this program and no child. Then `program` and
 * undofs_set_wait do nothing, a page is read when it is wanted, and in_process/README.md tells the rest.
 */
#ifndef UNDOFS_CLIENT_H
#define UNDOFS_CLIENT_H

#include <stddef.h>
#include <stdint.h>

struct undofs_sizes {
    uint32_t page;   /* bytes a page */
    uint32_t pages;  /* pages a block */
    uint32_t blocks; /* blocks in all */
};

enum undofs_answer {
    UNDOFS_CUT = 0,    /* power went, or nothing is known of the part any more */
    UNDOFS_DONE = 1,   /* the page has the bytes, or the pages are erased */
    UNDOFS_FAILED = 2, /* the part goes on: the page, or each page of the block, is unreadable from now on */
};

enum undofs_state {
    UNDOFS_NOT_READ = -1, /* it cannot be told now what the page holds: the start is refused */
    UNDOFS_ERASED = 0,
    UNDOFS_DATA = 1,
    UNDOFS_UNREADABLE = 2, /* a program or an erase was cut or failed */
};

/* A driver of a part. Pages are numbered through all blocks. What it owes is told in docs/serve.md. */
struct undofs_driver {
    struct undofs_sizes sizes;
    void *part; /* given to each function */
    /* What a page holds; its bytes, where that is data. Asked once for each page, at the start. */
    enum undofs_state (*read_page)(void *part, uint32_t page, uint8_t *bytes);
    /* Programs a page, which is erased. */
    enum undofs_answer (*program_page)(void *part, uint32_t page, const uint8_t *bytes);
    enum undofs_answer (*erase_block)(void *part, uint32_t block);
};

enum undofs_fault {
    UNDOFS_ENOENT = 1,
    UNDOFS_ENOTDIR = 2,
    UNDOFS_EEXIST = 4,
    UNDOFS_ENOSPC = 15,
    UNDOFS_TOOOLD = 18,
    UNDOFS_NOSUCHVERSION = 20,
    UNDOFS_POWERCUT = 24,
    UNDOFS_NORECORD = 27,
    UNDOFS_INGROUP = 31,
    UNDOFS_SYNTAX = 201,    /* the line was none, as one of a path that is too long */
    UNDOFS_UNMOUNTED = 202, /* no system is mounted, after a `restart` that was refused */
    UNDOFS_GONE = 203,      /* the child ended, or gave an order that is none */
    UNDOFS_NO_MEMORY = 204, /* the client had no memory; the line was not given */
    UNDOFS_NO_READ = 205,   /* the driver could not tell a page at the start */
    UNDOFS_NO_CHILD = 206,  /* no pipe or no process was to be had: errno tells it */
    UNDOFS_NO_IMAGE = 207,  /* the driver's sizes are not lawful */
    UNDOFS_BUSY = 208,      /* asked by the driver, inside of a call on the same handle; or another handle has the driver. With no child alone */
};

enum undofs_flags { UNDOFS_READ = 1, UNDOFS_WRITE = 2, UNDOFS_CREAT = 4, UNDOFS_EXCL = 8, UNDOFS_TRUNC = 16 };

enum {
    UNDOFS_LINE = 65536, /* the most bytes of a line, digits of bytes of a file among them; with no child those of its words */
};

struct undofs;

/* Starts `program` (null: "uffs", looked up in PATH) over the part of a driver, which has to outlive the handle. With a
 * history that is not 0 an empty file system that keeps so many versions is made first, whatever the part holds. Where
 * the start is refused `*handle` is null or only tells its message; `undofs_end` takes both. */
int undofs_start(struct undofs **handle, const char *program, const struct undofs_driver *driver, uint32_t history);
/* From now on a child that gave and took no byte for so many seconds while it was waited for is killed: the call answers UNDOFS_GONE,
 * and so does each later one. 0, as from the start on, waits for ever. Time in the driver does not count. */
void undofs_set_wait(struct undofs *handle, unsigned seconds);
/* Ends the child and waits for it, no longer than that. What was not synced is lost. */
void undofs_end(struct undofs *handle);
/* Whether the child has not ended, as far as can be told with no line. */
int undofs_is_there(const struct undofs *handle);
/* What the child wrote on standard error, once it is gone; before, no bytes. With no child: why the file system ended, or which
 * page could not be read last. */
const char *undofs_message(const struct undofs *handle);
/* How many orders the driver was asked. */
uint64_t undofs_orders(const struct undofs *handle);
/* How many of these were erases. A block is erased when it is taken, so that no more blocks were taken. */
uint64_t undofs_erases(const struct undofs *handle);

/* Files. A read may have fewer bytes than were asked, at the end of the file. A write of more than a line holds is
 * several lines, and outside a group several versions; `undofs_write_file` is one version whatever its length. */
int undofs_open(struct undofs *handle, const char *path, unsigned flags, uint32_t *file);
int undofs_close(struct undofs *handle, uint32_t file);
int undofs_pread(struct undofs *handle, uint32_t file, uint64_t offset, uint8_t *bytes, size_t count, size_t *got);
int undofs_pwrite(struct undofs *handle, uint32_t file, uint64_t offset, const uint8_t *bytes, size_t count);
int undofs_ftruncate(struct undofs *handle, uint32_t file, uint64_t length);
int undofs_fsync(struct undofs *handle, uint32_t file);
int undofs_read_file(struct undofs *handle, const char *path, const char *view, uint64_t offset, uint8_t *bytes, size_t count, size_t *got);
int undofs_write_file(struct undofs *handle, const char *path, const uint8_t *bytes, size_t count);

/* Names. */
int undofs_mkdir(struct undofs *handle, const char *path);
int undofs_rmdir(struct undofs *handle, const char *path);
int undofs_unlink(struct undofs *handle, const char *path);
int undofs_rename(struct undofs *handle, const char *old_path, const char *new_path);
struct undofs_stat {
    int is_directory;
    uint64_t length; /* bytes of a file, or entries of a directory */
};
int undofs_stat(struct undofs *handle, const char *path, const char *view, struct undofs_stat *found);
/* Calls `each` for the entries of a directory, in byte order; it does not use the handle. */
int undofs_list(struct undofs *handle, const char *path, const char *view, void (*each)(void *with, const char *name, int is_directory), void *with);

/* Versions. */
int undofs_sync(struct undofs *handle);
int undofs_begin(struct undofs *handle);
int undofs_end_group(struct undofs *handle);
int undofs_abandon(struct undofs *handle);
int undofs_undo(struct undofs *handle);
int undofs_redo(struct undofs *handle);
int undofs_goto(struct undofs *handle, uint64_t serial);
int undofs_checkpoint(struct undofs *handle, const char *name);
int undofs_rmcheckpoint(struct undofs *handle, const char *name);
int undofs_rollback(struct undofs *handle, const char *name);
int undofs_forget(struct undofs *handle, uint64_t count);
int undofs_restart(struct undofs *handle);
/* `*more` tells whether the pass goes on. */
int undofs_reclaim(struct undofs *handle, uint32_t budget, int *more);
struct undofs_space {
    uint64_t data, bad, free, anchors; /* blocks */
};
int undofs_df(struct undofs *handle, struct undofs_space *space);
/* The reply to `log`, which stands until the next call. */
int undofs_log(struct undofs *handle, const char **reply);

/* ---- lines, for who writes many at once ---- */

/* Lines that go to the child together. Begin with zeroes; `failed` is set once memory is not had. */
struct undofs_lines {
    char *text;
    size_t length, room;
    int failed;
};
void undofs_put_text(struct undofs_lines *lines, const char *text);
void undofs_put_number(struct undofs_lines *lines, uint64_t number);
/* A path or a name with `%` and two digits where that is wanted; "-" for one of no bytes. */
void undofs_put_word(struct undofs_lines *lines, const char *word);
/* Bytes of a file, at the end of a line. */
void undofs_put_data(struct undofs_lines *lines, const uint8_t *bytes, size_t count);
/* How many bytes of a file a `pwrite` has at most: 32,748 over a child, where a node of a block of 128 KiB has four times as many;
 * with no child 262,144, which is more than a node has. */
size_t undofs_most_data(void);
/* How many bytes of lines so many bytes of files take. */
size_t undofs_spelled(size_t count);
/* Whether so many bytes of a file fit in a line beside so many bytes of words. */
int undofs_fits(size_t words, size_t count);
void undofs_put_end(struct undofs_lines *lines);
/* Gives the lines, with orders carried out meanwhile, and keeps their replies: the first refusal among them, or 0. */
int undofs_exchange(struct undofs *handle, const struct undofs_lines *lines);
/* The reply to line `index` of the last exchange, counted from 0, without its LF; empty where there is none. It
 * may be written to, and stands until the next call. */
char *undofs_reply(struct undofs *handle, size_t index);
/* The bytes of a reply `data`, up to `count` of them. With no child such a reply shows them to nothing else. */
size_t undofs_take_data(const char *reply, uint8_t *bytes, size_t count);
/* Whether two replies are the same, bytes of files too. */
int undofs_is_same_reply(const char *one, const char *other);
/* Puts each `%` and two digits of a name back into its byte, in place. */
void undofs_take_word(char *word);

#endif
