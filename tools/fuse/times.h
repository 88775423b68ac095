/* Times and exec bits of files, by path and version, so that undo brings them back with the bytes. A path of which nothing is
 * known has the time of the mount, and may be executed. */
#ifndef TIMES_H
#define TIMES_H

#include <stddef.h>
#include <stdint.h>
#include <time.h>

enum { MOST_CHECKPOINTS = 16 };

enum stamp_flags {
    STAMP_GONE = 1,       /* nothing is known of the path from this version on */
    STAMP_EXECUTABLE = 2, /* the file may be executed */
    STAMP_CHANGED = 4,    /* the version changed the path, and not a time or a mode alone */
    STAMP_MADE = 8,       /* the path was made in this version */
};

/* What a version says of a path: one of its stamps. */
struct stamp {
    struct stamp *older; /* of a lower serial */
    uint64_t serial;     /* or the place of a checkpoint */
    struct timespec time;
    unsigned flags;
};

/* What a path shows. */
struct shown {
    struct timespec time;
    int is_executable;
};

void times_start(void);
/* Forgets all that is known but the time of the mount. */
void times_clear(void);
/* The present version moved to another one: what has the time of the mount has a new one, so that no byte is taken for that of
 * the version before. */
void times_leapt(void);
struct timespec times_born(void);
/* A path in the version of a serial, and in the tree of a checkpoint. */
struct shown shown_at(const char *path, uint64_t serial);
struct shown shown_in(const char *path, const char *checkpoint);
struct timespec time_of(const char *path, uint64_t serial);
/* A time or a mode is set alone. */
void time_set(const char *path, uint64_t serial, struct timespec time);
void time_touch(const char *path, uint64_t serial);
void time_touch_folder(const char *path, uint64_t serial); /* that in which a path stands */
void mode_set(const char *path, uint64_t serial, int is_executable);
/* What the version of a serial, or the group that will be it, did: a path was made, written or removed, or moved with all below
 * it. */
void time_made(const char *path, uint64_t serial, int is_executable);
void time_written(const char *path, uint64_t serial);
void time_gone(const char *path, uint64_t serial);
void times_moved(const char *from, const char *to, uint64_t serial, int is_directory);
/* Nothing was made of the group with this serial: what it did is dropped, or belongs to the version before; or the group has a later
 * serial. */
void times_dropped(uint64_t serial);
void times_belong(uint64_t serial, uint64_t to);
/* Versions after `last` and before `next` are discarded. */
void times_discarded(uint64_t last, uint64_t next);
/* No version before `first` is kept. Times that no version shows are let go now and then, and at once. */
void times_kept(uint64_t first);
void times_pruned(uint64_t first);
/* Of versions from `first` on those that `is_kept` tells are there alone. */
void times_confined(uint64_t first, int (*is_kept)(uint64_t serial, const void *with), const void *with);
/* Nothing is known of the versions from a serial on. */
void times_unknown_from(uint64_t serial);
/* A checkpoint of this name was made of a version, removed, or its tree became the version `serial` after `last`. */
void times_checkpoint(const char *name, uint64_t serial);
void times_rmcheckpoint(const char *name);
void times_rollback(const char *name, uint64_t last, uint64_t serial);
/* When a checkpoint was made; the time of the mount where it is not known. */
struct timespec time_of_checkpoint(const char *name);

/* How many times are kept, and how often one was changed. */
size_t times_count(void);
uint64_t times_changes(void);
/* Calls `each` for each path, with its stamps by serial and those of checkpoints by their places. It changes no time. */
void times_walk(void (*each)(void *with, const char *path, const struct stamp *versions, const struct stamp *checkpoints), void *with);
/* The name of a place, and when it was made; null for none. */
const char *checkpoint_at(unsigned place, struct timespec *made);
/* A stamp as it was read; `is_checkpoint` tells what its number is. */
void stamp_put(const char *path, const struct stamp *found, int is_checkpoint);
void checkpoint_put(unsigned place, const char *name, struct timespec made);

#endif
