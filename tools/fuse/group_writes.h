/* What the open group wrote, and the files that it made, kept in memory until the group ends, so that a save is few changes of the file
 * system. Everybody sees it at once: who asks for a name, a length or bytes is answered with it. */
#ifndef GROUP_WRITES_H
#define GROUP_WRITES_H

#include <stddef.h>
#include <stdint.h>

/* So many bytes are kept at most; with 0 each write is given at once. */
void writes_start(size_t most);
/* Keeps bytes of a file in the open group, up to the longest that a file can be: `*kept` tells how many. Gives what is more than may be
 * kept, and all where the flash may have no room for it, so that the file system itself answers. 0, or why nothing was kept. */
int writes_keep(const char *path, uint64_t at, const uint8_t *bytes, size_t count, size_t *kept);
/* Gives what is kept of a path and of all below it; with "/" of all. 0, or a refusal: what was not taken is kept. */
int writes_give(const char *path);
/* A file is to be made. Whether it waits for its bytes, and is made with them: not where it may be refused, as one that is there, or in a
 * folder that is not. Then who makes it asks the file system. */
int writes_make_later(const char *path);
/* Makes what waits at a path and below it, and where the folder of the path may be full all that waits: for who changes names there. 0,
 * or a refusal. */
int writes_make(const char *path);
/* Whether a file waits for its bytes; and the names of those in a folder. */
int writes_is_new(const char *path);
void writes_list_new(const char *folder, void (*each)(void *with, const char *name), void *with);
/* A file that waits is made at another path, in place of what stands there, as one change; `*is_done` tells whether that is enough. 0,
 * or a refusal. */
int writes_make_at(const char *path, const char *to, int *is_done);
/* The file was made, or cut to no bytes: what was kept of it is for nothing. */
void writes_cut(const char *path);
/* What stood at a path, and below it, is there no more; with "/" of all. */
void writes_drop(const char *path);
/* Names changed: a folder may have an entry more. */
void writes_note_names(void);

/* How many blocks the file system takes at most for all that is kept; how many of these are counted twice, since a file is written anew
 * while its nodes of before are in use; whether anything is kept. */
uint64_t writes_blocks(void);
uint64_t writes_twice(void);
int writes_are_kept(void);

/* Whether the length of a file is known with no question; and how long it is then. */
int writes_know_length(const char *path, uint64_t *length);
/* How many of the bytes from `at` on the file system has at most, where that is known; else all that are wanted. */
size_t writes_wanted(const char *path, uint64_t at, size_t wanted);
/* Puts what is kept over `wanted` bytes from `at` on, of which the file system had `had`. How many the file has. */
size_t writes_read(const char *path, uint64_t at, uint8_t *bytes, size_t wanted, size_t had);

#endif
