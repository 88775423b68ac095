/* Files as programs have them open: who is writing, and where. */
#ifndef OPENED_H
#define OPENED_H

#include "folder.h"
#include <stddef.h>
#include <stdint.h>

struct opened {
    struct opened *next;
    int is_unclosed; /* it was written since its last close */
    uint64_t group;  /* the last group in which it was written */
    uint64_t first;  /* the group of its first write since it was opened or closed */
    char *path;      /* in the tree, where it was moved to; null for all that is not in the tree */
    char *text;      /* of .undofs: what it reads as */
};

struct opened *opened_of(const struct fuse_file_info *info);
/* Notes that a file of a path is open, and owns the text. 0, or -ENOMEM. */
int opened_add(struct fuse_file_info *info, const char *path, char *text);
void opened_drop(struct opened *o);
/* It was made or cut, or written, in the open group. */
void opened_note_write(struct opened *o, int is_written);
/* A path moved, with all below it. */
void opened_move(const char *from, const char *to);
/* Whether any file was written in the open group and not closed; and how many of these were first written in it, which are saves that
 * are not done. */
int opened_any_in_group(void);
int opened_unclosed_writers(void);

/* Copies of the paths that are open in the tree; to be freed. */
struct paths {
    char **paths;
    size_t count;
};
struct paths opened_paths(void);
void paths_free(struct paths *paths);

#endif
