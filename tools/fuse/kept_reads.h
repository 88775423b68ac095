/* What the file system told of the present tree, kept until it changes: what stands at paths, listings of folders, so that the looks that
 * follow one ask no child, and bytes ahead of a file that is read in turn. */
#ifndef KEPT_READS_H
#define KEPT_READS_H

#include "../c/undofs_client.h"

struct listed {
    char *name;
    struct undofs_stat found;
};

struct listing {
    char *path;
    struct listed *entries; /* in byte order of the names */
    size_t count;
};

/* The tree changes, or another version is the present one: nothing of this is right any more. */
void reads_forget(void);
/* Lists a folder: null where it is refused, and then why. It stands until something is forgotten or listed. */
const struct listing *reads_list(const char *path, int *why);
/* What stands at a path: 0, or a refusal. */
int reads_stat(const char *path, struct undofs_stat *found);
/* Reads bytes of a file. 0, or a refusal. */
int reads_bytes(const char *path, uint64_t at, uint8_t *bytes, size_t wanted, size_t *had);

#endif
