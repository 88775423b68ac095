/* A driver over a flat file in place, in the layout of docs/format.md. */
#ifndef FLAT_FILE_H
#define FLAT_FILE_H

#include "undofs_client.h"

struct flat_file {
    struct undofs_sizes sizes;
    int descriptor;
    int is_new; /* it holds no file system yet: start with a history */
};

/* Opens a file and claims it, waiting at most ten seconds for who has it; after one of these `tell_in_use` is called once, which
 * may be null. A file that is missing or empty is made with `sizes`, all erased, with all its room taken and its folder synced. 0, or
 * an errno: EBUSY where it is in use, EINVAL where it is no such file, ENOSPC where the disk has no room for it; one that could not be
 * made is removed. */
int flat_file_open(struct flat_file *file, const char *name, const struct undofs_sizes *sizes, void (*tell_in_use)(void));
void flat_file_close(struct flat_file *file);
/* What tells this part from others: 16 random bytes that stand in its head. It is given one where it has none, or where it is to have a
 * new one. 0, or an errno. */
enum { FLAT_FILE_IDENTITY = 16 };
int flat_file_identity(struct flat_file *file, int is_new, uint8_t identity[FLAT_FILE_IDENTITY]);
/* The driver of an open file, which has to stay where it is. */
struct undofs_driver flat_file_driver(struct flat_file *file);

#endif
