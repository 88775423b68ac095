/* The file in which the times of a part stand beside it, so that they outlive the mount. It may be lost: then versions have no
 * times, and nothing else is missing. It is written whole, under another name that then takes the place of the old one. */
#ifndef TIMES_FILE_H
#define TIMES_FILE_H

#include "times_bytes.h"

/* Where the file stands: PART.times, or that name in `folder`, where one is given. Until this is called there is none. An errno, or 0. */
int times_file_name(const char *part, const char *folder);
int times_file_is_named(void);
/* Reads it (take_times). One that is there and not right is moved aside, and the log says so. 1 where it was read. */
int times_file_read(struct times_head *part);
/* Moves a file of another file system aside, as of one that `-o format` took the place of. */
void times_file_set_aside(const char *why);
/* Writes what is known now. An errno, or 0; the first that is refused is told. */
int times_file_write(const struct times_head *head);

#endif
