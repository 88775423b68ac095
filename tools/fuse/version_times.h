/* The times of the versions that are there: which was made when and what it changed, over mounts too. */
#ifndef VERSION_TIMES_H
#define VERSION_TIMES_H

#include "times_bytes.h"

/* Begins with the versions as saves.h has them. What the file of times (times_file.h) tells of them is read, where it is named; of a
 * file system that was made now the first version has the time of the mount. An identity of zeroes is that of a part that has none. */
void version_times_start(const uint8_t identity[IDENTITY], int is_new);
/* The present version or the next one is another than before. */
void version_times_follow(uint64_t present_before, uint64_t next_before);
/* All that is known is on the part: the file is written, where that is due, or where it has to be at once. */
void version_times_synced(int is_at_once);
/* Whether the file has to be written some time. It is where it is due and nothing is to be synced. */
int version_times_are_due(void);
/* The serial of the version that was present at a time; 0 where that is not known, or the version is not kept. */
uint64_t version_present_at(struct timespec time);
/* A line for each version of a reply to `log`, the newest first: when it was made and how many paths it changed. To be freed; null
 * where there is no memory. */
char *version_listing(const char *log);

#endif
