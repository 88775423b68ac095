/* The names of checkpoints that the daemon makes by the clock, and which of them are kept. */
#ifndef AUTO_CHECKPOINTS_H
#define AUTO_CHECKPOINTS_H

#include "time_words.h"
#include <stddef.h>
#include <stdint.h>

enum {
    AUTO_MOST = 12, /* of the 16 names of a file system so many are the daemon's at most */
    AUTO_NAME = TIME_TEXT + 5,
};

/* Whether a name is one of the daemon's: it begins with "auto-". */
int is_auto_name(const char *name);
/* "auto-2026-11-30T14:30:00", in local time. */
void put_auto_name(char name[AUTO_NAME], time_t time);
/* The time of such a name. 0 where it is none. */
int take_auto_name(const char *name, time_t *time);
/* The number of the period that a time is in, counted from midnight of local time. */
int64_t period_of(time_t time, int64_t seconds);
/* Tells for each of some times, the oldest first, whether its checkpoint is kept: the newest four, the first one in each of the newest four
 * hours in which there is one, and the first one in each of the newest four such days. */
void thin_checkpoints(const time_t *times, size_t count, unsigned char *are_kept);

#endif
