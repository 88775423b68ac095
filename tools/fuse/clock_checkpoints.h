/* Checkpoints by the clock: one at the end of each period in which a version was made, thinned as auto_checkpoints.h tells. */
#ifndef CLOCK_CHECKPOINTS_H
#define CLOCK_CHECKPOINTS_H

#include <stdint.h>
#include <time.h>

/* Begins with the versions as saves.h has them; a period of 0 seconds is for none. */
void clock_checkpoints_start(int64_t seconds);
/* A version was made, by its last change. */
void clock_checkpoints_note(time_t made);
/* Outside a group: makes one where it is due. In how many milliseconds one may be; -1 for never. */
int clock_checkpoints_due(void);
/* Outside a group, on a full flash: where versions before the newest eight do not leave so many blocks free, these are forgotten, and then
 * the oldest of the checkpoints are removed, one by one until so many are. 0 where nothing was let go. */
int clock_checkpoints_make_room(uint64_t blocks);

#endif
