/* The times of a part as bytes, as they stand in its file of times. Numbers have the lowest byte first; a time is its seconds
 * (8 bytes) and its nanoseconds (4).
 *
 *   bytes  what
 *   8      UFFSTIME
 *   4      the format, 1
 *   16     the part's identity
 *   8      the serial of the version that is made next
 *   12     when this was written
 *   4      how many moments follow; of each its time, a serial (8) and whether the version was made then (1)
 *   4      how many checkpoints follow; of each its place (1), the length of its name (1), the name and a time
 *   4      how many paths follow; of each its length (2), the path, how many versions (4) and checkpoints (4) say
 *          something of it, and of each of these the serial or the place (8), a time and flags (1)
 *   4      the CRC-32 of all before it */
#ifndef TIMES_BYTES_H
#define TIMES_BYTES_H

#include <stddef.h>
#include <stdint.h>
#include <time.h>

enum { IDENTITY = 16 };

enum times_verdict {
    TIMES_RIGHT,
    TIMES_DAMAGED, /* no such bytes, or not all of them */
    TIMES_LATER,   /* of a later format */
    TIMES_FOREIGN, /* of another part */
    TIMES_NEWER,   /* it tells versions that the part has not */
};

struct times_head {
    uint8_t identity[IDENTITY];
    uint64_t next;
    struct timespec written;
};

/* All that is known (times.h, timeline.h) of versions before `head->next`. To be freed; null where there is no memory. */
uint8_t *put_times(const struct times_head *head, size_t *length);
/* Reads what was written so into the tables, which are empty: that of a part with this identity whose next version is `part->next`.
 * Where it is not right the tables are empty again. `part->written` becomes the time at which it was written. */
enum times_verdict take_times(struct times_head *part, const uint8_t *bytes, size_t length);

#endif
