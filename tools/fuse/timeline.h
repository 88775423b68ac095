/* Which version was present when: the moments at which one was made, or the present version became another one. */
#ifndef TIMELINE_H
#define TIMELINE_H

#include <stddef.h>
#include <stdint.h>
#include <time.h>

struct moment {
    struct timespec time;
    uint64_t serial; /* of the version that is present from then on; 0 where that is not known */
    int is_made;     /* it was made then, by its last change */
};

void timeline_clear(void);
/* Moments are told in the order in which they come. The oldest are let go where they are many. */
void timeline_made(uint64_t serial, struct timespec time);
void timeline_leapt(uint64_t serial, struct timespec time);
void timeline_unknown(struct timespec time);
/* The serial of the version that was present at a time; 0 where that is not known. */
uint64_t timeline_present_at(struct timespec time);
/* The time at which a version was made. 0 where it is not known. */
int timeline_made_at(uint64_t serial, struct timespec *time);
/* How many are kept, and how often one was told. */
size_t timeline_count(void);
uint64_t timeline_changes(void);
const struct moment *timeline_moment(size_t index);

#endif
