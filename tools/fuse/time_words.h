/* Times and durations as a person writes them. */
#ifndef TIME_WORDS_H
#define TIME_WORDS_H

#include <stdint.h>
#include <time.h>

enum { TIME_TEXT = 32 }; /* the most bytes of a time, with its NUL */

/* "90s", "10m", "2h" or "7d", of more than no time: how many seconds it is. 0 where it is none. */
int take_duration(const char *text, int64_t *seconds);
/* "14:30", which is the last one that has passed at `now`, or "2026-11-29T14:30", in local time, each with or without seconds
 * (":07"). 0 where it is none. */
int take_clock_time(const char *text, time_t now, time_t *time);
/* Writes a time as "2026-11-29T14:30:07", in local time. */
void put_clock_time(char text[TIME_TEXT], time_t time);

#endif
