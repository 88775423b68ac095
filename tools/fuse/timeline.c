#include "timeline.h"
#include <string.h>

enum { MOST = 4096, LET_GO = 1024 };

static struct moment moments[MOST];
static size_t count;
static uint64_t changes;

void timeline_clear(void) { count = 0; }

size_t timeline_count(void) { return count; }

uint64_t timeline_changes(void) { return changes; }

const struct moment *timeline_moment(size_t index) { return &moments[index]; }

static void add(struct moment moment) {
    if (count == MOST) {
        count -= LET_GO;
        memmove(moments, moments + LET_GO, count * sizeof *moments);
    }
    moments[count++] = moment;
    changes++;
}

void timeline_made(uint64_t serial, struct timespec time) { add((struct moment){time, serial, 1}); }
void timeline_leapt(uint64_t serial, struct timespec time) { add((struct moment){time, serial, 0}); }
void timeline_unknown(struct timespec time) { add((struct moment){time, 0, 0}); }

static int is_after(struct timespec a, struct timespec b) { return a.tv_sec != b.tv_sec ? a.tv_sec > b.tv_sec : a.tv_nsec > b.tv_nsec; }

/* The clock may have been set back: what came last counts. */
uint64_t timeline_present_at(struct timespec time) {
    size_t i = count;
    while (i > 0 && is_after(moments[i - 1].time, time)) i--;
    return i > 0 ? moments[i - 1].serial : 0;
}

int timeline_made_at(uint64_t serial, struct timespec *time) {
    size_t i = count;
    while (i > 0 && !(moments[i - 1].is_made && moments[i - 1].serial == serial)) i--;
    if (i > 0) *time = moments[i - 1].time;
    return i > 0;
}
