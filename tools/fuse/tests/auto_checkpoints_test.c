/* Which checkpoints by the clock are kept, and their names. The status is 0 where all was right. */
#define _GNU_SOURCE
#include "../auto_checkpoints.h"
#include <stdio.h>
#include <stdlib.h>
#include <string.h>

enum { MOST = 16, QUARTER = 900, HOUR = 3600, DAY = 86400, START = 1796000400 };

static int wrong;

static void want(long long found, long long wanted, const char *what) {
    if (found == wanted) return;
    printf("%s: %lld in place of %lld\n", what, found, wanted);
    wrong = 1;
}

static time_t kept[MOST + 1];
static size_t count;

/* One is made, and those that are not kept are removed. */
static void make(time_t time) {
    unsigned char are_kept[MOST + 1];
    size_t left = 0;
    kept[count++] = time;
    thin_checkpoints(kept, count, are_kept);
    for (size_t i = 0; i < count; i++) {
        if (are_kept[i]) kept[left++] = kept[i];
    }
    count = left;
}

/* Whether one of a period is kept, so many periods before a time. */
static int has_one(time_t time, int64_t seconds, int before) {
    int64_t wanted = period_of(time, seconds) - before;
    for (size_t i = 0; i < count; i++) {
        if (period_of(kept[i], seconds) == wanted) return 1;
    }
    return 0;
}

static void thin_days_of_work(void) {
    count = 0;
    for (time_t time = START; time < START + 40 * DAY; time += QUARTER) {
        make(time);
        want(count <= AUTO_MOST, 1, "no more than 12");
        want(kept[count - 1], time, "the newest");
        for (int i = 0; i < 4 && time - START >= 10 * DAY; i++) {
            want(has_one(time, QUARTER, i), 1, "one in each quarter");
            want(has_one(time, HOUR, i), 1, "one in each hour");
            want(has_one(time, DAY, i), 1, "one on each day");
        }
    }
}

/* Eight hours of work on each second day: the days before are there, whatever hours are between. */
static void thin_days_with_gaps(void) {
    count = 0;
    for (int day = 0; day < 30; day += 2) {
        for (int hour = 0; hour < 8; hour++) make(START + day * DAY + hour * HOUR);
    }
    time_t last = START + 28 * DAY + 7 * HOUR;
    want(count <= AUTO_MOST, 1, "no more than 12");
    for (int i = 0; i < 4; i++) {
        want(has_one(last, DAY, 2 * i), 1, "a day of work");
        want(has_one(last, HOUR, i), 1, "an hour of work");
    }
    want(has_one(last, DAY, 8), 0, "one before the newest four");
}

/* The first of an hour is kept, as long as its hour is. */
static void keep_the_first(void) {
    static const time_t minutes[] = {0, 10, 20, 30, 40, 50, 61, 71, 81, 91};
    count = 0;
    for (size_t i = 0; i < sizeof minutes / sizeof *minutes; i++) make(START + minutes[i] * 60);
    want(count, 5, "the first of an hour and the newest four");
    want(kept[0], START, "the first of an hour");
}

static void spell_names(void) {
    static const char *const none[] = {"auto-", "auto-x", "auto-2026-11-30", "auto-2026-11-30T14:30", "Auto-2026-11-30T14:30:00", "auto-14:30:00", "auto-2026-02-30T14:30:00", "before"};
    char name[AUTO_NAME];
    time_t time;
    put_auto_name(name, START);
    want(strcmp(name, "auto-2026-11-30T01:00:00"), 0, name);
    want(take_auto_name(name, &time), 1, name);
    want(time, START, "its time");
    want(strlen(name) <= 31, 1, "its length");
    for (size_t i = 0; i < sizeof none / sizeof *none; i++) want(take_auto_name(none[i], &time), 0, none[i]);
    want(is_auto_name("auto-x"), 1, "a name that no person gives");
    want(is_auto_name("automatic"), 0, "a name of a person");
}

int main(void) {
    setenv("TZ", "UTC0", 1);
    tzset();
    thin_days_of_work();
    thin_days_with_gaps();
    keep_the_first();
    spell_names();
    setenv("TZ", "IST-5:30", 1); /* hours begin half an hour apart from those of UTC */
    tzset();
    thin_days_of_work();
    want(period_of(1796002200, HOUR) - period_of(1796002199, HOUR), 1, "an hour of local time");
    return wrong;
}
