/* Times and durations as a person writes them. The status is 0 where all was right. */
#define _GNU_SOURCE
#include "../time_words.h"
#include <stdio.h>
#include <stdlib.h>
#include <string.h>

static int wrong;

static void want(long long found, long long wanted, const char *what) {
    if (found == wanted) return;
    printf("%s: %lld in place of %lld\n", what, found, wanted);
    wrong = 1;
}

static void take_durations(void) {
    static const struct {
        const char *text;
        int64_t seconds;
    } right[] = {{"1s", 1}, {"90s", 90}, {"10m", 600}, {"2h", 7200}, {"7d", 604800}, {"99999999d", 8639999913600}};
    static const char *const none[] = {"", "m", "0m", "10", "10 m", "10mm", "-1m", "1.5h", "10w", "999999999s", " 10m", "+1m", "10m "};
    int64_t seconds;
    for (size_t i = 0; i < sizeof right / sizeof *right; i++) {
        want(take_duration(right[i].text, &seconds), 1, right[i].text);
        want(seconds, right[i].seconds, right[i].text);
    }
    for (size_t i = 0; i < sizeof none / sizeof *none; i++) want(take_duration(none[i], &seconds), 0, none[i]);
}

/* The time of a text, seen at another one; -1 where it is none. */
static long long seen_at(const char *text, const char *now_text) {
    time_t now = 0, time = 0;
    want(take_clock_time(now_text, 0, &now), 1, now_text);
    return take_clock_time(text, now, &time) ? (long long)time : -1;
}

static void want_same(const char *text, const char *now, const char *wanted) {
    char found[TIME_TEXT];
    long long time = seen_at(text, now);
    put_clock_time(found, (time_t)time);
    if (time != -1 && strcmp(found, wanted) == 0) return;
    printf("%s at %s: %s in place of %s\n", text, now, time == -1 ? "none" : found, wanted);
    wrong = 1;
}

static void take_clock_times(void) {
    static const char *const none[] = {"",           "14",         "14:3",          "1430",          "24:00", "14:60",      "14:30:60",   "14:30:5",    "14:30 ",     ":30",
                                       "2026-13-01T10:00", "2026-02-29T10:00", "2026-00-10T10:00", "2026-04-31T10:00", "2026-11-29", "2026-11-29 10:00", "26-11-29T10:00", "2026-11-29T", "2026-11-00T10:00", "-1:00"};
    want_same("14:30", "2026-11-30T14:31", "2026-11-30T14:30:00");
    want_same("14:30", "2026-11-30T14:30", "2026-11-30T14:30:00");
    want_same("14:30:07", "2026-11-30T14:30", "2026-11-29T14:30:07");
    want_same("9:05", "2026-11-30T14:30", "2026-11-30T09:05:00");
    want_same("14:31", "2026-03-01T14:30", "2026-02-28T14:31:00");
    want_same("14:31", "2027-01-01T14:30", "2026-12-31T14:31:00");
    want_same("2026-11-29T14:30", "2026-01-01T00:00", "2026-11-29T14:30:00");
    want_same("2028-02-29T23:59:59", "2026-01-01T00:00", "2028-02-29T23:59:59");
    for (size_t i = 0; i < sizeof none / sizeof *none; i++) want(seen_at(none[i], "2026-11-30T14:31"), -1, none[i]);
}

/* Where clocks are set forward and back, in a zone of its own rule. */
static void take_times_of_a_zone(void) {
    setenv("TZ", "CET-1CEST,M3.5.0,M10.5.0/3", 1);
    tzset();
    want(seen_at("2026-03-29T03:30", "2026-03-29T12:00") - seen_at("2026-03-29T01:30", "2026-03-29T12:00"), 3600, "an hour that is left out");
    want(seen_at("2026-03-29T02:30", "2026-03-29T12:00") != -1, 1, "a time in it");
    want_same("13:00", "2026-03-29T12:00", "2026-03-28T13:00:00");
    want_same("13:00", "2026-10-25T12:00", "2026-10-24T13:00:00");
    setenv("TZ", "UTC0", 1);
    tzset();
}

int main(void) {
    setenv("TZ", "UTC0", 1);
    tzset();
    take_durations();
    take_clock_times();
    take_times_of_a_zone();
    want(seen_at("1970-01-02T00:00", "2026-11-30T14:31"), 86400, "seconds");
    return wrong;
}
