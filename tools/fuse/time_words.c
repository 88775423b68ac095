#define _GNU_SOURCE
#include "time_words.h"
#include <stdio.h>
#include <string.h>

enum { MOST_DIGITS = 8, YEAR = 1900 };

/* A number of so many digits, or of fewer where it may be short; what follows it, or null. */
static const char *take_digits(const char *text, size_t least, size_t most, int *number) {
    size_t digits = strspn(text, "0123456789");
    if (digits < least || digits > most) return NULL;
    *number = 0;
    for (size_t i = 0; i < digits; i++) *number = 10 * *number + (text[i] - '0');
    return text + digits;
}

int take_duration(const char *text, int64_t *seconds) {
    static const char units[] = "smhd";
    static const int64_t lengths[] = {1, 60, 3600, 86400};
    int number;
    const char *unit = take_digits(text, 1, MOST_DIGITS, &number);
    if (unit == NULL || number == 0 || *unit == 0 || unit[1] != 0) return 0;
    const char *found = strchr(units, *unit);
    if (found == NULL) return 0;
    *seconds = number * lengths[found - units];
    return 1;
}

/* "14:30" or "14:30:07", and nothing after it. */
static int take_time_of_day(const char *text, struct tm *parts) {
    text = take_digits(text, 1, 2, &parts->tm_hour);
    if (text == NULL || *text != ':') return 0;
    text = take_digits(text + 1, 2, 2, &parts->tm_min);
    if (text != NULL && *text == ':') text = take_digits(text + 1, 2, 2, &parts->tm_sec);
    return text != NULL && *text == 0 && parts->tm_hour < 24 && parts->tm_min < 60 && parts->tm_sec < 60;
}

/* "2026-11-29T"; what follows it, or null. */
static const char *take_date(const char *text, struct tm *parts) {
    text = take_digits(text, 4, 4, &parts->tm_year);
    if (text == NULL || *text != '-') return NULL;
    text = take_digits(text + 1, 2, 2, &parts->tm_mon);
    if (text == NULL || *text != '-') return NULL;
    text = take_digits(text + 1, 2, 2, &parts->tm_mday);
    if (text == NULL || *text != 'T') return NULL;
    parts->tm_year -= YEAR;
    parts->tm_mon--;
    return text + 1;
}

/* The time of its parts. 0 where the day is none. An hour that the clock leaves out is one beside it. */
static int time_of_parts(struct tm parts, time_t *time) {
    struct tm given = parts;
    parts.tm_isdst = -1;
    *time = mktime(&parts);
    return *time != (time_t)-1 && parts.tm_mday == given.tm_mday && parts.tm_mon == given.tm_mon && parts.tm_year == given.tm_year;
}

int take_clock_time(const char *text, time_t now, time_t *time) {
    struct tm parts = {0};
    const char *rest = take_date(text, &parts);
    if (rest != NULL) return take_time_of_day(rest, &parts) && time_of_parts(parts, time);
    struct tm today;
    if (localtime_r(&now, &today) == NULL) return 0;
    parts = (struct tm){.tm_year = today.tm_year, .tm_mon = today.tm_mon, .tm_mday = today.tm_mday};
    if (!take_time_of_day(text, &parts) || !time_of_parts(parts, time)) return 0;
    if (*time <= now) return 1;
    parts.tm_mday--; /* it was yesterday */
    parts.tm_isdst = -1;
    *time = mktime(&parts);
    return *time != (time_t)-1;
}

void put_clock_time(char text[TIME_TEXT], time_t time) {
    struct tm parts;
    if (localtime_r(&time, &parts) == NULL || strftime(text, TIME_TEXT, "%Y-%m-%dT%H:%M:%S", &parts) == 0) strcpy(text, "-");
}
