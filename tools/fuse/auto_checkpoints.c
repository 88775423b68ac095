#define _GNU_SOURCE
#include "auto_checkpoints.h"
#include <string.h>

enum { HOUR = 3600, DAY = 86400, OF_EACH = 4 };

static const char beginning[] = "auto-";

int is_auto_name(const char *name) { return strncmp(name, beginning, sizeof beginning - 1) == 0; }

void put_auto_name(char name[AUTO_NAME], time_t time) {
    char text[TIME_TEXT];
    put_clock_time(text, time);
    strcpy(stpcpy(name, beginning), text);
}

int take_auto_name(const char *name, time_t *time) {
    char again[AUTO_NAME];
    if (!is_auto_name(name) || !take_clock_time(name + sizeof beginning - 1, 0, time)) return 0;
    put_auto_name(again, *time);
    return strcmp(again, name) == 0;
}

int64_t period_of(time_t time, int64_t seconds) {
    struct tm parts;
    int64_t local = time;
    if (localtime_r(&time, &parts) != NULL) local += parts.tm_gmtoff;
    return local / seconds;
}

/* Marks the first one of each of the newest four periods. */
static void keep_first(const time_t *times, size_t count, int64_t seconds, unsigned char *are_kept) {
    int kept = 0;
    for (size_t i = count; i > 0 && kept < OF_EACH; i--) {
        int is_first = i == 1 || period_of(times[i - 2], seconds) != period_of(times[i - 1], seconds);
        if (!is_first) continue;
        are_kept[i - 1] = 1;
        kept++;
    }
}

void thin_checkpoints(const time_t *times, size_t count, unsigned char *are_kept) {
    for (size_t i = 0; i < count; i++) are_kept[i] = i + OF_EACH >= count;
    keep_first(times, count, HOUR, are_kept);
    keep_first(times, count, DAY, are_kept);
}
