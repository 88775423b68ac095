/* The table of times by itself: what each version shows, what it changed, and that it does not grow without end. The status is 0 where all
 * was right. */
#define _GNU_SOURCE
#include "../times.h"
#include <stdio.h>
#include <stdlib.h>
#include <string.h>

static int wrong;

static void want(long found, long wanted, const char *what) {
    if (found == wanted) return;
    printf("%s: %ld in place of %ld\n", what, found, wanted);
    wrong = 1;
}

static void set(const char *path, uint64_t serial, long seconds) { time_set(path, serial, (struct timespec){seconds, 0}); }
static long shown(const char *path, uint64_t serial) { return (long)time_of(path, serial).tv_sec; }

static void follow_versions(void) {
    long born = shown("/none", 1);
    set("/a", 2, 100);
    set("/d/b", 2, 200);
    set("/a", 3, 101);
    times_checkpoint("x", 3);
    want(shown("/a", 1), born, "before it was made");
    want(shown("/a", 2), 100, "in version 2");
    want(shown("/a", 9), 101, "later");
    times_moved("/d", "/e", 4, 1);
    want(shown("/e/b", 4), 200, "below what moved");
    want(shown("/d/b", 4), born, "where it was");
    want(shown("/d/b", 3), 200, "where it was, before");
    set("/a", 5, 102); /* a group, of which nothing is made */
    times_dropped(5);
    want(shown("/a", 5), 101, "after a group was given up");
    set("/a", 5, 103); /* one that changed nothing but this time */
    times_belong(5, 4);
    want(shown("/a", 4), 103, "a time that was set alone");
    set("/a", 6, 104); /* two undos, and then a change */
    times_discarded(2, 6);
    want(shown("/a", 5), 100, "after versions were discarded");
    want(shown("/a", 6), 104, "in the version that came then");
    times_rollback("x", 6, 7);
    want(shown("/a", 7), 101, "after a rollback");
    want(shown("/d/b", 7), 200, "below, after a rollback");
}

static int runs(const char *path, uint64_t serial) { return shown_at(path, serial).is_executable; }

/* The flags of the stamp of a path for a serial; -1 for none. */
struct asked {
    const char *path;
    uint64_t serial;
    int flags;
};

static void look_at_stamps(void *with, const char *path, const struct stamp *versions, const struct stamp *checkpoints) {
    struct asked *a = with;
    (void)checkpoints;
    for (const struct stamp *s = versions; s != NULL; s = s->older) {
        if (strcmp(path, a->path) == 0 && s->serial == a->serial) a->flags = (int)s->flags;
    }
}

static long flags_of(const char *path, uint64_t serial) {
    struct asked a = {path, serial, -1};
    times_walk(look_at_stamps, &a);
    return a.flags;
}

static void keep_modes(void) {
    times_clear();
    want(runs("/old", 3), 1, "of which nothing is known");
    time_made("/a", 2, 0);
    time_written("/a", 3);
    want(runs("/a", 3), 0, "made with no exec bit, and written");
    mode_set("/a", 4, 1);
    want(runs("/a", 4), 1, "set");
    want(runs("/a", 3), 0, "in the version before");
    set("/a", 4, 44);
    want(runs("/a", 4), 1, "with a time that was set");
    times_checkpoint("x", 3);
    want(shown_in("/a", "x").is_executable, 0, "in a checkpoint");
    want(shown_in("/a", "none").is_executable, 1, "in one that is not there");
    times_moved("/a", "/b", 5, 0);
    want(runs("/b", 5), 1, "moved");
    want(shown("/b", 5), 44, "its time");
    times_rollback("x", 5, 6);
    want(runs("/a", 6), 0, "after a rollback");
    mode_set("/old", 6, 0);
    want(shown("/old", 6), (long)times_born().tv_sec, "a mode alone has no time");
    mode_set("/a", 7, 1); /* a group of which nothing is made */
    times_belong(7, 6);
    want(runs("/a", 6), 1, "a mode that was set alone");
    time_gone("/a", 8);
    time_written("/a", 8);
    want(runs("/a", 8), 1, "made anew, with no mode told");
    times_rmcheckpoint("x");
    want(shown_in("/a", "x").is_executable, 1, "a checkpoint that is removed");
}

static void tell_changes(void) {
    times_clear();
    time_made("/d/a", 2, 0);
    time_touch_folder("/d/a", 2);
    want(flags_of("/d/a", 2) & (STAMP_MADE | STAMP_CHANGED), STAMP_MADE | STAMP_CHANGED, "made");
    want(flags_of("/d", 2) & STAMP_CHANGED, 0, "its folder");
    set("/d/a", 3, 5);
    mode_set("/d/a", 3, 1);
    want(flags_of("/d/a", 3) & STAMP_CHANGED, 0, "a time and a mode alone");
    time_gone("/d/a", 4);
    time_made("/d/a", 4, 0);
    want(flags_of("/d/a", 4) & (STAMP_MADE | STAMP_CHANGED), STAMP_CHANGED, "removed and made again");
    time_made("/lock", 5, 0);
    times_moved("/lock", "/d/a", 5, 0);
    want(flags_of("/lock", 5) & (STAMP_MADE | STAMP_GONE), STAMP_MADE | STAMP_GONE, "made and gone in one version");
    times_moved("/d", "/e", 6, 1);
    want(flags_of("/e", 6) & STAMP_CHANGED, STAMP_CHANGED, "a folder that moved");
    want(flags_of("/e/a", 6) & STAMP_CHANGED, 0, "below it");
}

static void give_another_serial(void) {
    times_clear();
    time_made("/a", 2, 0);
    time_made("/b", 3, 0);
    time_gone("/a", 3);
    times_belong(3, 4);
    want(flags_of("/b", 4), STAMP_MADE | STAMP_CHANGED, "made in a group of a later serial");
    want(flags_of("/a", 4) & STAMP_GONE, STAMP_GONE, "removed in it");
    want(flags_of("/b", 3), -1, "its serial before");
    time_written("/a", 5);
    time_gone("/lock", 5);
    times_belong(5, 4);
    want(flags_of("/lock", 4), -1, "removed in a group of which nothing was made");
}

static int is_even(uint64_t serial, const void *with) {
    (void)with;
    return serial % 2 == 0;
}

static void know_what_is_there(void) {
    times_clear();
    for (uint64_t serial = 1; serial <= 8; serial++) set("/a", serial, (long)serial);
    set("/b", 3, 30);
    times_confined(3, is_even, NULL);
    want(shown("/a", 3), 3, "at the first that is kept");
    want(shown("/a", 5), 4, "one that is not there");
    times_pruned(4);
    want(shown("/b", 4), 30, "one that is not changed since");
    times_unknown_from(7);
    want(shown("/a", 6), 6, "before versions of which nothing is known");
    want(shown("/a", 7), (long)times_born().tv_sec, "in them");
    want(runs("/b", 7), 1, "a mode in them");
    mode_set("/b", 7, 0);
    want(shown("/b", 7), (long)times_born().tv_sec, "a mode that is set there has no old time");
    times_leapt();
    want(time_of("/none", 7).tv_nsec - times_born().tv_nsec == 1 || times_born().tv_nsec == 999999999, 1, "after a leap");
    times_clear();
    want((long)times_count(), 0, "after a clear");
}

static void do_not_grow(void) {
    char path[64];
    size_t most = 0;
    for (uint64_t serial = 10; serial < 200000; serial++) {
        snprintf(path, sizeof path, "/t%llu", (unsigned long long)serial);
        time_touch(path, serial);
        time_gone(path, serial + 1);
        set("/kept", serial, (long)serial);
        times_kept(serial > 128 ? serial - 128 : 1);
        if (times_count() > most) most = times_count();
    }
    want(most < 10000, 1, "no more than 10,000 times");
    want(shown("/kept", 199950), 199950, "a time that is kept");
}

int main(void) {
    times_start();
    follow_versions();
    keep_modes();
    tell_changes();
    give_another_serial();
    know_what_is_there();
    do_not_grow();
    times_clear();
    return wrong;
}
