#define _GNU_SOURCE
#include "version_times.h"
#include "clock_checkpoints.h"
#include "saves.h"
#include "time_words.h"
#include "timeline.h"
#include "times.h"
#include "times_file.h"
#include <stdio.h>
#include <stdlib.h>
#include <string.h>

enum { MOST_VERSIONS = 128, ONCE_IN = 5 };

/* Of the file: whose it is, what was known when it was written last, and when that was. */
static struct times_head head;
static uint64_t written_changes;
static double written_at;

static uint64_t all_changes(void) { return times_changes() + timeline_changes(); }

/* ---- a reply to `log` ---- */

struct versions {
    uint64_t serials[MOST_VERSIONS];
    size_t count;
};

static struct versions versions_in(const char *log) {
    struct versions found = {.count = 0};
    const char *at = strstr(log, " versions ");
    at = at == NULL ? "" : at + strlen(" versions ");
    while ((*at == '*' || (*at >= '0' && *at <= '9')) && found.count < MOST_VERSIONS) {
        char *end;
        found.serials[found.count++] = strtoull(*at == '*' ? at + 1 : at, &end, 10);
        at = *end == ' ' ? end + 1 : end;
    }
    return found;
}

/* The place of a serial; `count` where it is not among them. */
static size_t place_of_serial(const struct versions *all, uint64_t serial) {
    size_t place = 0;
    while (place < all->count && all->serials[place] != serial) place++;
    return place;
}

static int is_version(uint64_t serial, const void *with) {
    const struct versions *all = with;
    return place_of_serial(all, serial) < all->count;
}

/* Whether a checkpoint is there: one that was made, or its removal, may be younger than the file of times. */
static int is_checkpoint(const char *log, const char *name) {
    const char *at = strstr(log, " checkpoints");
    char *names = at == NULL ? NULL : strdup(at + strlen(" checkpoints")), *rest = names, *word;
    int is_found = 0;
    while (!is_found && (word = strsep(&rest, " ")) != NULL) {
        undofs_take_word(word);
        is_found = strcmp(word, name) == 0;
    }
    free(names);
    return is_found;
}

/* ---- the start ---- */

static void drop_checkpoints(const char *log) {
    struct timespec made;
    for (unsigned place = 0; place < MOST_CHECKPOINTS; place++) {
        const char *name = checkpoint_at(place, &made);
        if (name != NULL && !is_checkpoint(log, name)) times_rmcheckpoint(name);
    }
}

/* The file may be older than the part: of the versions since nothing is known, nor what was present since it was written. */
static void confine(const struct times_head *found, const char *log) {
    struct versions all = versions_in(log);
    struct timespec after_all = {INT64_MAX, 0};
    size_t place = 0;
    times_confined(saves.first, is_version, &all);
    while (place < all.count && all.serials[place] < found->next) place++;
    if (place < all.count) times_unknown_from(all.serials[place]);
    drop_checkpoints(log);
    if (found->next == saves.next && timeline_present_at(after_all) == saves.present) return;
    timeline_unknown(found->written);
    timeline_leapt(saves.present, times_born());
}

void version_times_start(const uint8_t identity[IDENTITY], int is_new) {
    const char *log;
    struct times_head found = {.next = saves.next};
    timeline_clear();
    memcpy(head.identity, identity, IDENTITY);
    memcpy(found.identity, identity, IDENTITY);
    if (is_new) times_file_set_aside("is of a file system that was here before");
    if (is_new) {
        timeline_made(saves.present, times_born());
        time_set("/", saves.present, times_born());
    } else if (times_file_read(&found) && undofs_log(saves.child, &log) == 0) {
        confine(&found, log);
        written_changes = all_changes();
    } else {
        timeline_leapt(saves.present, times_born());
    }
}

/* ---- versions that are made and left ---- */

/* The time of the last change, by the clock of the day. */
static struct timespec change_time(void) {
    struct timespec time;
    clock_gettime(CLOCK_REALTIME, &time);
    double passed = saves.changed_at == 0 ? 0 : seconds_now() - saves.changed_at;
    int64_t nanoseconds = (int64_t)time.tv_sec * 1000000000 + time.tv_nsec - (int64_t)(passed * 1e9);
    return (struct timespec){(time_t)(nanoseconds / 1000000000), (long)(nanoseconds % 1000000000)};
}

void version_times_follow(uint64_t present_before, uint64_t next_before) {
    struct timespec now;
    clock_gettime(CLOCK_REALTIME, &now);
    if (saves.next > next_before) {
        now = change_time();
        timeline_made(saves.present, now);
        clock_checkpoints_note(now.tv_sec);
    } else if (saves.present != present_before) {
        timeline_leapt(saves.present, now);
    }
}

uint64_t version_present_at(struct timespec time) {
    const char *log;
    struct timespec now;
    clock_gettime(CLOCK_REALTIME, &now);
    if (time.tv_sec > now.tv_sec || undofs_log(saves.child, &log) != 0) return 0;
    struct versions all = versions_in(log);
    uint64_t serial = timeline_present_at(time);
    return is_version(serial, &all) ? serial : 0;
}

/* ---- the file ---- */

static int is_changed(void) { return times_file_is_named() && all_changes() != written_changes; }

static int is_due(void) { return is_changed() && (written_at == 0 || seconds_now() - written_at >= (saves.commit != 0 ? saves.commit : ONCE_IN)); }

/* One that cannot be written is tried again after another change. */
void version_times_synced(int is_at_once) {
    if (!is_changed() || saves.in_group || saves.unsynced_since != 0 || !(is_at_once || is_due())) return;
    times_pruned(saves.first);
    head.next = saves.next;
    clock_gettime(CLOCK_REALTIME, &head.written);
    (void)times_file_write(&head);
    written_changes = all_changes();
    written_at = seconds_now();
}

int version_times_are_due(void) {
    if (saves.commit != 0) version_times_synced(0);
    return saves.commit != 0 && is_changed();
}

/* ---- the listing ---- */

struct counts {
    struct versions all;
    size_t paths[MOST_VERSIONS + 1]; /* the last one is for versions that are not there */
};

/* What a version made and removed again counts for nothing. */
static void count_path(void *with, const char *path, const struct stamp *versions, const struct stamp *checkpoints) {
    struct counts *c = with;
    (void)path;
    (void)checkpoints;
    for (const struct stamp *s = versions; s != NULL; s = s->older) {
        int is_passing = (s->flags & STAMP_MADE) != 0 && (s->flags & STAMP_GONE) != 0;
        if ((s->flags & STAMP_CHANGED) != 0 && !is_passing) c->paths[place_of_serial(&c->all, s->serial)]++;
    }
}

static int print_version(FILE *to, uint64_t serial, size_t paths) {
    char text[TIME_TEXT];
    struct timespec made;
    const char *star = serial == saves.present ? "*" : "";
    if (!timeline_made_at(serial, &made)) return fprintf(to, "%s@%llu -\n", star, (unsigned long long)serial);
    put_clock_time(text, made.tv_sec);
    return fprintf(to, "%s@%llu %s %zu paths\n", star, (unsigned long long)serial, text, paths);
}

char *version_listing(const char *log) {
    struct counts *c = calloc(1, sizeof *c);
    char *text = NULL;
    size_t length;
    FILE *to = c == NULL ? NULL : open_memstream(&text, &length);
    if (to != NULL) {
        c->all = versions_in(log);
        times_walk(count_path, c);
        for (size_t i = c->all.count; i > 0; i--) (void)print_version(to, c->all.serials[i - 1], c->paths[i - 1]);
        if (fclose(to) != 0) {
            free(text);
            text = NULL;
        }
    }
    free(c);
    return text;
}
