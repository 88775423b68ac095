#define _GNU_SOURCE
#include "clock_checkpoints.h"
#include "auto_checkpoints.h"
#include "saves.h"
#include "timeline.h"
#include "times.h"
#include <stdlib.h>
#include <string.h>
#include <syslog.h>

enum { NO_MORE_NAMES = 14, LONGEST_WAIT = 60000, NEWEST = 8, MOST_VERSIONS = 128 };

static int64_t period;  /* seconds; 0 for none */
static time_t changed;  /* by the first version since the last of them; 0 for none */
static struct undofs_lines lines; /* not those of a change, which may wait for room */

/* The daemon's own among the checkpoints, the oldest first. */
struct autos {
    time_t times[MOST_CHECKPOINTS];
    size_t count;
};

static int compare_times(const void *a, const void *b) {
    time_t one = *(const time_t *)a, other = *(const time_t *)b;
    return one < other ? -1 : one > other;
}

static struct autos autos_there(void) {
    struct autos found = {.count = 0};
    const char *log;
    const char *at = undofs_log(saves.child, &log) == 0 ? strstr(log, " checkpoints") : NULL;
    char *names = at == NULL ? NULL : strdup(at), *rest = names, *word;
    while (found.count < MOST_CHECKPOINTS && (word = strsep(&rest, " ")) != NULL) {
        undofs_take_word(word);
        found.count += take_auto_name(word, &found.times[found.count]) ? 1 : 0;
    }
    free(names);
    qsort(found.times, found.count, sizeof *found.times, compare_times);
    return found;
}

/* Gives a line of such a name, and has the times follow. */
static int give(const char *verb, time_t time) {
    char name[AUTO_NAME];
    put_auto_name(name, time);
    lines.length = 0;
    put_path_line(&lines, verb, name, "");
    int why = saves_ask(&lines);
    if (why != 0) return why;
    if (strcmp(verb, "checkpoint") == 0) times_checkpoint(name, saves.present);
    else times_rmcheckpoint(name);
    saves_note_change();
    return 0;
}

/* ---- a full flash ---- */

/* How many versions are before the newest eight and before the present one, and how many blocks they free. */
struct older {
    unsigned count;
    uint64_t frees;
};

static struct older older_versions(void) {
    uint64_t frees[MOST_VERSIONS];
    unsigned before = 0, all = 0;
    lines.length = 0;
    undofs_put_text(&lines, "space\n");
    if (saves_ask(&lines) != 0) return (struct older){0, 0};
    char *rest = undofs_reply(saves.child, 0), *word;
    while ((word = strsep(&rest, " ")) != NULL) {
        all += *word == '@';
        if (strcmp(word, "frees") == 0 && rest != NULL && before < MOST_VERSIONS) frees[before++] = strtoull(rest, NULL, 10);
    }
    unsigned count = all <= NEWEST ? 0 : all - NEWEST < before ? all - NEWEST : before;
    return (struct older){count, count == 0 ? 0 : frees[count - 1]};
}

static uint64_t free_blocks(void) {
    struct undofs_space space;
    return undofs_df(saves.child, &space) == 0 ? space.free : 0;
}

static int is_oldest_removed(void) {
    struct autos all = autos_there();
    if (all.count == 0 || give("rmcheckpoint", all.times[0]) != 0) return 0;
    syslog(LOG_NOTICE, "the flash is full: the oldest checkpoint by the clock was removed");
    return 1;
}

int clock_checkpoints_make_room(uint64_t blocks) {
    uint64_t free = free_blocks();
    if (free >= blocks || autos_there().count == 0) return 0;
    struct older older = older_versions();
    if (free + older.frees >= blocks) return 0;
    int is_made = older.count > 0 && undofs_forget(saves.child, older.count) == 0;
    while (free_blocks() < blocks && is_oldest_removed()) is_made = 1;
    return is_made;
}

/* ---- by the clock ---- */

static void thin(void) {
    struct autos all = autos_there();
    unsigned char are_kept[MOST_CHECKPOINTS];
    thin_checkpoints(all.times, all.count, are_kept);
    for (size_t i = 0; i < all.count; i++) {
        if (!are_kept[i]) (void)give("rmcheckpoint", all.times[i]);
    }
}

/* One that cannot be made is left out. Where all names are taken the oldest of the daemon's own goes. */
static void make(time_t now) {
    int why = give("checkpoint", now);
    if (why == NO_MORE_NAMES) {
        struct autos all = autos_there();
        why = all.count > 0 ? give("rmcheckpoint", all.times[0]) : why;
        if (why == 0) why = give("checkpoint", now);
    }
    if (why != 0) syslog(LOG_WARNING, "no checkpoint by the clock was made (%d)", why);
    thin();
}

void clock_checkpoints_start(int64_t seconds) {
    struct timespec made;
    period = seconds;
    changed = 0;
    if (period == 0 || !timeline_made_at(saves.present, &made)) return;
    struct autos all = autos_there();
    if (all.count == 0 || all.times[all.count - 1] < made.tv_sec) changed = made.tv_sec;
}

void clock_checkpoints_note(time_t made) {
    if (period != 0 && changed == 0) changed = made;
}

int clock_checkpoints_due(void) {
    if (changed == 0) return -1;
    time_t now = time(NULL);
    if (changed > now) changed = now; /* the clock was set back */
    int64_t left = (period_of(changed, period) + 1) * period - period_of(now, 1);
    if (left > 0) return left * 1000 > LONGEST_WAIT ? LONGEST_WAIT : (int)(left * 1000);
    changed = 0;
    make(now);
    return -1;
}
