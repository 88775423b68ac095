#define _GNU_SOURCE
#include "saves.h"
#include "clock_checkpoints.h"
#include "group_writes.h"
#include "kept_pages.h"
#include "kept_reads.h"
#include "same_tree.h"
#include "space.h"
#include "times.h"
#include "touched.h"
#include "version_times.h"
#include <errno.h>
#include <stdio.h>
#include <stdlib.h>
#include <string.h>
#include <syslog.h>
#include <time.h>

enum {
    READ_ONLY = 16,
    READ_FAILED = 23,
    IDLE = 1,         /* with no time to settle, a group ends so many seconds after its last change, where no close comes */
    AGAIN = 5,        /* one that is refused its end is tried again after so many */
    LEAST_BYTES = 1 << 20, /* at least lines with so many bytes of files are kept to be sent again, */
    SMALL = 1 << 16,       /* and room of more than so many is given back once the group is over */
};

struct saves saves;
static struct undofs_lines lines, kept; /* kept: what the open group was given, where versions may be forgotten */
static int is_cut;                      /* a group by hand was given more than may be kept: it cannot be sent again */

double seconds_now(void) {
    struct timespec now;
    clock_gettime(CLOCK_MONOTONIC, &now);
    return (double)now.tv_sec + (double)now.tv_nsec / 1e9;
}

int errno_of(int why) {
    static const int numbers[] = {0,      ENOENT, ENOTDIR, EISDIR, EEXIST, ENOTEMPTY, EISDIR,  EINVAL,  ENAMETOOLONG, EFBIG,     EBADF,
                                  EMFILE, EBUSY,  ENOSPC,  ENOSPC, ENOSPC, EROFS,     ENODATA, ENODATA, ENODATA,      ENOENT,    ENOENT,
                                  EOVERFLOW, EIO, EIO,     ENOMEM, EIO,    EIO,       EIO,     EIO,     EINVAL,       EBUSY};
    if (why == UNDOFS_SYNTAX) return -EINVAL;
    if (why == UNDOFS_NO_MEMORY) return -ENOMEM;
    return why >= 0 && (size_t)why < sizeof numbers / sizeof *numbers ? -numbers[why] : -EIO;
}

/* ---- lines ---- */

struct undofs_lines *saves_lines(void) {
    lines.length = 0;
    lines.failed = 0;
    return &lines;
}

void put_path_line(struct undofs_lines *to, const char *verb, const char *path, const char *rest) {
    undofs_put_text(to, verb);
    undofs_put_text(to, " ");
    undofs_put_word(to, path);
    undofs_put_text(to, rest);
    undofs_put_end(to);
}

/* The open group is gone. Where the child is there it mounts what was synced last, which is in its memory, for reading. */
static void fall_back(int why) {
    writes_drop("/");
    reads_forget();
    pages_forget("/");
    saves.in_group = saves.is_held = saves.is_unsynced = 0;
    times_dropped(saves.next);
    times_leapt();
    if (why == UNDOFS_POWERCUT && undofs_restart(saves.child) == 0) (void)saves_look();
}

/* A page that cannot be read refuses what asked for it, and nothing else. It is told once, until it is another one. A child reads all
 * pages at its start. */
static void tell_unread(void) {
    static char told[80];
    const char *message = undofs_message(saves.child);
    if (strcmp(message, told) == 0) return;
    snprintf(told, sizeof told, "%s", message);
    syslog(LOG_WARNING, "%s", message);
}

/* A child that is gone, and power that went, are told once: nothing changes any more until the folder is mounted anew. */
int saves_told(int why) {
    if (why == READ_FAILED) tell_unread();
    if ((why == UNDOFS_GONE || why == UNDOFS_POWERCUT) && !saves.is_failed) {
        saves.is_failed = 1;
        syslog(LOG_ERR, "the part failed, or the file system ended (%d): unmount the folder and mount it again %s", why, undofs_message(saves.child));
        fall_back(why);
    }
    return why;
}

int saves_ask(const struct undofs_lines *asked) { return saves_told(undofs_exchange(saves.child, asked)); }

/* ---- where the versions stand ---- */

int saves_look(void) {
    const char *log;
    uint64_t present = saves.present, next = saves.next;
    int why = undofs_log(saves.child, &log);
    if (why != 0) return saves_told(why);
    const char *versions = strstr(log, " versions "), *star = strchr(log, '*');
    saves.next = strtoull(log + strlen("log next "), NULL, 10);
    if (versions == NULL || star == NULL) return UNDOFS_SYNTAX;
    versions += strlen(" versions ");
    saves.first = strtoull(*versions == '*' ? versions + 1 : versions, NULL, 10);
    saves.present = strtoull(star + 1, NULL, 10);
    version_times_follow(present, next);
    times_kept(saves.first);
    return 0;
}

int saves_start(void) { return saves_look(); }

uint64_t saves_serial(void) { return saves.in_group ? saves.next : saves.present; }

int saves_look_for_version(void) {
    uint64_t present = saves.present, next = saves.next;
    int why = saves_look();
    if (why == 0 && saves.next != next) times_discarded(present, next);
    return why;
}

/* ---- a full flash ---- */

/* The group that was given up cannot be sent again, as where blocks went bad meanwhile. */
static void lose_group(void) {
    syslog(LOG_ERR, "the flash is full: what was changed since the last version is lost");
    (void)save_given_up();
}

/* Gives the group up, makes room, and sends all of it again, so that it stays one version. Then the lines are given, which have to leave
 * room for what they touch; null for lines of what was written before, and had its room then. What the group took before these lines is not
 * free for them: what they lack then is made free beside it in the next step. */
static int give_again(const struct undofs_lines *given, const struct touch *touch) {
    int why = UNDOFS_ENOSPC, is_whole = 1;
    uint64_t lacking = 0;
    reads_forget();
    for (int step = 0; step < SPACE_STEPS && why == UNDOFS_ENOSPC; step++) {
        uint64_t blocks = touched_blocks() + (touch == NULL ? writes_twice() : space_twice(touch));
        if (saves.in_group && undofs_abandon(saves.child) != 0) return UNDOFS_GONE;
        (void)space_is_made(step, blocks, lacking);
        if (saves.in_group && undofs_begin(saves.child) != 0) return UNDOFS_GONE;
        why = saves.in_group && kept.length > 0 ? undofs_exchange(saves.child, &kept) : 0;
        if (why == UNDOFS_GONE || why == UNDOFS_POWERCUT) return why;
        is_whole = why == 0;
        space_may_be_free();
        lacking = is_whole && touch != NULL ? space_lacks(touch) : 0;
        if (is_whole) why = lacking == 0 ? undofs_exchange(saves.child, given) : UNDOFS_ENOSPC;
    }
    if (!is_whole) lose_group();
    return why;
}

static size_t most_bytes(void) { return saves.buffer > LEAST_BYTES ? saves.buffer : LEAST_BYTES; }

static size_t most_lines(void) { return undofs_spelled(most_bytes()); }

static void drop_kept(void) {
    kept.length = 0;
    if (kept.room <= SMALL) return;
    free(kept.text);
    kept = (struct undofs_lines){NULL, 0, 0, 0};
}

/* Keeps lines that were taken. */
static void keep(const struct undofs_lines *given) {
    if (!saves.forgets || !saves.in_group || is_cut) return;
    is_cut = saves.is_held && kept.length + given->length > most_lines();
    if (is_cut) {
        drop_kept();
        return;
    }
    if (kept.room - kept.length < given->length) {
        size_t room = kept.length + given->length + kept.length / 4;
        char *text = realloc(kept.text, room);
        if (text == NULL) abort();
        kept.text = text;
        kept.room = room;
    }
    memcpy(kept.text + kept.length, given->text, given->length);
    kept.length += given->length;
}

static void tell_full(int why) {
    int is_full = why == UNDOFS_ENOSPC;
    if (is_full && !saves.is_full) syslog(LOG_WARNING, "the flash is full: echo 'forgetfree N' > .undofs, or mount without -o keep");
    saves.is_full = is_full;
}

/* ---- changes ---- */

void saves_note_change(void) {
    saves.changed_at = seconds_now();
    if (saves.unsynced_since == 0) saves.unsynced_since = saves.changed_at;
}

/* A group whose lines are too long to be kept ends, and one begins where each change is in one. */
static int begin_change(void) {
    if (saves.in_group && kept.length > most_lines() && !saves.is_held) {
        syslog(LOG_NOTICE, "a group of over %zu bytes is ended in the middle", most_bytes());
        int why = save_ends();
        if (why == 0) why = save_begins();
        touched_lose(); /* bytes may be kept that were touched before */
        return why;
    }
    return saves.settle != 0 ? save_begins() : 0;
}

int saves_find_room(void) {
    static const struct undofs_lines none;
    const struct touch touch = last_touch;
    int why = space_has_room(&touch) ? 0 : UNDOFS_ENOSPC;
    if (why != 0 && saves.forgets && !is_cut) why = give_again(&none, &touch);
    tell_full(why);
    return saves_told(why);
}

/* Bytes that are kept were answered, and take their room before a change that asks for none, as a move. */
static void give_kept_first(const struct touch *touch) {
    if (!writes_are_kept() || (space_has_room(touch) && space_has(touch->blocks + writes_blocks()))) return;
    (void)writes_give("/");
}

/* Gives the lines, where there is room for what they change. */
static int give_change(const struct undofs_lines *given, const struct change *change) {
    if (change != NULL && !saves.in_group) touched_clear();
    if (change != NULL) change->touch(change->with);
    const struct touch touch = last_touch;
    if (change != NULL) give_kept_first(&touch);
    int has_room = change == NULL || space_has_room(&touch);
    int why = has_room ? undofs_exchange(saves.child, given) : UNDOFS_ENOSPC;
    if (why == UNDOFS_ENOSPC && saves.forgets && !is_cut) why = give_again(given, change == NULL ? NULL : &touch);
    if (why == 0) keep(given);
    tell_full(why);
    return why;
}

int saves_change(const struct undofs_lines *given, const struct change *change) {
    int begun = saves.is_failed ? UNDOFS_GONE : begin_change();
    if (begun != 0) return begun;
    reads_forget(); /* of the tree before */
    int why = give_change(given, change);
    if (saves_told(why) == UNDOFS_GONE || why == UNDOFS_POWERCUT) return why;
    saves_note_change();
    if (!saves.in_group) {
        int looked = saves_look_for_version();
        if (why == 0) why = looked;
    }
    if (why == 0 && change != NULL) change->apply(saves_serial(), change->with);
    if (why == 0 && !saves.in_group && saves.is_durable) why = saves_sync();
    return why;
}

int save_begins(void) {
    if (saves.in_group) return 0;
    int why = saves.is_failed ? UNDOFS_GONE : saves_told(undofs_begin(saves.child));
    if (why != 0) return why;
    saves.in_group = 1;
    saves.groups++;
    is_cut = 0;
    drop_kept();
    touched_clear();
    space_may_be_free();
    saves.unsynced_before = saves.unsynced_since;
    saves_note_change();
    return 0;
}

int save_given_up(void) {
    int why = saves_told(undofs_abandon(saves.child));
    if (why != 0) return why;
    saves.in_group = saves.is_held = saves.is_unsynced = 0;
    writes_drop("/");
    reads_forget();
    times_dropped(saves.next);
    return 0;
}

/* A worn flash takes no version any more: what the group did is given up, so that what is read is what stays. */
static int end_refused(int why) {
    if (why == READ_ONLY) (void)save_given_up();
    return saves_told(why);
}

/* Looking makes no version, as that of git status, which writes its index anew: what could be redone is there still. */
static int end_unchanged(void) {
    int why = saves_told(undofs_abandon(saves.child));
    if (why != 0) return why;
    saves.in_group = 0;
    saves.unsynced_since = saves.unsynced_before;
    writes_drop("/");
    reads_forget();
    times_belong(saves.next, saves.present);
    return 0;
}

/* The open group becomes a version. */
static int make_version(void) {
    uint64_t serial = saves.next;
    int why = undofs_end_group(saves.child);
    if (why != 0) return end_refused(why);
    saves.in_group = 0;
    drop_kept();
    why = saves_look_for_version();
    if (why == 0 && saves.next == serial) times_belong(serial, saves.present);
    return why;
}

int save_ends(void) {
    if (!saves.in_group || saves.is_held) return 0;
    int why = writes_give("/");
    if (why != 0) return end_refused(why);
    if (is_same_tree(saves.child, saves.present)) return end_unchanged();
    why = make_version();
    if (why != 0) return why;
    writes_drop("/");
    return saves.is_durable ? saves_sync() : 0;
}

int save_ends_short(void) {
    syslog(LOG_NOTICE, "the flash is full: a group is ended without what found no room, which is of the next one");
    return make_version();
}

int save_goes_on(void) {
    int why = save_begins();
    touched_lose(); /* what is kept was touched before */
    if (why == 0) why = save_ends();
    return why == 0 ? saves_sync_changes() : why;
}

int save_is_done(void) { return saves.is_durable ? save_ends() : 0; }

/* A worn flash takes no record any more: what was not synced is given up, so that what is read is what stays. */
static int sync_refused(int why) {
    if (why != READ_ONLY || undofs_restart(saves.child) != 0) return why;
    reads_forget();
    pages_forget("/");
    (void)saves_look();
    times_unknown_from(saves.next);
    times_leapt();
    saves.unsynced_since = 0;
    return why;
}

int saves_sync(void) {
    int why = saves.is_failed ? UNDOFS_GONE : saves_told(undofs_sync(saves.child));
    if (why != 0) return sync_refused(why);
    saves.unsynced_since = 0;
    version_times_synced(0);
    return 0;
}

int saves_sync_changes(void) { return saves.unsynced_since != 0 ? saves_sync() : 0; }

/* ---- what is due without being asked ---- */

static int is_sync_due(double now) { return saves.commit != 0 && saves.unsynced_since != 0 && now - saves.unsynced_since >= saves.commit; }

/* The open group ends whoever is in it, so that what another program saved is not held back. One that settled is synced at once:
 * were the sync due later, it would cut the next act in two. */
static void end_due(double now, int is_quiet) {
    static double refused_at = -AGAIN;
    if ((!is_quiet && !is_sync_due(now)) || now - refused_at < AGAIN) return;
    int why = save_ends();
    if (why != 0) refused_at = now;
    if (why == 0 && saves.settle != 0 && saves.commit != 0) (void)saves_sync_changes();
}

int saves_due(int is_waiting) {
    double now = seconds_now(), quiet = saves.settle != 0 ? saves.settle : IDLE;
    if (saves.is_held) return -1;
    if (saves.in_group) end_due(now, !is_waiting && now - saves.changed_at >= quiet);
    if (is_sync_due(now) && !saves.in_group && saves_sync() != 0) saves.unsynced_since = now; /* tried again after as long */
    int checkpoint_due = saves.in_group ? -1 : clock_checkpoints_due(), are_times_due = version_times_are_due();
    return saves.in_group || (saves.unsynced_since != 0 && saves.commit != 0) || are_times_due ? 250 : checkpoint_due;
}
