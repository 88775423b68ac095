#define _GNU_SOURCE
#include "control.h"
#include "auto_checkpoints.h"
#include "group_writes.h"
#include "kept_pages.h"
#include "kept_reads.h"
#include "opened.h"
#include "saves.h"
#include "serving.h"
#include "space.h"
#include "times.h"
#include "time_words.h"
#include "version_times.h"
#include <errno.h>
#include <stdio.h>
#include <stdlib.h>
#include <string.h>

struct place place_of(const char *path) {
    static const char history[] = "/.history";
    enum { LENGTH = sizeof history - 1 };
    struct place p = {IN_TREE, path, ""};
    if (strcmp(path, "/.undofs") == 0) p.kind = CONTROL;
    if (strncmp(path, history, LENGTH) != 0 || (path[LENGTH] != '/' && path[LENGTH] != 0)) return p;
    p.kind = path[LENGTH] == 0 ? HISTORY : IN_VIEW;
    if (p.kind == HISTORY) return p;
    const char *view = path + LENGTH + 1, *end = strchrnul(view, '/');
    size_t length = (size_t)(end - view);
    if (length >= sizeof p.view || (*view != '@' && *view != '=')) {
        strcpy(p.view, "@none"); /* stands for none */
    } else {
        memcpy(p.view, view, length);
        p.view[length] = 0;
    }
    p.path = *end == 0 ? "/" : end;
    return p;
}

char *control_text(void) {
    const char *log;
    char *text = NULL, *versions = undofs_log(saves.child, &log) == 0 ? strdup(log) : NULL;
    struct undofs_space space;
    (void)writes_give("/"); /* so that it has its blocks */
    int has_space = !saves.is_failed && versions != NULL && undofs_df(saves.child, &space) == 0;
    char *listing = has_space ? version_listing(versions) : NULL;
    const char *full = saves.is_full ? "full: echo 'forgetfree N' > .undofs, or mount without -o keep\n" : "";
    if (!has_space) {
        text = strdup("the part failed: unmount the folder and mount it again\n");
    } else if (asprintf(&text, "%s\n%s\n%s%s", versions, undofs_reply(saves.child, 0), full, listing == NULL ? "" : listing) < 0) {
        text = NULL;
    }
    free(listing);
    free(versions);
    return text;
}

/* ---- what is written ---- */

enum { LAST_NANOSECOND = 999999999 };

enum verb { UNDO, UNDO_BACK, REDO, GOTO, ROLLBACK, CHECKPOINT, RMCHECKPOINT, FORGET, FORGETFREE, RECLAIM, SYNC, BEGIN, BEGIN_UNSYNCED, END, ABANDON, NONE };

static enum verb verb_of(const char *line, const char **rest) {
    static const char *const verbs[] = {"undo", "undo ", "redo", "goto ", "rollback ", "checkpoint ", "rmcheckpoint ", "forget ", "forgetfree ", "reclaim ", "sync", "begin", "begin unsynced", "end", "abandon"};
    for (int verb = UNDO; verb < NONE; verb++) {
        size_t length = strlen(verbs[verb]);
        int has_rest = verbs[verb][length - 1] == ' ';
        *rest = line + length;
        if (strncmp(line, verbs[verb], length) == 0 && has_rest == (line[length] != 0)) return (enum verb)verb;
    }
    return NONE;
}

/* Gives the line, as it is but for the spelling of a name. */
static int give(enum verb verb, const char *line, const char *rest) {
    struct undofs_lines *lines = saves_lines();
    int is_named = verb == ROLLBACK || verb == CHECKPOINT || verb == RMCHECKPOINT;
    if (is_named) {
        put_path_line(lines, verb == ROLLBACK ? "rollback" : verb == CHECKPOINT ? "checkpoint" : "rmcheckpoint", rest, "");
    } else {
        undofs_put_text(lines, line);
        undofs_put_end(lines);
    }
    return saves_ask(lines);
}

/* What moves the present tree away. It is refused under a save that is not done; all else ends the open group. */
static int is_leap(enum verb verb) { return verb <= ROLLBACK || verb == ABANDON; }

/* Has the times follow what was done. */
static int follow(enum verb verb, const char *name) {
    uint64_t present = saves.present, next = saves.next;
    int why = saves_look();
    if (why != 0) return why;
    if (is_leap(verb)) {
        times_leapt();
        pages_forget("/");
    }
    if (verb == CHECKPOINT) times_checkpoint(name, saves.present);
    if (verb == RMCHECKPOINT) times_rmcheckpoint(name);
    if (verb == ROLLBACK && saves.next != next) {
        times_discarded(present, next);
        times_rollback(name, present, saves.present);
    }
    if (verb == FORGET || verb == FORGETFREE || verb == RMCHECKPOINT) {
        saves.is_full = 0;
        space_may_be_free();
    }
    return 0;
}

/* A group by hand: all of it is one version at `end`. What was saved before is synced first, since nothing can be inside. */
static int begin_group(int is_unsynced) {
    int why = save_ends();
    if (why == 0) why = saves_sync_changes();
    if (why == 0) why = save_begins();
    saves.is_held = why == 0;
    saves.is_unsynced = saves.is_held && is_unsynced;
    return why;
}

static int end_group(void) {
    saves.is_held = 0;
    int why = save_ends();
    if (why == 0) {
        saves.is_unsynced = 0;
        return saves_sync();
    }
    saves.is_held = saves.in_group;
    return why;
}

static int give_up_group(void) {
    int why = save_given_up();
    if (why != 0) return why;
    times_leapt();
    pages_forget("/");
    return 0;
}

/* What may make room on a full flash. */
static int lets_go(enum verb verb) { return verb == FORGET || verb == FORGETFREE || verb == RMCHECKPOINT; }

/* Outside a group. What was asked by hand is on the part once it is answered. */
static int give_and_sync(enum verb verb, const char *line, const char *rest) {
    int why = give(verb, line, rest);
    reads_forget();
    if (why == UNDOFS_TOOOLD && verb == GOTO) why = UNDOFS_NOSUCHVERSION; /* it was dropped: it is not there */
    if (why == 0) saves_note_change();
    if (why == 0) why = follow(verb, rest);
    if (why == 0) why = saves_sync();
    if (why == 0 && verb == RMCHECKPOINT) version_times_synced(1); /* its name may be given anew before the times are written unasked */
    return why;
}

/* The open group ends, and the line is given. A group that finds no room for its end is in the way of none that makes room. */
static int carry_out(enum verb verb, const char *line, const char *rest) {
    if (verb == BEGIN || verb == BEGIN_UNSYNCED) return begin_group(verb == BEGIN_UNSYNCED);
    if (verb == END) return end_group();
    if (verb == ABANDON) return give_up_group();
    int why = saves.is_failed ? UNDOFS_GONE : save_ends();
    int is_short = why == UNDOFS_ENOSPC && lets_go(verb);
    if (is_short) why = save_ends_short();
    if (why == 0) why = give_and_sync(verb, line, rest);
    int more = is_short ? save_goes_on() : 0;
    return why == 0 && more != UNDOFS_ENOSPC ? more : why;
}

/* Pages that a program changed in a map come first: they belong to the version before. Then no page of what is open is the kernel's any
 * more, so that all is read anew. */
static int leap(enum verb verb, const char *line, const char *rest) {
    struct paths paths = opened_paths();
    serving_drop_pages(&paths);
    int why = carry_out(verb, line, rest);
    serving_drop_pages(&paths);
    paths_free(&paths);
    return why;
}

/* Of `undo 10m` and `goto 14:30`: the time that is meant, of a second its end. 1 for one, 0 for a line without, -EINVAL. */
static int take_time(enum verb verb, const char *rest, struct timespec *when) {
    int64_t seconds;
    clock_gettime(CLOCK_REALTIME, when);
    if (verb == UNDO_BACK) {
        if (!take_duration(rest, &seconds)) return -EINVAL;
        when->tv_sec -= seconds;
        return 1;
    }
    if (verb != GOTO || strchr(rest, ':') == NULL) return 0;
    when->tv_nsec = LAST_NANOSECOND;
    return take_clock_time(rest, when->tv_sec, &when->tv_sec) ? 1 : -EINVAL;
}

/* Such a line becomes `goto N`. */
static int name_version(char *line, size_t room, struct timespec when) {
    int why = save_ends(); /* the open group may be what was present then */
    uint64_t serial = why == 0 ? version_present_at(when) : 0;
    snprintf(line, room, "goto %llu", (unsigned long long)serial);
    return why == 0 && serial == 0 ? -ENOENT : errno_of(why);
}

int control_write(const char *text, size_t length) {
    char line[200];
    struct timespec when;
    const char *rest;
    while (length > 0 && (text[length - 1] == '\n' || text[length - 1] == ' ')) length--;
    if (length == 0 || length >= sizeof line || memchr(text, '\n', length) != NULL) return -EINVAL;
    memcpy(line, text, length);
    line[length] = 0;
    enum verb verb = verb_of(line, &rest);
    int is_by_time = verb == NONE ? -EINVAL : take_time(verb, rest, &when);
    if (is_by_time < 0) return -EINVAL;
    if (verb == CHECKPOINT && is_auto_name(rest)) return -EINVAL; /* the daemon's own */
    int is_held_verb = verb == END || verb == ABANDON;
    if (is_held_verb && !saves.is_held) return -EINVAL;
    if (!is_held_verb && saves.is_held) return -EBUSY;
    if (is_leap(verb) && opened_unclosed_writers() > 0) return -EBUSY; /* before a mapped page makes a writer of its file */
    int error = is_by_time ? name_version(line, sizeof line, when) : 0;
    if (error != 0) return error;
    if (is_by_time) verb = GOTO;
    return errno_of(is_leap(verb) ? leap(verb, line, rest) : carry_out(verb, line, rest));
}
