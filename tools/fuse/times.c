#define _GNU_SOURCE
#include "times.h"
#include <stdlib.h>
#include <string.h>

enum { BUCKETS = 1 << 10, SPARE = 4096, BILLION = 1000000000 };

struct entry {
    struct entry *next;
    struct stamp *stamps; /* by serial, the newest first */
    struct stamp *named;  /* by the place of a checkpoint */
    char path[];
};

struct checkpoint {
    char *name;
    struct timespec made;
};

static struct entry *buckets[BUCKETS];
static struct checkpoint checkpoints[MOST_CHECKPOINTS];
static struct timespec born;
static long leaps;
static size_t count, count_after_prune;
static uint64_t changes;

static void *given(void *memory) {
    if (memory == NULL) abort();
    return memory;
}

static struct timespec now(void) {
    struct timespec time;
    clock_gettime(CLOCK_REALTIME, &time);
    return time;
}

void times_start(void) { born = now(); }

void times_leapt(void) { leaps++; }

struct timespec times_born(void) { return born; }

size_t times_count(void) { return count; }

uint64_t times_changes(void) { return changes; }

/* ---- paths and their stamps ---- */

static struct entry **bucket_of(const char *path) {
    uint32_t hash = 2166136261u;
    for (; *path != 0; path++) hash = (hash ^ (unsigned char)*path) * 16777619u;
    return &buckets[(hash >> 16 ^ hash) % BUCKETS];
}

static struct entry *entry_of(const char *path) {
    struct entry *e = *bucket_of(path);
    while (e != NULL && strcmp(e->path, path) != 0) e = e->next;
    return e;
}

static struct entry *entry_for(const char *path) {
    struct entry *e = entry_of(path), **bucket = bucket_of(path);
    if (e != NULL) return e;
    e = given(malloc(sizeof *e + strlen(path) + 1));
    e->next = *bucket;
    e->stamps = e->named = NULL;
    strcpy(e->path, path);
    *bucket = e;
    return e;
}

static struct stamp *newest_at(struct stamp *s, uint64_t serial) {
    while (s != NULL && s->serial > serial) s = s->older;
    return s;
}

static struct stamp *stamp_at(const struct entry *e, uint64_t serial) { return e == NULL ? NULL : newest_at(e->stamps, serial); }

static int is_live(const struct stamp *s) { return s != NULL && (s->flags & STAMP_GONE) == 0; }

/* That of what is not known: the time of the mount, which moves on with each leap. */
static struct timespec unknown_time(void) {
    long nanoseconds = born.tv_nsec + leaps;
    return (struct timespec){born.tv_sec + nanoseconds / BILLION, nanoseconds % BILLION};
}

/* The stamp of a number in a list, made where there is none. What a new one shows is what the one before it does. */
static struct stamp *stamp_in(struct stamp **list, uint64_t serial) {
    struct stamp **at = list;
    changes++;
    while (*at != NULL && (*at)->serial > serial) at = &(*at)->older;
    if (*at != NULL && (*at)->serial == serial) return *at;
    struct stamp *s = given(calloc(1, sizeof *s));
    s->serial = serial;
    s->older = *at;
    s->flags = is_live(*at) ? (*at)->flags & STAMP_EXECUTABLE : STAMP_EXECUTABLE;
    s->time = is_live(*at) ? (*at)->time : unknown_time();
    *at = s;
    count++;
    return s;
}

static struct stamp *stamp_for(const char *path, uint64_t serial) { return stamp_in(&entry_for(path)->stamps, serial); }

/* ---- what is shown ---- */

static struct shown shown_by(const struct stamp *s) {
    if (!is_live(s)) return (struct shown){unknown_time(), 1};
    return (struct shown){s->time, (s->flags & STAMP_EXECUTABLE) != 0};
}

struct shown shown_at(const char *path, uint64_t serial) { return shown_by(stamp_at(entry_of(path), serial)); }

struct timespec time_of(const char *path, uint64_t serial) { return shown_at(path, serial).time; }

/* ---- what a version did ---- */

static void set_flag(struct stamp *s, unsigned flag, int is_set) { s->flags = is_set ? s->flags | flag : s->flags & ~flag; }

/* The stamp of a path that is there: of one that was gone nothing is known. */
static struct stamp *live_stamp_for(const char *path, uint64_t serial) {
    struct stamp *s = stamp_for(path, serial);
    if (is_live(s)) return s;
    s->time = unknown_time();
    s->flags = (s->flags & ~(unsigned)STAMP_GONE) | STAMP_EXECUTABLE;
    return s;
}

void time_set(const char *path, uint64_t serial, struct timespec time) {
    live_stamp_for(path, serial)->time = time;
}

void time_touch(const char *path, uint64_t serial) { time_set(path, serial, now()); }

void time_touch_folder(const char *path, uint64_t serial) {
    char *folder = given(strdup(path)), *slash = strrchr(folder, '/');
    if (slash != NULL) slash[slash == folder] = 0;
    time_touch(folder, serial);
    free(folder);
}

void mode_set(const char *path, uint64_t serial, int is_executable) {
    set_flag(live_stamp_for(path, serial), STAMP_EXECUTABLE, is_executable);
}

void time_written(const char *path, uint64_t serial) {
    time_touch(path, serial);
    stamp_for(path, serial)->flags |= STAMP_CHANGED;
}

/* A path that was removed and made again in one version is changed there, and not made. */
void time_made(const char *path, uint64_t serial, int is_executable) {
    const struct stamp *before = stamp_at(entry_of(path), serial);
    int is_made = before == NULL || (before->serial != serial && !is_live(before));
    time_written(path, serial);
    mode_set(path, serial, is_executable);
    if (is_made) stamp_for(path, serial)->flags |= STAMP_MADE;
}

void time_gone(const char *path, uint64_t serial) { stamp_for(path, serial)->flags |= STAMP_GONE | STAMP_CHANGED; }

/* ---- over all stamps ---- */

static void drop_stamp(struct stamp **at) {
    struct stamp *s = *at;
    *at = s->older;
    free(s);
    count--;
    changes++;
}

static void drop_empty(struct entry **at) {
    struct entry *e = *at;
    *at = e->next;
    free(e);
}

typedef int keeps(const struct entry *e, const struct stamp *s, const void *with);

static void sift_list(const struct entry *e, struct stamp **list, keeps *is_kept, const void *with) {
    while (*list != NULL) {
        if (is_kept(e, *list, with)) list = &(*list)->older;
        else drop_stamp(list);
    }
}

/* Of one bucket; `is_named` tells of which lists. */
static void sift_bucket(struct entry **at, int is_named, keeps *is_kept, const void *with) {
    while (*at != NULL) {
        sift_list(*at, is_named ? &(*at)->named : &(*at)->stamps, is_kept, with);
        if ((*at)->stamps == NULL && (*at)->named == NULL) drop_empty(at);
        else at = &(*at)->next;
    }
}

/* Drops those stamps of versions that `is_kept` answers 0 for, and paths without any. */
static void sift(keeps *is_kept, const void *with) {
    for (size_t i = 0; i < BUCKETS; i++) sift_bucket(&buckets[i], 0, is_kept, with);
}

static void sift_named(keeps *is_kept, const void *with) {
    for (size_t i = 0; i < BUCKETS; i++) sift_bucket(&buckets[i], 1, is_kept, with);
}

static int is_of_another(const struct entry *e, const struct stamp *s, const void *with) {
    (void)e;
    return s->serial != *(const uint64_t *)with;
}

void times_dropped(uint64_t serial) { sift(is_of_another, &serial); }

struct range {
    uint64_t last, next;
};

static int is_not_between(const struct entry *e, const struct stamp *s, const void *with) {
    const struct range *r = with;
    (void)e;
    return s->serial <= r->last || s->serial >= r->next;
}

void times_discarded(uint64_t last, uint64_t next) {
    if (last + 1 < next) sift(is_not_between, &(struct range){last, next});
}

/* Of those up to the first kept version the newest one alone is shown, */
static int is_newest_of_first(const struct entry *e, const struct stamp *s, const void *with) {
    uint64_t first = *(const uint64_t *)with;
    return s->serial > first || stamp_at(e, first) == s;
}

/* and that it was gone before needs no stamp. */
static int is_not_gone_before(const struct entry *e, const struct stamp *s, const void *with) {
    (void)e;
    return s->serial >= *(const uint64_t *)with || is_live(s);
}

void times_pruned(uint64_t first) {
    sift(is_newest_of_first, &first);
    sift(is_not_gone_before, &first);
    count_after_prune = count;
}

void times_kept(uint64_t first) {
    if (count >= 2 * count_after_prune + SPARE) times_pruned(first);
}

struct confines {
    uint64_t first;
    int (*is_kept)(uint64_t serial, const void *with);
    const void *with;
};

static int is_confined(const struct entry *e, const struct stamp *s, const void *with) {
    const struct confines *c = with;
    (void)e;
    return s->serial <= c->first || c->is_kept(s->serial, c->with);
}

void times_confined(uint64_t first, int (*is_kept)(uint64_t serial, const void *with), const void *with) {
    sift(is_confined, &(struct confines){first, is_kept, with});
}

static int is_nothing_kept(const struct entry *e, const struct stamp *s, const void *with) {
    (void)e;
    (void)s;
    (void)with;
    return 0;
}

void times_clear(void) {
    sift(is_nothing_kept, NULL);
    sift_named(is_nothing_kept, NULL);
    for (size_t i = 0; i < MOST_CHECKPOINTS; i++) free(checkpoints[i].name);
    memset(checkpoints, 0, sizeof checkpoints);
    count_after_prune = 0;
}

/* ---- over all paths ---- */

/* Calls `each` for each path; it may add and drop stamps, and no path. */
static void for_each_entry(void (*each)(struct entry *e, void *with), void *with) {
    for (size_t i = 0; i < BUCKETS; i++) {
        for (struct entry *e = buckets[i]; e != NULL; e = e->next) each(e, with);
    }
}

struct walk {
    void (*each)(void *with, const char *path, const struct stamp *versions, const struct stamp *checkpoints);
    void *with;
};

static void walk_entry(struct entry *e, void *with) {
    const struct walk *w = with;
    w->each(w->with, e->path, e->stamps, e->named);
}

void times_walk(void (*each)(void *with, const char *path, const struct stamp *versions, const struct stamp *checkpoints), void *with) {
    for_each_entry(walk_entry, &(struct walk){each, with});
}

void stamp_put(const char *path, const struct stamp *found, int is_checkpoint) {
    struct entry *e = entry_for(path);
    struct stamp *s = stamp_in(is_checkpoint ? &e->named : &e->stamps, found->serial);
    s->time = found->time;
    s->flags = found->flags;
}

static void end_at(struct entry *e, void *with) {
    uint64_t serial = *(const uint64_t *)with;
    if (is_live(stamp_at(e, serial))) stamp_in(&e->stamps, serial)->flags = STAMP_GONE;
}

void times_unknown_from(uint64_t serial) { for_each_entry(end_at, &serial); }

/* From `last` to `next`: a later version has all of it, one before only the times and modes of what is there. */
static void belong_entry(struct entry *e, void *with) {
    const struct range *r = with;
    const struct stamp *s = stamp_at(e, r->last);
    int is_later = r->next > r->last;
    if (s == NULL || s->serial != r->last || (!is_later && !is_live(s))) return;
    struct stamp *to = stamp_in(&e->stamps, r->next);
    to->time = s->time;
    if (is_later) to->flags = s->flags;
    set_flag(to, STAMP_GONE, !is_live(s));
    set_flag(to, STAMP_EXECUTABLE, (s->flags & STAMP_EXECUTABLE) != 0);
}

void times_belong(uint64_t serial, uint64_t to) {
    for_each_entry(belong_entry, &(struct range){serial, to});
    times_dropped(serial);
}

/* ---- moves ---- */

/* Paths as they stood before the first of them moved. */
struct paths {
    const char *top;
    uint64_t serial;
    size_t count;
    struct entry **entries;
};

static void add_entry(struct paths *list, struct entry *e) {
    if ((list->count & (list->count - 1)) == 0) { /* room doubles */
        size_t room = list->count == 0 ? 1 : 2 * list->count;
        list->entries = given(realloc(list->entries, room * sizeof *list->entries));
    }
    list->entries[list->count++] = e;
}

static void add_below(struct entry *e, void *with) {
    struct paths *list = with;
    size_t length = strlen(list->top);
    int is_below = strncmp(e->path, list->top, length) == 0 && e->path[length] == '/';
    if (is_below && is_live(stamp_at(e, list->serial))) add_entry(list, e);
}

/* One path moves with its time. What is below a folder that moved counts for no change of its own. */
static void move_path(const char *from, const char *to, uint64_t serial, unsigned flag) {
    struct shown shown = shown_at(from, serial);
    time_set(to, serial, shown.time);
    mode_set(to, serial, shown.is_executable);
    stamp_for(to, serial)->flags |= flag;
    stamp_for(from, serial)->flags |= STAMP_GONE | flag;
}

void times_moved(const char *from, const char *to, uint64_t serial, int is_directory) {
    struct paths below = {from, serial, 0, NULL};
    if (is_directory) for_each_entry(add_below, &below);
    for (size_t i = 0; i < below.count; i++) {
        const char *rest = below.entries[i]->path + strlen(from);
        char *path = given(malloc(strlen(to) + strlen(rest) + 1));
        strcpy(stpcpy(path, to), rest);
        move_path(below.entries[i]->path, path, serial, 0);
        free(path);
    }
    free(below.entries);
    move_path(from, to, serial, STAMP_CHANGED);
}

/* ---- checkpoints ---- */

const char *checkpoint_at(unsigned place, struct timespec *made) {
    if (place >= MOST_CHECKPOINTS) return NULL;
    *made = checkpoints[place].made;
    return checkpoints[place].name;
}

void checkpoint_put(unsigned place, const char *name, struct timespec made) {
    if (place >= MOST_CHECKPOINTS) return;
    free(checkpoints[place].name);
    checkpoints[place] = (struct checkpoint){given(strdup(name)), made};
    changes++;
}

/* The place of a name; that of null is a free one. */
static unsigned place_named(const char *name) {
    unsigned place = 0;
    for (; place < MOST_CHECKPOINTS; place++) {
        const char *found = checkpoints[place].name;
        if (name == NULL ? found == NULL : found != NULL && strcmp(found, name) == 0) break;
    }
    return place;
}

struct shown shown_in(const char *path, const char *checkpoint) {
    unsigned place = place_named(checkpoint);
    const struct entry *e = entry_of(path);
    const struct stamp *s = e == NULL ? NULL : newest_at(e->named, place);
    return shown_by(s != NULL && s->serial == place ? s : NULL);
}

struct timespec time_of_checkpoint(const char *name) {
    unsigned place = place_named(name);
    return place < MOST_CHECKPOINTS ? checkpoints[place].made : born;
}

void times_rmcheckpoint(const char *name) {
    uint64_t place = place_named(name);
    if (place == MOST_CHECKPOINTS) return;
    free(checkpoints[place].name);
    checkpoints[place].name = NULL;
    sift_named(is_of_another, &place);
    changes++;
}

static void name_entry(struct entry *e, void *with) {
    const struct range *r = with; /* the version `last` at the place `next` */
    const struct stamp *s = stamp_at(e, r->last);
    if (!is_live(s)) return;
    struct stamp *named = stamp_in(&e->named, r->next);
    named->time = s->time;
    named->flags = s->flags & STAMP_EXECUTABLE;
}

void times_checkpoint(const char *name, uint64_t serial) {
    unsigned place = place_named(NULL);
    if (place == MOST_CHECKPOINTS) return;
    checkpoint_put(place, name, now());
    for_each_entry(name_entry, &(struct range){serial, place});
}

struct rollback {
    uint64_t place, last, serial;
};

static int are_same(const struct stamp *a, const struct stamp *b) {
    return a->time.tv_sec == b->time.tv_sec && a->time.tv_nsec == b->time.tv_nsec && ((a->flags ^ b->flags) & STAMP_EXECUTABLE) == 0;
}

/* A path that the checkpoint does not know is one of which nothing is known then. */
static void roll_entry(struct entry *e, void *with) {
    const struct rollback *r = with;
    const struct stamp *before = stamp_at(e, r->last), *named = newest_at(e->named, r->place);
    int is_named = named != NULL && named->serial == r->place;
    if ((!is_named && !is_live(before)) || (is_named && is_live(before) && are_same(named, before))) return;
    struct stamp *s = stamp_in(&e->stamps, r->serial);
    s->flags = STAMP_CHANGED | (is_named ? named->flags & STAMP_EXECUTABLE : STAMP_GONE);
    if (is_named) s->time = named->time;
}

void times_rollback(const char *name, uint64_t last, uint64_t serial) { for_each_entry(roll_entry, &(struct rollback){place_named(name), last, serial}); }
