#define _GNU_SOURCE
#include "kept_reads.h"
#include "saves.h"
#include <stdlib.h>
#include <string.h>

enum { LISTINGS = 64, PATHS = 1024, FILES = 4, AHEAD = 1 << 20 };

static struct listing listings[LISTINGS];
static size_t listing_next; /* the one that makes room */

/* ---- listings ---- */

static void free_listing(struct listing *l) {
    for (size_t i = 0; i < l->count; i++) free(l->entries[i].name);
    free(l->entries);
    free(l->path);
    *l = (struct listing){NULL, NULL, 0};
}

static struct listing *listing_at(const char *path, size_t length) {
    for (size_t i = 0; i < LISTINGS; i++) {
        const char *listed = listings[i].path;
        if (listed != NULL && strncmp(listed, path, length) == 0 && listed[length] == 0) return &listings[i];
    }
    return NULL;
}

/* Takes `NAME/ ENTRIES` or `NAME LENGTH` of a reply. 0 where there is none, or no memory. */
static int take_entry(struct listed *entry, char **reply) {
    char *name = strsep(reply, " "), *number = strsep(reply, " ");
    if (name == NULL || number == NULL || *name == 0) return 0;
    char *end = name + strlen(name) - 1;
    entry->found = (struct undofs_stat){*end == '/', strtoull(number, NULL, 10)};
    if (*end == '/') *end = 0;
    undofs_take_word(name);
    entry->name = strdup(name);
    return entry->name != NULL;
}

/* Fills a listing from `entries N` and N entries. A number of the client. */
static int fill(struct listing *l, const char *path, char *reply) {
    (void)strsep(&reply, " ");
    const char *number = strsep(&reply, " ");
    size_t wanted = number == NULL ? 0 : strtoull(number, NULL, 10);
    l->path = strdup(path);
    l->entries = calloc(wanted + 1, sizeof *l->entries);
    if (l->path == NULL || l->entries == NULL) return UNDOFS_NO_MEMORY;
    while (l->count < wanted && take_entry(&l->entries[l->count], &reply)) l->count++;
    return l->count == wanted ? 0 : UNDOFS_NO_MEMORY;
}

const struct listing *reads_list(const char *path, int *why) {
    struct listing *l = listing_at(path, strlen(path));
    if (l != NULL) return l;
    struct undofs_lines *lines = saves_lines();
    put_path_line(lines, "entries", path, " - 1024"); /* no folder has more */
    *why = saves_ask(lines);
    if (*why != 0) return NULL;
    l = &listings[listing_next];
    listing_next = (listing_next + 1) % LISTINGS;
    free_listing(l);
    *why = fill(l, path, undofs_reply(saves.child, 0));
    if (*why == 0) return l;
    free_listing(l);
    return NULL;
}

static int compare_names(const void *name, const void *entry) { return strcmp(name, ((const struct listed *)entry)->name); }

/* What stands at a path by a listing: 0, or UNDOFS_ENOENT; -1 where none tells it. */
static int stat_by_listing(const char *path, struct undofs_stat *found) {
    const char *slash = strrchr(path, '/');
    if (slash == NULL || slash[1] == 0) return -1;
    const struct listing *l = listing_at(path, slash == path ? 1 : (size_t)(slash - path));
    if (l == NULL) return -1;
    const struct listed *entry = bsearch(slash + 1, l->entries, l->count, sizeof *l->entries, compare_names);
    if (entry == NULL) return UNDOFS_ENOENT;
    *found = entry->found;
    return 0;
}

/* ---- paths ---- */

/* What `stat` told of a path, when so many times had been forgotten. */
static struct known {
    char *path;
    uint64_t time;
    int why;
    struct undofs_stat found;
} paths[PATHS];

static uint64_t forgotten;

static struct known *place_for(const char *path) {
    uint32_t hash = 2166136261u;
    for (const char *at = path; *at != 0; at++) hash = (hash ^ (unsigned char)*at) * 16777619u;
    return &paths[hash % PATHS];
}

int reads_stat(const char *path, struct undofs_stat *found) {
    int why = stat_by_listing(path, found);
    struct known *known = place_for(path);
    if (why >= 0) return why;
    if (known->path != NULL && known->time == forgotten && strcmp(known->path, path) == 0) {
        *found = known->found;
        return known->why;
    }
    *found = (struct undofs_stat){0, 0};
    why = undofs_stat(saves.child, path, NULL, found);
    if (why != 0 && why != UNDOFS_ENOENT) return saves_told(why);
    free(known->path);
    *known = (struct known){strdup(path), forgotten, why, *found};
    return why;
}

/* ---- bytes ahead ---- */

/* Where a file was read last, and what was read ahead of that. */
struct ahead {
    char *path;
    uint64_t next, at, used;
    size_t length;
    uint8_t *bytes;
};

static struct ahead files[FILES];
static uint64_t uses;

static struct ahead *ahead_of(const char *path) {
    struct ahead *oldest = &files[0];
    for (size_t i = 0; i < FILES; i++) {
        if (files[i].path != NULL && strcmp(files[i].path, path) == 0) return &files[i];
        if (files[i].used < oldest->used) oldest = &files[i];
    }
    free(oldest->path);
    oldest->path = strdup(path);
    oldest->next = UINT64_MAX;
    oldest->length = 0;
    return oldest;
}

static int ask_bytes(const char *path, uint64_t at, uint8_t *bytes, size_t wanted, size_t *had) {
    struct undofs_lines *lines = saves_lines();
    undofs_put_text(lines, "read ");
    undofs_put_word(lines, path);
    undofs_put_text(lines, " ");
    undofs_put_number(lines, at);
    undofs_put_text(lines, " ");
    undofs_put_number(lines, wanted);
    undofs_put_end(lines);
    int why = saves_ask(lines);
    if (why == 0) *had = undofs_take_data(undofs_reply(saves.child, 0), bytes, wanted);
    return why;
}

static int read_ahead(struct ahead *a, uint64_t at) {
    if (a->bytes == NULL) a->bytes = malloc(AHEAD);
    a->length = 0;
    a->at = at;
    return a->bytes == NULL ? UNDOFS_NO_MEMORY : ask_bytes(a->path, at, a->bytes, AHEAD, &a->length);
}

/* Less than was asked for tells where the file ends. */
static int is_ahead(const struct ahead *a, uint64_t at, size_t wanted) {
    uint64_t end = a->at + a->length;
    return a->length > 0 && at >= a->at && (at + wanted <= end || (a->length < AHEAD && at <= end));
}

/* A file that is read in turn is read ahead. */
int reads_bytes(const char *path, uint64_t at, uint8_t *bytes, size_t wanted, size_t *had) {
    struct ahead *a = ahead_of(path);
    int is_in_turn = at == a->next && wanted < AHEAD && a->path != NULL;
    a->used = ++uses;
    a->next = at + wanted;
    if (!is_ahead(a, at, wanted)) {
        if (!is_in_turn) return ask_bytes(path, at, bytes, wanted, had);
        int why = read_ahead(a, at);
        if (why != 0) return why;
    }
    size_t left = (size_t)(a->at + a->length - at);
    *had = left < wanted ? left : wanted;
    memcpy(bytes, a->bytes + (at - a->at), *had);
    return 0;
}

void reads_forget(void) {
    for (size_t i = 0; i < LISTINGS; i++) {
        if (listings[i].path != NULL) free_listing(&listings[i]);
    }
    for (size_t i = 0; i < FILES; i++) files[i].length = 0;
    forgotten++;
}
