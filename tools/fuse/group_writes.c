#define _GNU_SOURCE
#include "group_writes.h"
#include "kept_reads.h"
#include "saves.h"
#include "space.h"
#include "touched.h"
#include "write_buffer.h"
#include <errno.h>
#include <stdlib.h>
#include <string.h>

enum {
    HEAD_OF_NODE = 80,          /* bytes of a node of a file beside its data */
    ENTRIES_OF_NODE = 32,       /* of a directory */
    MOST_ENTRIES = 1024,
    MOST_NAMES = 16,
    MOST_NAME_BYTES = 64,
    MOST_LENGTH = 16777216,     /* of a file */
    LINES_AT_ONCE = 1 << 20,    /* bytes of lines that are given together, about, */
    FILES_AT_ONCE = 64,         /* and the files that they are of */
    TOO_LONG = 9, IS_DIRECTORY = 3,
};

static struct write_buffer buffer;
static size_t most_kept;

/* ---- how much room there is ---- */

/* A folder on the way to a file that is kept. */
struct way {
    char *path;
    uint64_t entries, names; /* the entries that it had when so many names had changed */
};

static struct {
    struct way *ways;
    size_t count, room;
    uint64_t names;
    int is_short; /* each write is given at once, up to the end of the group */
} ways;

void writes_note_names(void) { ways.names++; }

static int is_below(const char *path, const char *top) {
    size_t length = strlen(top);
    return length == 1 || (strncmp(path, top, length) == 0 && (path[length] == 0 || path[length] == '/'));
}

static void forget_ways_below(const char *top) {
    size_t left = 0;
    for (size_t i = 0; i < ways.count; i++) {
        if (is_below(ways.ways[i].path, top)) free(ways.ways[i].path);
        else ways.ways[left++] = ways.ways[i];
    }
    ways.count = left;
}

static int is_way_known(const char *path, size_t length) {
    for (size_t i = 0; i < ways.count; i++) {
        if (strncmp(ways.ways[i].path, path, length) == 0 && ways.ways[i].path[length] == 0) return 1;
    }
    return 0;
}

/* Asks how many entries a folder has. 0, or a refusal. */
static int learn_way(const char *path, size_t length) {
    struct undofs_stat found;
    char *name = strndup(path, length);
    int why = name == NULL ? UNDOFS_NO_MEMORY : reads_stat(name, &found);
    if (why == 0 && ways.count == ways.room) {
        struct way *more = realloc(ways.ways, (2 * ways.room + 8) * sizeof *more);
        if (more == NULL) why = UNDOFS_NO_MEMORY;
        if (more != NULL) ways.ways = more;
        if (more != NULL) ways.room = 2 * ways.room + 8;
    }
    if (why == 0) ways.ways[ways.count++] = (struct way){name, found.length, ways.names};
    else free(name);
    return why;
}

/* Learns the folders on the way to a path: "/", and all that end before a slash. */
static int learn_ways(const char *path) {
    int why = is_way_known("/", 1) ? 0 : learn_way("/", 1);
    for (const char *slash = strchr(path + 1, '/'); why == 0 && slash != NULL; slash = strchr(slash + 1, '/')) {
        size_t length = (size_t)(slash - path);
        if (!is_way_known(path, length)) why = learn_way(path, length);
    }
    return why;
}

/* How many blocks the file system takes at most for all that is kept: the nodes of the files (write_buffer.c), and twice the nodes of
 * each folder on the way, since each line writes those anew while the ones that the line before it wrote are in use. A folder has at
 * most one entry more for each name that has changed since it was looked at. */
uint64_t writes_blocks(void) {
    uint64_t blocks = buffer.most_nodes;
    for (size_t i = 0; i < ways.count; i++) {
        uint64_t entries = ways.ways[i].entries + ways.names - ways.ways[i].names;
        if (entries > MOST_ENTRIES) entries = MOST_ENTRIES;
        blocks += 2 * (entries / ENTRIES_OF_NODE + 1);
    }
    return blocks;
}

/* Whether the folder of a path has room for one entry more, as far as is known; where nothing is known no file waits in it. */
static int has_entry_left(const char *path) {
    const char *slash = strrchr(path, '/');
    size_t length = slash == path ? 1 : (size_t)(slash - path);
    for (size_t i = 0; i < ways.count; i++) {
        const struct way *way = &ways.ways[i];
        if (strncmp(way->path, path, length) == 0 && way->path[length] == 0) return way->entries + ways.names - way->names < MOST_ENTRIES;
    }
    return 1;
}

uint64_t writes_twice(void) { return written_twice(&buffer); }

int writes_are_kept(void) { return buffer.most_nodes > 0; }

/* Whether what is kept has room for certain with so many blocks more. */
static int has_room_for(uint64_t more) { return !ways.is_short && space_has(writes_blocks() + more); }

/* ---- giving ---- */

static struct undofs_lines *emptied(void) {
    static struct undofs_lines lines;
    lines.length = 0;
    lines.failed = 0;
    return &lines;
}

/* The file system was given lines that it refused: how much of the file it has is asked anew. */
static void learn_length(struct written_file *file) {
    struct undofs_stat found;
    if (undofs_stat(saves.child, file->path, NULL, &found) != 0) return;
    file->given_length = found.length;
    file->is_new = 0;
}

static void note_given(struct written_file *file, int why) {
    if (why == 0) written_given(&buffer, file);
    else learn_length(file);
}

/* Puts the lines of files at a path and below it, or of those that are new, up to a length. How many files that are. */
static size_t gather(const char *path, int are_new, struct written_file **files, struct undofs_lines *lines) {
    size_t count = 0;
    for (size_t i = 0; i < WRITTEN_BUCKETS; i++) {
        for (struct written_file *file = buffer.files[i]; file != NULL; file = file->next) {
            int is_meant = file->is_new || (!are_new && file->runs != NULL);
            if (!is_meant || !written_is_below(file, path)) continue;
            written_put(&buffer, file, lines);
            files[count++] = file;
            if (count == FILES_AT_ONCE || lines->length > LINES_AT_ONCE) return count;
        }
    }
    return count;
}

/* In the midst of it a group that is too large may end, and begin anew: that is left to who gives. */
static int is_giving;

/* That bytes are given is no change: they were written before. Where the group is gone, as after a failure of the part, so is all that was
 * kept of it, and no file is known any more. */
static int give_lines(const struct undofs_lines *lines) {
    double changed_at = saves.changed_at;
    is_giving = 1;
    int why = saves_change(lines, NULL);
    is_giving = 0;
    saves.changed_at = changed_at;
    if (!saves.in_group) writes_drop("/");
    return why;
}

static int give_below(const char *path, int are_new) {
    struct written_file *files[FILES_AT_ONCE];
    int why = 0;
    if (is_giving) return 0;
    while (why == 0) {
        struct undofs_lines *lines = emptied();
        size_t count = gather(path, are_new, files, lines);
        if (count == 0) break;
        why = give_lines(lines);
        for (size_t i = 0; i < count && saves.in_group; i++) note_given(files[i], why);
    }
    if (!writes_are_kept()) forget_ways_below("/"); /* they take nothing for what is given */
    return why;
}

int writes_give(const char *path) { return give_below(path, 0); }

int writes_make(const char *path) { return give_below(has_entry_left(path) ? path : "/", 1); }

/* Gives the longest run of a file, or of all; a refusal, or 0. */
static int give_longest(struct written_file *file) {
    struct run *run = file == NULL ? written_longest(&buffer, &file) : written_longest_of(file);
    if (run == NULL) return 0;
    struct undofs_lines *lines = emptied();
    size_t count = written_put_run(&buffer, file, run, lines);
    int why = give_lines(lines);
    if (why == 0) written_run_given(&buffer, file, run, count);
    else if (saves.in_group) learn_length(file);
    return why;
}

/* Gives what is more than may be kept, the longest runs first, and some more, so that they are not looked for at each write. */
static int give_surplus(struct written_file *file) {
    int why = 0;
    struct written_file *any;
    while (why == 0 && written_is_full(file)) why = give_longest(file);
    if (why != 0 || buffer.memory <= most_kept) return why;
    while (why == 0 && buffer.memory > most_kept / 4 * 3 && written_longest(&buffer, &any) != NULL) why = give_longest(NULL);
    return why;
}

/* ---- keeping ---- */

/* The file, which has to be there; null where it is not, and then why. */
static struct written_file *file_at(const char *path, int *why) {
    struct written_file *file = written_find(&buffer, path);
    struct undofs_stat found = {0, 0};
    if (file != NULL) return file;
    *why = reads_stat(path, &found);
    if (*why == 0 && found.is_directory) *why = IS_DIRECTORY;
    if (*why == 0) file = written_know(&buffer, path, found.length);
    if (*why == 0 && file == NULL) *why = UNDOFS_NO_MEMORY;
    return file;
}

/* Gives these bytes: where they are refused, as by a full flash, nothing else is concerned. */
static int give_at_once(const char *path, struct written_file *file, uint64_t at, const uint8_t *bytes, size_t count) {
    ways.is_short = 1;
    int made = writes_make(path);
    if (made != 0) return made;
    if (!written_keep(&buffer, file, at, bytes, count)) return UNDOFS_NO_MEMORY;
    int why = writes_give(path);
    if (why != 0) writes_drop(path);
    return why;
}

/* How many blocks more have to be free for bytes of a file: those that a longer file has to leave free too. */
static uint64_t more_for(const struct written_file *file, uint64_t at, size_t count) {
    uint64_t nodes = written_nodes_with(&buffer, file, at, count) - file->most_nodes;
    return at + count > written_length(file) ? nodes + space_reserve() : nodes;
}

int writes_keep(const char *path, uint64_t at, const uint8_t *bytes, size_t count, size_t *kept) {
    int why = 0;
    if (at >= MOST_LENGTH) return TOO_LONG;
    *kept = count < MOST_LENGTH - at ? count : (size_t)(MOST_LENGTH - at);
    struct written_file *file = file_at(path, &why);
    if (why == 0) why = learn_ways(path);
    if (why != 0) return why;
    if (!has_room_for(more_for(file, at, *kept))) why = writes_give("/");
    if (why == 0) why = learn_ways(path); /* if all was given */
    if (why == 0 && !has_room_for(more_for(file, at, *kept))) why = saves_find_room();
    if (why != 0) return why;
    if (!has_room_for(more_for(file, at, *kept))) return give_at_once(path, file, at, bytes, *kept);
    if (!written_keep(&buffer, file, at, bytes, *kept)) return UNDOFS_NO_MEMORY;
    return give_surplus(file);
}

/* ---- new files ---- */

/* Whether a path has as many names, and its last one as many bytes, as the file system takes. */
static int may_be_named(const char *path) {
    size_t names = 0;
    for (const char *at = path; *at != 0; at++) names += *at == '/';
    return names <= MOST_NAMES && strlen(strrchr(path, '/') + 1) <= MOST_NAME_BYTES;
}

int writes_make_later(const char *path) {
    struct undofs_stat found;
    if (most_kept == 0 || ways.is_short || !undofs_is_there(saves.child) || written_find(&buffer, path) != NULL) return 0;
    if (!may_be_named(path) || reads_stat(path, &found) != UNDOFS_ENOENT || learn_ways(path) != 0 || !has_entry_left(path)) return 0;
    touched_made(path);
    return space_has_room(&last_touch) && written_make(&buffer, path) != NULL;
}

void writes_list_new(const char *folder, void (*each)(void *with, const char *name), void *with) {
    size_t length = folder[1] == 0 ? 0 : strlen(folder);
    for (size_t i = 0; i < WRITTEN_BUCKETS; i++) {
        for (const struct written_file *file = buffer.files[i]; file != NULL; file = file->next) {
            int is_below = file->is_new && strncmp(file->path, folder, length) == 0 && file->path[length] == '/';
            if (is_below && strchr(file->path + length + 1, '/') == NULL) each(with, file->path + length + 1);
        }
    }
}

int writes_is_new(const char *path) {
    const struct written_file *file = written_find(&buffer, path);
    return file != NULL && file->is_new;
}

int writes_make_at(const char *path, const char *to, int *is_done) {
    const struct written_file *file = written_find(&buffer, path);
    struct undofs_lines *lines = emptied();
    *is_done = 0;
    if (!writes_is_new(path) || !written_put_at(file, to, lines) || learn_ways(to) != 0 || !has_room_for(0)) return 0;
    int why = give_lines(lines);
    *is_done = why == 0;
    return why == UNDOFS_ENOSPC ? 0 : why;
}

/* ---- what is known of files ---- */

void writes_start(size_t most) {
    most_kept = most;
    buffer.node = saves.block - HEAD_OF_NODE;
}

void writes_drop(const char *path) {
    if (is_giving) return;
    written_drop_below(&buffer, path);
    forget_ways_below(path);
    if (path[1] == 0) ways.is_short = 0; /* the group is over */
}

void writes_cut(const char *path) {
    writes_drop(path);
    (void)written_know(&buffer, path, 0); /* without memory it is asked for later */
}

int writes_know_length(const char *path, uint64_t *length) {
    const struct written_file *file = written_find(&buffer, path);
    if (file != NULL) *length = written_length(file);
    return file != NULL;
}

size_t writes_wanted(const char *path, uint64_t at, size_t wanted) {
    const struct written_file *file = written_find(&buffer, path);
    if (file == NULL || at + wanted <= file->given_length) return wanted;
    return at < file->given_length ? (size_t)(file->given_length - at) : 0;
}

size_t writes_read(const char *path, uint64_t at, uint8_t *bytes, size_t wanted, size_t had) {
    const struct written_file *file = written_find(&buffer, path);
    return file == NULL ? had : written_read(file, at, bytes, wanted, had);
}
