/* The write buffer by itself: 100,000 random calls beside plain arrays. A file is read, cut, dropped and given by its lines, which are
 * carried out on a plain array that stands for the file system. The status is 0 where all was right. */
#define _GNU_SOURCE
#include "../write_buffer.h"
#include <stdio.h>
#include <stdlib.h>
#include <string.h>

enum { FILES = 5, MOST = 400000, CALLS = 100000, ROUNDS = 10 };

struct model {
    const char *path;
    uint8_t shown[MOST], given[MOST]; /* as it is to be seen, and as the file system has it */
    size_t shown_length, given_length;
    int is_made; /* the file system has the file */
    uint64_t first_node; /* the first that the lines of this give have written; none yet where it is above all */
};

static struct model models[FILES] = {{.path = "/a"}, {.path = "/d/b"}, {.path = "/d/c%"}, {.path = "/d"}, {.path = "/da/b"}};
static struct write_buffer buffer;
static struct undofs_lines lines;

static void check(int is_right, const char *what) {
    if (is_right) return;
    printf("%s\n", what);
    exit(1);
}

static size_t draw(size_t below) { return (size_t)random() % below; }

/* ---- the file system ---- */

static struct model *model_at(const char *word) {
    char path[100];
    snprintf(path, sizeof path, "%.*s", (int)strcspn(word, " "), word);
    undofs_take_word(path);
    for (int i = 0; i < FILES; i++) {
        if (strcmp(models[i].path, path) == 0) return &models[i];
    }
    check(0, "a line has a path that is none");
    return NULL;
}

/* Writes bytes, and looks that no more nodes are in use in it than the buffer said. */
static void write_given(struct model *m, uint64_t at, const char *digits, uint64_t most_nodes) {
    static char reply[UNDOFS_LINE + 10];
    size_t count = strcspn(digits, "\n") / 2, had = m->given_length;
    snprintf(reply, sizeof reply, "data %.*s", (int)(2 * count), digits);
    check(at + count <= MOST, "a line goes too far");
    if (at > had) memset(m->given + had, 0, at - had);
    check(undofs_take_data(reply, m->given + at, count) == count, "digits");
    if (at + count > had) m->given_length = at + count;
    uint64_t first = (at < had ? at : had) / buffer.node, end = (m->given_length + buffer.node - 1) / buffer.node;
    uint64_t old_end = (had + buffer.node - 1) / buffer.node;
    uint64_t before = m->first_node < old_end ? old_end - m->first_node : 0; /* those that earlier lines of this give wrote */
    check(before + end - first <= most_nodes, "more nodes than were told");
    if (first < m->first_node) m->first_node = first;
}

/* Carries out the lines of one file; each piece has to end where a node ends, or where a run does. */
static void carry_out(const struct written_file *file) {
    struct model *m = NULL;
    uint64_t most_nodes = file->most_nodes;
    check(!lines.failed, "memory");
    for (char *line = lines.text, *next; line < lines.text + lines.length; line = next) {
        next = memchr(line, '\n', lines.length - (size_t)(line - lines.text));
        check(next != NULL && next - line <= UNDOFS_LINE, "a line is too long");
        *next++ = 0;
        if (strncmp(line, "open ", 5) == 0) {
            m = model_at(line + 5);
            check(strcmp(strrchr(line, ' '), m->is_made ? " 2" : " 6") == 0, "a file is opened that is not there, or made that is");
            m->is_made = 1;
        } else if (strncmp(line, "pwrite 0 ", 9) == 0) {
            check(m != NULL, "a file is open");
            uint64_t at = strtoull(line + 9, &line, 10), end = at + strlen(line + 1) / 2;
            int is_end = end % buffer.node == 0 || end / buffer.node == at / buffer.node;
            for (const struct run *run = file->runs; run != NULL; run = run->next) is_end |= run->at + run->length == end;
            check(is_end, "a piece ends in the middle of a node");
            write_given(m, at, line + 1, most_nodes);
        } else if (strncmp(line, "write ", 6) == 0) {
            m = model_at(line + 6);
            check(m->given_length == 0, "a file that has bytes is replaced");
            m->is_made = 1;
            write_given(m, 0, strchr(line + 6, ' ') + 1, most_nodes);
        } else {
            check(strcmp(line, "close 0") == 0, "a line that is none");
            m = NULL;
        }
    }
    lines.length = 0;
}

static void begin_give(const struct written_file *file) {
    for (int i = 0; i < FILES; i++) {
        if (strcmp(models[i].path, file->path) == 0) models[i].first_node = UINT64_MAX;
    }
}

static void give(struct written_file *file) {
    begin_give(file);
    written_put(&buffer, file, &lines);
    carry_out(file);
    written_given(&buffer, file);
}

static void give_longest(struct written_file *file) {
    struct run *run = file == NULL ? written_longest(&buffer, &file) : written_longest_of(file);
    if (run == NULL) return;
    begin_give(file);
    size_t count = written_put_run(&buffer, file, run, &lines);
    check(count > 0, "nothing is given");
    carry_out(file);
    written_run_given(&buffer, file, run, count);
}

/* Any file with runs. */
static struct written_file *any_file(void) {
    struct written_file *file = NULL;
    return written_longest(&buffer, &file) == NULL ? NULL : file;
}

/* ---- calls ---- */

static struct written_file *file_of(const struct model *m) {
    struct written_file *file = written_find(&buffer, m->path);
    if (file == NULL) file = m->is_made ? written_know(&buffer, m->path, m->given_length) : written_make(&buffer, m->path);
    check(file != NULL, "memory");
    return file;
}

static void write_some(struct model *m, size_t most, size_t longest) {
    static uint8_t bytes[MOST];
    size_t count = 1 + draw(longest), at = draw(3) == 0 ? m->shown_length : draw(most);
    if (at + count > MOST) return;
    uint8_t seed = (uint8_t)random();
    for (size_t i = 0; i < count; i++) bytes[i] = seed = (uint8_t)(seed * 5 + 1 + (i >> 8)); /* no two pieces are alike */
    if (at > m->shown_length) memset(m->shown + m->shown_length, 0, at - m->shown_length);
    memcpy(m->shown + at, bytes, count);
    if (at + count > m->shown_length) m->shown_length = at + count;
    struct written_file *file = file_of(m);
    uint64_t nodes = written_nodes_with(&buffer, file, at, count);
    check(written_keep(&buffer, file, at, bytes, count), "memory");
    check(file->most_nodes <= nodes, "more nodes than with these bytes");
    while (written_is_full(file)) give_longest(file);
}

static void read_some(const struct model *m, size_t at, size_t wanted) {
    static uint8_t bytes[MOST];
    const struct written_file *file = written_find(&buffer, m->path);
    size_t had = at >= m->given_length ? 0 : m->given_length - at < wanted ? m->given_length - at : wanted;
    size_t count = at >= m->shown_length ? 0 : m->shown_length - at < wanted ? m->shown_length - at : wanted;
    memset(bytes, 0xee, wanted);
    memcpy(bytes, m->given + at, had);
    if (file != NULL) had = written_read(file, at, bytes, wanted, had);
    check(had == count && memcmp(bytes, m->shown + at, count) == 0, "what is read");
    check(file == NULL || written_length(file) == m->shown_length, "the length");
}

/* A file is cut or removed: its runs are for nothing, and those of its neighbours are not. */
static void drop(struct model *m) {
    written_drop_below(&buffer, m->path);
    size_t length = strlen(m->path);
    for (int i = 0; i < FILES; i++) {
        struct model *other = &models[i];
        int is_below = strncmp(other->path, m->path, length) == 0 && (other->path[length] == 0 || other->path[length] == '/');
        if (is_below) memcpy(other->shown, other->given, other->given_length);
        if (is_below) other->shown_length = other->given_length;
        if (is_below) check(written_find(&buffer, other->path) == NULL, "what was dropped");
    }
}

static void cut(struct model *m) {
    struct written_file *file = written_find(&buffer, m->path);
    if (file != NULL && file->runs != NULL) give(file);
    written_drop_below(&buffer, m->path);
    for (int i = 0; i < FILES; i++) {
        if (written_find(&buffer, models[i].path) == NULL) models[i].shown_length = models[i].given_length;
        if (written_find(&buffer, models[i].path) == NULL) memcpy(models[i].shown, models[i].given, models[i].given_length);
    }
    m->given_length = m->shown_length = draw(m->shown_length + 1);
}

static void call_once(size_t most, size_t longest, size_t in_all) {
    struct model *m = &models[draw(FILES)];
    size_t kind = draw(100);
    if (kind < 60) write_some(m, most, longest);
    else if (kind < 90) read_some(m, draw(most), 1 + draw(longest));
    else if (kind < 93 && written_find(&buffer, m->path) != NULL) give(written_find(&buffer, m->path));
    else if (kind < 95) give_longest(NULL);
    else if (kind < 96) drop(m);
    else if (kind < 97) cut(m);
    while (buffer.memory > in_all && any_file() != NULL) give_longest(NULL);
}

static void end_round(void) {
    for (struct written_file *file; (file = any_file()) != NULL;) give(file);
    for (int i = 0; i < FILES; i++) read_some(&models[i], 0, MOST);
    for (int i = 0; i < FILES; i++) check(models[i].given_length == models[i].shown_length, "what was given");
    check(buffer.most_nodes == 0, "nodes of a buffer in which nothing is");
    written_drop_below(&buffer, "/");
    check(buffer.memory == 0, "memory of a buffer in which nothing is");
    for (int i = 0; i < FILES; i++) models[i].given_length = models[i].shown_length = 0;
    for (int i = 0; i < FILES; i++) models[i].is_made = 0;
}

int main(void) {
    static const size_t nodes[] = {64, 4016, 130992}, most[] = {300, 6000, 350000}, longest[] = {40, 900, 40000};
    srandom(7);
    for (int round = 0; round < ROUNDS; round++) {
        size_t kind = round == ROUNDS - 1 ? 2 : (size_t)round % 2;
        buffer.node = (uint32_t)nodes[round % 3];
        for (int i = 0; i < CALLS / ROUNDS; i++) call_once(most[kind], longest[kind], draw(2) == 0 ? 1 << 24 : 4096);
        end_round();
    }
    free(lines.text);
    return 0;
}
