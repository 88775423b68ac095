#define _GNU_SOURCE
#include "same_tree.h"
#include "touched.h"
#include <stdio.h>
#include <stdlib.h>
#include <string.h>

enum { MOST_PATHS = 4096, MOST_BYTES = 1 << 20, PIECE = 32000 };

static char view[32];
static struct undofs_lines lines;

/* Asks the same of the group's tree and of the version's. Whether the answers are the same, and tell what stands there: that nothing
 * does tells it too. */
static int is_answered_alike(struct undofs *child, const char *verb, const char *path, const char *rest) {
    lines.length = 0;
    for (int i = 0; i < 2; i++) {
        undofs_put_text(&lines, verb);
        undofs_put_text(&lines, " ");
        undofs_put_word(&lines, path);
        undofs_put_text(&lines, rest);
        undofs_put_text(&lines, i == 0 ? "" : view);
        undofs_put_end(&lines);
    }
    int why = undofs_exchange(child, &lines);
    if (why != 0 && why != UNDOFS_ENOENT && why != UNDOFS_ENOTDIR) return 0;
    return undofs_is_same_reply(undofs_reply(child, 0), undofs_reply(child, 1));
}

/* The entries of a directory are to be compared too. */
static int has_same_names(struct undofs *child, const char *path) {
    if (!is_answered_alike(child, "ls", path, "")) return 0;
    char *names = strdup(undofs_reply(child, 0)), *rest = names, *name, *below = NULL;
    for (int word = 0; (name = strsep(&rest, " ")) != NULL && touched_count() <= MOST_PATHS; word++) {
        size_t length = strlen(name);
        if (word < 2 || length == 0) continue; /* "entries" and their number */
        if (name[length - 1] == '/') name[length - 1] = 0;
        undofs_take_word(name);
        if (asprintf(&below, "%s/%s", strcmp(path, "/") == 0 ? "" : path, name) < 0) break;
        touched_tree(below);
        free(below);
    }
    free(names);
    return names != NULL && name == NULL;
}

/* Whether a thing of the same kind and length stands there; how many bytes are to be compared is added. */
static int is_same_thing(struct undofs *child, struct touched *t, uint64_t *bytes) {
    if (!is_answered_alike(child, "stat", t->path, "")) return 0;
    const char *reply = undofs_reply(child, 0);
    int is_file = strncmp(reply, "file ", 5) == 0, is_directory = *reply == 'd';
    uint64_t length = is_file ? strtoull(reply + 5, NULL, 10) : 0;
    if (t->to > length) t->to = length;
    if (t->from < t->to) *bytes += t->to - t->from;
    return is_directory && t->kind == TOUCHED_TREE ? has_same_names(child, t->path) : 1;
}

static int has_same_bytes(struct undofs *child, const struct touched *t) {
    char place[64];
    for (uint64_t at = t->from; at < t->to; at += PIECE) {
        uint64_t some = t->to - at < PIECE ? t->to - at : PIECE;
        snprintf(place, sizeof place, " %llu %llu", (unsigned long long)at, (unsigned long long)some);
        if (!is_answered_alike(child, "read", t->path, place)) return 0;
    }
    return 1;
}

int is_same_tree(struct undofs *child, uint64_t serial) {
    uint64_t bytes = 0;
    if (touched_is_lost() || touched_count() > MOST_PATHS) return 0; /* before all else: what is lost is no path of the list */
    snprintf(view, sizeof view, " @%llu", (unsigned long long)serial);
    for (size_t i = 0; i < touched_count(); i++) {
        if (touched_at(i)->kind != TOUCHED_WAY && !is_same_thing(child, touched_at(i), &bytes)) return 0;
    }
    if (bytes > MOST_BYTES) return 0;
    for (size_t i = 0; i < touched_count(); i++) {
        if (touched_at(i)->kind != TOUCHED_WAY && !has_same_bytes(child, touched_at(i))) return 0;
    }
    return 1;
}
