#define _GNU_SOURCE
#include "opened.h"
#include "saves.h"
#include <errno.h>
#include <stdlib.h>
#include <string.h>

static struct opened *all_opened;

struct opened *opened_of(const struct fuse_file_info *info) { return info == NULL ? NULL : (struct opened *)(uintptr_t)info->fh; }

int opened_add(struct fuse_file_info *info, const char *path, char *text) {
    struct opened *o = calloc(1, sizeof *o);
    if (o != NULL && path != NULL) o->path = strdup(path);
    if (o == NULL || (path != NULL && o->path == NULL)) {
        free(o);
        free(text);
        return -ENOMEM;
    }
    o->next = all_opened;
    all_opened = o;
    o->text = text;
    info->fh = (uintptr_t)o;
    return 0;
}

void opened_drop(struct opened *o) {
    if (o == NULL) return;
    for (struct opened **at = &all_opened; *at != NULL; at = &(*at)->next) {
        if (*at != o) continue;
        *at = o->next;
        break;
    }
    free(o->path);
    free(o->text);
    free(o);
}

/* ---- who is writing ---- */

static int is_in_group(const struct opened *o) { return saves.in_group && o->group == saves.groups; }

/* A file that was only made or cut is in the group, and its close does not end it: a shell closes its first number
 * of a file before it writes to the second. Its release does. */
void opened_note_write(struct opened *o, int is_written) {
    if (o == NULL) return;
    if (is_written && !o->is_unclosed) o->first = saves.groups;
    o->is_unclosed |= is_written;
    o->group = saves.groups;
}

int opened_any_in_group(void) {
    for (const struct opened *o = all_opened; o != NULL; o = o->next) {
        if (is_in_group(o)) return 1;
    }
    return 0;
}

int opened_unclosed_writers(void) {
    int writers = 0;
    for (const struct opened *o = all_opened; o != NULL; o = o->next) writers += o->is_unclosed && is_in_group(o) && o->first == saves.groups;
    return writers;
}

/* ---- where ---- */

static int is_below(const char *path, const char *folder) {
    size_t length = strlen(folder);
    return strncmp(path, folder, length) == 0 && (path[length] == 0 || path[length] == '/');
}

void opened_move(const char *from, const char *to) {
    for (struct opened *o = all_opened; o != NULL; o = o->next) {
        if (o->path == NULL || !is_below(o->path, from)) continue;
        const char *rest = o->path + strlen(from);
        char *path = malloc(strlen(to) + strlen(rest) + 1);
        if (path == NULL) abort();
        strcpy(stpcpy(path, to), rest);
        free(o->path);
        o->path = path;
    }
}

static int is_listed(const struct paths *list, const char *path) {
    for (size_t i = 0; i < list->count; i++) {
        if (strcmp(list->paths[i], path) == 0) return 1;
    }
    return 0;
}

struct paths opened_paths(void) {
    struct paths list = {NULL, 0};
    size_t count = 0;
    for (const struct opened *o = all_opened; o != NULL; o = o->next) count++;
    list.paths = calloc(count + 1, sizeof *list.paths);
    if (list.paths == NULL) abort();
    for (const struct opened *o = all_opened; o != NULL; o = o->next) {
        if (o->path == NULL || is_listed(&list, o->path)) continue;
        list.paths[list.count] = strdup(o->path);
        if (list.paths[list.count++] == NULL) abort();
    }
    return list;
}

void paths_free(struct paths *list) {
    for (size_t i = 0; i < list->count; i++) free(list->paths[i]);
    free(list->paths);
    *list = (struct paths){NULL, 0};
}
