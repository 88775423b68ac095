#define _GNU_SOURCE
#include "kept_pages.h"
#include <stddef.h>
#include <stdint.h>
#include <stdlib.h>
#include <string.h>

enum { PATHS = 1024 };

static char *paths[PATHS]; /* each in its place; one that comes takes the place of another */

static char **place_for(const char *path) {
    uint32_t hash = 2166136261u;
    for (; *path != 0; path++) hash = (hash ^ (unsigned char)*path) * 16777619u;
    return &paths[hash % PATHS];
}

int pages_are_right(const char *path) {
    char **place = place_for(path);
    if (*place != NULL && strcmp(*place, path) == 0) return 1;
    free(*place);
    *place = strdup(path); /* without memory it is not known next time */
    return 0;
}

static int is_below(const char *path, const char *top) {
    size_t length = strlen(top);
    return length == 1 || (strncmp(path, top, length) == 0 && (path[length] == 0 || path[length] == '/'));
}

void pages_forget(const char *top) {
    for (size_t i = 0; i < PATHS; i++) {
        if (paths[i] == NULL || !is_below(paths[i], top)) continue;
        free(paths[i]);
        paths[i] = NULL;
    }
}
