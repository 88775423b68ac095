/* What the open group touched, by path: so it can be told whether its tree differs from that before, and how many blocks it takes at
 * most. */
#ifndef TOUCHED_H
#define TOUCHED_H

#include <stddef.h>
#include <stdint.h>

enum touched_kind {
    TOUCHED_PATH, /* what stands there, and its bytes between `from` and `to` */
    TOUCHED_TREE, /* all below it too */
    TOUCHED_WAY,  /* a directory that an edit of an entry writes anew */
};

struct touched {
    struct touched *next; /* in its bucket */
    enum touched_kind kind;
    int is_written;    /* nodes of its bytes were written */
    uint64_t from, to; /* of a file: which bytes may differ, `to` not among them */
    uint64_t length;   /* of a file its bytes, of a directory on the way its entries; TOUCHED_ALL where nobody asked */
    char path[];
};

enum growth {
    GROWS_NOT,    /* no file is longer, and none is new */
    GROWS_ANEW,   /* nor here, but the file is written anew for the first time in the group */
    GROWS_LONGER, /* a file is longer, or new */
};

/* What the last change takes: so many blocks at most. */
struct touch {
    uint64_t blocks;
    enum growth growth;
};
extern struct touch last_touch;

#define TOUCHED_ALL UINT64_MAX

/* Nothing was touched; it cannot be told what was. */
void touched_clear(void);
void touched_lose(void);
/* Before a change is given: a file or a directory is made, a file is written or cut, a path is removed, one is moved. */
void touched_made(const char *path);
void touched_written(const char *path, uint64_t from, uint64_t to);
void touched_cut(const char *path, uint64_t length);
void touched_removed(const char *path);
void touched_moved(const char *from, const char *to, int is_directory);
/* What is to be compared too. */
void touched_tree(const char *path);

/* How many there are, and each. Too much was touched to tell all of it. */
size_t touched_count(void);
struct touched *touched_at(size_t place);
int touched_is_lost(void);
/* How many blocks all changes of the group take at most, without those that a later one of them gave up. */
uint64_t touched_blocks(void);

#endif
