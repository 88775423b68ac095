/* `.undofs`, by which versions are asked for, and `.history`, in which they are read. */
#ifndef CONTROL_H
#define CONTROL_H

#include <stddef.h>

/* A path of the folder, told apart: one of the tree, `.undofs`, `.history` itself, or a path in a view below it. */
enum place_kind { IN_TREE, CONTROL, HISTORY, IN_VIEW };
struct place {
    enum place_kind kind;
    const char *path; /* in the tree */
    char view[80];    /* "@5" or "=name"; empty in the present tree */
};
struct place place_of(const char *path);

/* Does what was written to `.undofs`. An errno below 0, or 0. */
int control_write(const char *text, size_t length);
/* What `.undofs` reads as; to be freed. */
char *control_text(void);

#endif
