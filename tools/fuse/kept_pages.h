/* Which files were opened since the present tree last moved: their pages in the kernel are right. */
#ifndef KEPT_PAGES_H
#define KEPT_PAGES_H

/* Notes that a file is opened. Whether the pages that the kernel may have of it are right. */
int pages_are_right(const char *path);
/* A path moved, or is gone, with all below it: what stands there now is another file. With "/" the tree moved. */
void pages_forget(const char *path);

#endif
