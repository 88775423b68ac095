/* Requests of the kernel are served by one thread at a time: the first one, or a second one while the first waits for the kernel. */
#ifndef SERVING_H
#define SERVING_H

#include "opened.h"

/* Serves until the folder is unmounted or a signal came. 0, or an errno where the second thread is not to be had. */
int serve_folder(struct fuse *fuse);
/* In a request: has the kernel drop the pages of these paths. What a program changed in a map comes as writes meanwhile. */
void serving_drop_pages(const struct paths *paths);

#endif
