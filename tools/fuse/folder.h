/* What FUSE asks of the folder. */
#ifndef FOLDER_H
#define FOLDER_H

#define FUSE_USE_VERSION 31
#include <fuse.h>

extern const struct fuse_operations folder_operations;

#endif
