/* A group whose tree is that before it. */
#ifndef SAME_TREE_H
#define SAME_TREE_H

#include "../c/undofs_client.h"

/* Whether the tree of the open group is that of a version, in all that was touched (touched.h). Where that is more than 4,096 paths or
 * 1 MiB of bytes, it is taken as another one. */
int is_same_tree(struct undofs *child, uint64_t serial);

#endif
