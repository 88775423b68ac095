/* What the two handles share: undofs_client.c over a child, and in_process/in_process.c. */
#ifndef UNDOFS_WIRE_H
#define UNDOFS_WIRE_H

#include "undofs_client.h"

/* The handle's own lines, emptied. */
struct undofs_lines *undofs_line(struct undofs *handle);

int undofs_are_lawful(const struct undofs_sizes *sizes);

/* Whether the handle takes and gives bytes of a file as they are, and not as two digits each. Then they stand in lines, and after
 * `data ` in a reply, as a NUL, how many they are as a size_t, and the bytes. */
extern const int undofs_takes_bytes;
enum { UNDOFS_BYTES_HEAD = 1 + sizeof(size_t) };
/* How many bytes are at a NUL. */
size_t undofs_count_at(const char *nul);

/* Replies, each ended by NUL. */
struct undofs_replies {
    char *text;
    size_t length, room;
};

/* Where a reply ends. */
const char *undofs_end_of_reply(const char *reply);
/* Whether there is room for so many bytes more, which is made where it can be. */
int undofs_has_room(struct undofs_replies *replies, size_t more);
/* The first refusal among the first `count` replies, or 0. */
int undofs_first_refusal(const struct undofs_replies *replies, size_t count);
/* The reply `index`; empty where there is none. */
char *undofs_reply_of(struct undofs_replies *replies, size_t index);

#endif
