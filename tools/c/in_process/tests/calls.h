/* Calls by chance, the same for the same seed, and what they answer. */
#ifndef CALLS_H
#define CALLS_H

#include "../../undofs_client.h"

enum kind {
    WRITE, READ, MKDIR, RMDIR, UNLINK, RENAME, STAT, LIST, UNDO, REDO, SYNC, CHECKPOINT, ROLLBACK, FORGET,
    RECLAIM, LOG, OPEN, PWRITE, PREAD, TRUNCATE, FSYNC, CLOSE, RESTART, KINDS
};

struct call {
    enum kind kind;
    char path[16], other[16];
    uint32_t number, length, seed;
};

enum { MOST_BYTES = 20000, MOST_TEXT = 2 * MOST_BYTES };

/* Why it was refused, or 0; and then what it told: text or bytes. */
struct answer {
    int why;
    size_t count;
    uint8_t bytes[MOST_TEXT];
};

/* A number below `most`. */
uint32_t below(uint32_t *seed, uint32_t most);
struct call call_of(uint32_t *seed);
void carry_out(struct undofs *handle, const struct call *call, struct answer *answer);
int are_same(const struct answer *one, const struct answer *other);

#endif
