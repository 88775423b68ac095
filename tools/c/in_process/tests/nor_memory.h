/* A serial NOR part in memory: a program clears bits, an erase sets them, and power goes or an operation fails as planned. */
#ifndef NOR_MEMORY_H
#define NOR_MEMORY_H

#include "../nor_in_process.h"

enum nor_end { NOR_BEFORE, NOR_WITHIN, NOR_AFTER, NOR_ENDS };

struct nor_memory {
    uint32_t pages;
    uint8_t *bytes;
    uint64_t operations;
    uint64_t cut_at, fails_at; /* the operation of this number, from 1 on; 0: none */
    enum nor_end end;          /* where power goes */
    int is_misused;            /* a page out of range, or an operation without power */
    int has_no_power;
};

/* A blank part. It ends the program where there is no memory. */
void nor_memory_make(struct nor_memory *part, uint32_t pages);
void nor_memory_free(struct nor_memory *part);
void nor_memory_power_on(struct nor_memory *part);
/* The driver of a part, which has to stay where it is. */
struct undofs_nor nor_memory_driver(struct nor_memory *part);

#endif
