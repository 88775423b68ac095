/* A NAND chip in memory, which ends the program where it is misused: a page that is programmed twice between two erases, pages
 * of a block out of order, an operation on a block that the maker marked bad. One operation may be planned to fail, or
 * to have power go in it: then some bits of it are changed and some are not. */
#ifndef NAND_IN_MEMORY_H
#define NAND_IN_MEMORY_H

#include "raw_nand.h"

struct nand_in_memory {
    struct undofs_sizes sizes;
    uint8_t *bytes, *spares;
    uint32_t *next;     /* of each block: the page that may be programmed next, from 0 */
    uint32_t bad_block; /* marked by the maker; ~0 for none */
    uint64_t operations;
    uint64_t cut_at, fail_every; /* 0 for never; counted from 1 */
    int has_no_power;
    unsigned random;
};

/* 0, or -1 for want of memory. */
int nand_in_memory_make(struct nand_in_memory *chip, struct undofs_sizes sizes);
void nand_in_memory_drop(struct nand_in_memory *chip);
struct nand_chip nand_in_memory_chip(struct nand_in_memory *chip);

#endif
