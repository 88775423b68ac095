/* A driver over /dev/mtdN: NOR in a layout of docs/format.md, with sectors of the part's size, or NAND by raw_nand.h with the
 * free spare bytes of each page. It was tried over tests/mtd_shim.c and under a kernel with simulated flash, and on no real part. */
#ifndef MTD_PART_H
#define MTD_PART_H

#include "../c/raw_nand.h"

struct mtd_part {
    int descriptor, is_nor;
    int may_spoil; /* a NAND page takes a second program of spare bytes; MLC does not, where it may spoil another page */
    uint32_t erase_size; /* bytes of a sector, which on NAND is a block */
    uint32_t sectors; /* of a block, in the layout `dense`; 0 in others */
    struct undofs_sizes sizes;
    struct nand_chip chip;
};

/* Opens a part, and claims it. Of one that is larger the first 64 MiB are used. 0, or an errno: ENODEV where it is neither NOR nor
 * NAND, ERANGE where its sizes are not those of docs/format.md. NAND wants Linux 6.1 for reads of spare bytes.
 * `is_nor`: it has to be NOR, or of type RAM, as mtdram and block2mtd are, which is used as NOR then.
 * `sectors`: where it is not 0, it has to be NOR, in the layout `dense` with blocks of so many sectors, which are 8,192 to 262,144
 * bytes, a multiple of 4,096. docs/dense_nor.md tells what that asks of a part. */
int mtd_part_open(struct mtd_part *part, const char *name, int is_nor, uint32_t sectors);
struct undofs_driver mtd_part_driver(struct mtd_part *part);

#endif
