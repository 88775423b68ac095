/* A driver for raw NAND: beside each page stand a mark and a sum in six spare bytes, so that a page is told as erased, as
 * its bytes, or as unreadable. The chip under it corrects errors in the bytes, or says that it cannot; of the spare bytes two bits may be
 * wrong. */
#ifndef RAW_NAND_H
#define RAW_NAND_H

#include "undofs_client.h"

enum { NAND_SPARE = 6 };

enum nand_result {
    NAND_GONE = -1, /* no answer: power went, or the device is not there any more */
    NAND_DONE = 0,
    NAND_BROKEN = 1, /* it failed; a read: more errors than are corrected */
};

/* A chip by four functions. `spare` is NAND_SPARE bytes of a page that nothing else uses. */
struct nand_chip {
    struct undofs_sizes sizes;
    void *chip; /* given to each function */
    enum nand_result (*read)(void *chip, uint32_t page, uint8_t *bytes, uint8_t *spare);
    enum nand_result (*program)(void *chip, uint32_t page, const uint8_t *bytes, const uint8_t *spare);
    enum nand_result (*erase)(void *chip, uint32_t block);
    int (*is_bad)(void *chip, uint32_t block); /* marked by the maker, or given up */
};

/* The driver of a chip, which has to stay where it is. */
struct undofs_driver raw_nand_driver(struct nand_chip *chip);

#endif
