/* Spare bytes: the mark 0x55 0xaa, then a CRC-32 of the page's number and its bytes, the lowest byte first. */
#include "raw_nand.h"
#include <string.h>

enum { FLIPS = 2 }; /* so many bits of the spare bytes may be wrong: the chip's correction does not cover these */

static const uint8_t mark[2] = {0x55, 0xaa};

static uint32_t sum_more(uint32_t sum, const uint8_t *bytes, size_t count) {
    for (size_t i = 0; i < count; i++) {
        sum ^= bytes[i];
        for (int bit = 0; bit < 8; bit++) sum = sum >> 1 ^ (0xedb88320u & (0u - (sum & 1u)));
    }
    return sum;
}

static void make_spare(uint8_t *spare, const struct undofs_sizes *sizes, uint32_t page, const uint8_t *bytes) {
    uint8_t number[4] = {(uint8_t)page, (uint8_t)(page >> 8), (uint8_t)(page >> 16), (uint8_t)(page >> 24)};
    uint32_t sum = ~sum_more(sum_more(~0u, number, sizeof number), bytes, sizes->page);
    memcpy(spare, mark, sizeof mark);
    for (int i = 0; i < 4; i++) spare[2 + i] = (uint8_t)(sum >> 8 * i);
}

static int are_ones(const uint8_t *bytes, size_t count) {
    while (count > 0 && *bytes == 0xff) {
        bytes++;
        count--;
    }
    return count == 0;
}

static int are_near(const uint8_t *spare, const uint8_t *wanted) {
    int flips = 0;
    for (int bit = 0; bit < 8 * NAND_SPARE; bit++) flips += (spare[bit / 8] ^ wanted[bit / 8]) >> bit % 8 & 1;
    return flips <= FLIPS;
}

static enum undofs_state read_page(void *part, uint32_t page, uint8_t *bytes) {
    const struct nand_chip *n = part;
    uint8_t spare[NAND_SPARE], wanted[NAND_SPARE];
    if (n->is_bad(n->chip, page / n->sizes.pages)) return UNDOFS_UNREADABLE;
    enum nand_result result = n->read(n->chip, page, bytes, spare);
    if (result == NAND_GONE) return UNDOFS_NOT_READ;
    if (result == NAND_BROKEN) return UNDOFS_UNREADABLE;
    if (are_ones(spare, NAND_SPARE)) return are_ones(bytes, n->sizes.page) ? UNDOFS_ERASED : UNDOFS_UNREADABLE;
    make_spare(wanted, &n->sizes, page, bytes);
    return are_near(spare, wanted) ? UNDOFS_DATA : UNDOFS_UNREADABLE;
}

/* A page whose program failed may hold its bytes all the same. Then it cannot be shown as unreadable, and the part
 * is given up: the record in it would be found beside the one that takes its place. */
static enum undofs_answer answer_failed(struct nand_chip *n, uint32_t page) {
    static uint8_t bytes[4096];
    return read_page(n, page, bytes) == UNDOFS_UNREADABLE ? UNDOFS_FAILED : UNDOFS_CUT;
}

static enum undofs_answer program_page(void *part, uint32_t page, const uint8_t *bytes) {
    struct nand_chip *n = part;
    uint8_t spare[NAND_SPARE];
    if (n->is_bad(n->chip, page / n->sizes.pages)) return UNDOFS_FAILED;
    make_spare(spare, &n->sizes, page, bytes);
    enum nand_result result = n->program(n->chip, page, bytes, spare);
    if (result == NAND_BROKEN) return answer_failed(n, page);
    return result == NAND_DONE ? UNDOFS_DONE : UNDOFS_CUT;
}

static enum undofs_answer erase_block(void *part, uint32_t block) {
    struct nand_chip *n = part;
    if (n->is_bad(n->chip, block)) return UNDOFS_FAILED;
    enum nand_result result = n->erase(n->chip, block);
    if (result == NAND_BROKEN) return UNDOFS_FAILED;
    return result == NAND_DONE ? UNDOFS_DONE : UNDOFS_CUT;
}

struct undofs_driver raw_nand_driver(struct nand_chip *chip) { return (struct undofs_driver){chip->sizes, chip, read_page, program_page, erase_block}; }
