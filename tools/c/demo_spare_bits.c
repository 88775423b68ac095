/* Bits that flip in a page of raw NAND: with one or two in the spare bytes the page is read as its bytes, which no sum of other bytes
 * comes to; with three, and with one in the bytes, it is unreadable. So it is with the sum of another place, and with blank spare bytes; and
 * a bad block takes no program. Prints how many were tried; the status is 0 where all was right. */
#include "nand_in_memory.h"
#include <stdio.h>
#include <string.h>

enum { BITS = 8 * NAND_SPARE, PAGE = 5, BAD = 3 };

static const struct undofs_sizes sizes = {512, 8, 16};
static struct nand_in_memory chip;
static struct undofs_driver driver;
static uint8_t bytes[512];
static unsigned tried, wrong;

static void flip(uint8_t *from, int bit) { from[bit / 8] ^= (uint8_t)(1 << bit % 8); }

static void want(enum undofs_state wanted) {
    uint8_t found[512];
    enum undofs_state state = driver.read_page(driver.part, PAGE, found);
    int is_right = state == wanted && (state != UNDOFS_DATA || memcmp(found, bytes, sizeof bytes) == 0);
    tried++;
    wrong += !is_right;
}

/* Each bit from the first one on, beside those that are flipped already. */
static void flip_each(int first, int flipped) {
    for (int bit = first; bit < BITS; bit++) {
        uint8_t *spare = chip.spares + PAGE * NAND_SPARE;
        flip(spare, bit);
        want(flipped < 2 ? UNDOFS_DATA : UNDOFS_UNREADABLE);
        if (flipped < 2) flip_each(bit + 1, flipped + 1);
        flip(spare, bit);
    }
}

/* The same bytes as in the page before, with other spare bytes: as they stand there, and blank. */
static void put_spares(void) {
    uint8_t *spare = chip.spares + PAGE * NAND_SPARE, kept[NAND_SPARE];
    memcpy(kept, spare, NAND_SPARE);
    memcpy(spare, spare - NAND_SPARE, NAND_SPARE);
    want(UNDOFS_UNREADABLE);
    memset(spare, 0xff, NAND_SPARE);
    want(UNDOFS_UNREADABLE);
    memcpy(spare, kept, NAND_SPARE);
    want(UNDOFS_DATA);
}

static void program_bad_block(void) {
    uint8_t found[512];
    uint32_t page = BAD * sizes.pages;
    tried++;
    wrong += driver.program_page(driver.part, page, bytes) != UNDOFS_FAILED || driver.read_page(driver.part, page, found) != UNDOFS_UNREADABLE;
}

int main(void) {
    if (nand_in_memory_make(&chip, sizes) != 0) return 1;
    chip.bad_block = BAD;
    struct nand_chip functions = nand_in_memory_chip(&chip);
    driver = raw_nand_driver(&functions);
    for (size_t i = 0; i < sizeof bytes; i++) bytes[i] = (uint8_t)(i * 7);
    for (uint32_t page = 0; page <= PAGE; page++) wrong += driver.program_page(driver.part, page, bytes) != UNDOFS_DONE;
    want(UNDOFS_DATA);
    flip_each(0, 0);
    for (int bit = 0; bit < 8 * (int)sizeof bytes; bit++) {
        flip(chip.bytes + PAGE * sizeof bytes, bit);
        want(UNDOFS_UNREADABLE);
        flip(chip.bytes + PAGE * sizeof bytes, bit);
    }
    put_spares();
    program_bad_block();
    printf("spare bits: %u states of a page, %u wrong\n", tried, wrong);
    nand_in_memory_drop(&chip);
    return wrong != 0;
}
