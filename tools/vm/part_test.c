/* Tries the driver of a part behind MTD that is erased, with no file system: part_test PART ROUNDS READS [nor]
 * In each of ROUNDS it erases each block, programs its pages and reads them back; afterwards it reads all of them READS times. It tells
 * what is otherwise than on a part without a fault, and leaves a block alone after a failure. The last line counts pages that were read
 * as they were written. */
#include "../fuse/mtd_part.h"
#include <stdio.h>
#include <stdlib.h>
#include <string.h>

static struct mtd_part part;
static struct undofs_driver driver;
static char *is_left; /* by block */
static uint32_t rounds, same;
static uint8_t wanted[4096], found[4096];

static const char *const answers[] = {"cut", "done", "failed"};
static const char *const states[] = {"not read", "erased", "data", "unreadable"};

static void fill_wanted(uint32_t page, uint32_t round) {
    uint32_t draw = page * 2654435761u + round;
    for (size_t i = 0; i < sizeof wanted; i++) {
        draw = draw * 1664525u + 1013904223u;
        wanted[i] = (uint8_t)(draw >> 24);
    }
}

/* Whether the page is read as it was written in that round; otherwise it is told. */
static int is_read_back(const char *when, uint32_t number, uint32_t page, uint32_t round) {
    fill_wanted(page, round);
    enum undofs_state state = driver.read_page(driver.part, page, found);
    int is_same = state == UNDOFS_DATA && memcmp(found, wanted, driver.sizes.page) == 0;
    same += (uint32_t)is_same;
    if (!is_same) printf("%s %u: page %u: %s\n", when, number, page, state == UNDOFS_DATA ? "wrong bytes" : states[state + 1]);
    return is_same;
}

/* Whether the page was erased, and has its bytes now. */
static int is_programmed(uint32_t page, uint32_t round) {
    enum undofs_state state = driver.read_page(driver.part, page, found);
    if (state != UNDOFS_ERASED) printf("round %u: page %u: %s after an erase\n", round, page, states[state + 1]);
    fill_wanted(page, round);
    enum undofs_answer answer = driver.program_page(driver.part, page, wanted);
    if (answer != UNDOFS_DONE) printf("round %u: page %u: program %s\n", round, page, answers[answer]);
    return answer == UNDOFS_DONE && is_read_back("round", round, page, round);
}

static int is_block_used(uint32_t block, uint32_t round) {
    enum undofs_answer answer = driver.erase_block(driver.part, block);
    if (answer != UNDOFS_DONE) printf("round %u: block %u: erase %s\n", round, block, answers[answer]);
    int is_right = answer == UNDOFS_DONE;
    for (uint32_t i = 0; i < driver.sizes.pages && is_right; i++) is_right = is_programmed(block * driver.sizes.pages + i, round);
    return is_right;
}

static void look_at_start(void) {
    for (uint32_t block = 0; block < driver.sizes.blocks; block++) {
        enum undofs_state state = driver.read_page(driver.part, block * driver.sizes.pages, found);
        if (state != UNDOFS_ERASED) printf("start: block %u: %s\n", block, states[state + 1]);
    }
}

static void use_blocks(uint32_t round) {
    for (uint32_t block = 0; block < driver.sizes.blocks; block++) {
        if (!is_left[block]) is_left[block] = !is_block_used(block, round);
    }
}

static void read_pages(uint32_t reading) {
    for (uint32_t page = 0; page < driver.sizes.blocks * driver.sizes.pages; page++) {
        if (!is_left[page / driver.sizes.pages]) (void)is_read_back("reading", reading, page, rounds);
    }
}

int main(int count, char **words) {
    if (count < 4) return 2;
    rounds = (uint32_t)strtoul(words[2], NULL, 10);
    uint32_t reads = (uint32_t)strtoul(words[3], NULL, 10);
    int why = mtd_part_open(&part, words[1], count > 4 && strcmp(words[4], "nor") == 0, 0);
    if (why != 0) {
        printf("%s: %s\n", words[1], strerror(why));
        return 1;
    }
    driver = mtd_part_driver(&part);
    is_left = calloc(driver.sizes.blocks, 1);
    if (is_left == NULL) return 1;
    look_at_start();
    for (uint32_t round = 1; round <= rounds; round++) use_blocks(round);
    for (uint32_t reading = 1; reading <= reads; reading++) read_pages(reading);
    printf("%u pages were read as they were written\n", same);
    free(is_left);
    return 0;
}
