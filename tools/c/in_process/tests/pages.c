/* What a page is shown as, with no file system: each flipped bit of a page is seen, and what a driver tells after a cut is settled
 * once. The last line counts. */
#include "../shown_pages.h"
#include "calls.h"
#include "ram_part.h"
#include <stdio.h>
#include <stdlib.h>
#include <string.h>

static unsigned right, wrong;

static void tell(const char *what, int is_right) {
    printf("%s %s\n", is_right ? "ok   " : "WRONG", what);
    right += is_right != 0;
    wrong += is_right == 0;
}

static struct shown_pages shown;
static struct ram_part part;

static void begin(struct undofs_sizes sizes) {
    ram_part_make(&part, sizes);
    struct undofs_driver driver = ram_part_driver(&part);
    shown = (struct shown_pages){0};
    if (!shown_pages_begin(&shown, &driver)) abort();
}

static void end(void) {
    shown_pages_end(&shown);
    ram_part_free(&part);
}

/* Flips each bit of a page once, with the state of a read between the flip and its end. */
static unsigned flips_seen(uint32_t size, uint32_t pages) {
    static uint8_t bytes[4096], found[4096];
    unsigned seen = 0;
    uint32_t seed = size;
    begin((struct undofs_sizes){size, pages, 16});
    for (uint32_t i = 0; i < size; i++) bytes[i] = (uint8_t)below(&seed, 256);
    int is_written = shown_pages_program(&shown, 3, bytes) == C_FLASH_DONE;
    for (uint32_t bit = 0; bit < 8 * size; bit++) {
        uint8_t *byte = part.bytes + (size_t)3 * size + bit / 8, mask = (uint8_t)(1u << bit % 8);
        *byte ^= mask;
        memset(found, 0x5a, sizeof found);
        int is_seen = shown_pages_read(&shown, 3, found) == C_FLASH_READ_FAILED && found[0] == 0x5a && found[size - 1] == 0x5a;
        *byte ^= mask;
        is_seen = is_seen && shown_pages_read(&shown, 3, found) == C_FLASH_DATA && memcmp(found, bytes, size) == 0;
        seen += is_seen != 0;
    }
    end();
    return is_written ? seen : 0;
}

static void flips(void) {
    for (uint32_t size = 256; size <= 4096; size *= 2) {
        char what[80];
        snprintf(what, sizeof what, "each flipped bit of a page of %u bytes is a failed read", size);
        tell(what, flips_seen(size, 8192 / size) == 8 * size);
    }
}

enum { PAGE = 5 };
static const struct undofs_sizes sizes = {256, 16, 16};
static const uint8_t old_bytes[256] = {1}, new_bytes[256] = {2}, other_bytes[256] = {3};

/* What the part has in a page from now on, whatever was done to it. */
static void put(uint8_t state, const uint8_t *bytes) {
    part.states[PAGE] = state;
    if (bytes != NULL) memcpy(part.bytes + (size_t)PAGE * sizes.page, bytes, sizes.page);
}

static uint32_t read_it(uint8_t *first) {
    uint8_t bytes[256] = {0};
    uint32_t told = shown_pages_read(&shown, PAGE, bytes);
    *first = bytes[0];
    return told;
}

static int is_told(uint32_t wanted, uint8_t wanted_first) {
    uint8_t first;
    return read_it(&first) == wanted && first == wanted_first;
}

/* A page that was erased, or has the old bytes, or was not looked at, and in which power went in an operation. */
static void begin_cut(int is_seen, int has_old, int is_erase) {
    uint8_t first;
    begin(sizes);
    if (has_old) put(UNDOFS_DATA, old_bytes);
    if (is_seen) (void)read_it(&first);
    part.cut_at = 1;
    uint32_t told = is_erase ? shown_pages_erase(&shown, 0) : shown_pages_program(&shown, PAGE, new_bytes);
    if (told != C_FLASH_CUT || !is_told(C_FLASH_READ_CUT, 0)) abort();
}

static int settles(uint8_t state, const uint8_t *bytes, uint32_t wanted, uint8_t wanted_first) {
    put(state, bytes);
    shown_pages_power_on(&shown);
    int is_settled = is_told(wanted, wanted_first);
    put(UNDOFS_DATA, other_bytes); /* what it shows later is another page */
    int is_kept = is_told(wanted == C_FLASH_UNREADABLE ? C_FLASH_UNREADABLE : C_FLASH_READ_FAILED, 0);
    end();
    return is_settled && is_kept;
}

static void cut_programs(void) {
    begin_cut(1, 0, 0), tell("a cut program may have written", settles(UNDOFS_DATA, new_bytes, C_FLASH_DATA, 2));
    begin_cut(1, 0, 0), tell("a cut program may have done nothing", settles(UNDOFS_ERASED, NULL, C_FLASH_ERASED, 0));
    begin_cut(1, 0, 0), tell("a cut program may have torn its page", settles(UNDOFS_UNREADABLE, NULL, C_FLASH_UNREADABLE, 0));
    begin_cut(1, 0, 0), tell("other bytes after a cut program are unreadable", settles(UNDOFS_DATA, other_bytes, C_FLASH_UNREADABLE, 0));
    begin_cut(1, 0, 0), tell("a page that is not told after a cut is unreadable", settles(77, NULL, C_FLASH_UNREADABLE, 0));
}

static void cut_erases(void) {
    begin_cut(1, 1, 1), tell("a cut erase may have erased", settles(UNDOFS_ERASED, NULL, C_FLASH_ERASED, 0));
    begin_cut(1, 1, 1), tell("a cut erase may have left the page", settles(UNDOFS_DATA, old_bytes, C_FLASH_DATA, 1));
    begin_cut(1, 1, 1), tell("other bytes after a cut erase are unreadable", settles(UNDOFS_DATA, new_bytes, C_FLASH_UNREADABLE, 0));
    begin_cut(0, 1, 1), tell("a page that was not seen before a cut erase shows what it has", settles(UNDOFS_DATA, old_bytes, C_FLASH_DATA, 1));
}

static enum undofs_answer fail_program(void *with, uint32_t page, const uint8_t *bytes) { return (void)with, (void)page, (void)bytes, UNDOFS_FAILED; }

static enum undofs_answer fail_erase(void *with, uint32_t block) { return (void)with, (void)block, UNDOFS_FAILED; }

/* A page whose operation failed is unreadable, though the part shows it as done. */
static void failures(void) {
    begin(sizes);
    shown.driver.program_page = fail_program;
    int is_failed = shown_pages_program(&shown, PAGE, new_bytes) == C_FLASH_FAILED;
    put(UNDOFS_DATA, new_bytes);
    tell("a page whose program failed is unreadable", is_failed && is_told(C_FLASH_UNREADABLE, 0));
    shown.driver.erase_block = fail_erase;
    is_failed = shown_pages_erase(&shown, 0) == C_FLASH_FAILED;
    put(UNDOFS_ERASED, NULL);
    tell("the pages of a failed erase are unreadable", is_failed && is_told(C_FLASH_UNREADABLE, 0));
    tell("what failed is no cut", !shown.is_cut && shown.orders == 2 && shown.erases == 1);
    end();
}

static unsigned reads;
static enum undofs_state fail_once(void *with, uint32_t page, uint8_t *bytes) {
    (void)with, (void)page, (void)bytes;
    return ++reads == 2 ? UNDOFS_NOT_READ : UNDOFS_ERASED;
}

static void second_tries(void) {
    begin(sizes);
    shown.driver.read_page = fail_once;
    int is_seen = is_told(C_FLASH_ERASED, 0);
    tell("a read that fails once is tried again", is_seen && is_told(C_FLASH_ERASED, 0) && reads == 3);
    end();
}

int main(void) {
    flips();
    cut_programs();
    cut_erases();
    failures();
    second_tries();
    printf("%u right, %u wrong\n", right, wrong);
    return wrong != 0;
}
