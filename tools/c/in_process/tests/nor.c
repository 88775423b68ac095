/* undofs inside of this program on a serial NOR part in memory: a session with a cut before, within and after each operation, a session
 * with each operation failing, flipped bits, and refused starts. The last line counts. */
#include "../shown_sectors.h"
#include "calls.h"
#include "nor_memory.h"
#include "nor_sessions.h"
#include <stdio.h>
#include <stdlib.h>
#include <string.h>

enum { PART_PAGES = 32 * 24 };

static unsigned right, wrong;

static void tell(const char *what, int is_right) {
    printf("%s %s\n", is_right ? "ok   " : "WRONG", what);
    right += is_right != 0;
    wrong += is_right == 0;
}

static struct nor_memory part;
static struct undofs_nor driver;

static void make_part(void) {
    nor_memory_make(&part, PART_PAGES);
    driver = nor_memory_driver(&part);
}

static void sessions(void) {
    struct nor_counts counts = nor_sessions(undofs_start_nor, PART_PAGES);
    printf("      %llu operations\n", (unsigned long long)counts.operations);
    tell("a cut before, within and after each operation loses nothing that was synced", counts.operations > 20 && counts.cut == 3 * counts.operations);
    tell("each operation may fail", counts.operations > 20 && counts.failed == counts.operations);
}

static void starts(void) {
    struct undofs *handle, *second;
    make_part();
    tell("a part with no file system is refused", undofs_start_nor(&handle, &driver, 0) == UNDOFS_NORECORD);
    undofs_end(handle);
    struct undofs_nor small = driver;
    small.pages = 511;
    tell("a part that is too small is refused", undofs_start_nor(&second, &small, 8) == 28 && second == NULL);
    tell("a part is formatted", undofs_start_nor(&handle, &driver, 8) == 0);
    tell("a second handle over it is refused", undofs_start_nor(&second, &driver, 0) == UNDOFS_BUSY);
    undofs_end(second);
    tell("undo takes a change back", undofs_mkdir(handle, "/a") == 0 && undofs_undo(handle) == 0 && nor_has_files(handle, 0, 0));
    undofs_end(handle);
    nor_memory_free(&part);
}

/* ---- what a page is shown as, with no file system ---- */

static struct shown_sectors shown;

static void begin(void) {
    make_part();
    shown = (struct shown_sectors){0};
    if (!shown_sectors_begin(&shown, &driver)) abort();
}

static void end(void) {
    shown_sectors_end(&shown);
    nor_memory_free(&part);
}

static void flips(void) {
    uint8_t bytes[NOR_PAGE], found[NOR_PAGE];
    unsigned seen = 0;
    uint32_t seed = 3;
    begin();
    for (int i = 0; i < NOR_PAGE; i++) bytes[i] = (uint8_t)below(&seed, 256);
    int is_written = shown_sectors_program(&shown, 20, bytes, NOR_PAGE) == C_FLASH_DONE;
    for (uint32_t bit = 0; bit < 8 * NOR_PAGE; bit++) {
        uint8_t *byte = part.bytes + (size_t)20 * NOR_PAGE + bit / 8, mask = (uint8_t)(1u << bit % 8);
        *byte ^= mask;
        int is_seen = shown_sectors_read(&shown, 20, found, 1) == C_FLASH_FAILED;
        *byte ^= mask;
        seen += is_seen && shown_sectors_read(&shown, 20, found, NOR_PAGE) == C_FLASH_DONE && memcmp(found, bytes, NOR_PAGE) == 0;
    }
    tell("each flipped bit of a page is a failed read, also of one byte", is_written && seen == 8 * NOR_PAGE);
    end();
}

static int reads_as(uint32_t page, uint32_t wanted, uint8_t first) {
    uint8_t byte = 0x5a;
    uint32_t told = shown_sectors_read(&shown, page, &byte, 1);
    return told == wanted && (told != C_FLASH_DONE || byte == first);
}

static void put(uint32_t page, uint8_t byte) { part.bytes[(size_t)page * NOR_PAGE] = byte; }

/* A blank byte in which power went while a mark was written, and that was left so. */
static int is_left(uint8_t byte, uint32_t wanted) {
    const uint8_t mark = 5;
    begin();
    part.cut_at = 1;
    part.end = NOR_BEFORE;
    (void)shown_sectors_program(&shown, 40, &mark, 1);
    int is_off = reads_as(40, C_FLASH_CUT, 0) && shown_sectors_erase(&shown, 2) == C_FLASH_CUT;
    put(40, byte);
    nor_memory_power_on(&part);
    shown_sectors_power_on(&shown);
    int is_right = is_off && reads_as(40, wanted, byte);
    end();
    return is_right;
}

/* One that failed is torn, and read so. */
static int is_failed(void) {
    const uint8_t mark = 5;
    begin();
    part.fails_at = 1;
    int is_right = shown_sectors_program(&shown, 40, &mark, 1) == C_FLASH_FAILED && reads_as(40, C_FLASH_DONE, mark + 16);
    end();
    return is_right;
}

static void marks(void) {
    tell("a cut mark may have done nothing", is_left(0xff, C_FLASH_DONE));
    tell("a cut mark may be there", is_left(5, C_FLASH_DONE));
    tell("a cut mark may be torn", is_left(21, C_FLASH_DONE));
    tell("one that lost each bit is never shown", is_left(0, C_FLASH_FAILED));
    tell("a mark that failed leaves a trace", is_failed());
}

static enum undofs_answer fail(void *with, uint32_t page, const uint8_t *bytes, size_t count) { return (void)with, (void)page, (void)bytes, (void)count, UNDOFS_FAILED; }

static enum undofs_answer fail_erase(void *with, uint32_t sector) {
    put(sector * NOR_PAGES, 0);
    return (void)with, UNDOFS_FAILED;
}

/* A driver that says FAILED of a mark and leaves no trace, or of an erase and clears a byte. */
static void wrong_failures(void) {
    const uint8_t mark = 5;
    begin();
    shown.driver.program = fail;
    tell("a mark that failed without a trace is never shown", shown_sectors_program(&shown, 40, &mark, 1) == C_FLASH_FAILED && reads_as(40, C_FLASH_FAILED, 0));
    shown.driver.erase = fail_erase;
    tell("a page that lost bits in an erase is never shown", shown_sectors_erase(&shown, 3) == C_FLASH_FAILED && reads_as(48, C_FLASH_FAILED, 0) && reads_as(49, C_FLASH_DONE, 0xff));
    shown.driver = driver;
    tell("an erase that is done shows it again", shown_sectors_erase(&shown, 3) == C_FLASH_DONE && reads_as(48, C_FLASH_DONE, 0xff));
    tell("and so it does the mark", shown_sectors_erase(&shown, 2) == C_FLASH_DONE && reads_as(40, C_FLASH_DONE, 0xff));
    end();
}

int main(void) {
    starts();
    flips();
    marks();
    wrong_failures();
    sessions();
    printf("%u right, %u wrong\n", right, wrong);
    return wrong != 0;
}
