/* undofs inside of this program on a serial NOR part in memory, in the layout `dense`: the sessions of nor_sessions.h, refused starts, and
 * drivers that leave what this layout does not allow. The last line counts. */
#include "../dense_nor_in_process.h"
#include "../shown_sectors.h"
#include "nor_memory.h"
#include "nor_sessions.h"
#include <stdio.h>
#include <stdlib.h>
#include <string.h>

enum { PART_PAGES = 32 * 24 };

static unsigned right, wrong;

static void tell(const char *what, int is_right) {
    printf("%s %s\n", is_right ? "ok   " : "WRONG", what);
    right += is_right != 0;
    wrong += is_right == 0;
}

static struct nor_memory part;
static struct undofs_nor driver;

static int start_two(struct undofs **handle, const struct undofs_nor *with, uint32_t history) { return undofs_start_dense_nor(handle, with, 2, history); }

static int start_three(struct undofs **handle, const struct undofs_nor *with, uint32_t history) { return undofs_start_dense_nor(handle, with, 3, history); }

static void make_part(void) {
    nor_memory_make(&part, PART_PAGES);
    driver = nor_memory_driver(&part);
}

static void sessions(nor_starts *starts, const char *cuts, const char *failures) {
    struct nor_counts counts = nor_sessions(starts, 2 * PART_PAGES);
    printf("      %llu operations\n", (unsigned long long)counts.operations);
    tell(cuts, counts.operations > 20 && counts.cut == 3 * counts.operations);
    tell(failures, counts.operations > 20 && counts.failed == counts.operations);
}

static int is_refused(uint32_t pages, uint32_t sectors) {
    struct undofs *handle;
    struct undofs_nor other = driver;
    other.pages = pages;
    return undofs_start_dense_nor(&handle, &other, sectors, 8) == 28 && handle == NULL;
}

static void starts(void) {
    struct undofs *handle, *second;
    make_part();
    tell("blocks of one sector are refused", is_refused(PART_PAGES, 1));
    tell("blocks of 65 sectors are refused", is_refused(16 * 65 * 16, 65));
    tell("a part of fewer than 16 blocks is refused", is_refused(16 * 32 - 1, 2) && is_refused(16 * 48 - 1, 3));
    tell("a part of more bytes than a flash may have is refused", is_refused(8457 * 32, 2));
    tell("a part with no file system is refused", start_two(&handle, &driver, 0) == UNDOFS_NORECORD);
    undofs_end(handle);
    tell("a part is formatted", start_two(&handle, &driver, 8) == 0);
    tell("a second handle over it is refused", start_two(&second, &driver, 0) == UNDOFS_BUSY);
    undofs_end(second);
    tell("undo takes a change back", undofs_mkdir(handle, "/a") == 0 && undofs_undo(handle) == 0 && nor_has_files(handle, 0, 0));
    undofs_end(handle);
    tell("other blocks find no file system there", start_three(&handle, &driver, 0) == UNDOFS_NORECORD);
    undofs_end(handle);
    nor_memory_free(&part);
}

/* ---- what a page is shown as, with no file system ---- */

enum { MARKS = 31, SECTOR = 1 };

static struct shown_sectors shown;
static const uint8_t zeros[8] = {0};
static const uint8_t mark[8] = {'U', 'N', 'O', 'R', 1, 2, 3, 4};

static void begin(void) {
    make_part();
    shown = (struct shown_sectors){0};
    if (!shown_sectors_begin(&shown, &driver)) abort();
}

static void end(void) {
    shown_sectors_end(&shown);
    nor_memory_free(&part);
}

static int is_read(uint32_t page) {
    uint8_t byte;
    return shown_sectors_read(&shown, page, &byte, 1) == C_FLASH_DONE;
}

static uint8_t *place_of(uint32_t page, size_t place) { return part.bytes + (size_t)page * NOR_PAGE + 8 * place; }

/* What a driver that fails leaves: bytes at a place of the page of marks. */
static uint8_t left[8];
static size_t left_at;

static enum undofs_answer fail(void *with, uint32_t page, const uint8_t *bytes, size_t count) {
    memcpy(place_of(page, left_at), left, sizeof left);
    return (void)with, (void)bytes, (void)count, UNDOFS_FAILED;
}

static enum undofs_answer fail_erase(void *with, uint32_t sector) {
    memcpy(place_of(NOR_PAGES * sector + 15, left_at), left, sizeof left);
    return (void)with, UNDOFS_FAILED;
}

/* A failed program of the first bytes of the page of marks, after which a place has these bytes: whether the page is read then. */
static int is_read_after(const uint8_t *given, size_t place, const uint8_t *bytes) {
    begin();
    memcpy(left, bytes, sizeof left);
    left_at = place;
    shown.driver.program = fail;
    int is_told = shown_sectors_program_dense(&shown, MARKS, given, 8) == C_FLASH_FAILED;
    int is_right = is_told && is_read(MARKS);
    end();
    return is_right;
}

static int is_read_after_erase(const uint8_t *bytes) {
    begin();
    memcpy(left, bytes, sizeof left);
    left_at = 0;
    shown.driver.erase = fail_erase;
    int is_told = shown_sectors_erase_dense(&shown, SECTOR) == C_FLASH_FAILED;
    int is_right = is_told && is_read(MARKS);
    end();
    return is_right;
}

static void premises(void) {
    static const uint8_t blank[8] = {255, 255, 255, 255, 255, 255, 255, 255}, torn[8] = {0x5f, 0x4e, 255, 255, 255, 255, 255, 255};
    tell("a torn mark is read", is_read_after(mark, 0, torn));
    tell("one that changed the place beside it is not", !is_read_after(mark, 1, torn));
    tell("a failed 0 that leaves a trace is read", is_read_after(zeros, 0, torn));
    tell("one that leaves none is not", !is_read_after(zeros, 0, blank));
    tell("one that leaves a mark is not", !is_read_after(zeros, 0, mark));
    tell("a failed erase is read", is_read_after_erase(torn));
    tell("one that leaves a mark is not", !is_read_after_erase(mark));
}

int main(void) {
    starts();
    premises();
    sessions(start_two, "a cut before, within and after each operation loses nothing that was synced", "each operation may fail");
    sessions(start_three, "so it is with blocks of three sectors: cuts", "and failures");
    printf("%u right, %u wrong\n", right, wrong);
    return wrong != 0;
}
