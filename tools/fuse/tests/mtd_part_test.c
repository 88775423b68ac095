/* What the driver of a part behind MTD tells of pages, over mtd_shim.c and with no file system: mtd_part_test FOLDER. The status is 0
 * where all was right. */
#define _GNU_SOURCE
#include "../mtd_part.h"
#include <errno.h>
#include <fcntl.h>
#include <stdio.h>
#include <stdlib.h>
#include <string.h>
#include <unistd.h>

enum { NOR_SECTOR = 4096, NAND_PAGE = 2048, NAND_PAGES = 64, NAND_BLOCKS = 64, SPARE = 64 };

static char name[300], behind[300]; /* by the second name the shim does not know the part */
static int wrong;
static uint32_t sectors; /* of a block, in the layout `dense` of a NOR; 0 for `sure` */
static struct mtd_part part;
static struct undofs_driver driver;
static uint8_t bytes[NAND_PAGE], found[NAND_PAGE];

static void want(long long got, long long wanted, const char *what) {
    if (got == wanted) return;
    printf("%s: %lld in place of %lld\n", what, got, wanted);
    wrong = 1;
}

/* A part of a kind with one setting of the shim, which may be null; an erased one where its file is gone. */
static int opened(const char *kind, const char *setting, const char *value) {
    setenv("MTD_FILE", name, 1);
    setenv("MTD_KIND", kind, 1);
    if (setting != NULL) setenv(setting, value, 1);
    int why = mtd_part_open(&part, name, 0, sectors);
    if (setting != NULL) unsetenv(setting);
    if (why == 0) driver = mtd_part_driver(&part);
    return why;
}

static void open_well(const char *kind, const char *setting, const char *value) { want(opened(kind, setting, value), 0, "open"); }

static void open_new(const char *kind, const char *setting, const char *value) {
    (void)unlink(name);
    open_well(kind, setting, value);
}

static void done(void) { close(part.descriptor); }

static enum undofs_state state_of(uint32_t page) { return driver.read_page(driver.part, page, found); }

static enum undofs_answer programmed(uint32_t page) { return driver.program_page(driver.part, page, bytes); }

/* Copies bytes of the part's file, behind the driver's back. */
static void copy(off_t from, off_t to, size_t count) {
    static uint8_t some[NAND_PAGE];
    int file = open(behind, O_RDWR);
    if (pread(file, some, count, from) != (ssize_t)count || pwrite(file, some, count, to) != (ssize_t)count) abort();
    close(file);
}

static off_t spare_at(uint32_t page) { return (off_t)NAND_PAGE * NAND_PAGES * NAND_BLOCKS + (off_t)page * SPARE; }

/* ---- NAND ---- */

static void errors_that_were_corrected(void) {
    open_new("nand", NULL, NULL);
    want(programmed(0), UNDOFS_DONE, "a program");
    done();
    open_well("nand", "MTD_CORRECTED", "1");
    want(state_of(0), UNDOFS_DATA, "a page whose errors were corrected");
    want(memcmp(found, bytes, NAND_PAGE), 0, "its bytes");
    want(state_of(1), UNDOFS_ERASED, "an erased page whose errors were corrected");
    done();
}

/* What another page holds is no data, with its sum beside it; nor are bytes beside which nothing stands. */
static void sums_of_other_pages(void) {
    open_new("nand", NULL, NULL);
    want(programmed(0), UNDOFS_DONE, "a program");
    copy(0, NAND_PAGE, NAND_PAGE);
    want(state_of(1), UNDOFS_UNREADABLE, "bytes with blank spare bytes");
    copy(spare_at(0), spare_at(1), NAND_SPARE);
    want(state_of(1), UNDOFS_UNREADABLE, "bytes with the sum of another place");
    want(state_of(0), UNDOFS_DATA, "the page itself");
    done();
}

static void blocks_that_are_bad(void) {
    open_new("nand", "MTD_BAD", "3");
    want(programmed(3 * NAND_PAGES), UNDOFS_FAILED, "a program of a bad block");
    want(driver.erase_block(driver.part, 3), UNDOFS_FAILED, "an erase of a bad block");
    want(state_of(3 * NAND_PAGES), UNDOFS_UNREADABLE, "a page of a bad block");
    want(programmed(4 * NAND_PAGES), UNDOFS_DONE, "a program of the next block");
    done();
}

/* A page whose program fails with all its bytes done is unreadable, until it is erased. */
static void a_nand_page_that_fails(void) {
    setenv("MTD_FAIL", "1", 1);
    open_new("nand", "MTD_WHOLE", "1");
    unsetenv("MTD_FAIL");
    want(programmed(0), UNDOFS_FAILED, "a program that fails");
    want(state_of(0), UNDOFS_UNREADABLE, "its page");
    done();
    open_well("nand", NULL, NULL);
    want(state_of(0), UNDOFS_UNREADABLE, "its page at the next start");
    want(driver.erase_block(driver.part, 0), UNDOFS_DONE, "an erase");
    want(programmed(0), UNDOFS_DONE, "a program that does not fail");
    want(state_of(0), UNDOFS_DATA, "its page at last");
    done();
}

static void too_few_spare_bytes(void) {
    (void)unlink(name);
    want(opened("nand", "MTD_SPARE", "63"), ERANGE, "a part with too few spare bytes");
    want(opened("nand", "MTD_SPARE", "64"), 0, "a part with enough of them");
    done();
}

/* ---- NOR ---- */

static void put_byte(off_t at, uint8_t byte) {
    int file = open(behind, O_RDWR);
    if (pwrite(file, &byte, 1, at) != 1) abort();
    close(file);
}

/* The mark of a page is the byte at its place in the sector after that of its bytes. */
static void put_mark(uint32_t page, uint8_t mark) { put_byte(NOR_SECTOR + (off_t)page * 256, mark); }

static void a_nor_page_that_fails(void) {
    open_new("nor", "MTD_FAIL", "1");
    want(programmed(0), UNDOFS_FAILED, "a program that fails");
    want(state_of(0), UNDOFS_UNREADABLE, "its page");
    done();
    open_well("nor", NULL, NULL);
    want(state_of(0), UNDOFS_UNREADABLE, "its page at the next start");
    want(driver.erase_block(driver.part, 0), UNDOFS_DONE, "an erase");
    want(state_of(0), UNDOFS_ERASED, "its page then");
    want(programmed(0), UNDOFS_DONE, "a program that does not fail");
    want(state_of(0), UNDOFS_DATA, "its page at last");
    done();
}

static void marks_that_are_torn(void) {
    open_new("nor", NULL, NULL);
    put_mark(2, 0x7f);
    want(state_of(2), UNDOFS_UNREADABLE, "a torn mark over blank bytes");
    want(programmed(1), UNDOFS_DONE, "a program");
    copy(256, 3 * 256, 256);
    want(state_of(3), UNDOFS_UNREADABLE, "bytes without a mark");
    put_mark(3, 0x01);
    want(state_of(3), UNDOFS_UNREADABLE, "bytes with a torn mark");
    done();
}

/* ---- NOR of the layout `dense`: of two sectors the last 256 bytes are marks ---- */

enum { MARKS = 31 * 256 };

static void a_dense_page_that_fails(void) {
    sectors = 2;
    a_nor_page_that_fails();
    sectors = 0;
}

/* A mark is `UNOR` and the sum of the page's bytes, beside those of the pages before it and after it. */
static void marks_with_sums(void) {
    static const uint8_t wanted[8] = {'U', 'N', 'O', 'R', 0xe9, 0xdf, 0x8d, 0xd4};
    uint8_t mark[8] = {0};
    sectors = 2;
    open_new("nor", NULL, NULL);
    sectors = 0;
    want(driver.sizes.pages, 31, "pages of a block of two sectors");
    want(driver.sizes.blocks, 512, "its blocks");
    for (uint32_t page = 30; page < 33; page++) want(programmed(page), UNDOFS_DONE, "a program");
    for (uint32_t page = 30; page < 33; page++) want(state_of(page), UNDOFS_DATA, "its page");
    int file = open(behind, O_RDONLY);
    if (pread(file, mark, sizeof mark, MARKS + 30 * 8) != sizeof mark) abort();
    close(file);
    want(memcmp(mark, wanted, sizeof mark), 0, "the mark of page 30");
    put_byte(30 * 256, 0);
    want(state_of(30), UNDOFS_UNREADABLE, "a page with a flipped bit");
    put_byte(MARKS + 8, 0x7f);
    want(state_of(1), UNDOFS_UNREADABLE, "a torn mark over blank bytes");
    want(driver.erase_block(driver.part, 0), UNDOFS_DONE, "an erase");
    want(state_of(30), UNDOFS_ERASED, "its page");
    want(state_of(31), UNDOFS_DATA, "a page of the next block");
    done();
}

static int dense_opened(const char *kind, uint32_t count) {
    sectors = count;
    (void)unlink(name);
    int why = opened(kind, NULL, NULL);
    sectors = 0;
    return why;
}

static void blocks_of_a_dense_part(void) {
    want(dense_opened("nand", 2), ENODEV, "a NAND in the layout dense");
    want(dense_opened("nor", 1), ERANGE, "blocks of one sector");
    want(dense_opened("nor", 65), ERANGE, "blocks of 65 sectors");
    want(dense_opened("nor", 3), 0, "blocks of three sectors");
    want(driver.sizes.pages, 46, "their pages");
    done();
    want(dense_opened("nor", 64), 0, "blocks of 64 sectors");
    want(driver.sizes.pages, 992, "their pages");
    done();
}

static void a_part_in_use(void) {
    struct mtd_part other;
    open_new("nor", NULL, NULL);
    want(mtd_part_open(&other, name, 0, 0), EBUSY, "a part that is in use");
}

int main(int count, char **words) {
    if (count != 2) return 2;
    snprintf(name, sizeof name, "%s/part", words[1]);
    snprintf(behind, sizeof behind, "%s/./part", words[1]);
    for (size_t i = 0; i < sizeof bytes; i++) bytes[i] = (uint8_t)(i * 7 + 1);
    errors_that_were_corrected();
    sums_of_other_pages();
    blocks_that_are_bad();
    a_nand_page_that_fails();
    too_few_spare_bytes();
    a_nor_page_that_fails();
    marks_that_are_torn();
    a_dense_page_that_fails();
    marks_with_sums();
    blocks_of_a_dense_part();
    a_part_in_use();
    return wrong;
}
