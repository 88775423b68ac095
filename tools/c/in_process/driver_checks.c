/* The seven functions of c_chip.h over a bench. Nothing remembers what its driver showed; one without power is asked nothing. */
#include "driver_checks.h"
#include "c_chip.h"
#include <string.h>

const char *const undofs_cases[UNDOFS_CASES] = {"sizes",       "fresh",      "read-back", "in-order", "one-block", "failed-program",
                                                "failed-erase", "cut-program", "cut-erase", "restart",  "ends",      "neighbours"};

enum { LARGEST_PAGE = 4096 };

struct run {
    const struct undofs_bench *bench;
    int is_cut;
    uint8_t page[LARGEST_PAGE]; /* what the driver puts into a buffer beside DATA is not handed on */
};

static struct run *of_handle(size_t handle) { return (struct run *)handle; }

static const struct undofs_driver *driver_of(const struct run *run) { return &run->bench->driver; }

struct c_chip c_chip_open(size_t handle) {
    const struct undofs_sizes *s = &driver_of(of_handle(handle))->sizes;
    return (struct c_chip){handle, s->page, s->pages, s->blocks, s->page, s->pages, s->blocks};
}

uint32_t c_chip_read(struct c_chip *chip, uint32_t page, uint8_t *bytes, size_t count) {
    struct run *run = of_handle(chip->handle);
    if (run->is_cut) return C_FLASH_READ_CUT;
    switch (driver_of(run)->read_page(driver_of(run)->part, page, run->page)) {
    case UNDOFS_ERASED: return C_FLASH_ERASED;
    case UNDOFS_DATA: memcpy(bytes, run->page, count); return C_FLASH_DATA;
    case UNDOFS_UNREADABLE: return C_FLASH_UNREADABLE;
    default: return C_FLASH_READ_FAILED;
    }
}

static uint32_t end_operation(struct run *run, enum undofs_answer told) {
    if (told == UNDOFS_DONE) return C_FLASH_DONE;
    if (told == UNDOFS_FAILED) return C_FLASH_FAILED;
    run->is_cut = 1;
    return C_FLASH_CUT;
}

uint32_t c_chip_program(struct c_chip *chip, uint32_t page, const uint8_t *bytes, size_t count) {
    struct run *run = of_handle(chip->handle);
    (void)count;
    if (run->is_cut) return C_FLASH_CUT;
    return end_operation(run, driver_of(run)->program_page(driver_of(run)->part, page, bytes));
}

uint32_t c_chip_erase(struct c_chip *chip, uint32_t block) {
    struct run *run = of_handle(chip->handle);
    if (run->is_cut) return C_FLASH_CUT;
    return end_operation(run, driver_of(run)->erase_block(driver_of(run)->part, block));
}

static enum undofs_operation operation_of(uint32_t class) { return class == C_CHIP_PROGRAM ? UNDOFS_PROGRAMS : UNDOFS_ERASES; }

static enum undofs_answer fault_of(uint32_t fault) { return fault == C_CHIP_FAILS ? UNDOFS_FAILED : UNDOFS_CUT; }

uint8_t c_chip_moments(const struct c_chip *chip, uint32_t class, uint32_t fault) {
    const struct undofs_bench *bench = of_handle(chip->handle)->bench;
    return class == C_CHIP_READ ? 0 : bench->moments(bench->driver.part, operation_of(class), fault_of(fault));
}

void c_chip_plan(struct c_chip *chip, uint32_t class, uint32_t fault, uint8_t moment) {
    const struct undofs_bench *bench = of_handle(chip->handle)->bench;
    bench->plan(bench->driver.part, operation_of(class), fault_of(fault), moment);
}

void c_chip_restart(struct c_chip *chip) {
    struct run *run = of_handle(chip->handle);
    struct undofs_sizes told = run->bench->restart(run->bench->driver.part);
    run->is_cut = 0;
    chip->told_page = told.page;
    chip->told_pages = told.pages;
    chip->told_blocks = told.blocks;
}

int undofs_check(const struct undofs_bench *bench, uint8_t failed[UNDOFS_CASES]) {
    struct run run = {.bench = bench};
    return (int)undofs_check_driver((size_t)&run, bench->first, bench->blocks, failed, UNDOFS_CASES);
}
