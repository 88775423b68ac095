#include "nor_driver.h"
#include "c_nor.h"
#include <stdlib.h>

struct over_nor *nor_of_handle(size_t handle) { return (struct over_nor *)service_handle(handle); }

struct c_nor c_nor_open(size_t handle) {
    int is_first = service_opens(service_handle(handle));
    return (struct c_nor){handle, is_first ? nor_of_handle(handle)->sectors.driver.pages : 0};
}

uint32_t c_nor_read(struct c_nor *part, size_t page, uint8_t *bytes, size_t count) {
    uint32_t told = shown_sectors_read(&nor_of_handle(part->handle)->sectors, (uint32_t)page, bytes, count);
    if (told == C_FLASH_FAILED) service_note_unread(service_handle(part->handle), page);
    return told;
}

uint32_t c_nor_program(struct c_nor *part, size_t page, const uint8_t *bytes, size_t count) {
    return shown_sectors_program(&nor_of_handle(part->handle)->sectors, (uint32_t)page, bytes, count);
}

uint32_t c_nor_erase(struct c_nor *part, size_t sector) { return shown_sectors_erase(&nor_of_handle(part->handle)->sectors, (uint32_t)sector); }

void c_nor_power_on(struct c_nor *part) { shown_sectors_power_on(&nor_of_handle(part->handle)->sectors); }

static void drop(struct undofs *handle) { shown_sectors_end(&((struct over_nor *)handle)->sectors); }

int nor_start(struct undofs **handle, const struct undofs_nor *driver, uint32_t block, uint32_t history, uint32_t (*serve)(size_t handle, uint32_t history)) {
    struct over_nor *n = calloc(1, sizeof *n);
    if (n == NULL) return UNDOFS_NO_MEMORY;
    n->handle.driver = driver;
    n->handle.part = driver->part;
    n->handle.reads = (void (*)(void))driver->read;
    n->handle.serve = serve;
    n->handle.drop = drop;
    n->handle.orders = &n->sectors.orders;
    n->handle.erases = &n->sectors.erases;
    n->handle.history = history;
    n->block = block;
    *handle = &n->handle;
    return service_start(&n->handle, shown_sectors_begin(&n->sectors, driver));
}
