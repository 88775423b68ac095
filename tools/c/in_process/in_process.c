/* undofs inside of this program, over a driver of undofs_client.h: the five functions of a part, and undofs_start. */
#include "c_flash.h"
#include "service.h"
#include "shown_pages.h"
#include <stdlib.h>

struct over_flash {
    struct undofs handle;
    struct shown_pages pages;
};

static struct over_flash *of_handle(size_t handle) { return (struct over_flash *)service_handle(handle); }

struct c_flash c_flash_open(size_t handle) {
    const struct undofs_sizes *s = &of_handle(handle)->pages.driver.sizes;
    int is_first = service_opens(service_handle(handle));
    return (struct c_flash){handle, s->page, s->pages, is_first ? s->blocks : 0};
}

uint32_t c_flash_read(struct c_flash *part, uint32_t page, uint8_t *bytes, size_t count) {
    (void)count;
    uint32_t state = shown_pages_read(&of_handle(part->handle)->pages, page, bytes);
    if (state == C_FLASH_READ_FAILED) service_note_unread(service_handle(part->handle), page);
    return state;
}

uint32_t c_flash_program(struct c_flash *part, uint32_t page, const uint8_t *bytes, size_t count) {
    (void)count;
    return shown_pages_program(&of_handle(part->handle)->pages, page, bytes);
}

uint32_t c_flash_erase(struct c_flash *part, uint32_t block) { return shown_pages_erase(&of_handle(part->handle)->pages, block); }

void c_flash_power_on(struct c_flash *part) { shown_pages_power_on(&of_handle(part->handle)->pages); }

static void drop(struct undofs *handle) { shown_pages_end(&((struct over_flash *)handle)->pages); }

int undofs_start(struct undofs **handle, const char *program, const struct undofs_driver *driver, uint32_t history) {
    (void)program;
    *handle = NULL;
    if (!undofs_are_lawful(&driver->sizes)) return UNDOFS_NO_IMAGE;
    struct over_flash *f = calloc(1, sizeof *f);
    if (f == NULL) return UNDOFS_NO_MEMORY;
    f->handle.driver = driver;
    f->handle.part = driver->part;
    f->handle.reads = (void (*)(void))driver->read_page;
    f->handle.serve = undofs_serve;
    f->handle.drop = drop;
    f->handle.orders = &f->pages.orders;
    f->handle.erases = &f->pages.erases;
    f->handle.history = history;
    *handle = &f->handle;
    return service_start(&f->handle, shown_pages_begin(&f->pages, driver));
}
