/* What each page was shown as, between the file system and a driver. */
#include "shown_pages.h"
#include "shown_sums.h"
#include <stdlib.h>
#include <string.h>

/* Else the sum of its bytes. */
enum { NOT_SEEN, SEEN_ERASED, SEEN_UNREADABLE, SEEN_DATA };

int shown_pages_begin(struct shown_pages *p, const struct undofs_driver *driver) {
    p->driver = *driver;
    p->shown = calloc((size_t)driver->sizes.pages * driver->sizes.blocks, sizeof *p->shown);
    p->page = malloc(driver->sizes.page);
    return p->shown != NULL && p->page != NULL;
}

void shown_pages_end(struct shown_pages *p) {
    free(p->shown);
    free(p->page);
}

static uint32_t seen_of(const uint8_t *bytes, size_t count) {
    uint32_t sum = sum_of(bytes, count);
    return sum < SEEN_DATA ? sum + SEEN_DATA : sum;
}

/* What the driver shows of a page now, with its bytes in `p->page`; NOT_SEEN where it cannot tell. */
static uint32_t look(struct shown_pages *p, uint32_t page) {
    switch (p->driver.read_page(p->driver.part, page, p->page)) {
    case UNDOFS_ERASED: return SEEN_ERASED;
    case UNDOFS_DATA: return seen_of(p->page, p->driver.sizes.page);
    case UNDOFS_UNREADABLE: return SEEN_UNREADABLE;
    default: return NOT_SEEN;
    }
}

/* Whether a page may show this now. */
static int is_sure(uint32_t shown, uint32_t now) { return now != NOT_SEEN && (shown == NOT_SEEN || shown == now); }

uint32_t shown_pages_read(struct shown_pages *p, uint32_t page, uint8_t *bytes) {
    uint32_t *shown = &p->shown[page];
    if (p->is_cut) return C_FLASH_READ_CUT;
    if (*shown == SEEN_UNREADABLE) return C_FLASH_UNREADABLE;
    uint32_t now = look(p, page);
    if (!is_sure(*shown, now)) now = look(p, page); /* a second try */
    if (!is_sure(*shown, now)) return C_FLASH_READ_FAILED;
    *shown = now;
    if (now == SEEN_ERASED) return C_FLASH_ERASED;
    if (now == SEEN_UNREADABLE) return C_FLASH_UNREADABLE;
    memcpy(bytes, p->page, p->driver.sizes.page);
    return C_FLASH_DATA;
}

/* Ends an operation on some pages, each of which shows `wanted` where it is done. */
static uint32_t end_operation(struct shown_pages *p, enum undofs_answer told, uint32_t first, uint32_t count, uint32_t wanted) {
    p->orders++;
    if (told != UNDOFS_DONE && told != UNDOFS_FAILED) {
        p->is_cut = 1;
        p->first_in_doubt = first;
        p->in_doubt = count;
        p->doubted = wanted;
        return C_FLASH_CUT;
    }
    uint32_t now = told == UNDOFS_DONE ? wanted : SEEN_UNREADABLE;
    for (uint32_t i = 0; i < count; i++) p->shown[first + i] = now;
    return told == UNDOFS_DONE ? C_FLASH_DONE : C_FLASH_FAILED;
}

uint32_t shown_pages_program(struct shown_pages *p, uint32_t page, const uint8_t *bytes) {
    if (p->is_cut) return C_FLASH_CUT;
    uint32_t wanted = seen_of(bytes, p->driver.sizes.page);
    return end_operation(p, p->driver.program_page(p->driver.part, page, bytes), page, 1, wanted);
}

uint32_t shown_pages_erase(struct shown_pages *p, uint32_t block) {
    uint32_t count = p->driver.sizes.pages;
    if (p->is_cut) return C_FLASH_CUT;
    p->erases++;
    return end_operation(p, p->driver.erase_block(p->driver.part, block), block * count, count, SEEN_ERASED);
}

/* A page of the operation in which power went is as it was, as it was to be, or unreadable, by one look. What it was is not
 * known of a page that was not seen, so that it may show anything. */
static uint32_t settled(const struct shown_pages *p, uint32_t shown, uint32_t now) {
    if (now == NOT_SEEN) return SEEN_UNREADABLE;
    return now == p->doubted || is_sure(shown, now) ? now : SEEN_UNREADABLE;
}

void shown_pages_power_on(struct shown_pages *p) {
    for (; p->is_cut && p->in_doubt > 0; p->in_doubt--, p->first_in_doubt++) {
        uint32_t *shown = &p->shown[p->first_in_doubt];
        *shown = settled(p, *shown, look(p, p->first_in_doubt));
    }
    p->is_cut = 0;
}
