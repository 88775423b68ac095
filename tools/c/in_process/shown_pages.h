/* A driver that is held to what it showed. The proof of undofs rests on pages that show the same until they are changed,
 * so four bytes are kept of each page: what it was shown as. A page that shows otherwise, twice, is a failed read. */
#ifndef SHOWN_PAGES_H
#define SHOWN_PAGES_H

#include "../undofs_client.h"
#include "c_flash.h"

struct shown_pages {
    struct undofs_driver driver;
    uint32_t *shown; /* of each page */
    uint8_t *page;   /* room for one */
    int is_cut;
    uint32_t first_in_doubt, in_doubt, doubted; /* the pages of the operation in which power went, and what it was to leave */
    uint64_t orders, erases;
};

/* Takes a driver, of which nothing was shown. 0 where there is no memory; shown_pages_end is called all the same. */
int shown_pages_begin(struct shown_pages *pages, const struct undofs_driver *driver);
void shown_pages_end(struct shown_pages *pages);

/* What c_flash.h asks for, in numbers of its enums. */
uint32_t shown_pages_read(struct shown_pages *pages, uint32_t page, uint8_t *bytes);
uint32_t shown_pages_program(struct shown_pages *pages, uint32_t page, const uint8_t *bytes);
uint32_t shown_pages_erase(struct shown_pages *pages, uint32_t block);
void shown_pages_power_on(struct shown_pages *pages);

#endif
