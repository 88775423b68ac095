/* A driver of a serial NOR part that is held to what it showed, as shown_pages.h holds one of a flash: four bytes are kept of each
 * page, and a page that shows otherwise, twice, is a failed read. What a page had is read before it is programmed, and what a
 * sector had before it is erased, so that what the driver left is looked at. A page that was left as it may not be is read
 * no more until its sector is erased. */
#ifndef SHOWN_SECTORS_H
#define SHOWN_SECTORS_H

#include "c_nor.h"
#include "nor_in_process.h"

/* The operation that is looked at after it: a program of some bytes, or an erase where `count` is 0. */
struct nor_operation {
    uint32_t first, pages;
    size_t count;
    uint8_t wanted[NOR_PAGE];
    uint8_t before[NOR_PAGES][NOR_PAGE];
    uint8_t is_sure[NOR_PAGES]; /* that `before` is what the page had */
    int is_dense;               /* more is asked of it: c_dense_nor.h */
};

struct shown_sectors {
    struct undofs_nor driver;
    uint32_t *shown; /* of each page */
    uint8_t page[NOR_PAGE];
    struct nor_operation last;
    int is_cut;
    uint64_t orders, erases;
};

/* Takes a driver, of which nothing was shown. 0 where there is no memory; shown_sectors_end is called all the same. */
int shown_sectors_begin(struct shown_sectors *sectors, const struct undofs_nor *driver);
void shown_sectors_end(struct shown_sectors *sectors);

/* What c_nor.h asks for, in its numbers. */
uint32_t shown_sectors_read(struct shown_sectors *sectors, uint32_t page, uint8_t *bytes, size_t count);
uint32_t shown_sectors_program(struct shown_sectors *sectors, uint32_t page, const uint8_t *bytes, size_t count);
uint32_t shown_sectors_erase(struct shown_sectors *sectors, uint32_t sector);
void shown_sectors_power_on(struct shown_sectors *sectors);

/* What c_dense_nor.h asks for. A page on which a mark began is looked at by its first four bytes alone, whatever sum comes after. */
uint32_t shown_sectors_program_dense(struct shown_sectors *sectors, uint32_t page, const uint8_t *bytes, size_t count);
uint32_t shown_sectors_erase_dense(struct shown_sectors *sectors, uint32_t sector);

#endif
