/* undofs inside of this program on a serial NOR part: the calls are those of undofs_client.h, after this start. */
#ifndef NOR_IN_PROCESS_H
#define NOR_IN_PROCESS_H

#include "../undofs_client.h"

enum { NOR_PAGE = 256, NOR_PAGES = 16 }; /* bytes of a page, and pages of a sector */

/* A driver of a part. What it owes is told in docs/driver.md ("A serial NOR part"). */
struct undofs_nor {
    uint32_t pages; /* 512 to 524,288 */
    void *part;     /* given to each function */
    /* Puts the first bytes of a page into a buffer: UNDOFS_DONE, or UNDOFS_FAILED where the bus did not carry it out. */
    enum undofs_answer (*read)(void *part, uint32_t page, uint8_t *bytes, size_t count);
    /* Programs the first bytes of a page, which clears bits. UNDOFS_FAILED: the status register tells so. */
    enum undofs_answer (*program)(void *part, uint32_t page, const uint8_t *bytes, size_t count);
    enum undofs_answer (*erase)(void *part, uint32_t sector);
};

/* As undofs_start. A part of another number of pages is refused with 28. */
int undofs_start_nor(struct undofs **handle, const struct undofs_nor *driver, uint32_t history);

#endif
