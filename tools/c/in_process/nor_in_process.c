/* undofs inside of this program on a serial NOR part in the layout `sure`: undofs_start_nor. */
#include "c_nor.h"
#include "nor_driver.h"

enum { LEAST_PAGES = 512, MOST_PAGES = 524288 };

int undofs_start_nor(struct undofs **handle, const struct undofs_nor *driver, uint32_t history) {
    *handle = NULL;
    if (driver->pages < LEAST_PAGES || driver->pages > MOST_PAGES) return NOR_NO_GEOMETRY;
    return nor_start(handle, driver, 2, history, undofs_serve_nor);
}
