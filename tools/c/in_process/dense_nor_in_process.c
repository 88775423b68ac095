/* undofs inside of this program on a serial NOR part in the layout `dense`: the two functions of c_dense_nor.h, and
 * undofs_start_dense_nor. */
#include "dense_nor_in_process.h"
#include "c_dense_nor.h"
#include "nor_driver.h"

enum { LEAST_SECTORS = 2, MOST_SECTORS = 64, LEAST_BLOCKS = 16, MOST_BYTES = 67108864 };

uint32_t c_dense_nor_program(struct c_nor *part, size_t page, const uint8_t *bytes, size_t count) {
    return shown_sectors_program_dense(&nor_of_handle(part->handle)->sectors, (uint32_t)page, bytes, count);
}

uint32_t c_dense_nor_erase(struct c_nor *part, size_t sector) {
    return shown_sectors_erase_dense(&nor_of_handle(part->handle)->sectors, (uint32_t)sector);
}

static uint32_t serve(size_t handle, uint32_t history) { return undofs_serve_dense_nor(handle, nor_of_handle(handle)->block, history); }

/* The bytes of the pages of data of a part. */
static uint64_t bytes_of(uint32_t pages, uint32_t sectors) {
    uint32_t block = NOR_PAGES * sectors;
    return (uint64_t)(pages / block) * (block - (block + 32) / 33) * NOR_PAGE;
}

int undofs_start_dense_nor(struct undofs **handle, const struct undofs_nor *driver, uint32_t sectors, uint32_t history) {
    *handle = NULL;
    if (sectors < LEAST_SECTORS || sectors > MOST_SECTORS) return NOR_NO_GEOMETRY;
    if (driver->pages / (NOR_PAGES * sectors) < LEAST_BLOCKS || bytes_of(driver->pages, sectors) > MOST_BYTES) return NOR_NO_GEOMETRY;
    return nor_start(handle, driver, sectors, history, serve);
}
