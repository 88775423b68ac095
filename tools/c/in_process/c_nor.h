/* What undofs on a serial NOR part asks of C inside of a C program, and the one function that C calls: those of crates/c_nor and
 * of crates/undofs_nor_in_process. Lines and replies are those of c_flash.h, and what stands there of handles is so here.
 * nor_driver.c defines the five over a driver of nor_in_process.h.
 *
 * A part has pages of 256 bytes, sixteen in a sector. Before each call this is proved: the page is below the number that
 * c_nor_open told, `count` is 256 at most, and all sixteen pages of the sector are below that number. The answers are C_FLASH_DONE,
 * C_FLASH_FAILED and C_FLASH_CUT, those of reads too. */
#ifndef C_NOR_H
#define C_NOR_H

#include "c_flash.h"

/* A part. Only c_nor_open makes one, and C writes no field of it and keeps no pointer to it: it is moved. */
struct c_nor {
    size_t handle;
    size_t pages;
};

/* ---- C defines these ---- */

/* How many pages the part has: 0 for a handle that is open already, so that no file system is made or mounted on it. */
struct c_nor c_nor_open(size_t handle);

/* Puts the first bytes of a page into the buffer. They are the same each time until the page is programmed or its sector erased. After
 * FAILED the buffer has any bytes, and nothing changed. */
uint32_t c_nor_read(struct c_nor *part, size_t page, uint8_t *bytes, size_t count);

/* Programs the first bytes of a page. DONE: each has the bits that it had and that the new one has. FAILED or CUT: a blank byte that was
 * to keep a bit has one; where FAILED befell a single blank byte that was to lose its upper four bits at least, it is neither blank
 * nor as wanted. No other page changes. */
uint32_t c_nor_program(struct c_nor *part, size_t page, const uint8_t *bytes, size_t count);

/* Erases a sector. DONE: its bytes are blank. FAILED or CUT: a byte that had a bit has one. No other sector changes. */
uint32_t c_nor_erase(struct c_nor *part, size_t sector);

/* Power is on again. From a CUT until this each of the three above answers CUT and does nothing. */
void c_nor_power_on(struct c_nor *part);

/* ---- the library defines this ---- */

/* As undofs_serve; 28 for a part of fewer than 512 pages, or of more than 524,288. */
uint32_t undofs_serve_nor(size_t handle, uint32_t history);

#endif
