/* What undofs on a serial NOR part of the dense layout asks of C beside c_nor.h, and the one function that C calls: those of
 * crates/c_dense_nor and of crates/undofs_dense_nor_in_process. A struct c_nor, bounds and answers are those of c_nor.h. A page takes
 * 33 programs between two erases. A mark is eight bytes at a place of a page, from byte 8 i on: `UNOR`, and a CRC-32 of a page.
 * dense_nor_in_process.c defines the two over a driver of nor_in_process.h. */
#ifndef C_DENSE_NOR_H
#define C_DENSE_NOR_H

#include "c_nor.h"

/* ---- C defines these ---- */

/* As c_nor_program, of which more is asked, whatever it answers: a byte of the page that is not given, or is given as 255, stays. Where
 * 0 is given for the first four bytes at a place at which no mark began, no mark with the sum of a page stands there afterwards. Where
 * that FAILED for eight bytes of 0, they are neither blank nor such a mark. */
uint32_t c_dense_nor_program(struct c_nor *part, size_t page, const uint8_t *bytes, size_t count);

/* As c_nor_erase. At a place of its pages at which no mark began, no mark with the sum of a page stands afterwards. */
uint32_t c_dense_nor_erase(struct c_nor *part, size_t sector);

/* ---- the library defines this ---- */

/* As undofs_serve, in blocks of so many sectors; 28 for other blocks than of 2 to 64 sectors, and for a part of fewer than 16 of them
 * or of more bytes than a flash may have. */
uint32_t undofs_serve_dense_nor(size_t handle, uint32_t sectors, uint32_t history);

#endif
