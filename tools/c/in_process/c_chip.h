/* What the checklist for drivers asks of C, and the one function that C calls: those of crates/c_chip and of
 * crates/undofs_driver_checks. driver_checks.c defines the seven over a bench of driver_checks.h.
 *
 * Before each call this is proved: the page or the block is one that may be used up; `count` is that of the bytes of one page;
 * a page that is programmed was shown as erased. It is assumed that a read and a plan change nothing that the driver shows, and
 * that the sizes of the data sheet and the moments are the same each time. Of what a program, an erase or a restart does
 * nothing is assumed, since that is what is looked at. The numbers of answers are those of c_flash.h. */
#ifndef C_CHIP_H
#define C_CHIP_H

#include "c_flash.h"

/* A driver, with the sizes by the data sheet and those that it tells itself. Only c_chip_open makes one. C keeps no pointer to it,
 * and writes of it only the last three fields, in c_chip_restart. */
struct c_chip {
    size_t handle;
    uint32_t page, pages, blocks;
    uint32_t told_page, told_pages, told_blocks;
};

enum { C_CHIP_READ = 0, C_CHIP_PROGRAM = 1, C_CHIP_ERASE = 2 }; /* classes of operations */
enum { C_CHIP_FAILS = 1, C_CHIP_IS_CUT = 2 };                   /* faults */

/* ---- C defines these ---- */

struct c_chip c_chip_open(size_t handle);

/* What the driver shows of a page: as c_flash_read, and with nothing between that remembers pages. */
uint32_t c_chip_read(struct c_chip *chip, uint32_t page, uint8_t *bytes, size_t count);
uint32_t c_chip_program(struct c_chip *chip, uint32_t page, const uint8_t *bytes, size_t count);
uint32_t c_chip_erase(struct c_chip *chip, uint32_t block);

/* At how many moments of an operation of a class such a fault can be made to come. */
uint8_t c_chip_moments(const struct c_chip *chip, uint32_t class, uint32_t fault);

/* Makes the fault come in the next operation, which is of this class, at this moment of it: at moment 0 for certain. */
void c_chip_plan(struct c_chip *chip, uint32_t class, uint32_t fault, uint8_t moment);

/* Takes back what is planned, puts the power off and on, and makes the driver anew. */
void c_chip_restart(struct c_chip *chip);

/* ---- the library defines this ---- */

/* Runs the twelve cases in `blocks` blocks from `first` on, whose content is lost: 0, and `failed` has 1 for each case that failed, in
 * the order of driver_checks.h, and 0 for the others; or 7 for blocks that are none, 25 for want of memory, 28 for sizes that are
 * none. `count` is 12. */
uint32_t undofs_check_driver(size_t handle, uint32_t first, uint32_t blocks, uint8_t *failed, size_t count);

#endif
