/* The checklist for drivers of raw flash (docs/driver.md), over a driver in C: twelve cases, with no file system.
 *
 * It asks reads, programs and erases of the blocks of the bench and of no other. What these held is lost. A driver that
 * passes has shown no fault at these moments, in these blocks, with these bytes. */
#ifndef DRIVER_CHECKS_H
#define DRIVER_CHECKS_H

#include "../undofs_client.h"

enum { UNDOFS_CASES = 12 };

enum undofs_operation { UNDOFS_PROGRAMS = 1, UNDOFS_ERASES = 2 };

/* A driver, and what a bench does to it. Each function is given `driver.part`. */
struct undofs_bench {
    struct undofs_driver driver; /* its sizes are those of the data sheet */
    uint32_t first, blocks;      /* the blocks that may be used up: three or more, one after another */
    /* At how many moments of such an operation it can be made to fail (UNDOFS_FAILED), or power to go in it (UNDOFS_CUT); the
     * same each time. A case that has none fails. */
    uint8_t (*moments)(void *part, enum undofs_operation operation, enum undofs_answer fault);
    /* Makes it come in the next operation, at this moment of it. */
    void (*plan)(void *part, enum undofs_operation operation, enum undofs_answer fault, uint8_t moment);
    /* Takes back what is planned, puts the power off and on, and makes the driver anew with nothing left of what it had in
     * memory. It answers the sizes that the driver tells then. */
    struct undofs_sizes (*restart)(void *part);
};

/* The cases by their names: sizes, fresh, read-back, in-order, one-block, failed-program, failed-erase, cut-program, cut-erase,
 * restart, ends, neighbours. */
extern const char *const undofs_cases[UNDOFS_CASES];

/* Runs the cases: 0, and `failed` has 1 for each that failed and 0 for each other; or why none was run: 7 for blocks that the part does
 * not have or fewer than three, 25 for want of memory, 28 for sizes that are not lawful. After an answer UNDOFS_CUT the driver
 * is asked nothing until the restart. */
int undofs_check(const struct undofs_bench *bench, uint8_t failed[UNDOFS_CASES]);

#endif
