/* Sessions of undofs inside of this program on a serial NOR part in memory: three files are saved one by one, with a cut before, within
 * and after each operation, and with each operation failing. */
#ifndef NOR_SESSIONS_H
#define NOR_SESSIONS_H

#include "nor_memory.h"

/* Starts a handle over a driver, as undofs_start_nor does. */
typedef int nor_starts(struct undofs **handle, const struct undofs_nor *driver, uint32_t history);

/* How many operations the saves take, and how many sessions with a cut and with a failure were right. */
struct nor_counts {
    uint64_t operations;
    unsigned cut, failed;
};

struct nor_counts nor_sessions(nor_starts *starts, uint32_t pages);

/* Whether the file system has at least `least` of the files, whole, and at most `most`, and nothing else. */
int nor_has_files(struct undofs *handle, unsigned least, unsigned most);

#endif
