/* undofs inside of this program on a serial NOR part in the layout `dense`: the calls are those of undofs_client.h, after this start. */
#ifndef DENSE_NOR_IN_PROCESS_H
#define DENSE_NOR_IN_PROCESS_H

#include "nor_in_process.h"

/* As undofs_start_nor, in blocks of so many sectors, 2 to 64. What the driver owes beside is told in docs/dense_nor.md. Other blocks,
 * and a part of fewer than 16 of them or of more bytes than a flash may have, are refused with 28. */
int undofs_start_dense_nor(struct undofs **handle, const struct undofs_nor *driver, uint32_t sectors, uint32_t history);

#endif
