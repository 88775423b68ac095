/* A serial NOR part inside of this program, in either layout: the five functions of c_nor.h, and how a handle over a part begins. */
#ifndef NOR_DRIVER_H
#define NOR_DRIVER_H

#include "nor_in_process.h"
#include "service.h"
#include "shown_sectors.h"

enum { NOR_NO_GEOMETRY = 28 };

struct over_nor {
    struct undofs handle;
    struct shown_sectors sectors;
    uint32_t block; /* sectors of a block, where the layout has them told */
};

/* The part of a number that the library was given. */
struct over_nor *nor_of_handle(size_t handle);

/* Starts a handle over a driver by the function of a library. What undofs_start answers. */
int nor_start(struct undofs **handle, const struct undofs_nor *driver, uint32_t block, uint32_t history, uint32_t (*serve)(size_t handle, uint32_t history));

#endif
