/* A handle of undofs_client.h inside of this program, whatever it drives: the service of a library runs in turn with the caller
 * and gives way where it waits for a line; the driver is asked while a call waits. */
#ifndef SERVICE_H
#define SERVICE_H

#include "../undofs_client.h"
#include "../undofs_wire.h"

enum { SERVICE_MESSAGE = 64 };

/* Who makes a handle begins a struct with this one, all zero, sets the first eight fields, and calls service_start. */
struct undofs {
    const void *driver;    /* as it was given */
    const void *part;      /* what its functions are given */
    void (*reads)(void);   /* one of them */
    uint32_t (*serve)(size_t handle, uint32_t history); /* that of a library */
    void (*drop)(struct undofs *handle);                /* frees what the struct has beside the handle */
    const uint64_t *orders, *erases;
    uint32_t history;
    uint32_t status;
    struct undofs *next; /* among the live ones */
    struct turns *turns;
    int is_open, is_ending, is_running, gone;
    const char *lines, *lines_end; /* those that the service has not read */
    struct undofs_lines line;      /* that of a call */
    struct undofs_lines none;      /* for a call from inside of the driver: nothing can be put into it */
    struct undofs_replies replied;
    size_t reply_count;
    int has_no_memory;
    char message[SERVICE_MESSAGE];
};

/* The handle of a number that the library was given. */
struct undofs *service_handle(size_t handle);
/* Whether the handle is opened for the first time. */
int service_opens(struct undofs *handle);
/* Keeps which page could not be read, for undofs_message. */
void service_note_unread(struct undofs *handle, size_t page);
/* Runs the service up to its first line. What undofs_start answers; the handle is there in each case. */
int service_start(struct undofs *handle, int has_memory);

#endif
