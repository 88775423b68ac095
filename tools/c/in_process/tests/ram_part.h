/* A part in memory, whose owner may look in before each call of the file system. */
#ifndef RAM_PART_H
#define RAM_PART_H

#include "../../undofs_client.h"

struct ram_part {
    struct undofs_sizes sizes;
    uint8_t *states, *bytes; /* of each page */
    unsigned operations;
    unsigned cut_at; /* power goes in the operation of this number, from 1 on; 0: in none */
    int is_misused;  /* a page was programmed that was not erased */
    int is_unread;   /* no page can be read */
    void (*before)(void *with);
    void *with;
};

/* A part of erased pages. It ends the program where there is no memory. */
void ram_part_make(struct ram_part *part, struct undofs_sizes sizes);
void ram_part_free(struct ram_part *part);
/* The driver of a part, which has to stay where it is. */
struct undofs_driver ram_part_driver(struct ram_part *part);

#endif
