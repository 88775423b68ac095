/* A part by its name: /dev/mtdN, or a flat file. */
#ifndef PART_H
#define PART_H

#include "../c/flat_file.h"
#include "mtd_part.h"

struct part {
    struct undofs_driver driver;
    int is_new; /* a flat file that was made now */
    int is_device;
    struct flat_file file;
    struct mtd_part mtd;
};

/* What a part has to be, as for mtd_part_open; a flat file is none. */
struct nor_asked {
    int is_nor;
    uint32_t sectors;
};

/* 0, or an errno. `sizes` are those of a flat file that is made. `tell_in_use` as for flat_file_open. */
int part_open(struct part *part, const char *name, const struct undofs_sizes *sizes, const struct nor_asked *nor, void (*tell_in_use)(void));
/* Gives 16 bytes that tell this part from others: those of a flat file, or zeroes for a device, which has none. A file system that is
 * made has new ones. 0, or an errno. */
int part_identity(struct part *part, int is_made, uint8_t identity[FLAT_FILE_IDENTITY]);

#endif
