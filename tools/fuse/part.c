#define _GNU_SOURCE
#include "part.h"
#include <errno.h>
#include <string.h>
#include <sys/stat.h>
#include <time.h>

/* As flat_file_open waits: who had the device may still bring its last changes to it. */
static int open_device(struct part *part, const char *name, const struct nor_asked *nor, void (*tell_in_use)(void)) {
    enum { TENTHS = 100, TOLD_AT = 10 };
    const struct timespec tenth = {0, 100000000};
    int why = mtd_part_open(&part->mtd, name, nor->is_nor, nor->sectors);
    for (int tenths = 1; why == EBUSY && tenths < TENTHS; tenths++) {
        if (tenths == TOLD_AT) tell_in_use();
        nanosleep(&tenth, NULL);
        why = mtd_part_open(&part->mtd, name, nor->is_nor, nor->sectors);
    }
    return why;
}

int part_open(struct part *part, const char *name, const struct undofs_sizes *sizes, const struct nor_asked *nor, void (*tell_in_use)(void)) {
    struct stat found;
    int is_device = stat(name, &found) == 0 && S_ISCHR(found.st_mode);
    part->is_new = 0;
    part->is_device = is_device;
    if (is_device) {
        int why = open_device(part, name, nor, tell_in_use);
        if (why == 0) part->driver = mtd_part_driver(&part->mtd);
        return why;
    }
    int why = nor->is_nor || nor->sectors > 0 ? ENODEV : flat_file_open(&part->file, name, sizes, tell_in_use);
    if (why == 0) {
        part->is_new = part->file.is_new;
        part->driver = flat_file_driver(&part->file);
    }
    return why;
}

int part_identity(struct part *part, int is_made, uint8_t identity[FLAT_FILE_IDENTITY]) {
    memset(identity, 0, FLAT_FILE_IDENTITY);
    return part->is_device ? 0 : flat_file_identity(&part->file, is_made, identity);
}
