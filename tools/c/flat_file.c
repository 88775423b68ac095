/* A host that loses power may keep any part of what was written since the last fdatasync. So what a record leads to
 * is brought to the disk before the record counts, and the record before it is answered. */
#define _GNU_SOURCE
#include "flat_file.h"
#include <errno.h>
#include <fcntl.h>
#include <stdlib.h>
#include <string.h>
#include <sys/file.h>
#include <sys/random.h>
#include <sys/stat.h>
#include <time.h>
#include <unistd.h>

enum { HEAD = 4096, IDENTITY_AT = 20, ANCHORS = 8, MOST_PAGES = 262144 / 256 };

static off_t state_at(uint64_t page) { return (off_t)(HEAD + page); }

static off_t bytes_at(const struct undofs_sizes *s, uint64_t page) {
    uint64_t states = ((uint64_t)s->pages * s->blocks + HEAD - 1) / HEAD * HEAD;
    return (off_t)(HEAD + states + page * s->page);
}

/* ---- whole reads and writes ---- */

static int is_read(int from, uint8_t *bytes, size_t count, off_t at) {
    while (count > 0) {
        ssize_t got = pread(from, bytes, count, at);
        if (got < 0 && errno == EINTR) continue;
        if (got <= 0) return 0;
        bytes += got;
        count -= (size_t)got;
        at += got;
    }
    return 1;
}

static int is_written(int to, const uint8_t *bytes, size_t count, off_t at) {
    while (count > 0) {
        ssize_t written = pwrite(to, bytes, count, at);
        if (written < 0 && errno == EINTR) continue;
        if (written <= 0) return 0;
        bytes += written;
        count -= (size_t)written;
        at += written;
    }
    return 1;
}

/* ---- the driver ---- */

static int is_barred(const struct flat_file *file, uint32_t block) { return block >= ANCHORS || fdatasync(file->descriptor) == 0; }

static enum undofs_state read_page(void *part, uint32_t page, uint8_t *bytes) {
    struct flat_file *file = part;
    uint8_t state;
    if (!is_read(file->descriptor, &state, 1, state_at(page))) return UNDOFS_NOT_READ;
    if (state == UNDOFS_ERASED) return UNDOFS_ERASED;
    if (state != UNDOFS_DATA) return UNDOFS_UNREADABLE;
    return is_read(file->descriptor, bytes, file->sizes.page, bytes_at(&file->sizes, page)) ? UNDOFS_DATA : UNDOFS_NOT_READ;
}

static enum undofs_answer program_page(void *part, uint32_t page, const uint8_t *bytes) {
    struct flat_file *file = part;
    uint32_t block = page / file->sizes.pages;
    uint8_t state = UNDOFS_DATA;
    if (!is_written(file->descriptor, bytes, file->sizes.page, bytes_at(&file->sizes, page))) return UNDOFS_CUT;
    if (!is_barred(file, block)) return UNDOFS_CUT;
    if (!is_written(file->descriptor, &state, 1, state_at(page))) return UNDOFS_CUT;
    return is_barred(file, block) ? UNDOFS_DONE : UNDOFS_CUT;
}

static enum undofs_answer erase_block(void *part, uint32_t block) {
    struct flat_file *file = part;
    static const uint8_t erased[MOST_PAGES];
    off_t states = state_at((uint64_t)block * file->sizes.pages);
    if (!is_barred(file, block) || !is_written(file->descriptor, erased, file->sizes.pages, states)) return UNDOFS_CUT;
    return is_barred(file, block) ? UNDOFS_DONE : UNDOFS_CUT;
}

struct undofs_driver flat_file_driver(struct flat_file *file) { return (struct undofs_driver){file->sizes, file, read_page, program_page, erase_block}; }

/* ---- open ---- */

static void put_number(uint8_t *to, uint32_t number) {
    for (int i = 0; i < 4; i++) to[i] = (uint8_t)(number >> 8 * i);
}

static uint32_t number_at(const uint8_t *from) { return (uint32_t)from[0] | (uint32_t)from[1] << 8 | (uint32_t)from[2] << 16 | (uint32_t)from[3] << 24; }

/* Brings the name of a file to the disk. */
static int is_name_synced(const char *name) {
    const char *slash = strrchr(name, '/');
    char *folder = slash == NULL ? strdup(".") : strndup(name, (size_t)(slash - name) + 1);
    int descriptor = folder == NULL ? -1 : open(folder, O_RDONLY | O_DIRECTORY | O_CLOEXEC);
    int is_synced = descriptor >= 0 && fsync(descriptor) == 0, why = errno;
    if (descriptor >= 0) close(descriptor);
    free(folder);
    errno = why;
    return is_synced;
}

/* Makes the file so long that all is erased, and then its head, which says that it is one. All its room is taken now: a write that
 * found none later would count as power that went. */
static int make(struct flat_file *file, const char *name, const struct undofs_sizes *sizes) {
    uint8_t head[20] = "UFFSPART";
    file->sizes = *sizes;
    put_number(head + 8, sizes->page);
    put_number(head + 12, sizes->pages);
    put_number(head + 16, sizes->blocks);
    int why = posix_fallocate(file->descriptor, 0, bytes_at(sizes, (uint64_t)sizes->pages * sizes->blocks));
    if (why != 0) return why;
    int is_made = fsync(file->descriptor) == 0 && is_written(file->descriptor, head, sizeof head, 0);
    return is_made && fsync(file->descriptor) == 0 && is_name_synced(name) ? 0 : errno;
}

static int look_at_head(struct flat_file *file, off_t length) {
    uint8_t head[20];
    if (!is_read(file->descriptor, head, sizeof head, 0) || memcmp(head, "UFFSPART", 8) != 0) return EINVAL;
    struct undofs_sizes s = {number_at(head + 8), number_at(head + 12), number_at(head + 16)};
    if (s.page > 4096 || s.pages > MOST_PAGES || s.blocks > 16384) return EINVAL;
    file->sizes = s;
    return length == bytes_at(&s, (uint64_t)s.pages * s.blocks) ? 0 : EINVAL;
}

/* Who had the file may still bring its last changes to it. */
static int claim(int descriptor, void (*tell_in_use)(void)) {
    enum { TENTHS = 100, TOLD_AT = 10 };
    const struct timespec tenth = {0, 100000000};
    for (int tenths = 0; tenths < TENTHS; tenths++) {
        if (flock(descriptor, LOCK_EX | LOCK_NB) == 0) return 0;
        if (errno != EWOULDBLOCK && errno != EINTR) return errno;
        if (tenths == TOLD_AT && tell_in_use != NULL) tell_in_use();
        nanosleep(&tenth, NULL);
    }
    return EBUSY;
}

int flat_file_open(struct flat_file *file, const char *name, const struct undofs_sizes *sizes, void (*tell_in_use)(void)) {
    struct stat found;
    file->descriptor = open(name, O_RDWR | O_CREAT | O_CLOEXEC, 0600);
    if (file->descriptor < 0) return errno;
    int why = claim(file->descriptor, tell_in_use);
    if (why == 0 && fstat(file->descriptor, &found) != 0) why = errno;
    if (why == 0 && !S_ISREG(found.st_mode)) why = EINVAL;
    if (why == 0) {
        file->is_new = found.st_size == 0;
        why = file->is_new ? make(file, name, sizes) : look_at_head(file, found.st_size);
        if (file->is_new && why != 0) (void)unlink(name);
    }
    if (why != 0) close(file->descriptor);
    return why;
}

void flat_file_close(struct flat_file *file) { close(file->descriptor); }

int flat_file_identity(struct flat_file *file, int is_new, uint8_t identity[FLAT_FILE_IDENTITY]) {
    static const uint8_t none[FLAT_FILE_IDENTITY];
    errno = EIO; /* a file that ends too early sets none */
    if (!is_read(file->descriptor, identity, FLAT_FILE_IDENTITY, IDENTITY_AT)) return errno;
    if (!is_new && memcmp(identity, none, sizeof none) != 0) return 0;
    if (getrandom(identity, FLAT_FILE_IDENTITY, 0) != FLAT_FILE_IDENTITY) return errno;
    int is_given = is_written(file->descriptor, identity, FLAT_FILE_IDENTITY, IDENTITY_AT) && fdatasync(file->descriptor) == 0;
    return is_given ? 0 : errno;
}
