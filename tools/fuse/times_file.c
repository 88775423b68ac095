#define _GNU_SOURCE
#include "times_file.h"
#include "time_words.h"
#include <errno.h>
#include <fcntl.h>
#include <stdio.h>
#include <stdlib.h>
#include <string.h>
#include <sys/stat.h>
#include <syslog.h>
#include <unistd.h>

enum { MOST = 1 << 28 }; /* bytes of a file that is read */

static char *name, *new_name, *folder_name;

int times_file_is_named(void) { return name != NULL; }

int times_file_name(const char *part, const char *folder) {
    const char *slash = strrchr(part, '/');
    const char *last = slash == NULL ? part : slash + 1;
    free(name);
    free(new_name);
    free(folder_name);
    name = new_name = NULL;
    folder_name = folder != NULL ? strdup(folder) : slash == NULL ? strdup(".") : strndup(part, (size_t)(slash - part) + 1);
    if (folder_name == NULL) return ENOMEM;
    if (asprintf(&name, "%s/%s.times", folder_name, last) < 0) name = NULL;
    if (name != NULL && asprintf(&new_name, "%s.new", name) < 0) new_name = NULL;
    return new_name == NULL ? ENOMEM : 0;
}

/* ---- read ---- */

/* All bytes of the file. An errno, or 0; ENOENT where there is none. */
static int read_whole(uint8_t **bytes, size_t *length) {
    struct stat found;
    int file = open(name, O_RDONLY | O_CLOEXEC), why = 0;
    if (file < 0) return errno;
    if (fstat(file, &found) != 0) why = errno;
    else if (!S_ISREG(found.st_mode) || found.st_size > MOST) why = EFBIG;
    *length = why == 0 ? (size_t)found.st_size : 0;
    *bytes = why == 0 ? malloc(*length + 1) : NULL;
    if (why == 0 && *bytes == NULL) why = ENOMEM;
    for (size_t had = 0; why == 0 && had < *length;) {
        ssize_t got = read(file, *bytes + had, *length - had);
        if (got < 0 && errno == EINTR) continue;
        if (got <= 0) why = got < 0 ? errno : EIO;
        else had += (size_t)got;
    }
    close(file);
    return why;
}

void times_file_set_aside(const char *why) {
    char *aside = NULL, time_text[TIME_TEXT];
    if (name == NULL || access(name, F_OK) != 0) return;
    put_clock_time(time_text, time(NULL));
    int is_moved = asprintf(&aside, "%s.%s", name, time_text) >= 0 && rename(name, aside) == 0;
    syslog(LOG_WARNING, "%s %s: %s %s", name, why, is_moved ? "moved to" : "not moved, and lost at the next sync:", is_moved ? aside : strerror(errno));
    free(aside);
}

int times_file_read(struct times_head *part) {
    static const char *const reasons[] = {"", "is damaged", "is of a later undofs-fuse", "is of another part", "is of another history of this part"};
    uint8_t *bytes = NULL;
    size_t length = 0;
    if (name == NULL) return 0;
    int why = read_whole(&bytes, &length);
    enum times_verdict verdict = why == 0 ? take_times(part, bytes, length) : TIMES_DAMAGED;
    free(bytes);
    if (why != 0 && why != ENOENT) syslog(LOG_WARNING, "%s cannot be read: %s", name, strerror(why));
    if (why != ENOENT && verdict != TIMES_RIGHT) times_file_set_aside(reasons[verdict]);
    return verdict == TIMES_RIGHT;
}

/* ---- written ---- */

static int write_whole(int file, const uint8_t *bytes, size_t length) {
    while (length > 0) {
        ssize_t written = write(file, bytes, length);
        if (written < 0 && errno == EINTR) continue;
        if (written <= 0) return written < 0 ? errno : EIO;
        bytes += written;
        length -= (size_t)written;
    }
    return fsync(file) == 0 ? 0 : errno;
}

static int sync_folder(void) {
    int folder = open(folder_name, O_RDONLY | O_DIRECTORY | O_CLOEXEC);
    if (folder < 0) return errno;
    int why = fsync(folder) == 0 ? 0 : errno;
    close(folder);
    return why;
}

/* The new file stands whole on the disk before it takes the old one's place. */
static int replace(const uint8_t *bytes, size_t length) {
    int file = open(new_name, O_WRONLY | O_CREAT | O_TRUNC | O_CLOEXEC, 0600);
    if (file < 0) return errno;
    int why = write_whole(file, bytes, length);
    if (close(file) != 0 && why == 0) why = errno;
    if (why == 0 && rename(new_name, name) != 0) why = errno;
    if (why != 0) (void)unlink(new_name);
    return why == 0 ? sync_folder() : why;
}

int times_file_write(const struct times_head *head) {
    static int is_told;
    size_t length;
    if (name == NULL) return 0;
    uint8_t *bytes = put_times(head, &length);
    int why = bytes == NULL ? ENOMEM : replace(bytes, length);
    free(bytes);
    if (why != 0 && !is_told) syslog(LOG_WARNING, "%s: %s: times are not kept over the mount", name, strerror(why));
    is_told = why != 0;
    return why;
}
