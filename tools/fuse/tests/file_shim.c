/* For tests, by LD_PRELOAD: the file SHIM_FILE loses its writes as planned.
 *   SHIM_TRACE=FILE  each write is told there, as `W`, place, count and bytes, and each barrier, as `B` and 16 zeroes
 *   SHIM_CUT=N       in the N-th write the process ends, with half of it written
 *   SHIM_FAIL=N      from the N-th write on each fails with EIO; with SHIM_KIND=bytes only those of a page's bytes count and fail, with
 *                    `state` those of its state, and with `read` reads do
 *   SHIM_WHILE=FILE  writes and reads count, and fail, only while FILE is there
 *   SHIM_FOLDER=1    the fsync of each folder fails with EIO
 *   SHIM_LATE=N      the process goes on for N milliseconds after its end
 *   SHIM_WAIT=N      each wait for a descriptor that has no end begins N milliseconds late */
#define _GNU_SOURCE
#include <dlfcn.h>
#include <errno.h>
#include <fcntl.h>
#include <poll.h>
#include <stdarg.h>
#include <stdint.h>
#include <stdlib.h>
#include <string.h>
#include <sys/stat.h>
#include <time.h>
#include <unistd.h>

static int part = -1, trace = -1;
static long writes, cut_at, fail_at;

static void *real(const char *name) {
    void *found = dlsym(RTLD_NEXT, name);
    if (found == NULL) abort();
    return found;
}

static void tell(char kind, uint64_t at, uint64_t count, const void *bytes) {
    char head[17] = {kind};
    memcpy(head + 1, &at, 8);
    memcpy(head + 9, &count, 8);
    if (trace < 0) return;
    if (write(trace, head, sizeof head) != (ssize_t)sizeof head || write(trace, bytes, count) != (ssize_t)count) abort();
}

static int opened(int (*open_really)(const char *, int, ...), const char *name, int flags, mode_t mode) {
    const char *file = getenv("SHIM_FILE");
    int descriptor = open_really(name, flags, mode);
    if (file == NULL || strcmp(name, file) != 0) return descriptor;
    part = descriptor;
    if (getenv("SHIM_CUT") != NULL) cut_at = atol(getenv("SHIM_CUT"));
    if (getenv("SHIM_FAIL") != NULL) fail_at = atol(getenv("SHIM_FAIL"));
    if (getenv("SHIM_TRACE") != NULL) trace = open_really(getenv("SHIM_TRACE"), O_WRONLY | O_APPEND | O_CREAT | O_CLOEXEC, 0600);
    return descriptor;
}

#define OPEN(name)                                                            \
    int name(const char *file, int flags, ...) {                              \
        va_list words;                                                        \
        va_start(words, flags);                                               \
        mode_t mode = (flags & O_CREAT) != 0 ? va_arg(words, mode_t) : 0;     \
        va_end(words);                                                        \
        return opened((int (*)(const char *, int, ...))real(#name), file, flags, mode); \
    }
OPEN(open)
OPEN(open64)

/* Whether a call is of the kind that counts; `size` is 1 for a state. */
static int counts(int is_read, size_t size) {
    const char *kind = getenv("SHIM_KIND"), *file = getenv("SHIM_WHILE");
    if (file != NULL && access(file, F_OK) != 0) return 0;
    if (kind == NULL) return !is_read;
    if (strcmp(kind, "read") == 0) return is_read;
    return !is_read && (strcmp(kind, "state") == 0) == (size == 1);
}

static ssize_t written(ssize_t (*write_really)(int, const void *, size_t, off_t), int to, const void *bytes, size_t count, off_t at) {
    if (to != part || part < 0) return write_really(to, bytes, count, at);
    int does_count = counts(0, count);
    writes += does_count;
    if (cut_at != 0 && writes == cut_at) {
        (void)!write_really(to, bytes, count / 2, at);
        _exit(77);
    }
    if (fail_at != 0 && does_count && writes >= fail_at) {
        errno = EIO;
        return -1;
    }
    tell('W', (uint64_t)at, count, bytes);
    return write_really(to, bytes, count, at);
}

#define PWRITE(name)                                                          \
    ssize_t name(int to, const void *bytes, size_t count, off_t at) {         \
        return written((ssize_t (*)(int, const void *, size_t, off_t))real(#name), to, bytes, count, at); \
    }
PWRITE(pwrite)
PWRITE(pwrite64)

static ssize_t got(ssize_t (*read_really)(int, void *, size_t, off_t), int from, void *bytes, size_t count, off_t at) {
    if (from == part && part >= 0 && fail_at != 0 && counts(1, count) && ++writes >= fail_at) {
        errno = EIO;
        return -1;
    }
    return read_really(from, bytes, count, at);
}

#define PREAD(name)                                                           \
    ssize_t name(int from, void *bytes, size_t count, off_t at) {             \
        return got((ssize_t (*)(int, void *, size_t, off_t))real(#name), from, bytes, count, at); \
    }
PREAD(pread)
PREAD(pread64)

int fdatasync(int file) {
    if (file == part && part >= 0) tell('B', 0, 0, "");
    return ((int (*)(int))real("fdatasync"))(file);
}

int fsync(int file) {
    struct stat found;
    if (getenv("SHIM_FOLDER") != NULL && fstat(file, &found) == 0 && S_ISDIR(found.st_mode)) {
        errno = EIO;
        return -1;
    }
    return ((int (*)(int))real("fsync"))(file);
}

/* As long as a variable says; a signal ends it. */
static void be_late(const char *variable) {
    long late = part >= 0 && getenv(variable) != NULL ? atol(getenv(variable)) : 0;
    const struct timespec while_waiting = {late / 1000, late % 1000 * 1000000};
    if (late > 0) nanosleep(&while_waiting, NULL);
}

int poll(struct pollfd *ends, nfds_t count, int milliseconds) {
    if (milliseconds < 0) be_late("SHIM_WAIT");
    return ((int (*)(struct pollfd *, nfds_t, int))real("poll"))(ends, count, milliseconds);
}

int ppoll(struct pollfd *ends, nfds_t count, const struct timespec *time, const sigset_t *mask) {
    if (time == NULL) be_late("SHIM_WAIT");
    return ((int (*)(struct pollfd *, nfds_t, const struct timespec *, const sigset_t *))real("ppoll"))(ends, count, time, mask);
}

__attribute__((destructor)) static void end_late(void) { be_late("SHIM_LATE"); }
