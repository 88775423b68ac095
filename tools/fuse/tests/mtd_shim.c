/* For tests, by LD_PRELOAD: the file MTD_FILE behaves as /dev/mtdN, as MTD_KIND says, `nor`, `nand`, or
 * `ram`, which is a NOR that tells the type RAM. It ends the program where a
 * part is misused: a second program of a page or one out of order, an erase that is none or of a bad block, a call that
 * the kind has not.
 *   MTD_BAD=B    block B of a NAND is marked bad
 *   MTD_CUT=N    in the N-th program or erase power goes: the process ends, with a part of it done
 *   MTD_FAIL=N   one in N programs fails with EIO, with a part of it done
 *   MTD_WHOLE=1  a program of a NAND that fails has all its bytes done
 *   MTD_WORN=N   from the N-th program or erase on each program of the first eight blocks fails so
 *   MTD_CORRECTED=1  each read of a NAND tells that it corrected errors
 *   MTD_SPARE=N  a NAND tells N spare bytes a page */
#define _GNU_SOURCE
#include <dlfcn.h>
#include <errno.h>
#include <fcntl.h>
#include <mtd/mtd-user.h>
#include <stdarg.h>
#include <stdint.h>
#include <stdio.h>
#include <stdlib.h>
#include <string.h>
#include <sys/ioctl.h>
#include <sys/stat.h>
#include <unistd.h>

enum { SPARE = 64, KEPT = 6, TORN = 8, ANCHORS = 8 };

static int part = -1, is_nor, is_ram, is_corrected, is_whole;
static uint32_t spare_told;
static uint32_t page, pages, blocks; /* of NOR: sectors of `pages` times 256 bytes */
static uint64_t bad_block = ~0ull, operations, draw = 1, cut_at, fails_of, worn_from, failed_at = ~0ull;
static ssize_t (*write_really)(int, const void *, size_t, off_t);

static void *real(const char *name) {
    void *found = dlsym(RTLD_NEXT, name);
    if (found == NULL) abort();
    return found;
}

static uint64_t size(void) { return (uint64_t)page * pages * blocks; }
static uint64_t spare_at(uint64_t at) { return size() + at / page * SPARE; }

static void check(int is_right, const char *what, uint64_t at) {
    if (is_right) return;
    fprintf(stderr, "MTD misused: %s at %llu\n", what, (unsigned long long)at);
    abort();
}

static void put(const void *bytes, size_t count, uint64_t at) { check(write_really(part, bytes, count, (off_t)at) == (ssize_t)count, "the shim's file", at); }

static void get(void *bytes, size_t count, uint64_t at) { check(pread(part, bytes, count, (off_t)at) == (ssize_t)count, "the end", at); }

static void fill(uint64_t at, uint64_t count) {
    uint8_t ones[4096];
    memset(ones, 0xff, sizeof ones);
    for (uint64_t now; count > 0; at += now, count -= now) {
        now = count < sizeof ones ? count : sizeof ones;
        put(ones, now, at);
    }
}

static uint64_t number(const char *name, uint64_t none) { return getenv(name) == NULL ? none : strtoull(getenv(name), NULL, 10); }

static int is_named(const char *name) { return getenv("MTD_FILE") != NULL && strcmp(name, getenv("MTD_FILE")) == 0; }

static int opened(int (*open_really)(const char *, int, ...), const char *name, int flags, mode_t mode) {
    if (!is_named(name)) return open_really(name, flags, mode);
    is_ram = strcmp(getenv("MTD_KIND"), "ram") == 0;
    is_nor = is_ram || strcmp(getenv("MTD_KIND"), "nor") == 0;
    page = is_nor ? 256 : 2048;
    pages = is_nor ? 16 : 64;
    blocks = is_nor ? 1024 : 64;
    bad_block = number("MTD_BAD", ~0ull);
    cut_at = number("MTD_CUT", 0);
    fails_of = number("MTD_FAIL", 0);
    worn_from = number("MTD_WORN", ~0ull);
    is_corrected = number("MTD_CORRECTED", 0) != 0;
    is_whole = number("MTD_WHOLE", 0) != 0;
    spare_told = (uint32_t)number("MTD_SPARE", SPARE);
    write_really = (ssize_t(*)(int, const void *, size_t, off_t))real("pwrite");
    part = open_really(name, O_RDWR | O_CREAT | O_CLOEXEC, 0600);
    if (lseek(part, 0, SEEK_END) == 0) fill(0, size() + (is_nor ? 0 : size() / page * SPARE));
    return part;
}

#define OPEN(name)                                                            \
    int name(const char *file, int flags, ...) {                              \
        va_list words;                                                        \
        va_start(words, flags);                                               \
        mode_t mode = (flags & O_CREAT) != 0 ? va_arg(words, mode_t) : 0;     \
        va_end(words);                                                        \
        return opened((int (*)(const char *, int, ...))real(#name), file, flags, mode); \
    }
OPEN(open)
OPEN(open64)

#define STAT(name, type)                                                      \
    int name(const char *file, type *found) {                                 \
        int status = ((int (*)(const char *, type *))real(#name))(file, found); \
        if (status == 0 && is_named(file)) found->st_mode = S_IFCHR | 0600;   \
        return status;                                                        \
    }
STAT(stat, struct stat)
STAT(stat64, struct stat64)

static int is_cut(void) { return ++operations == cut_at; }

static int is_failed(uint64_t block) {
    if (block < ANCHORS && operations >= worn_from) return 1;
    draw = draw * 6364136223846793005ull + 1442695040888963407ull;
    return fails_of != 0 && (draw >> 33) % fails_of == 0;
}

static int refused(int why) {
    errno = why;
    return -1;
}

/* Bits go from 1 to 0 alone. Over what is written 0 may be programmed, and what is given as 255 stays. */
static ssize_t nor_written(const uint8_t *bytes, size_t count, uint64_t at) {
    uint8_t now[4096];
    check(is_nor && count <= 256 && at % 256 + count <= 256 && at + count <= size(), "a write", at);
    get(now, count, at);
    for (size_t i = 0; i < count; i++) {
        check(now[i] == 0xff || count == 1 || bytes[i] == 0 || bytes[i] == 0xff, "a second program", at);
        now[i] &= bytes[i];
    }
    int cut = is_cut(), failed = count > 1 && is_failed(at / (2 * (uint64_t)page * pages));
    put(now, cut || failed ? count / TORN : count, at);
    if (cut) _exit(77);
    return failed ? refused(EIO) : (ssize_t)count;
}

#define PWRITE(name)                                                          \
    ssize_t name(int to, const void *bytes, size_t count, off_t at) {         \
        if (to == part && part >= 0) return nor_written(bytes, count, (uint64_t)at); \
        return ((ssize_t(*)(int, const void *, size_t, off_t))real(#name))(to, bytes, count, at); \
    }
PWRITE(pwrite)
PWRITE(pwrite64)

static int tell_info(struct mtd_info_user *info) {
    *info = (struct mtd_info_user){.type = is_ram ? MTD_RAM : is_nor ? MTD_NORFLASH : MTD_NANDFLASH,
                                   .size = (uint32_t)size(),
                                   .erasesize = page * pages,
                                   .writesize = is_nor ? 1 : page,
                                   .oobsize = is_nor ? 0 : spare_told};
    return 0;
}

static int erase(const struct erase_info_user64 *area) {
    uint64_t block = (uint64_t)page * pages;
    check(area->start % block == 0 && area->length == block && area->start < size(), "an erase", area->start);
    check(area->start / block != bad_block, "an erase of a bad block", area->start);
    int cut = is_cut();
    fill(area->start, cut ? block / 2 : block);
    if (cut) _exit(77);
    if (!is_nor) fill(spare_at(area->start), (uint64_t)SPARE * pages);
    return 0;
}

static int read_page(const struct mtd_read_req *ask) {
    check(!is_nor && ask->start % page == 0 && ask->len == page && ask->ooblen == KEPT && ask->mode == MTD_OPS_AUTO_OOB, "a read", ask->start);
    get((void *)(uintptr_t)ask->usr_data, page, ask->start);
    get((void *)(uintptr_t)ask->usr_oob, KEPT, spare_at(ask->start));
    return is_corrected ? refused(EUCLEAN) : 0;
}

static int is_programmed(uint64_t at) {
    uint8_t kept[KEPT];
    get(kept, KEPT, spare_at(at));
    return kept[0] != 0xff;
}

/* Spare bytes alone, of the page whose program failed last. It fails as well, and is done. */
static int spoil_page(const struct mtd_write_req *ask) {
    const uint8_t *spare = (const void *)(uintptr_t)ask->usr_oob;
    uint8_t kept[KEPT];
    check(ask->start == failed_at && ask->ooblen == KEPT && ask->mode == MTD_OPS_AUTO_OOB, "a program of spare bytes", ask->start);
    get(kept, KEPT, spare_at(ask->start));
    for (int i = 0; i < KEPT; i++) kept[i] &= spare[i];
    put(kept, KEPT, spare_at(ask->start));
    return refused(EIO);
}

static int write_page(const struct mtd_write_req *ask) {
    uint64_t at = ask->start, block = (uint64_t)page * pages;
    if (ask->usr_data == 0) return spoil_page(ask);
    check(!is_nor && at % page == 0 && ask->len == page && ask->ooblen == KEPT && ask->mode == MTD_OPS_AUTO_OOB && at < size(), "a program", at);
    check(at / block != bad_block, "a program of a bad block", at);
    for (uint64_t later = at; later / block == at / block; later += page) check(!is_programmed(later), "a program twice, or out of order,", at);
    int cut = is_cut(), failed = is_failed(at / block);
    put((void *)(uintptr_t)ask->usr_data, cut || (failed && !is_whole) ? page / TORN : page, at);
    if (cut) _exit(77);
    put((void *)(uintptr_t)ask->usr_oob, KEPT, spare_at(at));
    failed_at = failed ? at : ~0ull;
    return failed ? refused(EIO) : 0;
}

int ioctl(int file, unsigned long request, ...) {
    va_list words;
    va_start(words, request);
    void *with = va_arg(words, void *);
    va_end(words);
    if (file != part || part < 0) return ((int (*)(int, unsigned long, void *))real("ioctl"))(file, request, with);
    if (request == MEMGETINFO) return tell_info(with);
    if (request == MEMERASE64) return erase(with);
    if (request == MEMGETBADBLOCK && !is_nor) return *(long long *)with / (page * pages) == (long long)bad_block;
    if (request == MEMREAD) return read_page(with);
    if (request == MEMWRITE) return write_page(with);
    check(0, "a request", request);
    return -1;
}
