#define _GNU_SOURCE
#include "mtd_part.h"
#include <errno.h>
#include <fcntl.h>
#include <mtd/mtd-user.h>
#include <string.h>
#include <sys/file.h>
#include <sys/ioctl.h>
#include <unistd.h>

enum { NOR_PAGE = 256, MOST_BYTES = 67108864, MOST_BLOCKS = 16384, LEAST_SPARE = 64 };
enum { DENSE_MARK = 8, DENSE_START = 4, DENSE_MARKS = NOR_PAGE / DENSE_MARK, DENSE_UNIT = 4096, DENSE_LEAST = 8192 };

/* EIO and EBADMSG are of the flash; whatever else is told, nothing is known of the part any more. */
static enum nand_result result_of(int is_done) {
    if (is_done) return NAND_DONE;
    return errno == EIO || errno == EBADMSG ? NAND_BROKEN : NAND_GONE;
}

static int is_erased_at(const struct mtd_part *m, uint64_t at) {
    struct erase_info_user64 area = {.start = at, .length = m->erase_size};
    return ioctl(m->descriptor, MEMERASE64, &area) == 0;
}

/* ---- NAND ---- */

static uint64_t nand_at(const struct mtd_part *m, uint32_t page) { return (uint64_t)page * m->sizes.page; }

static enum nand_result nand_read(void *chip, uint32_t page, uint8_t *bytes, uint8_t *spare) {
    const struct mtd_part *m = chip;
    struct mtd_read_req ask = {.start = nand_at(m, page), .len = m->sizes.page, .ooblen = NAND_SPARE, .usr_data = (uintptr_t)bytes, .usr_oob = (uintptr_t)spare, .mode = MTD_OPS_AUTO_OOB};
    int is_read = ioctl(m->descriptor, MEMREAD, &ask) == 0;
    return result_of(is_read || errno == EUCLEAN); /* EUCLEAN: all errors were corrected */
}

/* A page whose program failed may have its bytes all the same, or look blank. Zeroes over its spare bytes make it unreadable, now and at
 * each later start; that this program fails as well is no matter. */
static void spoil(const struct mtd_part *m, uint32_t page) {
    static const uint8_t zeroes[NAND_SPARE];
    struct mtd_write_req ask = {.start = nand_at(m, page), .ooblen = NAND_SPARE, .usr_oob = (uintptr_t)zeroes, .mode = MTD_OPS_AUTO_OOB};
    if (m->may_spoil) (void)ioctl(m->descriptor, MEMWRITE, &ask);
}

static enum nand_result nand_program(void *chip, uint32_t page, const uint8_t *bytes, const uint8_t *spare) {
    const struct mtd_part *m = chip;
    struct mtd_write_req ask = {.start = nand_at(m, page), .len = m->sizes.page, .ooblen = NAND_SPARE, .usr_data = (uintptr_t)bytes, .usr_oob = (uintptr_t)spare, .mode = MTD_OPS_AUTO_OOB};
    enum nand_result result = result_of(ioctl(m->descriptor, MEMWRITE, &ask) == 0);
    if (result == NAND_BROKEN) spoil(m, page);
    return result;
}

static enum nand_result nand_erase(void *chip, uint32_t block) {
    const struct mtd_part *m = chip;
    return result_of(is_erased_at(m, (uint64_t)block * m->erase_size));
}

static int nand_is_bad(void *chip, uint32_t block) {
    const struct mtd_part *m = chip;
    long long at = (long long)block * m->erase_size;
    return ioctl(m->descriptor, MEMGETBADBLOCK, &at) > 0;
}

/* ---- NOR: block b is the sectors 2 b, of its data, and 2 b + 1, of its marks ---- */

static uint64_t nor_at(const struct mtd_part *m, uint32_t page, int is_mark) {
    uint64_t block = page / m->sizes.pages, place = page % m->sizes.pages;
    return (2 * block + (is_mark ? 1 : 0)) * m->erase_size + place * NOR_PAGE;
}

static int is_nor_read(const struct mtd_part *m, uint8_t *bytes, size_t count, uint64_t at) { return pread(m->descriptor, bytes, count, (off_t)at) == (ssize_t)count; }

static int is_nor_written(const struct mtd_part *m, const uint8_t *bytes, size_t count, uint64_t at) { return pwrite(m->descriptor, bytes, count, (off_t)at) == (ssize_t)count; }

static enum undofs_state nor_read_page(void *part, uint32_t page, uint8_t *bytes) {
    const struct mtd_part *m = part;
    uint8_t mark;
    if (!is_nor_read(m, &mark, 1, nor_at(m, page, 1)) || !is_nor_read(m, bytes, NOR_PAGE, nor_at(m, page, 0))) return UNDOFS_NOT_READ;
    if (mark == 0) return UNDOFS_DATA;
    for (int i = 0; i < NOR_PAGE; i++) {
        if (bytes[i] != 0xff) return UNDOFS_UNREADABLE;
    }
    return mark == 0xff ? UNDOFS_ERASED : UNDOFS_UNREADABLE;
}

static enum undofs_answer nor_program_page(void *part, uint32_t page, const uint8_t *bytes) {
    const struct mtd_part *m = part;
    static uint8_t found[NOR_PAGE];
    const uint8_t written = 0, spoilt = 15;
    int is_done = is_nor_written(m, bytes, NOR_PAGE, nor_at(m, page, 0)) && is_nor_written(m, &written, 1, nor_at(m, page, 1));
    if (is_done) return UNDOFS_DONE;
    if (result_of(0) == NAND_GONE) return UNDOFS_CUT;
    (void)is_nor_written(m, &spoilt, 1, nor_at(m, page, 1));
    return nor_read_page(part, page, found) == UNDOFS_UNREADABLE ? UNDOFS_FAILED : UNDOFS_CUT;
}

/* The marks go first: a page whose mark is gone and whose data is not is unreadable. */
static enum undofs_answer nor_erase_block(void *part, uint32_t block) {
    const struct mtd_part *m = part;
    uint64_t data = 2 * (uint64_t)block * m->erase_size;
    if (is_erased_at(m, data + m->erase_size) && is_erased_at(m, data)) return UNDOFS_DONE;
    return result_of(0) == NAND_GONE ? UNDOFS_CUT : UNDOFS_FAILED;
}

/* ---- NOR of the layout `dense`: the last pages of a block have the marks of the others, eight bytes each ---- */

static uint64_t dense_at(const struct mtd_part *m, uint32_t page, int is_mark) {
    uint64_t block = page / m->sizes.pages, place = page % m->sizes.pages;
    return block * m->sectors * m->erase_size + (is_mark ? (uint64_t)m->sizes.pages * NOR_PAGE + place * DENSE_MARK : place * NOR_PAGE);
}

/* `UNOR`, and the CRC-32 of the bytes of the page. */
static void make_mark(uint8_t *mark, const uint8_t *bytes) {
    uint32_t sum = ~0u;
    for (int i = 0; i < NOR_PAGE; i++) {
        sum ^= bytes[i];
        for (int bit = 0; bit < 8; bit++) sum = sum >> 1 ^ (0xedb88320u & (0u - (sum & 1u)));
    }
    memcpy(mark, "UNOR", DENSE_START);
    for (int i = 0; i < DENSE_MARK - DENSE_START; i++) mark[DENSE_START + i] = (uint8_t)(~sum >> 8 * i);
}

static int is_blank(const uint8_t *bytes, size_t count) {
    while (count > 0 && *bytes == 0xff) {
        bytes++;
        count--;
    }
    return count == 0;
}

static enum undofs_state dense_read_page(void *part, uint32_t page, uint8_t *bytes) {
    const struct mtd_part *m = part;
    uint8_t mark[DENSE_MARK], wanted[DENSE_MARK];
    if (!is_nor_read(m, mark, DENSE_MARK, dense_at(m, page, 1)) || !is_nor_read(m, bytes, NOR_PAGE, dense_at(m, page, 0))) return UNDOFS_NOT_READ;
    make_mark(wanted, bytes);
    if (memcmp(mark, wanted, DENSE_MARK) == 0) return UNDOFS_DATA;
    return is_blank(mark, DENSE_MARK) && is_blank(bytes, NOR_PAGE) ? UNDOFS_ERASED : UNDOFS_UNREADABLE;
}

static enum undofs_answer dense_program_page(void *part, uint32_t page, const uint8_t *bytes) {
    const struct mtd_part *m = part;
    static const uint8_t zeroes[DENSE_MARK];
    static uint8_t found[NOR_PAGE];
    uint8_t mark[DENSE_MARK];
    make_mark(mark, bytes);
    int is_marked = is_nor_written(m, bytes, NOR_PAGE, dense_at(m, page, 0)) && is_nor_written(m, mark, DENSE_MARK, dense_at(m, page, 1));
    if (is_marked) return UNDOFS_DONE;
    if (result_of(0) == NAND_GONE) return UNDOFS_CUT;
    (void)is_nor_written(m, zeroes, DENSE_MARK, dense_at(m, page, 1));
    return dense_read_page(part, page, found) == UNDOFS_UNREADABLE ? UNDOFS_FAILED : UNDOFS_CUT;
}

/* 0 over the beginning of each mark of a block: none of its pages is data then, whatever a torn erase leaves. */
static int are_marks_spoilt(const struct mtd_part *m, uint64_t marks, uint64_t end) {
    uint8_t bytes[NOR_PAGE];
    for (int i = 0; i < NOR_PAGE; i++) bytes[i] = i % DENSE_MARK < DENSE_START ? 0 : 0xff;
    while (marks < end && is_nor_written(m, bytes, NOR_PAGE, marks)) marks += NOR_PAGE;
    return marks == end;
}

/* The sectors go in order, those with marks last. */
static enum undofs_answer dense_erase_block(void *part, uint32_t block) {
    const struct mtd_part *m = part;
    uint64_t at = (uint64_t)block * m->sectors * m->erase_size, end = at + (uint64_t)m->sectors * m->erase_size;
    int is_done = are_marks_spoilt(m, at + (uint64_t)m->sizes.pages * NOR_PAGE, end);
    for (; is_done && at < end; at += m->erase_size) is_done = is_erased_at(m, at);
    if (is_done) return UNDOFS_DONE;
    return result_of(0) == NAND_GONE ? UNDOFS_CUT : UNDOFS_FAILED;
}

/* The sizes of blocks of so many sectors. 0, or ERANGE. */
static int find_dense_sizes(struct mtd_part *m, const struct mtd_info_user *info, uint32_t sectors) {
    uint64_t block = (uint64_t)info->erasesize * sectors;
    if (block < DENSE_LEAST || block > 262144 || block % DENSE_UNIT != 0) return ERANGE;
    uint32_t all = (uint32_t)block / NOR_PAGE, pages = all - (all + DENSE_MARKS) / (DENSE_MARKS + 1);
    uint32_t blocks = info->size / (uint32_t)block, most = MOST_BYTES / (pages * NOR_PAGE);
    if (blocks > most) blocks = most;
    m->erase_size = info->erasesize;
    m->sectors = sectors;
    m->sizes = (struct undofs_sizes){NOR_PAGE, pages, blocks};
    return blocks < 16 ? ERANGE : 0;
}

/* ---- open ---- */

static int find_sizes(struct mtd_part *m, const struct mtd_info_user *info, int is_nor, uint32_t sectors) {
    int is_nand = info->type == MTD_NANDFLASH || info->type == MTD_MLCNANDFLASH;
    m->is_nor = info->type == MTD_NORFLASH || (is_nor && info->type == MTD_RAM);
    if (!m->is_nor && (is_nor || sectors > 0 || !is_nand)) return ENODEV;
    m->sectors = 0;
    if (sectors > 0) return find_dense_sizes(m, info, sectors);
    if (!m->is_nor && info->oobsize < LEAST_SPARE) return ERANGE; /* six bytes have to be free beside the correction's */
    uint32_t page = m->is_nor ? NOR_PAGE : info->writesize, block = info->erasesize;
    if (page < 256 || page > 4096 || (page & (page - 1)) != 0 || block < 4096 || block > 262144 || block % page != 0) return ERANGE;
    uint32_t blocks = info->size / block / (m->is_nor ? 2 : 1);
    if (blocks > MOST_BYTES / block) blocks = MOST_BYTES / block;
    if (blocks > MOST_BLOCKS) blocks = MOST_BLOCKS;
    m->may_spoil = info->type == MTD_NANDFLASH;
    m->erase_size = block;
    m->sizes = (struct undofs_sizes){page, block / page, blocks};
    return blocks < 16 ? ERANGE : 0;
}

int mtd_part_open(struct mtd_part *m, const char *name, int is_nor, uint32_t sectors) {
    struct mtd_info_user info;
    m->descriptor = open(name, O_RDWR | O_CLOEXEC);
    if (m->descriptor < 0) return errno;
    int why = flock(m->descriptor, LOCK_EX | LOCK_NB) != 0 ? EBUSY : 0;
    if (why == 0) why = ioctl(m->descriptor, MEMGETINFO, &info) != 0 ? errno : find_sizes(m, &info, is_nor, sectors);
    m->chip = (struct nand_chip){m->sizes, m, nand_read, nand_program, nand_erase, nand_is_bad};
    if (why != 0) close(m->descriptor);
    return why;
}

struct undofs_driver mtd_part_driver(struct mtd_part *m) {
    if (!m->is_nor) return raw_nand_driver(&m->chip);
    if (m->sectors > 0) return (struct undofs_driver){m->sizes, m, dense_read_page, dense_program_page, dense_erase_block};
    return (struct undofs_driver){m->sizes, m, nor_read_page, nor_program_page, nor_erase_block};
}
