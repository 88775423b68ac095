#include "shown_sectors.h"
#include "shown_sums.h"
#include <stdlib.h>
#include <string.h>

/* Else the sum of its bytes. */
enum { NOT_SEEN, NEVER_SHOWN, SEEN_BYTES };

int shown_sectors_begin(struct shown_sectors *s, const struct undofs_nor *driver) {
    s->driver = *driver;
    s->shown = calloc(driver->pages, sizeof *s->shown);
    return s->shown != NULL;
}

void shown_sectors_end(struct shown_sectors *s) { free(s->shown); }

static uint32_t seen_of(const uint8_t *bytes) {
    uint32_t sum = sum_of(bytes, NOR_PAGE);
    return sum < SEEN_BYTES ? sum + SEEN_BYTES : sum;
}

/* What the driver shows of a page now, with its bytes in `s->page`; NOT_SEEN where it cannot tell. */
static uint32_t look(struct shown_sectors *s, uint32_t page) {
    return s->driver.read(s->driver.part, page, s->page, NOR_PAGE) == UNDOFS_DONE ? seen_of(s->page) : (uint32_t)NOT_SEEN;
}

/* Whether a page may show this now. */
static int is_sure(uint32_t shown, uint32_t now) { return now != NOT_SEEN && (shown == NOT_SEEN || shown == now); }

/* Whether `s->page` has what the page holds. */
static int is_read(struct shown_sectors *s, uint32_t page) {
    uint32_t *shown = &s->shown[page];
    if (*shown == NEVER_SHOWN) return 0;
    uint32_t now = look(s, page);
    if (!is_sure(*shown, now)) now = look(s, page); /* a second try */
    if (!is_sure(*shown, now)) return 0;
    *shown = now;
    return 1;
}

uint32_t shown_sectors_read(struct shown_sectors *s, uint32_t page, uint8_t *bytes, size_t count) {
    if (s->is_cut) return C_FLASH_CUT;
    if (!is_read(s, page)) return C_FLASH_FAILED;
    memcpy(bytes, s->page, count);
    return C_FLASH_DONE;
}

/* ---- operations ---- */

/* What the pages have before an operation on them. */
static void begin_operation(struct shown_sectors *s, uint32_t first, uint32_t pages, size_t count, int is_dense) {
    struct nor_operation *o = &s->last;
    o->is_dense = is_dense;
    o->first = first;
    o->pages = pages;
    o->count = count;
    for (uint32_t i = 0; i < pages; i++) {
        o->is_sure[i] = is_read(s, first + i) != 0;
        memcpy(o->before[i], s->page, NOR_PAGE);
    }
}

/* Whether a byte that was left so by an operation that was not done may be so. */
static int may_be_left(const struct nor_operation *o, size_t i, uint8_t before, uint8_t now) {
    if (o->count == 0) return before == 0 || now != 0;
    if (o->is_dense && (i >= o->count || o->wanted[i] == 0xff)) return now == before;
    return i >= o->count || before != 0xff || o->wanted[i] == 0 || now != 0;
}

/* Whether a single blank byte that was to lose its upper four bits leaves no trace of a failed program. */
static int is_without_trace(const struct nor_operation *o, const uint8_t *now) {
    return o->count == 1 && o->before[0][0] == 0xff && o->wanted[0] < 16 && (now[0] == 0xff || now[0] == o->wanted[0]);
}

/* ---- in the layout `dense` ---- */

static const uint8_t mark_start[4] = {'U', 'N', 'O', 'R'};

static int begins_mark(const uint8_t *page, size_t place) { return memcmp(page + 8 * place, mark_start, sizeof mark_start) == 0; }

/* How many of the eight bytes at a place are given as 0, from the first on. */
static size_t zeros_given(const struct nor_operation *o, size_t place) {
    size_t zeros = 0;
    while (zeros < 8 && 8 * place + zeros < o->count && o->wanted[8 * place + zeros] == 0) zeros++;
    return zeros;
}

static int is_blank_at(const uint8_t *page, size_t place) {
    for (size_t i = 0; i < 8; i++) {
        if (page[8 * place + i] != 0xff) return 0;
    }
    return 1;
}

/* Whether a place of a page may be left so: where no mark began none does, and a failed program of eight 0 leaves a trace. */
static int place_may_be_left(const struct nor_operation *o, const uint8_t *before, const uint8_t *now, size_t place, int is_failed) {
    size_t zeros = o->count == 0 ? 4 : zeros_given(o, place);
    if (zeros >= 4 && !begins_mark(before, place) && begins_mark(now, place)) return 0;
    return !(is_failed && zeros == 8 && (is_blank_at(now, place) || begins_mark(now, place)));
}

static int places_may_be_left(const struct nor_operation *o, const uint8_t *before, const uint8_t *now, int is_failed) {
    int is_lawful = 1;
    for (size_t place = 0; is_lawful && place < NOR_PAGE / 8; place++) is_lawful = place_may_be_left(o, before, now, place, is_failed);
    return is_lawful;
}

/* A page of an operation that was not done, by one look. */
static uint32_t settled(struct shown_sectors *s, uint32_t at, int is_failed) {
    const struct nor_operation *o = &s->last;
    uint32_t now = look(s, o->first + at);
    int is_lawful = o->is_sure[at] && now != NOT_SEEN && !(is_failed && is_without_trace(o, s->page));
    for (size_t i = 0; is_lawful && i < NOR_PAGE; i++) is_lawful = may_be_left(o, i, o->before[at][i], s->page[i]);
    if (is_lawful && o->is_dense) is_lawful = places_may_be_left(o, o->before[at], s->page, is_failed);
    return is_lawful ? now : (uint32_t)NEVER_SHOWN;
}

static void settle(struct shown_sectors *s, int is_failed) {
    for (uint32_t i = 0; i < s->last.pages; i++) s->shown[s->last.first + i] = settled(s, i, is_failed);
}

/* A page as it is where the operation is done. */
static uint32_t wanted_of(const struct nor_operation *o) {
    uint8_t bytes[NOR_PAGE];
    memset(bytes, 0xff, NOR_PAGE);
    if (o->count > 0) memcpy(bytes, o->before[0], NOR_PAGE);
    for (size_t i = 0; i < o->count; i++) bytes[i] &= o->wanted[i];
    return seen_of(bytes);
}

static uint32_t end_operation(struct shown_sectors *s, enum undofs_answer told) {
    const struct nor_operation *o = &s->last;
    s->orders++;
    if (told == UNDOFS_DONE) {
        uint32_t wanted = wanted_of(o);
        for (uint32_t i = 0; i < o->pages; i++) s->shown[o->first + i] = wanted;
        return C_FLASH_DONE;
    }
    if (told == UNDOFS_FAILED) {
        settle(s, 1);
        return C_FLASH_FAILED;
    }
    s->is_cut = 1;
    return C_FLASH_CUT;
}

/* A page of which is not known what it has is not programmed. */
static uint32_t program(struct shown_sectors *s, uint32_t page, const uint8_t *bytes, size_t count, int is_dense) {
    if (s->is_cut) return C_FLASH_CUT;
    begin_operation(s, page, 1, count, is_dense);
    memcpy(s->last.wanted, bytes, count);
    if (!s->last.is_sure[0]) {
        s->shown[page] = NEVER_SHOWN;
        return C_FLASH_FAILED;
    }
    return count == 0 ? (uint32_t)C_FLASH_DONE : end_operation(s, s->driver.program(s->driver.part, page, bytes, count));
}

static uint32_t erase(struct shown_sectors *s, uint32_t sector, int is_dense) {
    if (s->is_cut) return C_FLASH_CUT;
    s->erases++;
    begin_operation(s, sector * NOR_PAGES, NOR_PAGES, 0, is_dense);
    return end_operation(s, s->driver.erase(s->driver.part, sector));
}

uint32_t shown_sectors_program(struct shown_sectors *s, uint32_t page, const uint8_t *bytes, size_t count) { return program(s, page, bytes, count, 0); }

uint32_t shown_sectors_erase(struct shown_sectors *s, uint32_t sector) { return erase(s, sector, 0); }

uint32_t shown_sectors_program_dense(struct shown_sectors *s, uint32_t page, const uint8_t *bytes, size_t count) {
    return program(s, page, bytes, count, 1);
}

uint32_t shown_sectors_erase_dense(struct shown_sectors *s, uint32_t sector) { return erase(s, sector, 1); }

void shown_sectors_power_on(struct shown_sectors *s) {
    if (s->is_cut) settle(s, 0);
    s->is_cut = 0;
}
