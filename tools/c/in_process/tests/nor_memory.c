#include "nor_memory.h"
#include <stdlib.h>
#include <string.h>

void nor_memory_make(struct nor_memory *part, uint32_t pages) {
    *part = (struct nor_memory){.pages = pages, .bytes = malloc((size_t)pages * NOR_PAGE)};
    if (part->bytes == NULL) abort();
    memset(part->bytes, 0xff, (size_t)pages * NOR_PAGE);
}

void nor_memory_free(struct nor_memory *part) { free(part->bytes); }

void nor_memory_power_on(struct nor_memory *part) {
    part->has_no_power = 0;
    part->cut_at = 0;
    part->fails_at = 0;
}

static uint8_t *bytes_of(const struct nor_memory *part, uint32_t page) { return part->bytes + (size_t)page * NOR_PAGE; }

static enum undofs_answer read_bytes(void *with, uint32_t page, uint8_t *bytes, size_t count) {
    struct nor_memory *part = with;
    part->is_misused |= page >= part->pages || count > NOR_PAGE;
    memcpy(bytes, bytes_of(part, page), count);
    return UNDOFS_DONE;
}

/* How far the operation that begins now comes: NOR_ENDS where nothing befalls it. */
static enum nor_end befalls(struct nor_memory *part, enum undofs_answer *told) {
    part->is_misused |= part->has_no_power;
    part->operations++;
    *told = part->operations == part->cut_at ? UNDOFS_CUT : part->operations == part->fails_at ? UNDOFS_FAILED : UNDOFS_DONE;
    if (*told == UNDOFS_DONE) return NOR_ENDS;
    if (*told == UNDOFS_FAILED) return NOR_WITHIN;
    part->has_no_power = 1;
    return part->end;
}

/* Within a program a blank byte that is to lose its upper four bits loses three of them, and others stay. */
static enum undofs_answer program(void *with, uint32_t page, const uint8_t *bytes, size_t count) {
    struct nor_memory *part = with;
    enum undofs_answer told;
    enum nor_end end = befalls(part, &told);
    part->is_misused |= page >= part->pages || count > NOR_PAGE;
    uint8_t *at = bytes_of(part, page);
    for (size_t i = 0; i < count && end != NOR_BEFORE; i++) {
        if (end != NOR_WITHIN) at[i] &= bytes[i];
        else if (at[i] == 0xff && bytes[i] < 16) at[i] = (uint8_t)(bytes[i] + 16);
    }
    return told;
}

/* Within an erase the first page of the sector alone is blank. */
static enum undofs_answer erase(void *with, uint32_t sector) {
    struct nor_memory *part = with;
    enum undofs_answer told;
    enum nor_end end = befalls(part, &told);
    part->is_misused |= (sector + 1) * NOR_PAGES > part->pages;
    size_t pages = end == NOR_BEFORE ? 0 : end == NOR_WITHIN ? 1 : NOR_PAGES;
    memset(bytes_of(part, sector * NOR_PAGES), 0xff, pages * NOR_PAGE);
    return told;
}

struct undofs_nor nor_memory_driver(struct nor_memory *part) { return (struct undofs_nor){part->pages, part, read_bytes, program, erase}; }
