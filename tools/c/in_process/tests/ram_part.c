#include "ram_part.h"
#include <stdlib.h>
#include <string.h>

void ram_part_make(struct ram_part *part, struct undofs_sizes sizes) {
    size_t count = (size_t)sizes.pages * sizes.blocks;
    *part = (struct ram_part){.sizes = sizes, .states = calloc(count, 1), .bytes = calloc(count, sizes.page)};
    if (part->states == NULL || part->bytes == NULL) abort();
}

void ram_part_free(struct ram_part *part) {
    free(part->states);
    free(part->bytes);
}

static void look_in(const struct ram_part *part) {
    if (part->before != NULL) part->before(part->with);
}

static uint8_t *bytes_of(const struct ram_part *part, uint32_t page) { return part->bytes + (size_t)page * part->sizes.page; }

static enum undofs_state read_page(void *with, uint32_t page, uint8_t *bytes) {
    struct ram_part *part = with;
    look_in(part);
    if (part->is_unread) return UNDOFS_NOT_READ;
    if (part->states[page] == UNDOFS_DATA) memcpy(bytes, bytes_of(part, page), part->sizes.page);
    return (enum undofs_state)part->states[page];
}

static enum undofs_answer program_page(void *with, uint32_t page, const uint8_t *bytes) {
    struct ram_part *part = with;
    look_in(part);
    if (part->states[page] != UNDOFS_ERASED) part->is_misused = 1;
    part->states[page] = UNDOFS_UNREADABLE;
    if (++part->operations == part->cut_at) return UNDOFS_CUT;
    memcpy(bytes_of(part, page), bytes, part->sizes.page);
    part->states[page] = UNDOFS_DATA;
    return UNDOFS_DONE;
}

static enum undofs_answer erase_block(void *with, uint32_t block) {
    struct ram_part *part = with;
    look_in(part);
    if (++part->operations == part->cut_at) return UNDOFS_CUT;
    memset(part->states + (size_t)block * part->sizes.pages, UNDOFS_ERASED, part->sizes.pages);
    return UNDOFS_DONE;
}

struct undofs_driver ram_part_driver(struct ram_part *part) {
    return (struct undofs_driver){part->sizes, part, read_page, program_page, erase_block};
}
