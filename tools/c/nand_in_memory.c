#include "nand_in_memory.h"
#include <stdio.h>
#include <stdlib.h>
#include <string.h>

static void check(int is_right, const char *what, uint32_t number) {
    if (is_right) return;
    fprintf(stderr, "NAND misused: %s %u\n", what, number);
    abort();
}

static unsigned random_bits(struct nand_in_memory *c) {
    c->random = c->random * 1103515245u + 12345u;
    return c->random >> 16 & 0xff;
}

/* What befalls an operation that begins now. */
static enum nand_result planned(struct nand_in_memory *c) {
    if (c->has_no_power) return NAND_GONE;
    c->operations++;
    if (c->cut_at != 0 && c->operations == c->cut_at) {
        c->has_no_power = 1;
        return NAND_GONE;
    }
    return c->fail_every != 0 && c->operations % c->fail_every == 0 ? NAND_BROKEN : NAND_DONE;
}

static enum nand_result read_page(void *chip, uint32_t page, uint8_t *bytes, uint8_t *spare) {
    struct nand_in_memory *c = chip;
    memcpy(bytes, c->bytes + (size_t)page * c->sizes.page, c->sizes.page);
    memcpy(spare, c->spares + (size_t)page * NAND_SPARE, NAND_SPARE);
    return NAND_DONE;
}

/* Takes bits away where `wanted` has none; some of them, where the operation does not end well. */
static void clear_bits(struct nand_in_memory *c, uint8_t *at, const uint8_t *wanted, size_t count, enum nand_result result) {
    for (size_t i = 0; i < count; i++) at[i] &= (uint8_t)(wanted[i] | (result == NAND_DONE ? 0 : random_bits(c)));
}

static enum nand_result program_page(void *chip, uint32_t page, const uint8_t *bytes, const uint8_t *spare) {
    struct nand_in_memory *c = chip;
    uint32_t block = page / c->sizes.pages;
    if (c->has_no_power) return NAND_GONE;
    check(block < c->sizes.blocks && block != c->bad_block, "program of page", page);
    check(page % c->sizes.pages >= c->next[block], "second program, or out of order, of page", page);
    c->next[block] = page % c->sizes.pages + 1;
    enum nand_result result = planned(c);
    clear_bits(c, c->bytes + (size_t)page * c->sizes.page, bytes, c->sizes.page, result);
    clear_bits(c, c->spares + (size_t)page * NAND_SPARE, spare, NAND_SPARE, result);
    return result;
}

static void set_bits(struct nand_in_memory *c, uint8_t *at, size_t count, enum nand_result result) {
    for (size_t i = 0; i < count; i++) at[i] |= (uint8_t)(result == NAND_DONE ? 0xff : random_bits(c));
}

static enum nand_result erase_block(void *chip, uint32_t block) {
    struct nand_in_memory *c = chip;
    size_t first = (size_t)block * c->sizes.pages;
    if (c->has_no_power) return NAND_GONE;
    check(block < c->sizes.blocks && block != c->bad_block, "erase of block", block);
    enum nand_result result = planned(c);
    set_bits(c, c->bytes + first * c->sizes.page, (size_t)c->sizes.pages * c->sizes.page, result);
    set_bits(c, c->spares + first * NAND_SPARE, (size_t)c->sizes.pages * NAND_SPARE, result);
    c->next[block] = result == NAND_DONE ? 0 : c->sizes.pages;
    return result;
}

static int is_bad(void *chip, uint32_t block) { return ((struct nand_in_memory *)chip)->bad_block == block; }

int nand_in_memory_make(struct nand_in_memory *c, struct undofs_sizes sizes) {
    size_t pages = (size_t)sizes.pages * sizes.blocks;
    *c = (struct nand_in_memory){.sizes = sizes, .bad_block = ~0u, .random = 1};
    c->bytes = malloc(pages * sizes.page);
    c->spares = malloc(pages * NAND_SPARE);
    c->next = calloc(sizes.blocks, sizeof *c->next);
    if (c->bytes == NULL || c->spares == NULL || c->next == NULL) {
        nand_in_memory_drop(c);
        return -1;
    }
    memset(c->bytes, 0xff, pages * sizes.page);
    memset(c->spares, 0xff, pages * NAND_SPARE);
    return 0;
}

void nand_in_memory_drop(struct nand_in_memory *c) {
    free(c->bytes);
    free(c->spares);
    free(c->next);
}

struct nand_chip nand_in_memory_chip(struct nand_in_memory *c) { return (struct nand_chip){c->sizes, c, read_page, program_page, erase_block, is_bad}; }
