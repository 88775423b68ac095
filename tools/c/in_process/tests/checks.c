/* The checklist over drivers in memory: right ones pass, each wrong one is told by the case meant, and one that answers by chance ends
 * no run badly. The last line counts. */
#include "../../nand_in_memory.h"
#include "../driver_checks.h"
#include <stdio.h>
#include <stdlib.h>
#include <string.h>

static unsigned right, wrong;

static void tell(const char *what, int is_right) {
    printf("%s %s\n", is_right ? "ok   " : "WRONG", what);
    right += is_right != 0;
    wrong += is_right == 0;
}

enum { PAGE = 512, PAGES = 8, BLOCKS = 16, FIRST = 3, COUNT = 12 };

/* The cases in their order, by the rules that a chip breaks. */
enum flaw { NONE = -1, SIZES, FRESH, READ_BACK, IN_ORDER, ONE_BLOCK, FAILED_PROGRAM, FAILED_ERASE, CUT_PROGRAM, CUT_ERASE, RESTART, ENDS, NEIGHBOURS };

/* A chip whose pages show what they hold, but for its flaw. */
struct chip {
    struct undofs_sizes sizes;
    uint32_t first, count;
    uint8_t states[PAGES * BLOCKS], bytes[PAGES * BLOCKS][PAGE];
    enum flaw flaw;
    enum undofs_operation planned; /* 0: nothing */
    enum undofs_answer fault;
    uint8_t moment;
    uint32_t last; /* the page that was programmed last */
    int spreads; /* a program that is troubled spoils the pages before it in its block */
    int is_misused;
};

static int is_given(const struct chip *c, uint32_t block) { return block >= c->first && block < c->first + c->count; }

static enum undofs_state read_page(void *part, uint32_t page, uint8_t *bytes) {
    struct chip *c = part;
    c->is_misused |= !is_given(c, page / PAGES);
    memcpy(bytes, c->bytes[page], PAGE);
    return (enum undofs_state)c->states[page];
}

/* Whether what is planned comes in this operation. */
static int befalls(struct chip *c, enum undofs_operation operation) {
    int comes = c->planned == operation;
    c->planned = 0;
    return comes;
}

/* Moment 0 of a cut is before the operation, 1 within it and 2 after it. A failure is one within it. */
static int is_within(const struct chip *c) { return c->fault == UNDOFS_FAILED || c->moment == 1; }
static int is_before(const struct chip *c) { return c->fault == UNDOFS_CUT && c->moment == 0; }

static void lose(struct chip *c, uint32_t block) { memset(c->states + block * PAGES, UNDOFS_ERASED, PAGES); }

static int drops_program(const struct chip *c, uint32_t page) {
    if (c->flaw == READ_BACK) return page % PAGES == 0;
    if (c->flaw == IN_ORDER) return page % PAGES == PAGES - 1;
    return c->flaw == NEIGHBOURS && page % PAGES > 0 && page != c->last + 1;
}

static void store(struct chip *c, uint32_t page, const uint8_t *bytes, uint8_t state) {
    memcpy(c->bytes[page], bytes, PAGE);
    c->states[page] = state;
}

static enum undofs_answer end_troubled(struct chip *c, uint32_t page, const uint8_t *bytes) {
    if (c->spreads) memset(c->states + page / PAGES * PAGES, UNDOFS_UNREADABLE, page % PAGES);
    int is_broken = c->flaw == (c->fault == UNDOFS_FAILED ? FAILED_PROGRAM : CUT_PROGRAM);
    if (is_broken && c->fault == UNDOFS_FAILED) store(c, page, bytes, UNDOFS_DATA);
    else if (is_broken) lose(c, c->first);
    else if (is_within(c)) c->states[page] = UNDOFS_UNREADABLE;
    else if (!is_before(c)) store(c, page, bytes, UNDOFS_DATA);
    return c->fault;
}

static enum undofs_answer program_page(void *part, uint32_t page, const uint8_t *bytes) {
    struct chip *c = part;
    c->is_misused |= !is_given(c, page / PAGES) || c->states[page] != UNDOFS_ERASED;
    int is_dropped = drops_program(c, page);
    c->last = page;
    if (is_dropped) return UNDOFS_DONE;
    if (befalls(c, UNDOFS_PROGRAMS)) return end_troubled(c, page, bytes);
    store(c, page, bytes, UNDOFS_DATA);
    return UNDOFS_DONE;
}

static enum undofs_answer end_troubled_erase(struct chip *c, uint32_t block) {
    if (c->flaw == (c->fault == UNDOFS_FAILED ? FAILED_ERASE : CUT_ERASE)) lose(c, c->first);
    else if (is_within(c)) memset(c->states + block * PAGES, UNDOFS_UNREADABLE, PAGES / 2);
    else if (!is_before(c)) lose(c, block);
    return c->fault;
}

static enum undofs_answer erase_block(void *part, uint32_t block) {
    struct chip *c = part;
    int is_last = block == c->first + c->count - 1;
    c->is_misused |= !is_given(c, block);
    if (c->flaw == FRESH && c->last == block * PAGES + PAGES - 1) return UNDOFS_DONE;
    if (c->flaw == ONE_BLOCK || (c->flaw == ENDS && is_last)) lose(c, c->first);
    if (befalls(c, UNDOFS_ERASES)) return end_troubled_erase(c, block);
    lose(c, block);
    return UNDOFS_DONE;
}

static uint8_t moments(void *part, enum undofs_operation operation, enum undofs_answer fault) {
    (void)part, (void)operation;
    return fault == UNDOFS_FAILED ? 1 : 3;
}

static void plan(void *part, enum undofs_operation operation, enum undofs_answer fault, uint8_t moment) {
    struct chip *c = part;
    c->planned = operation;
    c->fault = fault;
    c->moment = moment;
}

static struct undofs_sizes restart(void *part) {
    struct chip *c = part;
    struct undofs_sizes told = c->sizes;
    c->planned = 0;
    if (c->flaw == RESTART) lose(c, c->first);
    if (c->flaw == SIZES) told.blocks--;
    return told;
}

static struct undofs_bench bench_of(struct chip *c, enum flaw flaw) {
    struct undofs_sizes sizes = {PAGE, PAGES, BLOCKS};
    memset(c, 0, sizeof *c);
    c->sizes = sizes;
    c->first = FIRST;
    c->count = COUNT;
    c->flaw = flaw;
    struct undofs_driver driver = {sizes, c, read_page, program_page, erase_block};
    return (struct undofs_bench){driver, FIRST, COUNT, moments, plan, restart};
}

static int none_failed(const uint8_t failed[UNDOFS_CASES]) {
    static const uint8_t none[UNDOFS_CASES];
    return memcmp(failed, none, UNDOFS_CASES) == 0;
}

static struct chip chip;

static void right_one(void) {
    uint8_t failed[UNDOFS_CASES];
    struct undofs_bench bench = bench_of(&chip, NONE);
    memset(failed, 77, sizeof failed);
    tell("a right driver passes", undofs_check(&bench, failed) == 0 && none_failed(failed) && !chip.is_misused);
    tell("and once more, as it was left", undofs_check(&bench, failed) == 0 && none_failed(failed) && !chip.is_misused);
}

/* Some flaws are met by other cases too: where one program is lost, each case that fills that page fails. */
static void wrong_ones(void) {
    for (enum flaw flaw = SIZES; flaw <= NEIGHBOURS; flaw++) {
        char what[64];
        uint8_t failed[UNDOFS_CASES];
        struct undofs_bench bench = bench_of(&chip, flaw);
        snprintf(what, sizeof what, "a driver that breaks %s is told by it", undofs_cases[flaw]);
        tell(what, undofs_check(&bench, failed) == 0 && failed[flaw] == 1 && !chip.is_misused);
    }
}

/* Pages that were written before are spoilt, as by a torn mark beside theirs. */
static void spreading_one(void) {
    uint8_t failed[UNDOFS_CASES];
    struct undofs_bench bench = bench_of(&chip, NONE);
    chip.spreads = 1;
    tell("a driver whose troubled programs spoil pages before them is told", undofs_check(&bench, failed) == 0 && failed[FAILED_PROGRAM] == 1 && failed[CUT_PROGRAM] == 1 && !chip.is_misused);
}

static uint8_t no_moments(void *part, enum undofs_operation operation, enum undofs_answer fault) { return (void)part, (void)operation, (void)fault, 0; }

static void refused_ones(void) {
    static const uint8_t planned[UNDOFS_CASES] = {0, 0, 0, 0, 0, 1, 1, 1, 1, 0, 0, 0};
    uint8_t failed[UNDOFS_CASES] = {77};
    struct undofs_bench bench = bench_of(&chip, NONE);
    bench.moments = no_moments;
    tell("a bench with no moments fails the four planned cases alone", undofs_check(&bench, failed) == 0 && memcmp(failed, planned, sizeof planned) == 0);
    bench = bench_of(&chip, NONE);
    failed[0] = 77;
    bench.blocks = 2;
    tell("two blocks are too few", undofs_check(&bench, failed) == 7 && failed[0] == 77);
    bench.blocks = BLOCKS;
    tell("blocks past the end are none", undofs_check(&bench, failed) == 7 && failed[0] == 77);
    bench.driver.sizes.page = 300;
    tell("sizes that are not lawful are refused", undofs_check(&bench, failed) == 28 && failed[0] == 77);
}

/* ---- a driver that answers by chance, which breaks what is assumed of a read ---- */

static uint32_t seed;

static uint32_t below(uint32_t most) {
    seed = seed * 1664525u + 1013904223u;
    return (seed >> 8) % most;
}

static enum undofs_state read_any(void *part, uint32_t page, uint8_t *bytes) {
    (void)part, (void)page;
    for (int i = 0; i < PAGE; i++) bytes[i] = (uint8_t)below(256);
    return (enum undofs_state)((int)below(6) - 1);
}

static enum undofs_answer program_any(void *part, uint32_t page, const uint8_t *bytes) { return (void)part, (void)page, (void)bytes, (enum undofs_answer)below(3); }

static enum undofs_answer erase_any(void *part, uint32_t block) { return (void)part, (void)block, below(9) == 0 ? UNDOFS_FAILED : UNDOFS_DONE; }

static uint8_t moments_any(void *part, enum undofs_operation operation, enum undofs_answer fault) { return (void)part, (void)operation, (void)fault, (uint8_t)below(256); }

static void any_ones(void) {
    unsigned ended = 0, passed = 0;
    for (seed = 1; seed < 2000000; seed += 10007) {
        uint8_t failed[UNDOFS_CASES];
        struct undofs_bench bench = bench_of(&chip, NONE);
        struct undofs_driver driver = {bench.driver.sizes, &chip, read_any, program_any, erase_any};
        uint32_t next = seed;
        bench.driver = driver;
        bench.moments = moments_any;
        ended += undofs_check(&bench, failed) == 0;
        passed += none_failed(failed) != 0;
        seed = next;
    }
    tell("200 drivers that answer by chance end no run badly, and none passes", ended == 200 && passed == 0);
}

/* ---- the driver for raw NAND, over a chip in memory that is misused by nobody ---- */

static struct nand_in_memory nand;
static struct nand_chip functions;

static uint8_t nand_moments(void *part, enum undofs_operation operation, enum undofs_answer fault) { return (void)part, (void)operation, (void)fault, 1; }

static void nand_plan(void *part, enum undofs_operation operation, enum undofs_answer fault, uint8_t moment) {
    (void)part, (void)operation, (void)moment;
    if (fault == UNDOFS_FAILED) nand.fail_every = nand.operations + 1;
    else nand.cut_at = nand.operations + 1;
}

static struct undofs_sizes nand_restart(void *part) {
    (void)part;
    nand.has_no_power = 0;
    nand.cut_at = 0;
    nand.fail_every = 0;
    return functions.sizes;
}

/* `flaw` is the case that tells what is wrong with raw_nand.c, where test.sh has it wrong on purpose; or 0. */
static void raw_nand(int flaw) {
    uint8_t failed[UNDOFS_CASES];
    if (nand_in_memory_make(&nand, (struct undofs_sizes){PAGE, PAGES, BLOCKS}) != 0) abort();
    functions = nand_in_memory_chip(&nand);
    struct undofs_bench bench = {raw_nand_driver(&functions), 0, BLOCKS, nand_moments, nand_plan, nand_restart};
    int is_run = undofs_check(&bench, failed) == 0;
    for (int i = 0; i < UNDOFS_CASES; i++) {
        if (failed[i]) printf("      %s failed\n", undofs_cases[i]);
    }
    tell("the driver for raw NAND is told as it is", is_run && (flaw == 0 ? none_failed(failed) : failed[flaw] == 1));
    nand_in_memory_drop(&nand);
}

int main(int count, char **words) {
    right_one();
    wrong_ones();
    spreading_one();
    refused_ones();
    any_ones();
    raw_nand(count > 1 ? atoi(words[1]) : 0);
    printf("%u right, %u wrong\n", right, wrong);
    return wrong != 0;
}
