/* Sessions over a part whose reads lie now and then, of pages that were shown before, beside the same over one that does not: each
 * answer has to be that of the other, or a refusal. liars FIRST LAST PAGE PAGES BLOCKS. Each session is a process of its own.
 * It tells how many ended badly, and the status is 0 where none did. */
#define _GNU_SOURCE
#include "calls.h"
#include "ram_part.h"
#include <stdio.h>
#include <stdlib.h>
#include <string.h>
#include <sys/resource.h>
#include <sys/wait.h>
#include <unistd.h>

enum { CALLS = 120, SECONDS = 120, EIO_TOLD = 23, EROFS_TOLD = 16, FULL_TOLD = 15 };
enum { OTHER_ANSWER = 3, NO_START = 4, NO_LIE = 5 };

struct liar {
    struct ram_part part;
    struct undofs_driver honest;
    uint8_t *seen, *before; /* which pages were shown, and what they had before they were programmed last */
    uint32_t seed, every, lies;
    int is_lying;
};

static uint8_t *bytes_of(uint8_t *bytes, const struct liar *liar, uint32_t page) { return bytes + (size_t)page * liar->part.sizes.page; }

static enum undofs_state lie(struct liar *l, uint32_t page, enum undofs_state truth, uint8_t *bytes) {
    uint32_t size = l->part.sizes.page, other = below(&l->seed, l->part.sizes.pages * l->part.sizes.blocks);
    l->lies++;
    switch (below(&l->seed, 9)) {
    case 0: return bytes[below(&l->seed, size)] ^= (uint8_t)(1u << below(&l->seed, 8)), truth;
    case 1: return bytes[size - 1 - below(&l->seed, 8)] ^= (uint8_t)(1u << below(&l->seed, 8)), truth;
    case 2: return UNDOFS_ERASED;
    case 3: return UNDOFS_UNREADABLE;
    case 4: return UNDOFS_NOT_READ;
    case 5: return memcpy(bytes, bytes_of(l->before, l, page), size), UNDOFS_DATA;
    case 6: return memcpy(bytes, bytes_of(l->part.bytes, l, other), size), UNDOFS_DATA;
    case 7: return memset(bytes, below(&l->seed, 2) == 0 ? 0 : 255, size), UNDOFS_DATA;
    default:
        for (uint32_t i = 0; i < size; i++) bytes[i] = (uint8_t)below(&l->seed, 256);
        return UNDOFS_DATA;
    }
}

static enum undofs_state read_page(void *with, uint32_t page, uint8_t *bytes) {
    struct liar *l = with;
    enum undofs_state truth = l->honest.read_page(&l->part, page, bytes);
    if (l->is_lying && l->seen[page] && below(&l->seed, l->every) == 0) return lie(l, page, truth, bytes);
    l->seen[page] = 1;
    return truth;
}

static enum undofs_answer program_page(void *with, uint32_t page, const uint8_t *bytes) {
    struct liar *l = with;
    memcpy(bytes_of(l->before, l, page), bytes_of(l->part.bytes, l, page), l->part.sizes.page);
    l->seen[page] = 1;
    return l->honest.program_page(&l->part, page, bytes);
}

static enum undofs_answer erase_block(void *with, uint32_t block) {
    struct liar *l = with;
    uint32_t pages = l->part.sizes.pages;
    memset(l->seen + (size_t)block * pages, 1, pages);
    return l->honest.erase_block(&l->part, block);
}

static struct undofs_driver driver_of(struct liar *l, struct undofs_sizes sizes) {
    size_t count = (size_t)sizes.pages * sizes.blocks;
    ram_part_make(&l->part, sizes);
    l->honest = ram_part_driver(&l->part);
    l->seen = calloc(count, 1);
    l->before = calloc(count, sizes.page);
    if (l->seen == NULL || l->before == NULL) abort();
    return (struct undofs_driver){sizes, l, read_page, program_page, erase_block};
}

/* The part is not sure, and says so; or less of it is left than of the other one. */
static int is_refusal(int why) { return why == EIO_TOLD || why == EROFS_TOLD || why == FULL_TOLD || why == UNDOFS_UNMOUNTED; }

/* Carries a call out on both. What is refused for the lies is not asked of the other one; how far a reclaim is may differ. */
static int is_true(struct undofs *lied, struct undofs *honest, const struct call *call) {
    static struct answer told, wanted;
    carry_out(lied, call, &told);
    if (is_refusal(told.why)) return 1;
    carry_out(honest, call, &wanted);
    return is_refusal(wanted.why) || are_same(&told, &wanted);
}

/* A restart begins with a sync, since a full flash may have been committed by itself on one of the two. */
static int is_next_true(struct undofs *lied, struct undofs *honest, uint32_t *seed) {
    struct call call = call_of(seed);
    if (call.kind == RESTART && (undofs_sync(lied) != 0 || undofs_sync(honest) != 0)) return 1;
    return is_true(lied, honest, &call);
}

static int session(uint32_t seed, struct undofs_sizes sizes) {
    static struct liar liar, other;
    struct undofs_driver driver = driver_of(&liar, sizes), true_driver = driver_of(&other, sizes);
    struct undofs *lied, *honest;
    if (undofs_start(&lied, NULL, &driver, 8) != 0 || undofs_start(&honest, NULL, &true_driver, 8) != 0) return NO_START;
    liar.seed = seed ^ 0x5bd1e995u;
    liar.every = 2 + below(&seed, 20);
    for (int i = 0; i < CALLS; i++) {
        liar.is_lying = i >= CALLS / 4;
        if (is_next_true(lied, honest, &seed)) continue;
        return OTHER_ANSWER;
    }
    int is_misused = liar.part.is_misused || other.part.is_misused;
    undofs_end(lied);
    undofs_end(honest);
    return is_misused ? OTHER_ANSWER : liar.lies == 0 ? NO_LIE : 0;
}

static int ended(uint32_t number, struct undofs_sizes sizes) {
    int status = -1;
    pid_t child = fork();
    if (child == 0) {
        struct rlimit seconds = {SECONDS, SECONDS}, none = {0, 0};
        setrlimit(RLIMIT_CPU, &seconds);
        setrlimit(RLIMIT_CORE, &none);
        _exit(session(number * 2654435761u, sizes));
    }
    if (child < 0 || waitpid(child, &status, 0) != child) return -1;
    return WIFSIGNALED(status) ? 128 + WTERMSIG(status) : WEXITSTATUS(status);
}

int main(int count, char **words) {
    unsigned runs = 0, others = 0, broken = 0, idle = 0;
    if (count != 6) return 2;
    struct undofs_sizes sizes = {(uint32_t)atoi(words[3]), (uint32_t)atoi(words[4]), (uint32_t)atoi(words[5])};
    for (uint32_t number = (uint32_t)atoi(words[1]); number < (uint32_t)atoi(words[2]); number++) {
        int status = ended(number, sizes);
        runs++;
        others += status == OTHER_ANSWER;
        idle += status == NO_LIE;
        broken += status != 0 && status != OTHER_ANSWER && status != NO_LIE;
        if (status != 0 && status != NO_LIE && others + broken <= 3) fprintf(stderr, "session %u: %d\n", number, status);
    }
    printf("%u sessions, %u with another answer, %u broken off, %u with no lie\n", runs, others, broken, idle);
    return others + broken != 0 || idle > runs / 10;
}
