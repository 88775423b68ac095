/* Raw NAND in memory through the client: a block that the maker marked bad, operations that fail, and a cut at each one.
 *
 *   demo_raw_nand PROGRAM      prints what was tried; the status is 0 where all was right */
#include "nand_in_memory.h"
#include <stdio.h>
#include <stdlib.h>
#include <string.h>

enum { FILES = 6, LENGTH = 3000 };

static const struct undofs_sizes sizes = {512, 8, 48};
static const char *program;
static struct nand_in_memory chip;
static struct nand_chip functions;
static struct undofs_driver driver;

static void power_on(void) {
    chip.has_no_power = 0;
    chip.cut_at = 0;
    functions = nand_in_memory_chip(&chip);
    driver = raw_nand_driver(&functions);
}

static void name_of(char *name, unsigned i) { snprintf(name, 16, "/f%u", i); }

static void fill(uint8_t *bytes, unsigned i) { memset(bytes, 'a' + (int)i, LENGTH); }

/* Saves files one by one. How many were synced; `*tried` of how many a save was begun. */
static unsigned save_files(struct undofs *handle, unsigned *tried) {
    uint8_t bytes[LENGTH];
    char name[16];
    unsigned synced = 0;
    for (*tried = 0; *tried < FILES;) {
        name_of(name, *tried);
        fill(bytes, *tried);
        ++*tried;
        if (undofs_write_file(handle, name, bytes, LENGTH) != 0 || undofs_sync(handle) != 0) break;
        synced++;
    }
    return synced;
}

/* Whether a new child finds at least `least` whole files and at most `most`, and nothing else. */
static int is_found(unsigned least, unsigned most) {
    struct undofs *handle;
    uint8_t bytes[LENGTH + 1], wanted[LENGTH];
    char name[16];
    size_t got;
    struct undofs_stat root = {0, 0};
    int why = undofs_start(&handle, program, &driver, 0);
    if (why != 0) {
        fprintf(stderr, "start: %d %s\n", why, handle == NULL ? "" : undofs_message(handle));
        undofs_end(handle);
        return 0;
    }
    int is_right = undofs_stat(handle, "/", NULL, &root) == 0 && root.length >= least && root.length <= most;
    for (unsigned i = 0; is_right && i < root.length; i++) {
        name_of(name, i);
        fill(wanted, i);
        is_right = undofs_read_file(handle, name, NULL, 0, bytes, sizeof bytes, &got) == 0 && got == LENGTH && memcmp(bytes, wanted, LENGTH) == 0;
    }
    undofs_end(handle);
    return is_right;
}

/* Runs the saves with a cut at an operation. How many operations there were; 0 where something was wrong. */
static uint64_t run(uint64_t cut_at, uint64_t fail_every, unsigned seed) {
    struct undofs *handle;
    unsigned tried = 0, synced = 0;
    if (nand_in_memory_make(&chip, sizes) != 0) return 0;
    chip.bad_block = 11;
    chip.random = seed;
    power_on();
    int why = undofs_start(&handle, program, &driver, 8);
    uint64_t formatted = chip.operations;
    chip.cut_at = cut_at == 0 ? 0 : formatted + cut_at;
    chip.fail_every = fail_every;
    if (why == 0) synced = save_files(handle, &tried);
    undofs_end(handle);
    uint64_t operations = chip.operations - formatted;
    chip.fail_every = 0;
    power_on();
    int is_right = why == 0 && is_found(synced, tried) && (cut_at != 0 || synced == FILES);
    nand_in_memory_drop(&chip);
    return is_right ? operations : 0;
}

int main(int count, char **words) {
    unsigned wrong = 0, cuts = 0, failures = 0;
    if (count != 2) return 2;
    program = words[1];
    uint64_t operations = run(0, 0, 1);
    if (operations == 0) wrong++;
    for (uint64_t cut_at = 1; cut_at <= operations; cut_at++, cuts++) {
        if (run(cut_at, 0, (unsigned)cut_at) == 0) {
            fprintf(stderr, "cut at %llu: wrong\n", (unsigned long long)cut_at);
            wrong++;
        }
    }
    for (uint64_t step = 11; step < 40; step += 4, failures++) {
        if (run(0, step, (unsigned)step) == 0) {
            fprintf(stderr, "each operation of %llu failed: wrong\n", (unsigned long long)step);
            wrong++;
        }
    }
    printf("raw NAND: %llu operations, %u runs with a cut, %u with failures, %u wrong\n", (unsigned long long)operations, cuts, failures, wrong);
    return wrong != 0;
}
