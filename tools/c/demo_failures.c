/* A driver in memory whose operations fail: every seventh, and then power in one.
 *
 *   demo_failures PROGRAM      PROGRAM is `uffs` */
#include "undofs_client.h"
#include <stdio.h>
#include <stdlib.h>
#include <string.h>

enum { PAGE = 256, PAGES = 16, BLOCKS = 64 };

struct part {
    uint8_t states[PAGES * BLOCKS];
    uint8_t bytes[PAGES * BLOCKS][PAGE];
    unsigned operations, fail_every;
    int has_power;
};

static struct undofs *handle;

static void want(int why, int wanted, const char *what) {
    if (why == wanted) return;
    fprintf(stderr, "%s: %d %s\n", what, why, handle == NULL ? "" : undofs_message(handle));
    exit(1);
}

static enum undofs_answer answer(struct part *p) {
    p->operations++;
    if (!p->has_power) return UNDOFS_CUT;
    return p->fail_every != 0 && p->operations % p->fail_every == 0 ? UNDOFS_FAILED : UNDOFS_DONE;
}

static enum undofs_state read_page(void *part, uint32_t page, uint8_t *bytes) {
    struct part *p = part;
    memcpy(bytes, p->bytes[page], PAGE);
    return (enum undofs_state)p->states[page];
}

static enum undofs_answer program_page(void *part, uint32_t page, const uint8_t *bytes) {
    struct part *p = part;
    enum undofs_answer now = answer(p);
    if (p->states[page] != UNDOFS_ERASED) abort();
    if (now == UNDOFS_CUT) return now;
    p->states[page] = now == UNDOFS_DONE ? UNDOFS_DATA : UNDOFS_UNREADABLE;
    memcpy(p->bytes[page], bytes, PAGE);
    return now;
}

static enum undofs_answer erase_block(void *part, uint32_t block) {
    struct part *p = part;
    enum undofs_answer now = answer(p);
    if (now != UNDOFS_CUT) memset(p->states + block * PAGES, now == UNDOFS_DONE ? UNDOFS_ERASED : UNDOFS_UNREADABLE, PAGES);
    return now;
}

static void print_state(const char *when) {
    struct undofs_space space;
    struct undofs_stat root;
    want(undofs_stat(handle, "/", NULL, &root), 0, "stat");
    want(undofs_df(handle, &space), 0, "df");
    printf("%s: %llu files, %s bad block\n", when, (unsigned long long)root.length, space.bad > 0 ? "some" : "no");
}

int main(int count, char **words) {
    static struct part part;
    struct undofs_driver driver = {{PAGE, PAGES, BLOCKS}, &part, read_page, program_page, erase_block};
    uint8_t bytes[900];
    char name[16];
    if (count != 2) return 2;
    memset(bytes, 'a', sizeof bytes);
    part.has_power = 1;
    want(undofs_start(&handle, words[1], &driver, 0), UNDOFS_NORECORD, "start with no file system");
    undofs_end(handle);
    want(undofs_start(&handle, words[1], &driver, 8), 0, "start");
    print_state("at the start");

    part.fail_every = 7;
    for (int i = 0; i < 4; i++) {
        snprintf(name, sizeof name, "/f%d", i);
        want(undofs_write_file(handle, name, bytes, sizeof bytes), 0, "write");
        want(undofs_sync(handle), 0, "sync");
    }
    print_state("after failures");

    part.has_power = 0;
    want(undofs_mkdir(handle, "/d"), UNDOFS_POWERCUT, "mkdir");
    want(undofs_sync(handle), UNDOFS_POWERCUT, "sync");
    want(undofs_restart(handle), 0, "restart");
    want(undofs_mkdir(handle, "/d"), UNDOFS_POWERCUT, "mkdir after a restart");
    undofs_end(handle);

    part.has_power = 1;
    part.fail_every = 0;
    want(undofs_start(&handle, words[1], &driver, 0), 0, "start again");
    print_state("by a new child");
    undofs_end(handle);
    return 0;
}
