/* What a handle refuses and what it keeps apart. Each line tells a case; the last one counts. */
#define _GNU_SOURCE
#include "../../undofs_wire.h"
#include "../c_flash.h"
#include "calls.h"
#include "ram_part.h"
#include <pthread.h>
#include <signal.h>
#include <stdio.h>
#include <stdlib.h>
#include <string.h>

static const struct undofs_sizes sizes = {256, 16, 64};
static unsigned right, wrong;

static void tell(const char *what, int is_right) {
    printf("%s %s\n", is_right ? "ok   " : "WRONG", what);
    right += is_right != 0;
    wrong += is_right == 0;
}

struct opened {
    struct ram_part part;
    struct undofs_driver driver;
    struct undofs *handle;
};

static void open_new(struct opened *opened) {
    ram_part_make(&opened->part, sizes);
    opened->driver = ram_part_driver(&opened->part);
    if (undofs_start(&opened->handle, NULL, &opened->driver, 8) != 0) abort();
}

static void close_one(struct opened *opened) {
    undofs_end(opened->handle);
    ram_part_free(&opened->part);
}

static int has_file(struct undofs *handle, const char *path, const uint8_t *bytes, size_t count) {
    uint8_t *found = malloc(count + 1);
    size_t got = 0;
    int is_read = found != NULL && undofs_read_file(handle, path, NULL, 0, found, count + 1, &got) == 0;
    int is_there = is_read && got == count && memcmp(found, bytes, count) == 0;
    free(found);
    return is_there;
}

static void starts(void) {
    struct ram_part part;
    struct undofs *handle;
    ram_part_make(&part, sizes);
    struct undofs_driver driver = ram_part_driver(&part), none = driver;
    none.sizes.page = 300;
    tell("sizes that are not lawful are refused", undofs_start(&handle, NULL, &none, 8) == UNDOFS_NO_IMAGE && handle == NULL);
    tell("a part with no file system is refused", undofs_start(&handle, NULL, &driver, 0) == UNDOFS_NORECORD);
    tell("its handle tells why, and is gone", strstr(undofs_message(handle), "27") != NULL && !undofs_is_there(handle) && undofs_sync(handle) == UNDOFS_GONE);
    undofs_end(handle);
    tell("a history that is not lawful is refused", undofs_start(&handle, NULL, &driver, 1) == 7);
    struct undofs *other;
    tell("the driver is free after a refused start", undofs_start(&other, NULL, &driver, 8) == 0 && undofs_is_there(other));
    undofs_end(handle);
    undofs_end(other);
    ram_part_free(&part);
}

static int is_page_told(const struct undofs *handle) {
    unsigned page;
    const char *message = undofs_message(handle);
    return sscanf(message, "page %u", &page) == 1 && page < sizes.pages * sizes.blocks && strstr(message, " of the part cannot be read") != NULL;
}

static void unread_pages(void) {
    enum { READ_FAILED = 23, COUNT = 60000 };
    static uint8_t bytes[COUNT], found[COUNT];
    struct opened one;
    size_t got;
    open_new(&one);
    for (size_t i = 0; i < COUNT; i++) bytes[i] = (uint8_t)(i / 7);
    int is_made = undofs_write_file(one.handle, "/f", bytes, COUNT) == 0 && undofs_sync(one.handle) == 0;
    undofs_end(one.handle);
    one.part.is_unread = 1;
    tell("a start that reads no page is refused", is_made && undofs_start(&one.handle, NULL, &one.driver, 0) == READ_FAILED);
    tell("its handle tells the page, and is gone", is_page_told(one.handle) && !undofs_is_there(one.handle));
    undofs_end(one.handle);
    one.part.is_unread = 0;
    if (undofs_start(&one.handle, NULL, &one.driver, 0) != 0) abort();
    one.part.is_unread = 1;
    tell("a page that is not read refuses the call", undofs_read_file(one.handle, "/f", NULL, 0, found, COUNT, &got) == READ_FAILED);
    tell("the handle tells it, and is there", is_page_told(one.handle) && undofs_is_there(one.handle));
    one.part.is_unread = 0;
    tell("the same call is right once it is read", has_file(one.handle, "/f", bytes, COUNT));
    close_one(&one);
}

static void second_handles(void) {
    struct opened one;
    struct undofs *second;
    open_new(&one);
    tell("a second handle over a driver is refused", undofs_start(&second, NULL, &one.driver, 0) == UNDOFS_BUSY);
    undofs_end(second);
    struct undofs_driver copy = one.driver;
    tell("and over a copy of it", undofs_start(&second, NULL, &copy, 8) == UNDOFS_BUSY);
    undofs_end(second);
    tell("the first goes on", undofs_mkdir(one.handle, "/a") == 0 && undofs_sync(one.handle) == 0);
    undofs_end(one.handle);
    tell("the driver is free after the end", undofs_start(&one.handle, NULL, &one.driver, 0) == 0);
    struct undofs_stat found;
    tell("what was synced is there", undofs_stat(one.handle, "/a", NULL, &found) == 0 && !one.part.is_misused);
    close_one(&one);
}

static void second_opens(void) {
    struct opened one;
    open_new(&one);
    struct c_flash second = c_flash_open((size_t)one.handle);
    tell("a second part of a handle has no blocks", second.blocks == 0);
    tell("no file system is mounted on it", undofs_serve((size_t)one.handle, 0) != 0);
    close_one(&one);
}

/* ---- calls from inside of the driver ---- */

struct caller {
    struct opened *opened;
    unsigned asked, refused;
    int is_quiet;
};

static void call_in(void *with) {
    static const uint8_t other[100000];
    struct caller *caller = with;
    struct undofs_stat found;
    struct undofs *second = NULL;
    if (caller->is_quiet) return;
    caller->is_quiet = 1; /* a second handle, were it there, would ask the driver too */
    caller->asked += 4;
    caller->refused += undofs_stat(caller->opened->handle, "/", NULL, &found) == UNDOFS_BUSY;
    caller->refused += undofs_pwrite(caller->opened->handle, 0, 0, other, sizeof other) == UNDOFS_BUSY;
    caller->refused += undofs_start(&second, NULL, &caller->opened->driver, 8) == UNDOFS_BUSY;
    undofs_end(second);
    undofs_end(caller->opened->handle);
    caller->refused += undofs_is_there(caller->opened->handle) != 0;
    caller->is_quiet = 0;
}

/* Writes bytes by some lines at once, which are the handle's own, as those of a call are. */
static int write_in_pieces(struct undofs *u, uint32_t file, const uint8_t *bytes, size_t count) {
    enum { PIECE = 20000 };
    struct undofs_lines *lines = undofs_line(u);
    for (size_t at = 0; at < count; at += PIECE) {
        undofs_put_text(lines, "pwrite ");
        undofs_put_number(lines, file);
        undofs_put_text(lines, " ");
        undofs_put_number(lines, at);
        undofs_put_text(lines, " ");
        undofs_put_data(lines, bytes + at, PIECE);
        undofs_put_end(lines);
    }
    return undofs_exchange(u, lines);
}

static void calls_of_drivers(void) {
    static uint8_t bytes[100000];
    struct opened one;
    uint32_t file, seed = 5;
    open_new(&one);
    struct caller caller = {&one, 0, 0, 0};
    one.part.with = &caller;
    one.part.before = call_in;
    for (size_t i = 0; i < sizeof bytes; i++) bytes[i] = (uint8_t)below(&seed, 256);
    int why = undofs_open(one.handle, "/f", UNDOFS_READ | UNDOFS_WRITE | UNDOFS_CREAT, &file);
    if (why == 0) why = write_in_pieces(one.handle, file, bytes, sizeof bytes);
    if (why == 0) why = undofs_close(one.handle, file);
    if (why == 0) why = undofs_sync(one.handle);
    caller.is_quiet = 1;
    tell("a call from inside of the driver is refused", why == 0 && caller.asked > 400 && caller.refused == caller.asked);
    tell("and the call outside is as if there were none", has_file(one.handle, "/f", bytes, sizeof bytes));
    close_one(&one);
}

/* ---- signals ---- */

static void look_at_signals(void *with) {
    struct caller *caller = with;
    sigset_t held;
    if (caller->is_quiet) return;
    caller->asked++;
    caller->refused += pthread_sigmask(SIG_SETMASK, NULL, &held) == 0 && sigismember(&held, SIGUSR1) == 1;
}

static void held_signals(void) {
    struct opened one;
    sigset_t held, before;
    open_new(&one);
    struct caller caller = {&one, 0, 0, 0};
    one.part.with = &caller;
    one.part.before = look_at_signals;
    sigemptyset(&held);
    sigaddset(&held, SIGUSR1);
    if (pthread_sigmask(SIG_BLOCK, &held, &before) != 0) abort();
    int is_made = undofs_mkdir(one.handle, "/a") == 0 && undofs_sync(one.handle) == 0;
    tell("a signal that the caller holds is held in the driver", is_made && caller.asked > 1 && caller.refused == caller.asked);
    if (pthread_sigmask(SIG_SETMASK, &before, &held) != 0) abort();
    tell("and by the caller after it", sigismember(&held, SIGUSR1) == 1);
    close_one(&one);
}

/* ---- two parts ---- */

enum { CALLS = 200 };

struct side {
    struct opened opened;
    uint32_t seed;
    uint64_t sum;
};

static void call_some(struct side *side, int count) {
    static _Thread_local struct answer answer;
    for (int i = 0; i < count; i++) {
        struct call call = call_of(&side->seed);
        carry_out(side->opened.handle, &call, &answer);
        side->sum = (side->sum ^ (uint64_t)answer.why ^ answer.count << 8) * 1099511628211u;
        for (size_t at = 0; at < answer.count; at++) side->sum = (side->sum ^ answer.bytes[at]) * 1099511628211u;
    }
}

static struct side side_of(uint32_t seed) { return (struct side){.seed = seed, .sum = 1}; }

static void *call_all(void *with) {
    struct side *side = with;
    open_new(&side->opened);
    call_some(side, CALLS);
    return NULL;
}

static int are_alike(const struct side *one, const struct side *other) {
    size_t count = (size_t)sizes.pages * sizes.blocks;
    const struct ram_part *part = &one->opened.part, *twin = &other->opened.part;
    int is_same = memcmp(part->states, twin->states, count) == 0 && memcmp(part->bytes, twin->bytes, count * sizes.page) == 0;
    return is_same && one->sum == other->sum && !part->is_misused;
}

static void two_parts(void) {
    static struct side alone[2], turned[2], threaded[2];
    pthread_t threads[2];
    for (uint32_t i = 0; i < 2; i++) {
        alone[i] = turned[i] = threaded[i] = side_of(17 + i);
        call_all(&alone[i]);
        open_new(&turned[i].opened);
    }
    for (int i = 0; i < CALLS; i++) call_some(&turned[0], 1), call_some(&turned[1], 1);
    tell("two parts in turn are as each alone", are_alike(&alone[0], &turned[0]) && are_alike(&alone[1], &turned[1]));
    for (int i = 0; i < 2; i++) {
        if (pthread_create(&threads[i], NULL, call_all, &threaded[i]) != 0) abort();
    }
    for (int i = 0; i < 2; i++) pthread_join(threads[i], NULL);
    tell("and so are two in two threads", are_alike(&alone[0], &threaded[0]) && are_alike(&alone[1], &threaded[1]));
    for (int i = 0; i < 2; i++) close_one(&alone[i].opened), close_one(&turned[i].opened), close_one(&threaded[i].opened);
}

static void *sync_it(void *with) {
    struct undofs *handle = with;
    return undofs_mkdir(handle, "/of_another_thread") == 0 && undofs_sync(handle) == 0 ? with : NULL;
}

static void one_after_another(void) {
    struct opened one;
    pthread_t thread;
    void *told;
    open_new(&one);
    if (pthread_create(&thread, NULL, sync_it, one.handle) != 0) abort();
    pthread_join(thread, &told);
    tell("another thread uses a handle after the first", told == one.handle && undofs_mkdir(one.handle, "/of_this_one") == 0);
    close_one(&one);
}

/* ---- power ---- */

static void cuts(void) {
    struct opened one;
    struct undofs_stat found;
    open_new(&one);
    int is_made = undofs_mkdir(one.handle, "/a") == 0 && undofs_sync(one.handle) == 0;
    one.part.cut_at = one.part.operations + 1;
    tell("a change in which power goes is refused", is_made && undofs_mkdir(one.handle, "/b") == UNDOFS_POWERCUT);
    tell("and so is each call until a restart", undofs_stat(one.handle, "/a", NULL, &found) == UNDOFS_POWERCUT && undofs_sync(one.handle) == UNDOFS_POWERCUT);
    tell("after it what was synced is there", undofs_restart(one.handle) == 0 && undofs_stat(one.handle, "/a", NULL, &found) == 0);
    tell("and changes go on", undofs_mkdir(one.handle, "/b") == 0 && undofs_sync(one.handle) == 0 && !one.part.is_misused);
    close_one(&one);
}

int main(void) {
    starts();
    unread_pages();
    second_handles();
    second_opens();
    calls_of_drivers();
    held_signals();
    two_parts();
    one_after_another();
    cuts();
    printf("%u right, %u wrong\n", right, wrong);
    return wrong != 0;
}
