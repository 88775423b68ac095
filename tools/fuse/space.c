#define _GNU_SOURCE
#include "space.h"
#include "clock_checkpoints.h"
#include "group_writes.h"
#include "saves.h"
#include "times.h"
#include <stdlib.h>
#include <string.h>
#include <syslog.h>

enum { ANCHORS = 8, RESERVE_OF = 32, LEAST_RESERVE = 8, SPARE_OF = 16 };

static struct {
    uint64_t data, reserve;
    uint64_t free, erases; /* so many were free when so many blocks had been erased; each block that is taken is erased first */
    int is_known;
} space;

static struct undofs_lines lines; /* not those of a change, which is given once there is room */

static struct undofs_lines *emptied(void) {
    lines.length = 0;
    return &lines;
}

/* To count the free blocks each node is read, which takes its time on a full flash. */
static int look(void) {
    struct undofs_space found;
    int why = undofs_df(saves.child, &found);
    if (why != 0) return why;
    space.free = found.free;
    space.erases = undofs_erases(saves.child);
    space.is_known = 1;
    return 0;
}

void space_start(long reserve, uint32_t blocks) {
    space.data = blocks - ANCHORS;
    space.reserve = reserve >= 0 ? (uint64_t)reserve : space.data / RESERVE_OF;
    if (reserve < 0 && space.reserve < LEAST_RESERVE) space.reserve = LEAST_RESERVE;
}

uint64_t space_reserve(void) { return space.reserve; }

void space_may_be_free(void) { space.is_known = 0; }

/* ---- a change ---- */

static uint64_t wanted(const struct touch *t) {
    if (t->growth == GROWS_NOT) return 0;
    return t->growth == GROWS_LONGER ? t->blocks + space.reserve : 2 * t->blocks;
}

uint64_t space_twice(const struct touch *t) { return t->growth == GROWS_ANEW ? t->blocks : 0; }

static int is_left(uint64_t blocks) { return space.free >= blocks + (undofs_erases(saves.child) - space.erases); }

/* A group that began has all blocks that the one before it gave up, and was not looked at for it: so `free` is what there is at least. */
int space_has(uint64_t blocks) {
    if (is_left(blocks)) return 1;
    int is_new = !space.is_known || undofs_erases(saves.child) != space.erases;
    return is_new && look() == 0 && is_left(blocks);
}

uint64_t space_lacks(const struct touch *t) {
    uint64_t blocks = wanted(t);
    if (blocks == 0 || space_has(blocks + writes_blocks())) return 0;
    return blocks + writes_blocks() + (undofs_erases(saves.child) - space.erases) - space.free;
}

int space_has_room(const struct touch *t) { return space_lacks(t) == 0; }

/* ---- room ---- */

/* How many versions are before the present one, and after it. */
static unsigned versions(int are_after) {
    const char *log;
    if (undofs_log(saves.child, &log) != 0) return 0;
    const char *at = strstr(log, " versions "), *star = strchr(log, '*'), *end = strstr(log, " checkpoints");
    if (at == NULL || star == NULL || end == NULL) return 0;
    unsigned count = 0;
    for (at = are_after ? star : at + strlen(" versions "); at < (are_after ? end : star); at++) count += *at == ' ';
    return count;
}

static int are_forgotten(unsigned count) {
    if (count == 0 || undofs_forget(saves.child, count) != 0) return 0;
    syslog(LOG_NOTICE, "the flash is full: all %u versions before the present one were forgotten", count);
    return 1;
}

/* The fewest that leave so many blocks free; all, where all are not enough. */
static int is_made_by_need(uint64_t blocks, uint64_t lacking) {
    struct undofs_lines *ask = emptied();
    blocks += space.reserve + space.data / SPARE_OF;
    if (lacking > 0 && look() == 0 && blocks < space.free + lacking) blocks = space.free + lacking;
    int is_made = clock_checkpoints_make_room(blocks);
    undofs_put_text(ask, "forgetfree ");
    undofs_put_number(ask, blocks);
    undofs_put_end(ask);
    int why = undofs_exchange(saves.child, ask);
    if (why == UNDOFS_ENOSPC) return are_forgotten(versions(0));
    if (why != 0) return 0;
    unsigned long count = strtoul(undofs_reply(saves.child, 0) + strlen("forgot "), NULL, 10);
    if (count > 0) syslog(LOG_NOTICE, "the flash is full: %lu old versions were forgotten", count);
    return is_made || count > 0;
}

/* What could be redone keeps its blocks until a version comes after the present one: one is made of the same tree. */
static int is_redo_dropped(void) {
    struct undofs_lines *ask = emptied();
    undofs_put_text(ask, "begin\nmkdir /.undofs\n");
    if (undofs_exchange(saves.child, ask) != 0) {
        (void)undofs_abandon(saves.child);
        return 0;
    }
    ask = emptied();
    undofs_put_text(ask, "rmdir /.undofs\nend\n");
    if (undofs_exchange(saves.child, ask) != 0) return 0;
    syslog(LOG_NOTICE, "the flash is full: what could be redone was forgotten");
    return 1;
}

int space_is_made(int step, uint64_t blocks, uint64_t lacking) {
    int is_made = 0;
    const int is_last = step == SPACE_STEPS - 1;
    if (!is_last) is_made = is_made_by_need(blocks, lacking);
    if (is_last && versions(1) > 0 && is_redo_dropped()) is_made = 1;
    if (is_last && is_made) (void)are_forgotten(versions(0));
    uint64_t serial = saves.next;
    if (saves_look_for_version() != 0 || look() != 0) return 0;
    if (saves.next != serial) times_belong(serial, saves.next); /* of the group, which comes after the version that was made */
    return is_made;
}
