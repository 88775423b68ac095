#include "times_bytes.h"
#include "timeline.h"
#include "times.h"
#include <stdlib.h>
#include <string.h>

enum { FORMAT = 1, SUM = 4, NAME_MOST = 31, PATH_MOST = 2048, BILLION = 1000000000, FLAGS = STAMP_GONE | STAMP_EXECUTABLE | STAMP_CHANGED | STAMP_MADE };

static const char mark[] = "UFFSTIME";

static uint32_t sum_of(const uint8_t *bytes, size_t count) {
    static uint32_t table[256];
    for (uint32_t i = 0; table[255] == 0 && i < 256; i++) {
        uint32_t sum = i;
        for (int bit = 0; bit < 8; bit++) sum = sum >> 1 ^ (0xedb88320u & (0u - (sum & 1u)));
        table[i] = sum;
    }
    uint32_t sum = ~0u;
    for (size_t i = 0; i < count; i++) sum = sum >> 8 ^ table[(sum ^ bytes[i]) & 255];
    return ~sum;
}

/* ---- written ---- */

struct bytes {
    uint8_t *at;
    size_t length, room;
    int failed;
    uint64_t next; /* stamps of this serial and above are left out */
    uint32_t paths;
};

static void put_bytes(struct bytes *to, const void *from, size_t count) {
    if (to->room - to->length < count && !to->failed) {
        size_t room = 2 * (to->length + count);
        uint8_t *at = realloc(to->at, room);
        to->failed = at == NULL;
        if (at != NULL) to->at = at;
        if (at != NULL) to->room = room;
    }
    if (to->failed) return;
    memcpy(to->at + to->length, from, count);
    to->length += count;
}

static void put_number(struct bytes *to, uint64_t number, size_t count) {
    uint8_t bytes[8];
    for (size_t i = 0; i < count; i++) bytes[i] = (uint8_t)(number >> 8 * i);
    put_bytes(to, bytes, count);
}

static void put_time(struct bytes *to, struct timespec time) {
    put_number(to, (uint64_t)time.tv_sec, 8);
    put_number(to, (uint64_t)time.tv_nsec, 4);
}

/* Puts a number where room was left for it. */
static void fill_number(struct bytes *to, size_t at, uint64_t number) {
    for (size_t i = 0; i < 4 && !to->failed; i++) to->at[at + i] = (uint8_t)(number >> 8 * i);
}

static void put_moments(struct bytes *to) {
    put_number(to, timeline_count(), 4);
    for (size_t i = 0; i < timeline_count(); i++) {
        const struct moment *m = timeline_moment(i);
        put_time(to, m->time);
        put_number(to, m->serial, 8);
        put_number(to, (uint64_t)m->is_made, 1);
    }
}

static void put_checkpoints(struct bytes *to) {
    struct timespec made;
    uint32_t count = 0;
    size_t counted_at = to->length;
    put_number(to, 0, 4);
    for (unsigned place = 0; place < MOST_CHECKPOINTS; place++) {
        const char *name = checkpoint_at(place, &made);
        if (name == NULL || strlen(name) > NAME_MOST) continue;
        count++;
        put_number(to, place, 1);
        put_number(to, strlen(name), 1);
        put_bytes(to, name, strlen(name));
        put_time(to, made);
    }
    fill_number(to, counted_at, count);
}

/* The stamps below a serial, the newest first: how many they are. */
static uint32_t put_stamps(struct bytes *to, const struct stamp *s, uint64_t below) {
    uint32_t count = 0;
    for (; s != NULL; s = s->older) {
        if (s->serial >= below) continue;
        count++;
        put_number(to, s->serial, 8);
        put_time(to, s->time);
        put_number(to, s->flags, 1);
    }
    return count;
}

static void put_path(void *with, const char *path, const struct stamp *versions, const struct stamp *checkpoints) {
    struct bytes *to = with;
    size_t length = strlen(path);
    if (length > PATH_MOST) return;
    to->paths++;
    put_number(to, length, 2);
    put_bytes(to, path, length);
    size_t counted_at = to->length;
    put_number(to, 0, 4);
    put_number(to, 0, 4);
    fill_number(to, counted_at, put_stamps(to, versions, to->next));
    fill_number(to, counted_at + 4, put_stamps(to, checkpoints, MOST_CHECKPOINTS));
}

uint8_t *put_times(const struct times_head *head, size_t *length) {
    struct bytes to = {.next = head->next};
    put_bytes(&to, mark, 8);
    put_number(&to, FORMAT, 4);
    put_bytes(&to, head->identity, IDENTITY);
    put_number(&to, head->next, 8);
    put_time(&to, head->written);
    put_moments(&to);
    put_checkpoints(&to);
    size_t counted_at = to.length;
    put_number(&to, 0, 4);
    times_walk(put_path, &to);
    fill_number(&to, counted_at, to.paths);
    if (!to.failed) put_number(&to, sum_of(to.at, to.length), SUM);
    *length = to.length;
    if (!to.failed) return to.at;
    free(to.at);
    return NULL;
}

/* ---- read ---- */

struct reader {
    const uint8_t *at, *end;
    int is_wrong;
};

static const uint8_t *take_bytes(struct reader *from, size_t count) {
    static const uint8_t none[PATH_MOST];
    const uint8_t *at = from->at;
    if (from->is_wrong || (size_t)(from->end - at) < count) {
        from->is_wrong = 1;
        return none;
    }
    from->at += count;
    return at;
}

static uint64_t take_number(struct reader *from, size_t count) {
    const uint8_t *bytes = take_bytes(from, count);
    uint64_t number = 0;
    for (size_t i = 0; i < count; i++) number |= (uint64_t)bytes[i] << 8 * i;
    return number;
}

static struct timespec take_time(struct reader *from) {
    struct timespec time = {(time_t)take_number(from, 8), 0};
    uint64_t nanoseconds = take_number(from, 4);
    from->is_wrong |= nanoseconds >= BILLION;
    time.tv_nsec = (long)nanoseconds;
    return time;
}

/* A text of no NUL, of 1 to `most` bytes. */
static void take_text(struct reader *from, char *text, size_t length, size_t most) {
    if (length == 0 || length > most) from->is_wrong = 1;
    if (from->is_wrong) length = 0;
    memcpy(text, take_bytes(from, length), length);
    text[length] = 0;
    from->is_wrong |= strlen(text) != length;
}

static void take_moments(struct reader *from, uint64_t next) {
    uint64_t count = take_number(from, 4);
    for (uint64_t i = 0; i < count && !from->is_wrong; i++) {
        struct timespec time = take_time(from);
        uint64_t serial = take_number(from, 8), is_made = take_number(from, 1);
        from->is_wrong |= serial >= next || is_made > 1 || (is_made == 1 && serial == 0);
        if (from->is_wrong) break;
        if (is_made == 1) timeline_made(serial, time);
        else if (serial != 0) timeline_leapt(serial, time);
        else timeline_unknown(time);
    }
}

static void take_checkpoints(struct reader *from) {
    char name[NAME_MOST + 1];
    struct timespec made;
    uint64_t count = take_number(from, 4);
    for (uint64_t i = 0; i < count && !from->is_wrong; i++) {
        unsigned place = (unsigned)take_number(from, 1);
        size_t length = (size_t)take_number(from, 1);
        take_text(from, name, length, NAME_MOST);
        struct timespec time = take_time(from);
        from->is_wrong |= place >= MOST_CHECKPOINTS || checkpoint_at(place, &made) != NULL;
        if (!from->is_wrong) checkpoint_put(place, name, time);
    }
}

static void take_stamps(struct reader *from, const char *path, uint64_t count, uint64_t below, int is_checkpoint) {
    struct timespec made;
    for (uint64_t i = 0; i < count && !from->is_wrong; i++) {
        struct stamp s = {.serial = take_number(from, 8)};
        s.time = take_time(from);
        s.flags = (unsigned)take_number(from, 1);
        from->is_wrong |= s.serial >= below || s.flags > FLAGS;
        from->is_wrong |= is_checkpoint && !from->is_wrong && checkpoint_at((unsigned)s.serial, &made) == NULL;
        if (!from->is_wrong) stamp_put(path, &s, is_checkpoint);
    }
}

static void take_paths(struct reader *from, uint64_t next) {
    char path[PATH_MOST + 1];
    uint64_t count = take_number(from, 4);
    for (uint64_t i = 0; i < count && !from->is_wrong; i++) {
        size_t length = (size_t)take_number(from, 2);
        take_text(from, path, length, PATH_MOST);
        from->is_wrong |= path[0] != '/';
        uint64_t versions = take_number(from, 4), checkpoints = take_number(from, 4);
        take_stamps(from, path, versions, next, 0);
        take_stamps(from, path, checkpoints, MOST_CHECKPOINTS, 1);
    }
}

static enum times_verdict verdict_on(const struct times_head *part, const struct times_head *found, uint64_t format) {
    if (format != FORMAT) return TIMES_LATER;
    if (memcmp(part->identity, found->identity, IDENTITY) != 0) return TIMES_FOREIGN;
    return found->next > part->next ? TIMES_NEWER : TIMES_RIGHT;
}

enum times_verdict take_times(struct times_head *part, const uint8_t *bytes, size_t length) {
    if (length < 8 + SUM || memcmp(bytes, mark, 8) != 0) return TIMES_DAMAGED;
    struct reader from = {bytes + 8, bytes + length - SUM, 0}, sum = {bytes + length - SUM, bytes + length, 0};
    if (take_number(&sum, SUM) != sum_of(bytes, length - SUM)) return TIMES_DAMAGED;
    struct times_head found;
    uint64_t format = take_number(&from, 4);
    memcpy(found.identity, take_bytes(&from, IDENTITY), IDENTITY);
    found.next = take_number(&from, 8);
    found.written = take_time(&from);
    enum times_verdict verdict = from.is_wrong ? TIMES_DAMAGED : verdict_on(part, &found, format);
    if (verdict != TIMES_RIGHT) return verdict;
    take_moments(&from, found.next);
    take_checkpoints(&from);
    take_paths(&from, found.next);
    if (!from.is_wrong && from.at == from.end) {
        *part = found;
        return TIMES_RIGHT;
    }
    times_clear();
    timeline_clear();
    return TIMES_DAMAGED;
}
