#define _GNU_SOURCE
#include "service.h"
#include "c_flash.h"
#include "turns.h"
#include <pthread.h>
#include <stdio.h>
#include <stdlib.h>
#include <string.h>

const int undofs_takes_bytes = 1;

enum { SHORT_REPLIES = 4096, READ_FAILED = 23 };

/* ---- live handles, each with a driver of its own ---- */

static pthread_mutex_t lock = PTHREAD_MUTEX_INITIALIZER;
static struct undofs *live;

/* Whether two handles have the same driver, or copies of it. */
static int are_of_one(const struct undofs *u, const struct undofs *other) {
    return u->driver == other->driver || (u->part == other->part && u->reads == other->reads);
}

/* Two handles over one part would each be wrong of it. */
static int enter(struct undofs *u) {
    int is_had = 0;
    pthread_mutex_lock(&lock);
    for (const struct undofs *other = live; other != NULL; other = other->next) is_had |= are_of_one(u, other);
    if (!is_had) {
        u->next = live;
        live = u;
    }
    pthread_mutex_unlock(&lock);
    return !is_had;
}

static void leave(struct undofs *u) {
    pthread_mutex_lock(&lock);
    for (struct undofs **at = &live; *at != NULL; at = &(*at)->next) {
        if (*at != u) continue;
        *at = u->next;
        break;
    }
    pthread_mutex_unlock(&lock);
}

/* ---- what the library asks ---- */

struct undofs *service_handle(size_t handle) { return (struct undofs *)handle; }

int service_opens(struct undofs *u) {
    int is_first = !u->is_open;
    u->is_open = 1;
    return is_first;
}

struct c_requests c_requests_open(size_t handle) { return (struct c_requests){handle}; }

/* How long the first of some lines is, and where it ends. Its data, which may be of several pieces, is a word of one byte in it. */
static const char *measure(const char *at, const char *end, struct c_request *next) {
    while (at < end && *at != '\n') {
        size_t count = *at == 0 ? undofs_count_at(at) : 0;
        next->line += *at != 0;
        next->data += count;
        at += *at == 0 ? UNDOFS_BYTES_HEAD + count : 1;
    }
    next->line += next->data > 0;
    return at < end ? at + 1 : end;
}

struct c_request c_requests_next(struct c_requests *requests) {
    struct undofs *u = service_handle(requests->handle);
    if (u->lines == u->lines_end && !u->is_ending) turns_give_way(u->turns);
    struct c_request next = {u->lines != u->lines_end, 0, 0};
    (void)measure(u->lines, u->lines_end, &next);
    return next;
}

void c_requests_take(struct c_requests *requests, uint8_t *line, size_t line_count, uint8_t *data, size_t data_count) {
    struct undofs *u = service_handle(requests->handle);
    const char *at = u->lines;
    (void)line_count;
    while (at < u->lines_end && *at != '\n') {
        if (*at != 0) {
            *line++ = (uint8_t)*at++;
            continue;
        }
        size_t count = undofs_count_at(at);
        memcpy(data, at + UNDOFS_BYTES_HEAD, count);
        data += count;
        at += UNDOFS_BYTES_HEAD + count;
    }
    if (data_count > 0) *line = '-';
    u->lines = at < u->lines_end ? at + 1 : at;
}

void c_requests_skip(struct c_requests *requests) {
    struct undofs *u = service_handle(requests->handle);
    struct c_request next = {0, 0, 0};
    u->lines = measure(u->lines, u->lines_end, &next);
}

static void put(struct undofs_replies *to, const void *bytes, size_t count) {
    if (count > 0) memcpy(to->text + to->length, bytes, count);
    to->length += count;
}

/* One for which there is no memory is dropped, and the exchange tells so. */
void c_requests_answer(struct c_requests *requests, uint32_t form, const uint8_t *bytes, size_t count) {
    struct undofs *u = service_handle(requests->handle);
    struct undofs_replies *to = &u->replied;
    u->has_no_memory = u->has_no_memory || !undofs_has_room(to, sizeof "data" + UNDOFS_BYTES_HEAD + count);
    u->reply_count++;
    if (u->has_no_memory) return;
    if (form == C_REQUESTS_BYTES) {
        put(to, "data ", sizeof "data ");
        put(to, &count, sizeof count);
    }
    put(to, bytes, count);
    if (form == C_REQUESTS_WORDS) to->text[to->length - 1] = 0; /* its LF */
}

/* ---- the service ---- */

void service_note_unread(struct undofs *u, size_t page) { snprintf(u->message, SERVICE_MESSAGE, "page %zu of the part cannot be read", page); }

static void run_service(void *with) {
    struct undofs *u = with;
    u->status = u->serve((size_t)u, u->history);
}

/* A page that could not be read is told already. */
static void tell_why(struct undofs *u, const char *what, int why) {
    if (why != READ_FAILED) snprintf(u->message, SERVICE_MESSAGE, "%s: %d", what, why);
}

/* Runs the service until it waits for a line or is over; then it asks the driver for nothing any more. */
static void run(struct undofs *u) {
    u->is_running = 1;
    turns_go(u->turns);
    u->is_running = 0;
    if (!turns_are_over(u->turns)) return;
    u->gone = 1;
    leave(u);
    tell_why(u, "the file system ended", (int)u->status);
}

static int begin(struct undofs *u, int has_memory) {
    if (!has_memory) return UNDOFS_NO_MEMORY;
    if (!enter(u)) return UNDOFS_BUSY;
    u->turns = turns_new(run_service, u);
    if (u->turns == NULL) {
        leave(u);
        return UNDOFS_NO_MEMORY;
    }
    run(u);
    if (!u->gone) return 0;
    return u->status >= 1 && u->status <= 31 ? (int)u->status : UNDOFS_GONE;
}

int service_start(struct undofs *u, int has_memory) {
    u->none.failed = 1;
    int why = begin(u, has_memory);
    if (why == 0) return 0;
    u->gone = 1;
    tell_why(u, "no file system", why);
    return why;
}

void undofs_end(struct undofs *u) {
    if (u == NULL || u->is_running) return; /* asked by the driver */
    u->is_ending = 1;
    if (!u->gone) run(u);
    turns_free(u->turns);
    u->drop(u);
    free(u->line.text);
    free(u->replied.text);
    free(u);
}

void undofs_set_wait(struct undofs *u, unsigned seconds) {
    (void)u;
    (void)seconds;
}

int undofs_is_there(const struct undofs *u) { return !u->gone; }

const char *undofs_message(const struct undofs *u) { return u->message; }

uint64_t undofs_orders(const struct undofs *u) { return *u->orders; }

uint64_t undofs_erases(const struct undofs *u) { return *u->erases; }

/* ---- lines and replies ---- */

struct undofs_lines *undofs_line(struct undofs *u) {
    if (u->is_running) return &u->none;
    u->line.length = 0;
    u->line.failed = 0;
    return &u->line;
}

/* Room for short replies is made before the lines are given, so that a change is never carried out and not told. */
int undofs_exchange(struct undofs *u, const struct undofs_lines *lines) {
    if (u->is_running) return UNDOFS_BUSY;
    if (u->gone) return UNDOFS_GONE;
    u->replied.length = 0;
    u->reply_count = 0;
    u->has_no_memory = 0;
    if (lines->failed || !undofs_has_room(&u->replied, SHORT_REPLIES)) return UNDOFS_NO_MEMORY;
    u->lines = lines->text;
    u->lines_end = lines->text + lines->length;
    if (lines->length > 0) run(u);
    if (u->gone) return UNDOFS_GONE;
    if (u->has_no_memory) return UNDOFS_NO_MEMORY;
    return undofs_first_refusal(&u->replied, u->reply_count);
}

char *undofs_reply(struct undofs *u, size_t index) { return undofs_reply_of(&u->replied, index); }
