/* The child and the pipes to it: lines go in, replies come out, and between them its orders are carried out. */
#define _GNU_SOURCE
#include "undofs_client.h"
#include "undofs_wire.h"
#include <errno.h>
#include <fcntl.h>
#include <poll.h>
#include <signal.h>
#include <stdio.h>
#include <stdlib.h>
#include <string.h>
#include <sys/wait.h>
#include <time.h>
#include <unistd.h>

const int undofs_takes_bytes = 0;

enum { MOST_PAGE = 4096, MESSAGE = 512, LONG_PIPE = 1 << 20 };

struct undofs {
    const struct undofs_driver *driver;
    int lines, replies; /* the child's standard streams; lines are written without waiting */
    int orders, answers;
    int errors;
    pid_t child;
    int gone;
    unsigned wait;     /* so many seconds the child may stand still; 0 for ever */
    double last_moved; /* when it gave or took a byte */
    uint64_t order_count, erase_count;
    struct undofs_lines line; /* that of a call */
    struct undofs_replies replied;
    char message[MESSAGE];
};

static int write_all(int to, const uint8_t *bytes, size_t count) {
    while (count > 0) {
        ssize_t written = write(to, bytes, count);
        if (written < 0 && errno == EINTR) continue;
        if (written <= 0) return -1;
        bytes += written;
        count -= (size_t)written;
    }
    return 0;
}

/* ---- waiting ---- */

static double seconds_now(void) {
    struct timespec now;
    clock_gettime(CLOCK_MONOTONIC, &now);
    return (double)now.tv_sec + (double)now.tv_nsec / 1e9;
}

/* Milliseconds until the child has stood still for too long; -1 for ever. */
static int wait_left(const struct undofs *u) {
    if (u->wait == 0) return -1;
    double left = u->last_moved + u->wait - seconds_now();
    return left <= 0 ? 0 : left > 1e6 ? 1000000000 : (int)(left * 1000) + 1;
}

/* Waits until one of the streams is ready. Not 0 where none was for too long, or where that cannot be told. */
static int wait_for(struct undofs *u, struct pollfd *streams, nfds_t count) {
    int ready;
    do ready = poll(streams, count, wait_left(u));
    while ((ready < 0 && errno == EINTR) || (ready == 0 && wait_left(u) > 0));
    if (ready <= 0) return -1;
    u->last_moved = seconds_now();
    return 0;
}

/* ---- the driver's side ---- */

enum { ORDER_HEAD = 5 };

/* Reads an order up to `wanted` bytes, and no more than `room`: no other one comes before the answer. The first are there. */
static int read_order(struct undofs *u, uint8_t *order, size_t *had, size_t wanted, size_t room) {
    while (*had < wanted) {
        struct pollfd stream = {u->orders, POLLIN, 0};
        if (*had > 0 && wait_for(u, &stream, 1) != 0) return -1;
        ssize_t got = read(u->orders, order + *had, room - *had);
        if (got < 0 && errno == EINTR) continue;
        if (got <= 0) return -1;
        *had += (size_t)got;
    }
    return 0;
}

static int carry_out_order(struct undofs *u) {
    const struct undofs_driver *d = u->driver;
    uint8_t order[ORDER_HEAD + MOST_PAGE];
    size_t had = 0, whole = ORDER_HEAD + d->sizes.page;
    if (read_order(u, order, &had, ORDER_HEAD, whole) != 0) return -1;
    uint32_t number = (uint32_t)order[1] | (uint32_t)order[2] << 8 | (uint32_t)order[3] << 16 | (uint32_t)order[4] << 24;
    enum undofs_answer answer;
    if (order[0] == 'p' && number / d->sizes.pages < d->sizes.blocks) {
        if (read_order(u, order, &had, whole, whole) != 0) return -1;
        answer = d->program_page(d->part, number, order + ORDER_HEAD);
    } else if (order[0] == 'e' && number < d->sizes.blocks) {
        answer = d->erase_block(d->part, number);
    } else {
        return -1;
    }
    u->order_count++;
    u->erase_count += order[0] == 'e';
    u->last_moved = seconds_now(); /* the driver took its time, and not the child */
    uint8_t byte = (uint8_t)answer;
    return write_all(u->answers, &byte, 1);
}

static void put_number(uint8_t *to, uint64_t number, size_t bytes) {
    for (size_t i = 0; i < bytes; i++) to[i] = (uint8_t)(number >> 8 * i);
}

/* Tells what the part holds: the length of an image, and the image. */
static int tell_image(struct undofs *u) {
    const struct undofs_driver *d = u->driver;
    const struct undofs_sizes *s = &d->sizes;
    size_t most = 8 + 20 + (size_t)s->blocks * (1 + (size_t)s->pages * (1 + s->page));
    uint8_t *text = malloc(most), *at = text + 28;
    if (text == NULL) return UNDOFS_NO_MEMORY;
    memcpy(text + 8, "UFFSIMG1", 8);
    put_number(text + 16, s->page, 4);
    put_number(text + 20, s->pages, 4);
    put_number(text + 24, s->blocks, 4);
    int why = 0;
    for (uint32_t page = 0; page < s->blocks * s->pages && why == 0; page++) {
        if (page % s->pages == 0) *at++ = 0;
        enum undofs_state state = d->read_page(d->part, page, at + 1);
        if (state == UNDOFS_NOT_READ) {
            snprintf(u->message, MESSAGE, "page %u of the part cannot be read", page);
            why = UNDOFS_NO_READ;
        }
        *at = (uint8_t)state;
        at += state == UNDOFS_DATA ? 1 + s->page : 1;
    }
    size_t length = (size_t)(at - text);
    put_number(text, length - 8, 8);
    if (why == 0 && write_all(u->answers, text, length) != 0) why = UNDOFS_GONE;
    free(text);
    return why;
}

/* ---- the child ---- */

/* Signals that end the caller are not for the child: it ends when its lines do, and what was asked last is carried out. */
static void become_child(const char *program, char **words, int in, int out, int error, int answers, int orders) {
    signal(SIGINT, SIG_IGN);
    signal(SIGTERM, SIG_IGN);
    signal(SIGHUP, SIG_IGN);
    int is_set = dup2(in, 0) == 0 && dup2(out, 1) == 1 && dup2(error, 2) == 2;
    if (is_set && fcntl(answers, F_SETFD, 0) == 0 && fcntl(orders, F_SETFD, 0) == 0) execvp(program, words);
    _exit(127);
}

struct ends {
    int read, write;
};

static int make_pipes(struct ends *pipes, size_t count) {
    for (size_t i = 0; i < count; i++) {
        int both[2];
        if (pipe2(both, O_CLOEXEC) != 0) return -1;
        /* no descriptor is a standard stream, so that none is lost where the child's are put there */
        pipes[i].read = fcntl(both[0], F_DUPFD_CLOEXEC, 3);
        pipes[i].write = fcntl(both[1], F_DUPFD_CLOEXEC, 3);
        close(both[0]);
        close(both[1]);
        if (pipes[i].read < 0 || pipes[i].write < 0) return -1;
    }
    return 0;
}

static void close_pipes(struct ends *pipes, size_t count) {
    for (size_t i = 0; i < count; i++) {
        if (pipes[i].read >= 0) close(pipes[i].read);
        if (pipes[i].write >= 0) close(pipes[i].write);
    }
}

static int start_child(struct undofs *u, const char *program, uint32_t history) {
    enum { IN, OUT, ERROR, ORDERS, ANSWERS, COUNT };
    struct ends pipes[COUNT] = {{-1, -1}, {-1, -1}, {-1, -1}, {-1, -1}, {-1, -1}};
    if (make_pipes(pipes, COUNT) != 0) {
        close_pipes(pipes, COUNT);
        return UNDOFS_NO_CHILD;
    }
    char answers[32], orders[32], kept[16], serve[] = "serve", option[] = "--history";
    snprintf(answers, sizeof answers, "/proc/self/fd/%d", pipes[ANSWERS].read);
    snprintf(orders, sizeof orders, "/proc/self/fd/%d", pipes[ORDERS].write);
    snprintf(kept, sizeof kept, "%u", history);
    char *name = strdup(program);
    char *words[] = {name, serve, answers, orders, history != 0 ? option : NULL, kept, NULL};
    u->child = name == NULL ? -1 : fork();
    if (u->child == 0) become_child(name, words, pipes[IN].read, pipes[OUT].write, pipes[ERROR].write, pipes[ANSWERS].read, pipes[ORDERS].write);
    free(name);
    if (u->child < 0) {
        close_pipes(pipes, COUNT);
        return UNDOFS_NO_CHILD;
    }
    u->lines = pipes[IN].write;
    u->replies = pipes[OUT].read;
    u->errors = pipes[ERROR].read;
    u->orders = pipes[ORDERS].read;
    u->answers = pipes[ANSWERS].write;
    struct ends given[COUNT] = {{pipes[IN].read, -1}, {pipes[OUT].write, -1}, {pipes[ERROR].write, -1}, {pipes[ORDERS].write, -1}, {pipes[ANSWERS].read, -1}};
    close_pipes(given, COUNT);
    (void)fcntl(u->replies, F_SETPIPE_SZ, LONG_PIPE); /* fewer ways to and fro, where the host allows it */
    return fcntl(u->lines, F_SETFL, O_NONBLOCK) == 0 ? 0 : UNDOFS_NO_CHILD;
}

/* Keeps what the child told on standard error, up to its end. One that stands still is killed. */
static void read_message(struct undofs *u) {
    size_t told = 0;
    u->last_moved = seconds_now();
    while (told < MESSAGE - 1) {
        struct pollfd stream = {u->errors, POLLIN, 0};
        if (wait_for(u, &stream, 1) != 0) {
            (void)kill(u->child, SIGKILL);
            break;
        }
        ssize_t got = read(u->errors, u->message + told, MESSAGE - 1 - told);
        if (got < 0 && errno == EINTR) continue;
        if (got <= 0) break;
        told += (size_t)got;
    }
    if (told > 0) u->message[told] = 0;
}

/* Closes the child's streams, waits for it and keeps what it told. */
static void end_child(struct undofs *u) {
    if (u->child <= 0) return;
    close(u->lines);
    close(u->answers);
    close(u->orders);
    close(u->replies);
    if (u->message[0] == 0) read_message(u); /* else it tells already why the child was not begun with */
    close(u->errors);
    while (waitpid(u->child, NULL, 0) < 0 && errno == EINTR) {
    }
    u->child = 0;
}

static int is_gone(struct undofs *u) {
    if (u->child > 0 && wait_left(u) == 0) (void)kill(u->child, SIGKILL);
    end_child(u);
    u->gone = 1;
    return UNDOFS_GONE;
}

/* Why the child ended at the start, by the number at the end of its message. */
static int refusal_told(const struct undofs *u) {
    const char *number = strrchr(u->message, ' ');
    unsigned long why = number != NULL ? strtoul(number, NULL, 10) : 0;
    if (why >= 1 && why <= 31) return (int)why;
    return UNDOFS_GONE;
}

int undofs_start(struct undofs **handle, const char *program, const struct undofs_driver *driver, uint32_t history) {
    *handle = NULL;
    if (!undofs_are_lawful(&driver->sizes)) return UNDOFS_NO_IMAGE;
    struct undofs *u = calloc(1, sizeof *u);
    if (u == NULL) return UNDOFS_NO_MEMORY;
    signal(SIGPIPE, SIG_IGN);
    u->driver = driver;
    int why = start_child(u, program != NULL ? program : "uffs", history);
    if (why == 0) why = tell_image(u);
    const char *log;
    if (why == 0) why = undofs_log(u, &log);
    if (why == UNDOFS_GONE) {
        (void)is_gone(u);
        why = refusal_told(u);
    }
    *handle = u;
    if (why != 0) end_child(u);
    if (why != 0) u->gone = 1;
    return why;
}

void undofs_set_wait(struct undofs *u, unsigned seconds) { u->wait = seconds; }

void undofs_end(struct undofs *u) {
    if (u == NULL) return;
    end_child(u);
    free(u->line.text);
    free(u->replied.text);
    free(u);
}

int undofs_is_there(const struct undofs *u) {
    siginfo_t ended = {0};
    if (u->gone || u->child <= 0) return 0;
    return waitid(P_PID, (id_t)u->child, &ended, WEXITED | WNOHANG | WNOWAIT) == 0 && ended.si_pid == 0;
}

const char *undofs_message(const struct undofs *u) { return u->message; }

uint64_t undofs_orders(const struct undofs *u) { return u->order_count; }

uint64_t undofs_erases(const struct undofs *u) { return u->erase_count; }

/* ---- lines and replies ---- */

struct undofs_lines *undofs_line(struct undofs *u) {
    u->line.length = 0;
    u->line.failed = 0;
    return &u->line;
}

/* Reads what there is of replies, and ends each by NUL. How many ended, or -1. */
static int take_replies(struct undofs *u) {
    enum { SOME = 1 << 18 };
    struct undofs_replies *replied = &u->replied;
    if (!undofs_has_room(replied, SOME)) return -1;
    ssize_t got = read(u->replies, replied->text + replied->length, SOME);
    if (got < 0 && errno == EINTR) return 0;
    if (got <= 0) return -1;
    int ended = 0;
    char *end = replied->text + replied->length + got;
    for (char *at = replied->text + replied->length; (at = memchr(at, '\n', (size_t)(end - at))) != NULL;) {
        *at++ = 0;
        ended++;
    }
    replied->length += (size_t)got;
    return ended;
}

/* The pipes are shorter than what goes through them: lines, orders and replies move as each is ready. */
int undofs_exchange(struct undofs *u, const struct undofs_lines *lines) {
    size_t wanted = 0, had = 0, sent = 0;
    int orders = u->orders;
    u->replied.length = 0;
    if (lines->failed) return UNDOFS_NO_MEMORY;
    if (u->gone) return UNDOFS_GONE;
    const char *end = lines->text + lines->length;
    for (const char *at = lines->text; at < end && (at = memchr(at, '\n', (size_t)(end - at))) != NULL; at++) wanted++;
    u->last_moved = seconds_now();
    while (had < wanted) {
        int to = sent < lines->length ? u->lines : -1;
        struct pollfd ends[3] = {{u->replies, POLLIN, 0}, {orders, POLLIN, 0}, {to, POLLOUT, 0}};
        if (wait_for(u, ends, 3) != 0) return is_gone(u);
        if (ends[1].revents & POLLIN) {
            if (carry_out_order(u) != 0) return is_gone(u);
            continue;
        }
        if (ends[1].revents != 0) orders = -1; /* closed: no order comes any more */
        if (ends[0].revents != 0) {
            int ended = take_replies(u);
            if (ended < 0) return is_gone(u);
            had += (size_t)ended;
            continue;
        }
        if (ends[2].revents != 0) {
            ssize_t written = write(u->lines, lines->text + sent, lines->length - sent);
            if (written < 0 && errno != EAGAIN && errno != EINTR) return is_gone(u);
            if (written > 0) sent += (size_t)written;
        }
    }
    return undofs_first_refusal(&u->replied, wanted);
}

char *undofs_reply(struct undofs *u, size_t index) { return undofs_reply_of(&u->replied, index); }
