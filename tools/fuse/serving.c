#define _GNU_SOURCE
#include "serving.h"
#include "saves.h"
#include <errno.h>
#include <fcntl.h>
#include <fuse_lowlevel.h>
#include <poll.h>
#include <pthread.h>
#include <semaphore.h>
#include <signal.h>
#include <stdlib.h>
#include <string.h>
#include <sys/eventfd.h>
#include <unistd.h>

static struct fuse *served;

/* The second thread rests until `begun`, serves until it reads `stop`, and then says `ended`. So no lock is wanted: between the two the first
 * thread touches nothing of the daemon. */
static struct {
    pthread_t thread;
    sem_t begun, ended;
    int stop, is_over;
} second;

/* Takes a request, where one is there, and carries it out. 0 where none will come any more. */
static int is_served(struct fuse_session *session, struct fuse_buf *buffer) {
    int length = fuse_session_receive_buf(session, buffer);
    if (length == -EINTR || length == -EAGAIN) return 1; /* it was taken back */
    if (length <= 0) return 0;
    fuse_session_process_buf(session, buffer);
    return 1;
}

/* ---- the second thread ---- */

static void serve_until_stop(struct fuse_session *session, struct fuse_buf *buffer) {
    struct pollfd ends[2] = {{fuse_session_fd(session), POLLIN, 0}, {second.stop, POLLIN, 0}};
    uint64_t stops;
    while (read(second.stop, &stops, sizeof stops) < 0) {
        if (poll(ends, 2, -1) > 0 && ends[0].revents != 0 && !is_served(session, buffer)) ends[0].fd = -1;
    }
}

static void *serve_second(void *data) {
    struct fuse_session *session = data;
    struct fuse_buf buffer = {0};
    while (sem_wait(&second.begun) != 0 || !second.is_over) {
        serve_until_stop(session, &buffer);
        sem_post(&second.ended);
    }
    free(buffer.mem);
    return NULL;
}

/* Signals are for the first thread. */
static int start_second(struct fuse_session *session) {
    sigset_t all, before;
    second.stop = eventfd(0, EFD_CLOEXEC | EFD_NONBLOCK);
    if (second.stop < 0 || sem_init(&second.begun, 0, 0) != 0 || sem_init(&second.ended, 0, 0) != 0) return errno;
    sigfillset(&all);
    pthread_sigmask(SIG_SETMASK, &all, &before);
    int why = pthread_create(&second.thread, NULL, serve_second, session);
    pthread_sigmask(SIG_SETMASK, &before, NULL);
    return why;
}

static void end_second(void) {
    second.is_over = 1;
    sem_post(&second.begun);
    pthread_join(second.thread, NULL);
    close(second.stop);
}

void serving_drop_pages(const struct paths *paths) {
    const uint64_t one = 1;
    sem_post(&second.begun);
    for (size_t i = 0; i < paths->count; i++) (void)fuse_invalidate_path(served, paths->paths[i]); /* ENOENT: the kernel has none */
    if (write(second.stop, &one, sizeof one) != (ssize_t)sizeof one) abort();
    while (sem_wait(&second.ended) != 0) {
    }
}

/* ---- the first thread ---- */

/* The signals that end the daemon are held but while it waits, and for a moment before each look whether one came: one that came between
 * the look and the wait would be waited past. */
static sigset_t ends, others;

static void hold_ends(void) {
    sigemptyset(&ends);
    sigaddset(&ends, SIGINT);
    sigaddset(&ends, SIGHUP);
    sigaddset(&ends, SIGTERM);
    (void)pthread_sigmask(SIG_BLOCK, &ends, &others);
}

static int is_ended(struct fuse_session *session) {
    (void)pthread_sigmask(SIG_SETMASK, &others, NULL);
    (void)pthread_sigmask(SIG_BLOCK, &ends, NULL);
    return fuse_session_exited(session);
}

/* Whether a request is there after so many milliseconds at most; with -1 they have no end. */
static int is_waited_for(struct pollfd *request, int milliseconds) {
    const struct timespec time = {milliseconds / 1000, milliseconds % 1000 * 1000000L};
    return ppoll(request, 1, milliseconds < 0 ? NULL : &time, &others) > 0;
}

/* Requests are done one by one. Between them what is due is done; that nothing changes for a while shows only where no request waits. */
int serve_folder(struct fuse *fuse) {
    struct fuse_session *session = fuse_get_session(fuse);
    struct pollfd request = {fuse_session_fd(session), POLLIN, 0};
    struct fuse_buf buffer = {0};
    int flags = fcntl(request.fd, F_GETFL), is_there = 1;
    if (flags < 0 || fcntl(request.fd, F_SETFL, flags | O_NONBLOCK) != 0) return errno;
    served = fuse;
    int why = start_second(session);
    if (why != 0) return why;
    hold_ends();
    while (is_there && !is_ended(session)) {
        int is_waiting = poll(&request, 1, 0) > 0, due = saves_due(is_waiting);
        if (is_waiting || is_waited_for(&request, due)) is_there = is_served(session, &buffer);
    }
    end_second();
    free(buffer.mem);
    return 0;
}
