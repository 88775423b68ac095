/* Turns by a thread and two semaphores: one of the two runs at a time. */
#define _GNU_SOURCE
#include "turns.h"
#include <errno.h>
#include <pthread.h>
#include <semaphore.h>
#include <signal.h>
#include <stdlib.h>

struct turns {
    sem_t caller, own; /* each: that its side may run */
    pthread_t thread;
    void (*run)(void *with);
    void *with;
    int is_begun, is_over;
};

static void wait_for(sem_t *semaphore) {
    while (sem_wait(semaphore) != 0 && errno == EINTR) {
    }
}

static void *begin(void *with) {
    struct turns *turns = with;
    wait_for(&turns->own);
    if (turns->is_begun) turns->run(turns->with);
    turns->is_over = 1;
    sem_post(&turns->caller);
    return NULL;
}

/* Signals are for the threads of the caller. */
static int is_thread_begun(struct turns *turns) {
    sigset_t all, before;
    sigfillset(&all);
    (void)pthread_sigmask(SIG_SETMASK, &all, &before);
    int is_begun = pthread_create(&turns->thread, NULL, begin, turns) == 0;
    (void)pthread_sigmask(SIG_SETMASK, &before, NULL);
    return is_begun;
}

struct turns *turns_new(void (*run)(void *with), void *with) {
    struct turns *turns = calloc(1, sizeof *turns);
    if (turns == NULL) return NULL;
    turns->run = run;
    turns->with = with;
    int is_made = sem_init(&turns->caller, 0, 0) == 0 && sem_init(&turns->own, 0, 0) == 0;
    if (is_made && is_thread_begun(turns)) return turns;
    free(turns);
    return NULL;
}

void turns_go(struct turns *turns) {
    turns->is_begun = 1;
    sem_post(&turns->own);
    wait_for(&turns->caller);
}

void turns_give_way(struct turns *turns) {
    sem_post(&turns->caller);
    wait_for(&turns->own);
}

int turns_are_over(const struct turns *turns) { return turns->is_over; }

void turns_free(struct turns *turns) {
    if (turns == NULL) return;
    if (!turns->is_over) sem_post(&turns->own); /* it has not begun: its thread ends */
    pthread_join(turns->thread, NULL);
    sem_destroy(&turns->caller);
    sem_destroy(&turns->own);
    free(turns);
}
