/* Turns by a stack of its own, and no thread. */
#define _GNU_SOURCE
#include "turns.h"
#include <signal.h>
#include <stdint.h>
#include <stdlib.h>
#include <sys/mman.h>
#include <ucontext.h>

enum { STACK = 1 << 20, GUARD = 1 << 16 };

struct turns {
    ucontext_t caller, own;
    char *stack;
    void (*run)(void *with);
    void *with;
    int is_over;
};

/* makecontext hands on numbers, so an address goes as two. */
static void begin(unsigned high, unsigned low) {
    struct turns *turns = (struct turns *)((uintptr_t)high << 32 | low);
    turns->run(turns->with);
    turns->is_over = 1;
}

/* A stack whose lowest bytes cannot be touched; what is never used of it takes no memory. */
static char *stack_new(void) {
    int kind = MAP_PRIVATE | MAP_ANONYMOUS | MAP_STACK | MAP_NORESERVE;
    char *stack = mmap(NULL, STACK, PROT_READ | PROT_WRITE, kind, -1, 0);
    if (stack == MAP_FAILED) return NULL;
    if (mprotect(stack, GUARD, PROT_NONE) == 0) return stack;
    munmap(stack, STACK);
    return NULL;
}

static int is_prepared(struct turns *turns) {
    uintptr_t at = (uintptr_t)turns;
    if (getcontext(&turns->own) != 0) return 0;
    turns->own.uc_stack.ss_sp = turns->stack;
    turns->own.uc_stack.ss_size = STACK;
    turns->own.uc_link = &turns->caller;
    makecontext(&turns->own, (void (*)(void))begin, 2, (unsigned)(at >> 32), (unsigned)at);
    return 1;
}

struct turns *turns_new(void (*run)(void *with), void *with) {
    struct turns *turns = calloc(1, sizeof *turns);
    if (turns == NULL) return NULL;
    turns->run = run;
    turns->with = with;
    turns->stack = stack_new();
    if (turns->stack != NULL && is_prepared(turns)) return turns;
    turns_free(turns);
    return NULL;
}

/* Signals that the caller holds are held meanwhile; swapcontext by itself brings back those of the last turn. */
void turns_go(struct turns *turns) {
    (void)pthread_sigmask(SIG_SETMASK, NULL, &turns->own.uc_sigmask);
    swapcontext(&turns->caller, &turns->own);
}

void turns_give_way(struct turns *turns) { swapcontext(&turns->own, &turns->caller); }

int turns_are_over(const struct turns *turns) { return turns->is_over; }

void turns_free(struct turns *turns) {
    if (turns == NULL) return;
    if (turns->stack != NULL) munmap(turns->stack, STACK);
    free(turns);
}
