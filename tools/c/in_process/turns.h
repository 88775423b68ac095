/* A function that runs in turn with its caller: on a stack of its own (turns_context.c), or in a thread of its own that
 * waits while its caller runs (turns_thread.c, to copy for a system with tasks and semaphores and no ucontext). */
#ifndef TURNS_H
#define TURNS_H

struct turns;

/* Makes one that has not begun. Null where there is no memory. */
struct turns *turns_new(void (*run)(void *with), void *with);
/* Runs the function, from where it stands, until it gives way or returns. Not after it returned. */
void turns_go(struct turns *turns);
/* Called inside of the function: the caller goes on. Returns at the next turns_go. */
void turns_give_way(struct turns *turns);
/* Whether the function has returned. */
int turns_are_over(const struct turns *turns);
/* Frees one that has not begun or has returned; null is allowed. */
void turns_free(struct turns *turns);

#endif
