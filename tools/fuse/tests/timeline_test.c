/* Which version was present when. The status is 0 where all was right. */
#include "../timeline.h"
#include <stdio.h>

static int wrong;

static void want(long long found, long long wanted, const char *what) {
    if (found == wanted) return;
    printf("%s: %lld in place of %lld\n", what, found, wanted);
    wrong = 1;
}

static struct timespec at(long seconds) { return (struct timespec){seconds, 500}; }
static long long present(long seconds) { return (long long)timeline_present_at(at(seconds)); }

static long long made(uint64_t serial) {
    struct timespec time = {-1, 0};
    return timeline_made_at(serial, &time) ? (long long)time.tv_sec : -1;
}

static void follow(void) {
    want(present(1000), 0, "with no moment");
    timeline_made(1, at(100));
    timeline_made(2, at(200));
    timeline_leapt(1, at(300)); /* an undo */
    timeline_made(3, at(400));
    want(present(99), 0, "before the first");
    want(present(100), 1, "at the moment");
    want((long long)timeline_present_at((struct timespec){200, 499}), 1, "a moment before");
    want(present(250), 2, "of one that is discarded now");
    want(present(350), 1, "after an undo");
    want(present(5000), 3, "later");
    timeline_unknown(at(500));
    timeline_leapt(7, at(600));
    want(present(550), 0, "while nothing was known");
    want(present(650), 7, "known again");
    want(made(2), 200, "when it was made");
    want(made(7), -1, "of one that was only met");
    timeline_made(8, at(450)); /* the clock was set back */
    want(present(460), 8, "what came last counts");
}

static void let_the_oldest_go(void) {
    timeline_clear();
    want((long long)timeline_count(), 0, "after a clear");
    for (uint64_t serial = 1; serial < 20000; serial++) timeline_made(serial, at((long)serial));
    want(timeline_count() <= 4096, 1, "no more than 4,096 moments");
    want(present(19000), 19000, "one that is kept");
    want(made(19000), 19000, "its time");
    want(present(5), 0, "one that was let go");
}

int main(void) {
    follow();
    let_the_oldest_go();
    return wrong;
}
