/* One session over a flat file, the same in process and over a child: sessions FILE SEED PAGE PAGES BLOCKS [PROGRAM]. It prints a
 * sum of all answers. */
#include "../../flat_file.h"
#include "calls.h"
#include <stdio.h>
#include <stdlib.h>

enum { CALLS = 300 };

static uint64_t sum = 1469598103934665603u;

static void add(const struct answer *answer) {
    sum = (sum ^ (uint64_t)answer->why) * 1099511628211u;
    for (size_t i = 0; i < answer->count; i++) sum = (sum ^ answer->bytes[i]) * 1099511628211u;
}

int main(int count, char **words) {
    static struct answer answer;
    struct undofs *handle;
    struct flat_file file;
    if (count < 6) return 2;
    struct undofs_sizes sizes = {(uint32_t)atoi(words[3]), (uint32_t)atoi(words[4]), (uint32_t)atoi(words[5])};
    if (flat_file_open(&file, words[1], &sizes, NULL) != 0) return 2;
    struct undofs_driver driver = flat_file_driver(&file);
    if (undofs_start(&handle, count > 6 ? words[6] : NULL, &driver, 8) != 0) return 1;
    uint32_t seed = (uint32_t)atoi(words[2]) * 2654435761u;
    unsigned done = 0;
    for (int i = 0; i < CALLS; i++) {
        struct call call = call_of(&seed);
        carry_out(handle, &call, &answer);
        done += answer.why == 0;
        add(&answer);
    }
    printf("%u of %d calls done, %llu orders, answers %016llx\n", done, CALLS, (unsigned long long)undofs_orders(handle), (unsigned long long)sum);
    undofs_end(handle);
    flat_file_close(&file);
    return 0;
}
