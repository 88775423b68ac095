/* For tests, by -Wl,--wrap=realloc -Wl,--wrap=free: what realloc gives grows in place, in one large region a block, so that the pointer
 * always stays. Bytes after the pages of a block end the program. */
#define _GNU_SOURCE
#include <stddef.h>
#include <stdlib.h>
#include <sys/mman.h>

enum { REGIONS = 256, PAGE = 4096 };

static const size_t region = (size_t)1 << 30;
static char *regions[REGIONS];

void *__real_realloc(void *memory, size_t size);
void __real_free(void *memory);
void *__wrap_realloc(void *memory, size_t size);
void __wrap_free(void *memory);

static char **slot_of(const void *memory) {
    for (int i = 0; i < REGIONS; i++) {
        if (regions[i] == memory) return &regions[i];
    }
    return NULL;
}

void *__wrap_realloc(void *memory, size_t size) {
    char **slot = slot_of(memory);
    if (slot == NULL) return __real_realloc(memory, size);
    if (memory == NULL) {
        char *made = mmap(NULL, region, PROT_NONE, MAP_PRIVATE | MAP_ANONYMOUS | MAP_NORESERVE, -1, 0);
        if (made == MAP_FAILED) return NULL;
        *slot = made;
    }
    if (size > region || mprotect(*slot, (size + PAGE - 1) / PAGE * PAGE, PROT_READ | PROT_WRITE) != 0) return NULL;
    return *slot;
}

void __wrap_free(void *memory) {
    char **slot = memory == NULL ? NULL : slot_of(memory);
    if (slot == NULL) {
        __real_free(memory);
        return;
    }
    munmap(*slot, region);
    *slot = NULL;
}
