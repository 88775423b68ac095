/* Makes an image in memory, updates two files as one version, and takes the update back. */
#include "undofs.h"
#include <stdio.h>
#include <stdlib.h>
#include <string.h>

enum { ROOM = 1 << 20, REPLY_ROOM = 4096 };

static uint8_t image[ROOM];
static size_t length;

/* Runs a script, and prints its replies. */
static void run(const char *script) {
    static uint8_t replies[REPLY_ROOM];
    size_t replied = 0;
    uint32_t why = undofs_run(image, ROOM, &length, (const uint8_t *)script, strlen(script), replies,
                              REPLY_ROOM, &replied);
    if (why != 0) {
        printf("refused %u\n", why);
        exit(1);
    }
    printf("%.*s", (int)replied, (const char *)replies);
}

int main(void) {
    printf("format of pages of 300 bytes: %u\n", undofs_format(300, 16, 32, 8, image, ROOM, &length));
    printf("format: %u\n", undofs_format(256, 16, 32, 8, image, ROOM, &length));
    run("begin\nmkdir /new\nopen /new/name 6\npwrite 0 0 70756d70\nclose 0\nend\nsync\n");
    run("read /new/name 0 4\n");
    run("undo\nls /\nsync\n");
    printf("check: %u\n", undofs_check(image, length));
    printf("check of half of it: %u\n", undofs_check(image, length / 2));
    return 0;
}
