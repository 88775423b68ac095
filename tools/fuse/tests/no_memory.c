/* For tests, by -Wl,--wrap=asprintf: while the file that NO_MEMORY names is there, no memory is to be had for a text. */
#define _GNU_SOURCE
#include <stdarg.h>
#include <stdio.h>
#include <stdlib.h>
#include <unistd.h>

int __wrap_asprintf(char **text, const char *format, ...);

int __wrap_asprintf(char **text, const char *format, ...) {
    const char *file = getenv("NO_MEMORY");
    if (file != NULL && access(file, F_OK) == 0) return -1;
    va_list words;
    va_start(words, format);
    int length = vasprintf(text, format, words);
    va_end(words);
    return length;
}
