/* The sum of a page, by which a driver is held to what it showed. */
#ifndef SHOWN_SUMS_H
#define SHOWN_SUMS_H

#include <stddef.h>
#include <stdint.h>
#include <string.h>

/* Of a whole page, whose bytes are a multiple of eight. Each step can be undone, so that no change of eight bytes is lost in it;
 * the lower half of the last one has the upper half in it. */
static inline uint32_t sum_of(const uint8_t *bytes, size_t count) {
    uint64_t sum = 0, word;
    for (size_t i = 0; i + sizeof word <= count; i += sizeof word) {
        memcpy(&word, bytes + i, sizeof word);
        sum = (sum ^ word) * 0x9E3779B97F4A7C15u;
        sum ^= sum >> 32;
    }
    return (uint32_t)sum;
}

#endif
