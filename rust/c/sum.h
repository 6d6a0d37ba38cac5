/* The memory sum: what all bytes of memory add up to, modulo 2^32. Each store tells what it adds, so that no run adds up the memory. */

#ifndef SUM_H
#define SUM_H

#include "machine.h"

enum { MOST_SUM = 255 * MEMORY }; /* every byte is FF */

static uint32_t sum_of(const uint8_t *bytes, size_t count) {
    uint32_t sum = 0;
    for (size_t i = 0; i < count; i++) sum += bytes[i];
    return sum;
}

/* Each puts the low bytes of v in the place of those that stand there, and gives what the sum gains by it. */
static inline uint32_t put8(uint8_t *b, uint32_t v) {
    uint32_t gain = (v & 0xFF) - b[0];
    b[0] = (uint8_t)v;
    return gain;
}

static inline uint32_t put16(uint8_t *b, uint32_t v) {
    uint32_t gain = (v >> 8 & 0xFF) + (v & 0xFF) - b[0] - b[1];
    b[0] = (uint8_t)(v >> 8);
    b[1] = (uint8_t)v;
    return gain;
}

/* Of four bytes, the sums of two and two, one in each half. */
static inline uint32_t halves(uint32_t v) { return (v & 0x00FF00FF) + (v >> 8 & 0x00FF00FF); }

static inline uint32_t put32(uint8_t *b, uint32_t v) {
    uint32_t old; /* in this machine's order, which is nothing to a sum */
    memcpy(&old, b, 4);
    uint32_t gains = halves(v) + 0x04000400 - halves(old); /* 1024 more in each half, so that none goes below 0 */
    b[0] = (uint8_t)(v >> 24);
    b[1] = (uint8_t)(v >> 16);
    b[2] = (uint8_t)(v >> 8);
    b[3] = (uint8_t)v;
    return (gains >> 16) + (gains & 0xFFFF) - 2 * 1024;
}

#endif
