#include "buffers.h"

#include <inttypes.h>
#include <stdio.h>

uint64_t number_at(const uint8_t *bytes, size_t width) {
    uint64_t value = 0;
    for (size_t i = 0; i < width; i++) value = value << 8 | bytes[i];
    return value;
}

void put_number(uint8_t *bytes, size_t width, uint64_t value) {
    for (size_t i = width; i-- > 0; value >>= 8) bytes[i] = (uint8_t)value;
}

uint64_t pointer(const uint8_t *bytes, size_t at) { return number_at(bytes + at, 8); }
uint64_t cell(const uint8_t *bytes, size_t at) { return number_at(bytes + at, 4); }

void show_state(const uint8_t *state) {
    printf("%" PRIu64 " ", cell(state, GLIDECOTTON_COUNTER));
    printf("%" PRIu64 " %" PRIu64 " ", pointer(state, GLIDECOTTON_P), pointer(state, GLIDECOTTON_R));
    printf("%" PRIu64 " %" PRIu64 " ", pointer(state, GLIDECOTTON_S), pointer(state, GLIDECOTTON_E));
    printf("%" PRIu64 " %" PRIu64 "\n", cell(state, GLIDECOTTON_THROWN_ADDRESS), cell(state, GLIDECOTTON_THROWN_CODE));
}

struct counted counted_in(const uint8_t *result) {
    return (struct counted){pointer(result, GLIDECOTTON_ANSWER), pointer(result, GLIDECOTTON_STEPS), pointer(result, GLIDECOTTON_CYCLES),
                            pointer(result, GLIDECOTTON_SUM)};
}

struct counted after(struct counted before, struct counted now) {
    return (struct counted){now.answer, before.steps + now.steps, before.cycles + now.cycles, now.sum};
}

static uint64_t added_up(const uint8_t *memory) {
    uint64_t sum = 0;
    for (size_t i = 0; i < GLIDECOTTON_MEMORY; i++) sum += memory[i];
    return sum;
}

void show_sum(uint64_t sum, const uint8_t *memory) { printf("  sum %" PRIu64 " %" PRIu64 "\n", sum, added_up(memory)); }
