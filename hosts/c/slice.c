#include "slice.h"

#include <inttypes.h>
#include <stdio.h>
#include <stdlib.h>

struct counted run_slice(uint8_t *state, uint8_t *memory, uint64_t steps, uint64_t sum) {
    uint8_t result[GLIDECOTTON_RESULT];
    if (glidecotton_run_state(state, GLIDECOTTON_STATE, memory, GLIDECOTTON_MEMORY, steps, sum, result, sizeof result) != 0) abort();
    return counted_in(result);
}

void show_line(struct counted all, const uint8_t *state) {
    printf("%" PRIu64 " %" PRIu64 " %" PRIu64 " ", all.answer, all.steps, all.cycles);
    show_state(state);
}

void show_cells(const uint8_t *state) {
    uint64_t depth = pointer(state, GLIDECOTTON_P);
    for (uint64_t i = 0; i < depth; i++) printf("%08" PRIX64 "\n", cell(state, GLIDECOTTON_CELLS + 4 * i));
}
