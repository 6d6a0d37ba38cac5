/* What stands in the buffers that a host lends: numbers of some bytes, the highest first, what a run counted, and the memory's bytes. */

#ifndef BUFFERS_H
#define BUFFERS_H

#include "glidecotton.h"

struct counted {
    uint64_t answer, steps, cycles, sum;
};

uint64_t number_at(const uint8_t *bytes, size_t width);

void put_number(uint8_t *bytes, size_t width, uint64_t value);

/* A pointer of a state or a number of a result, and a cell. */
uint64_t pointer(const uint8_t *bytes, size_t at);
uint64_t cell(const uint8_t *bytes, size_t at);

/* Prints the numbers of a state that end the bench program's line: counter, P, R, S and E, address and code of the last throw. */
void show_state(const uint8_t *state);

struct counted counted_in(const uint8_t *result);

/* What this run answers, with the steps and cycles of those before it added, and the memory sum that it leaves. */
struct counted after(struct counted before, struct counted now);

/* Prints a memory sum that was handed out, and what the bytes add up to afresh. This is for comparison: a host needs the first alone. */
void show_sum(uint64_t sum, const uint8_t *memory);

#endif
