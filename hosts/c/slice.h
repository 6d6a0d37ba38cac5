/* One slice of a machine that is held as bytes, and the machine shown as the bench program shows it. */

#ifndef SLICE_H
#define SLICE_H

#include "buffers.h"

/* One call of the library; the state is ready for the next call, which is given the sum that this one leaves. */
struct counted run_slice(uint8_t *state, uint8_t *memory, uint64_t steps, uint64_t sum);

/* Prints the bench program's line, and its lines of cells. */
void show_line(struct counted all, const uint8_t *state);
void show_cells(const uint8_t *state);

#endif
