/* The state of the machine in plain C, and when it is well formed. */

#ifndef MACHINE_H
#define MACHINE_H

#include <stddef.h>
#include <stdint.h>
#include <string.h>

enum {
    MEMORY = 32768,
    SHARED = 16384, /* bytes that every task may touch; the parts follow */
    PART = 4096,    /* bytes of one task's own part */
    CELLS = 64,
    FRAMES = 32,
    CATCHES = 8,
    LOCALS = 16,
    CATCH_CELLS = 8,
    MAX_BUDGET = 1000000,
    DEFAULT_BUDGET = 250000,
    STATE_BYTES = 3548,
    MASK_AT = 3536,    /* where a state has the mask */
    WAITING_AT = 3540, /* and the lines that wait */
    RESULT_BYTES = 32,
    READ_RESULT_BYTES = 16,
    TEXT_BYTES = 800
};

enum { RTI_CODE = 0x3C, EXIT_CODE = 0x3D, PAUSE_CODE = 0x3E };

/* Address and bytes of the cells in view: the locals of level s, then the cells of level e. */
enum { VIEW = 0x10000, LOCAL_BYTES = 4 * LOCALS, VIEW_BYTES = LOCAL_BYTES + 4 * CATCH_CELLS };

/* The copies are 64 bits wide because a host may leave anything in levels above the pointers. */
struct frame {
    uint32_t locals[LOCALS];
    uint64_t copy_r;
    uint32_t ret;
};

struct level {
    uint32_t cells[CATCH_CELLS];
    uint64_t copy_s;
    uint64_t copy_p;
    uint32_t throw_to;
};

struct machine {
    uint32_t param[CELLS];
    uint64_t p;
    uint32_t ret[CELLS];
    uint64_t r;
    struct frame frames[FRAMES + 1];
    uint64_t s;
    struct level levels[CATCHES + 1];
    uint64_t e;
    uint32_t pc;
    uint32_t flag;
    uint32_t thrown_address; /* of the last THROW of non-zero that was carried out */
    uint32_t thrown_code;
    uint32_t mask;    /* bit n lets line n in */
    uint32_t waiting; /* bit n: line n waits */
    uint32_t block;   /* 1 while a routine is in progress */
};

/* Sum is 64 bits wide because a run that is refused hands back what a host handed in. */
struct outcome {
    uint64_t answer, steps, cycles, sum;
};

static const uint8_t CYCLES[63] = {
    1, 1, 1, 1, 1, 1, 1, 1, 1, 1, 1, 2, 1, 3, 1,  1, /* 00 */
    1, 1, 1, 1, 1, 1, 1, 1, 1, 1, 1, 1, 1, 1, 1,  1, /* 10 */
    1, 1, 1, 1, 1, 1, 1, 1, 1, 5, 5, 42, 41, 2, 2, 2, /* 20 */
    2, 2, 2, 2, 2, 2, 2, 2, 2, 2, 1, 1, 2, 2, 1,      /* 30 */
};

static uint32_t get16(const uint8_t *b) { return (uint32_t)b[0] << 8 | b[1]; }

static uint32_t get32(const uint8_t *b) {
    return (uint32_t)b[0] << 24 | (uint32_t)b[1] << 16 | (uint32_t)b[2] << 8 | b[3];
}

/* The cell with this byte of those in view. */
static inline uint32_t *cell_in_view(struct machine *m, uint64_t s, uint64_t e, uint32_t at) {
    return at < LOCAL_BYTES ? &m->frames[s].locals[at / 4] : &m->levels[e].cells[(at - LOCAL_BYTES) / 4];
}

/* How far this byte stands above the lowest of its cell. */
static inline uint32_t shift_in_cell(uint32_t at) { return 24 - 8 * (at % 4); }

static inline uint32_t get8_in_view(struct machine *m, uint64_t s, uint64_t e, uint32_t at) {
    return *cell_in_view(m, s, e, at) >> shift_in_cell(at) & 0xFF;
}

static inline void put8_in_view(struct machine *m, uint64_t s, uint64_t e, uint32_t at, uint32_t v) {
    uint32_t *cell = cell_in_view(m, s, e, at), shift = shift_in_cell(at);
    *cell = (*cell & ~(0xFFu << shift)) | (v & 0xFF) << shift;
}

/* Bytes lie in one cell or in two: in the upper half of a pair is the first byte's cell, in the lower half the last one's. */
static inline uint32_t get_in_view(struct machine *m, uint64_t s, uint64_t e, uint32_t at, uint32_t bytes) {
    uint64_t pair = (uint64_t)*cell_in_view(m, s, e, at) << 32 | *cell_in_view(m, s, e, at + bytes - 1);
    return (uint32_t)(pair << 8 * (at % 4) >> (64 - 8 * bytes));
}

static inline void put_in_view(struct machine *m, uint64_t s, uint64_t e, uint32_t at, uint32_t bytes, uint32_t v) {
    uint32_t *first = cell_in_view(m, s, e, at), *last = cell_in_view(m, s, e, at + bytes - 1);
    uint32_t shift = 64 - 8 * (at % 4 + bytes);
    uint64_t ones = ~(uint64_t)0 >> (64 - 8 * bytes) << shift;
    uint64_t pair = (((uint64_t)*first << 32 | *last) & ~ones) | ((uint64_t)v << shift & ones);
    *last = (uint32_t)pair;
    *first = (uint32_t)(pair >> 32); /* second, since a cell that is both is right in the upper half */
}

/* Nearly every longword is a whole cell. */
static inline uint32_t get32_in_view(struct machine *m, uint64_t s, uint64_t e, uint32_t at) {
    return at % 4 == 0 ? *cell_in_view(m, s, e, at) : get_in_view(m, s, e, at, 4);
}

static inline void put32_in_view(struct machine *m, uint64_t s, uint64_t e, uint32_t at, uint32_t v) {
    if (at % 4 == 0) *cell_in_view(m, s, e, at) = v;
    else put_in_view(m, s, e, at, 4, v);
}

static int well_formed(const struct machine *m) {
    if (m->p > CELLS || m->r > CELLS || m->s > FRAMES || m->e > CATCHES || m->flag > 1) return 0;
    if (m->mask > 0xFFFF || m->waiting > 0xFFFF || m->waiting & 1 || m->block > 1) return 0;
    for (uint64_t i = 1; i <= m->s; i++) {
        uint64_t above = i < m->s ? m->frames[i + 1].copy_r : m->r;
        if (m->frames[i].copy_r >= above) return 0;
    }
    for (uint64_t i = 1; i <= m->e; i++) {
        uint64_t above = i < m->e ? m->levels[i + 1].copy_s : m->s;
        if (m->levels[i].copy_s >= above || m->levels[i].copy_p > CELLS - 1) return 0;
    }
    return 1;
}

#endif
