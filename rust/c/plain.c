/* The machine in plain C: the yardstick that the speed table divides by.
   Written for speed and no more; every check of the rules is made. The headers hold code, so that this is one unit. */

#include "machine.h"
#include "run.h"
#include "tasks.h"

/* A section is its count and then that many items; 64 bits, so that no count can wrap. */
static const uint8_t *section(const uint8_t *image, size_t length, size_t *at, uint64_t item, uint64_t *count) {
    if (length - *at < 4) return NULL;
    *count = get32(image + *at);
    if (*count * item > length - *at - 4) return NULL;
    const uint8_t *items = image + *at + 4;
    *at += 4 + (size_t)(*count * item);
    return items;
}

/* Judges the whole file before the first byte of memory is written. */
static int read_image(const uint8_t *image, size_t length, uint8_t *mem, struct machine *m, uint64_t *budget, uint64_t *sum) {
    size_t at = 0;
    uint64_t bytes, cells, budgets;
    const uint8_t *code = section(image, length, &at, 1, &bytes);
    if (!code || bytes < 1 || bytes > MEMORY) return 0;
    const uint8_t *stack = section(image, length, &at, 4, &cells);
    if (!stack || cells > CELLS) return 0;
    const uint8_t *limit = section(image, length, &at, 4, &budgets);
    if (!limit || budgets > 1 || at != length) return 0;
    *budget = budgets ? get32(limit) : DEFAULT_BUDGET;
    if (*budget > MAX_BUDGET) return 0;

    memcpy(mem, code, bytes);
    memset(mem + bytes, 0, MEMORY - bytes);
    *sum = sum_of(code, bytes);
    memset(m, 0, sizeof *m);
    for (uint64_t i = 0; i < cells; i++) m->param[i] = get32(stack + 4 * i);
    m->p = cells;
    return 1;
}

static char *decimal(char *to, uint64_t v, char after) {
    char digits[20];
    int n = 0;
    do digits[n++] = (char)('0' + v % 10);
    while (v /= 10);
    while (n > 0) *to++ = digits[--n];
    *to++ = after;
    return to;
}

static char *report(char *to, const struct machine *m, struct outcome o) {
    to = decimal(to, o.answer, ' ');
    to = decimal(to, o.steps, ' ');
    to = decimal(to, o.cycles, ' ');
    to = decimal(to, m->pc, ' ');
    to = decimal(to, m->p, ' ');
    to = decimal(to, m->r, ' ');
    to = decimal(to, m->s, ' ');
    to = decimal(to, m->e, ' ');
    to = decimal(to, m->thrown_address, ' ');
    to = decimal(to, m->thrown_code, '\n');
    for (uint64_t i = 0; i < m->p; i++) {
        for (int shift = 28; shift >= 0; shift -= 4) *to++ = "0123456789ABCDEF"[m->param[i] >> shift & 15];
        *to++ = '\n';
    }
    return to;
}

/* The text of the bench program; its length, or 2 where a buffer does not suit. */
uint64_t plain_bench(const uint8_t *image, size_t image_len, uint8_t *memory, size_t memory_len, uint8_t *out,
                     size_t out_len) {
    struct machine m;
    uint64_t budget, sum;
    char text[TEXT_BYTES], *end;
    if (memory_len != MEMORY) return 2;
    if (read_image(image, image_len, memory, &m, &budget, &sum)) {
        struct outcome o = run(&m, memory, budget, sum);
        end = report(text, &m, o);
    } else {
        end = decimal(text, 14, '\n');
    }
    size_t length = (size_t)(end - text);
    if (out_len < length) return 2;
    memcpy(out, text, length);
    return length;
}

static uint64_t take(const uint8_t **at, int bytes) {
    uint64_t v = 0;
    for (int i = 0; i < bytes; i++) v = v << 8 | *(*at)++;
    return v;
}

static void give(uint8_t **at, int bytes, uint64_t v) {
    for (int i = bytes - 1; i >= 0; i--) *(*at)++ = (uint8_t)(v >> 8 * i);
}

static void read_state(struct machine *m, const uint8_t *at) {
    for (int i = 0; i < CELLS; i++) m->param[i] = (uint32_t)take(&at, 4);
    m->p = take(&at, 8);
    for (int i = 0; i < CELLS; i++) m->ret[i] = (uint32_t)take(&at, 4);
    m->r = take(&at, 8);
    for (int i = 0; i <= FRAMES; i++) {
        struct frame *f = &m->frames[i];
        for (int j = 0; j < LOCALS; j++) f->locals[j] = (uint32_t)take(&at, 4);
        f->copy_r = take(&at, 8);
        f->ret = (uint32_t)take(&at, 4);
    }
    m->s = take(&at, 8);
    for (int i = 0; i <= CATCHES; i++) {
        struct level *l = &m->levels[i];
        for (int j = 0; j < CATCH_CELLS; j++) l->cells[j] = (uint32_t)take(&at, 4);
        l->copy_s = take(&at, 8);
        l->copy_p = take(&at, 8);
        l->throw_to = (uint32_t)take(&at, 4);
    }
    m->e = take(&at, 8);
    m->pc = (uint32_t)take(&at, 4);
    m->flag = (uint32_t)take(&at, 4);
    m->thrown_address = (uint32_t)take(&at, 4);
    m->thrown_code = (uint32_t)take(&at, 4);
    m->mask = (uint32_t)take(&at, 4);
    m->waiting = (uint32_t)take(&at, 4);
    m->block = (uint32_t)take(&at, 4);
}

static void write_state(const struct machine *m, uint8_t *at) {
    for (int i = 0; i < CELLS; i++) give(&at, 4, m->param[i]);
    give(&at, 8, m->p);
    for (int i = 0; i < CELLS; i++) give(&at, 4, m->ret[i]);
    give(&at, 8, m->r);
    for (int i = 0; i <= FRAMES; i++) {
        const struct frame *f = &m->frames[i];
        for (int j = 0; j < LOCALS; j++) give(&at, 4, f->locals[j]);
        give(&at, 8, f->copy_r);
        give(&at, 4, f->ret);
    }
    give(&at, 8, m->s);
    for (int i = 0; i <= CATCHES; i++) {
        const struct level *l = &m->levels[i];
        for (int j = 0; j < CATCH_CELLS; j++) give(&at, 4, l->cells[j]);
        give(&at, 8, l->copy_s);
        give(&at, 8, l->copy_p);
        give(&at, 4, l->throw_to);
    }
    give(&at, 8, m->e);
    give(&at, 4, m->pc);
    give(&at, 4, m->flag);
    give(&at, 4, m->thrown_address);
    give(&at, 4, m->thrown_code);
    give(&at, 4, m->mask);
    give(&at, 4, m->waiting);
    give(&at, 4, m->block);
}

static void write_result(struct outcome o, uint8_t *at) {
    give(&at, 8, o.answer);
    give(&at, 8, o.steps);
    give(&at, 8, o.cycles);
    give(&at, 8, o.sum);
}

/* Reads an image into a memory and a state; 2 or 14 with nothing touched where a buffer has another length, or the image is not good. */
uint64_t plain_read_image(const uint8_t *image, size_t image_len, uint8_t *memory, size_t memory_len, uint8_t *state,
                          size_t state_len, uint8_t *result, size_t result_len) {
    struct machine m;
    uint64_t budget, sum;
    if (memory_len != MEMORY || state_len != STATE_BYTES || result_len != READ_RESULT_BYTES) return 2;
    if (!read_image(image, image_len, memory, &m, &budget, &sum)) return 14;
    write_state(&m, state);
    give(&result, 8, budget);
    give(&result, 8, sum);
    return 0;
}

/* Runs a state handed in as bytes; 2 with nothing touched where state or result has another length. */
uint64_t plain_run_state(uint8_t *state, size_t state_len, uint8_t *memory, size_t memory_len, uint64_t budget,
                         uint64_t sum, uint8_t *result, size_t result_len) {
    struct machine m;
    struct outcome o = {2, 0, 0, sum};
    if (state_len != STATE_BYTES || result_len != RESULT_BYTES) return 2;
    read_state(&m, state);
    if (memory_len == MEMORY && budget <= MAX_BUDGET && sum <= MOST_SUM && well_formed(&m)) {
        o = run(&m, memory, budget, sum);
        write_state(&m, state);
    }
    write_result(o, result);
    return 0;
}

/* A task is its state and then its kept number; tells whether it is good. */
static int read_task(struct task *task, const uint8_t *at) {
    const uint8_t *kept = at + STATE_BYTES;
    read_state(&task->machine, at);
    task->kept = take(&kept, 8);
    return good_task(task);
}

static void write_task(const struct task *task, uint8_t *at) {
    uint8_t *kept = at + STATE_BYTES;
    write_state(&task->machine, at);
    give(&kept, 8, task->kept);
}

/* Runs four tasks handed in as bytes; 2 with nothing touched where tasks or result have another length. */
uint64_t plain_run_tasks(uint8_t *bytes, size_t bytes_len, uint8_t *memory, size_t memory_len, uint64_t quantum,
                         uint64_t budget, uint64_t sum, uint8_t *result, size_t result_len) {
    struct task tasks[TASKS];
    struct outcome o = {2, 0, 0, sum};
    if (bytes_len != TASKS * TASK_BYTES || result_len != RESULT_BYTES) return 2;
    int good = memory_len == MEMORY && budget <= MAX_BUDGET && sum <= MOST_SUM && quantum >= 1 && quantum <= MAX_QUANTUM;
    for (int t = 0; t < TASKS; t++) good &= read_task(&tasks[t], bytes + t * TASK_BYTES);
    if (good) {
        o = run_tasks(tasks, memory, quantum, budget, sum);
        for (int t = 0; t < TASKS; t++) write_task(&tasks[t], bytes + t * TASK_BYTES);
    }
    write_result(o, result);
    return 0;
}

/* Makes a line wait in a state handed in as bytes; 2 with nothing touched where the state has another length, or there is no such line. */
uint64_t plain_raise_line(uint8_t *state, size_t state_len, uint64_t line) {
    if (state_len != STATE_BYTES || line < 1 || line > 15) return 2;
    state[WAITING_AT + 3 - line / 8] |= (uint8_t)(1u << line % 8);
    return 0;
}

/* Sets the mask of a state handed in as bytes; 2 with nothing touched where the state has another length, or the mask too many bits. */
uint64_t plain_set_mask(uint8_t *state, size_t state_len, uint64_t mask) {
    if (state_len != STATE_BYTES || mask > 0xFFFF) return 2;
    uint8_t *at = state + MASK_AT;
    give(&at, 4, mask);
    return 0;
}
