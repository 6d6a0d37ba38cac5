/* A host: runs a position word and a log word together, as tasks 0 and 1 on one memory, and shows both after each run.

   tasks IMAGE-FILE QUANTUM STEPS lends the tasks so many steps a run, in turns of at most a quantum, until no task is ready or the
   image's own budget is spent. First it prints the memory sum. After each run it prints the answer, and all steps and cycles so far; the
   memory sum; then for each word the number that its task keeps, its counter, P, R, S and E, and the address and code of its last throw. At
   the end it prints what the words have left in their own parts. */

#include <inttypes.h>
#include <stdio.h>
#include <stdlib.h>

#include "buffers.h"
#include "glidecotton.h"
#include "image.h"

/* The tasks that this host uses. The other two are left as zeros: they keep 0, as if they had finished, and never have a turn. */
enum { POSITION, LOG, USED };

static const char *const names[USED] = {"position", "log"};

static uint8_t *task(uint8_t *tasks, int t) { return tasks + t * GLIDECOTTON_TASK; }
static uint32_t part(int t) { return GLIDECOTTON_SHARED + (uint32_t)t * GLIDECOTTON_PART; }

/* No instruction tells a task which one it is. Where its word starts and where its own part stands is the host's to say: it starts at
   address 2t, where the image has a branch to its word, with its part's address as its one parameter cell. */
static void make_ready(uint8_t *tasks, int t) {
    put_number(task(tasks, t) + GLIDECOTTON_COUNTER, 4, 2 * (uint64_t)t);
    put_number(task(tasks, t) + GLIDECOTTON_CELLS, 4, part(t));
    put_number(task(tasks, t) + GLIDECOTTON_P, 8, 1);
    put_number(task(tasks, t) + GLIDECOTTON_KEPT, 8, GLIDECOTTON_READY);
}

static void show_task(const uint8_t *tasks, int t) {
    const uint8_t *state = tasks + t * GLIDECOTTON_TASK;
    printf("  %s %" PRIu64 " ", names[t], pointer(state, GLIDECOTTON_KEPT));
    show_state(state);
}

/* The first cell of each part is a count; behind the log's stand the reports that it took. */
static void show_parts(const uint8_t *memory) {
    uint64_t reports = cell(memory, part(LOG));
    printf("bad posts: %" PRIu64 "\nlog:", cell(memory, part(POSITION)));
    for (uint64_t i = 1; i <= reports && 4 * (i + 1) <= GLIDECOTTON_PART; i++) printf(" %" PRIu64, cell(memory, part(LOG) + 4 * i));
    printf("\n");
}

/* One call of the library; the tasks are ready for the next call, which is given the sum that this one leaves. */
static struct counted run_once(uint8_t *tasks, uint8_t *memory, uint64_t quantum, uint64_t steps, uint64_t sum) {
    uint8_t result[GLIDECOTTON_RESULT];
    if (glidecotton_run_tasks(tasks, GLIDECOTTON_TASKS, memory, GLIDECOTTON_MEMORY, quantum, steps, sum, result, sizeof result) != 0) abort();
    return counted_in(result);
}

static void run_all(struct image *image, uint64_t quantum, uint64_t steps) {
    static uint8_t tasks[GLIDECOTTON_TASKS];
    struct counted all = {0, 0, 0, image->sum}; /* one sum for all tasks, since they have one memory */
    for (int t = 0; t < USED; t++) make_ready(tasks, t);
    show_sum(all.sum, image->memory);
    do {
        uint64_t left = image->budget - all.steps;
        all = after(all, run_once(tasks, image->memory, quantum, steps < left ? steps : left, all.sum));
        printf("%" PRIu64 " %" PRIu64 " %" PRIu64 "\n", all.answer, all.steps, all.cycles);
        show_sum(all.sum, image->memory);
        for (int t = 0; t < USED; t++) show_task(tasks, t);
    } while (all.answer == 1 && all.steps < image->budget);
    show_parts(image->memory);
}

static int fail(const char *what, const char *why) {
    fprintf(stderr, "tasks: %s: %s\n", what, why);
    return 1;
}

int main(int words, char **word) {
    static struct file file;
    static struct image image;
    char *end;
    if (words != 4) return fail("usage", "tasks IMAGE-FILE QUANTUM STEPS");
    uint64_t quantum = strtoull(word[2], &end, 10);
    if (*end || quantum < 1 || quantum > GLIDECOTTON_QUANTUM) return fail(word[2], "a quantum is 1 to 1000 steps");
    uint64_t steps = strtoull(word[3], &end, 10);
    if (*end || steps < 1 || steps > GLIDECOTTON_BUDGET) return fail(word[3], "a run is 1 to 1000000 steps");
    /* Each run starts with the position word again. */
    if (steps <= quantum) return fail(word[3], "a run is to be longer than the quantum, or the log might never have a turn");
    if (!read_file(word[1], &file)) return fail(word[1], "can't be read");

    uint64_t refusal = read_image(&file, &image);
    if (refusal != 0) printf("%" PRIu64 "\n", refusal);
    else run_all(&image, quantum, steps);
    return fflush(stdout) == 0 && !ferror(stdout) ? 0 : fail("standard output", "can't be written");
}
