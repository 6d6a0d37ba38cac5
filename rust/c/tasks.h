/* Four tasks on one memory, in turns: four machines in an array and a pointer to the running one. */

#ifndef TASKS_H
#define TASKS_H

#include "run.h"

enum { TASKS = 4, READY = 1, MAX_QUANTUM = 1000, TASK_BYTES = STATE_BYTES + 8 };

struct task {
    struct machine machine;
    uint64_t kept; /* READY, or the answer with which the task left */
    struct reach reach;
    struct task *next; /* in circular order */
};

static int good_task(const struct task *task) {
    uint64_t kept = task->kept;
    return (kept <= 13 ? kept != 2 : kept == 16 || kept == 17) && well_formed(&task->machine);
}

/* Task 0's part follows the shared memory, so that both are one stretch to it. */
static void link_tasks(struct task *tasks) {
    for (int t = 0; t < TASKS; t++) {
        tasks[t].reach = (struct reach){t == 0 ? SHARED + PART : SHARED, SHARED + (uint32_t)t * PART};
        tasks[t].next = &tasks[(t + 1) % TASKS];
    }
}

/* The first ready task in circular order, or NULL. */
static struct task *ready_from(struct task *first) {
    struct task *task = first;
    do {
        if (task->kept == READY) return task;
        task = task->next;
    } while (task != first);
    return NULL;
}

static struct outcome run_tasks(struct task *tasks, uint8_t *mem, uint64_t quantum, uint64_t budget, uint64_t sum) {
    struct outcome o = {1, 0, 0, sum};
    link_tasks(tasks);
    for (struct task *task = tasks; o.steps < budget; task = task->next) {
        task = ready_from(task);
        if (!task) {
            o.answer = 0;
            break;
        }
        uint64_t until = o.steps + quantum < budget ? o.steps + quantum : budget;
        /* A task that can go on is answered 1, which is READY. */
        task->kept = instructions(&task->machine, mem, 0, task->reach, &o, until);
    }
    return o;
}

#endif
