/* The proved machine for hosts: what five libraries export. .ci/built libNAME.a makes libNAME.a in target/staticlib/ for
   x86-64, and hosts/c/build makes all five.
      libglidecotton.a  glidecotton_bench
      libreader.a       glidecotton_read_image
      libhost.a         glidecotton_run_state
      libtasks.a        glidecotton_run_tasks
      liblines.a        glidecotton_raise_line, glidecotton_set_mask

   Every function takes every buffer of every length and keeps no pointer. A caller hands each buffer with its own length, and no
   two that overlap. Numbers in buffers are big endian. The libraries need memcpy and memset, and nothing else. */

#ifndef GLIDECOTTON_H
#define GLIDECOTTON_H

#include <stddef.h>
#include <stdint.h>

enum {
    GLIDECOTTON_MEMORY = 32768,        /* bytes of memory, no more and no fewer */
    GLIDECOTTON_LONGEST_IMAGE = 33040, /* bytes of the longest good image file */
    GLIDECOTTON_TEXT = 786,            /* bytes that always suffice for a text */
    GLIDECOTTON_BUDGET = 1000000,      /* the greatest budget of steps */
    GLIDECOTTON_STATE = 3548,          /* bytes of a state */
    GLIDECOTTON_TASK = 3556,           /* bytes of a task: its state, and the number that it keeps */
    GLIDECOTTON_TASKS = 14224,         /* bytes of tasks 0 to 3, one after another */
    GLIDECOTTON_QUANTUM = 1000,        /* the greatest quantum of steps; the least is 1 */
    GLIDECOTTON_SHARED = 16384,        /* bytes of memory that all tasks share, from address 0; their own parts follow in order */
    GLIDECOTTON_PART = 4096,           /* bytes of a task's own part */
    GLIDECOTTON_LINES = 15,            /* interrupt lines, 1 to 15 */
    GLIDECOTTON_MOST_MASK = 65535,     /* the greatest mask */
    GLIDECOTTON_RESULT = 32,           /* bytes of a run's result */
    GLIDECOTTON_READ_RESULT = 16,      /* bytes of the reader's result */
    GLIDECOTTON_MOST_SUM = 8355840,    /* the greatest memory sum that a run takes: that of a memory of which every byte is 255 */
    GLIDECOTTON_STACK = 16384,         /* bytes of stack that are enough for a call, but of tasks; rust/stack measures it. On x86-64 a run of
                                          a state takes 16,000 at the most, a bench 4,620 and a read 4,064 */
    GLIDECOTTON_TASKS_STACK = 98304    /* and for a call of glidecotton_run_tasks, which holds four machines; on x86-64 it takes
                                          81,456 at the most */
};

/* Where a state has what. All zeros are a fresh machine. A cell, an address, a thrown number, the counter, the flag and each number about
   the lines take 4 bytes, a pointer or a copy of one 8. */
enum {
    GLIDECOTTON_CELLS = 0,             /* 64 parameter cells, deepest first */
    GLIDECOTTON_P = 256,               /* depth of the parameter stack */
    GLIDECOTTON_RETURNS = 264,         /* 64 return cells, deepest first */
    GLIDECOTTON_R = 520,               /* pointer of the return stack */
    GLIDECOTTON_FRAMES = 528,          /* subroutine levels 0 to 32, 76 bytes each: 16 locals, copy of R, return address */
    GLIDECOTTON_S = 3036,              /* pointer of the subroutine stack */
    GLIDECOTTON_LEVELS = 3044,         /* exception levels 0 to 8, 52 bytes each: 8 cells, copy of S, copy of P, throw address */
    GLIDECOTTON_E = 3512,              /* pointer of the exception stack */
    GLIDECOTTON_COUNTER = 3520,        /* program counter */
    GLIDECOTTON_FLAG = 3524,           /* extend flag, 0 or 1 */
    GLIDECOTTON_THROWN_ADDRESS = 3528, /* address of the last THROW of anything but 0 that was carried out */
    GLIDECOTTON_THROWN_CODE = 3532,    /* and the number that it threw, 0 where there was none; a host may set both to anything */
    GLIDECOTTON_MASK = 3536,           /* 16 bits: bit n set lets line n in; bit 0 is free and without effect */
    GLIDECOTTON_WAITING = 3540,        /* 16 bits: bit n set says that line n was raised and has not entered yet; bit 0 is clear */
    GLIDECOTTON_BLOCK = 3544           /* 1 from a line's entry to the next RTI, and else 0: while it is 1 no line enters */
};

/* Where a task has what besides its state, and what stands there. A fresh task is all zeros and then GLIDECOTTON_READY; one that is
   all zeros keeps 0, as if it had finished, and never has a turn. */
enum {
    GLIDECOTTON_KEPT = 3548,     /* 8 bytes: GLIDECOTTON_READY, or the answer with which the task left: 0, 3 to 13, 16 or 17 */
    GLIDECOTTON_READY = 1
};

/* Where a run's result has what, 8 bytes each. */
enum {
    GLIDECOTTON_ANSWER = 0,      /* the answer of document 01, or of a landed request: 0 to 13 or 16; of a run of tasks 0, 1 or 2 */
    GLIDECOTTON_STEPS = 8,       /* instructions that this run completed, those of all tasks together */
    GLIDECOTTON_CYCLES = 16,     /* their clock cycles */
    GLIDECOTTON_SUM = 24         /* the memory sum after the run, for the next run; with answer 2 the sum given, in all its 64 bits */
};

/* Where the reader's result has what, 8 bytes each. */
enum {
    GLIDECOTTON_READ_BUDGET = 0, /* the image's budget, or the default where it gives none: 0 to GLIDECOTTON_BUDGET */
    GLIDECOTTON_READ_SUM = 8     /* the memory sum, for the first run: 0 to GLIDECOTTON_MOST_SUM */
};

/* The memory sum is what all bytes of memory add up to. It stands beside the memory, in no byte of a state or a task. No run adds up the
   memory: what it hands back, unless it answers 2, is the sum given, plus what the bytes add up to afterwards, less what they added up to
   before, modulo 2^32.
   The host hands each run the sum that it had from the reader or the run before, together with the memory that it had then. Handed on so,
   both unaltered, a sum is always the memory's true one, and never refused. A host that alters memory itself adds the change to the sum.
   A sum above GLIDECOTTON_MOST_SUM is refused with answer 2, and all is handed back as it was. Of any other that is not the true one only
   the equation holds: it stays as wrong as it was. Nothing else that a run does depends on the sum. */

/* Reads an image, runs it and writes the bench program's text. Takes and gives no memory sum.
   memory: GLIDECOTTON_MEMORY bytes. out: GLIDECOTTON_TEXT bytes always suffice.
   Returns how many bytes of out the text takes; the rest of out is untouched. A text is never 2 bytes long.
   Returns 2 with out untouched where memory has another length, which is then untouched too, or where the text does not fit: then
   the image has been run and memory is as the run left it. A refused image gives the text "14" and leaves memory untouched. */
uint64_t glidecotton_bench(const uint8_t *image, size_t image_len, uint8_t *memory, size_t memory_len, uint8_t *out, size_t out_len);

/* Reads an image for runs of the host's own: fills memory and state, and writes the image's budget and the memory sum to the result.
   Returns 0 where the image was read: every byte of the three buffers is then written, whatever they held.
   Returns 2 where memory_len is not GLIDECOTTON_MEMORY, state_len not GLIDECOTTON_STATE or result_len not GLIDECOTTON_READ_RESULT,
   and else 14 where the image is not as document 01 says. After 2 and 14 all is untouched. */
uint64_t glidecotton_read_image(const uint8_t *image, size_t image_len, uint8_t *memory, size_t memory_len, uint8_t *state,
                                size_t state_len, uint8_t *result, size_t result_len);

/* Runs a machine held as bytes for at most budget steps, and hands it back in the same bytes, ready for the next run.
   sum: the memory sum, as the reader or the run before handed it out.
   A line that waits and is let in enters before an instruction, and its entry is no step. So a run of no steps that answers 3 to 13 or 16
   may have altered the state: the line has entered, and the first instruction of its routine was refused.
   Returns 0 with the result written. Answer 2 in it (a memory of another length, a budget above GLIDECOTTON_BUDGET, a sum above
   GLIDECOTTON_MOST_SUM or a state that is not well formed) comes with no steps and no cycles, with the sum that was given, and with state
   and memory untouched.
   Returns 2 with all untouched where state_len is not GLIDECOTTON_STATE or result_len not GLIDECOTTON_RESULT. */
uint64_t glidecotton_run_state(uint8_t *state, size_t state_len, uint8_t *memory, size_t memory_len, uint64_t budget,
                               uint64_t sum, uint8_t *result, size_t result_len);

/* Runs four tasks on one memory, in turns of at most quantum steps and for at most budget steps together, and hands them back in the
   same bytes, ready for the next run. Task 0 has the first turn, or the next task that is ready.
   Lines enter task 0 alone, in its turns. The other tasks carry their numbers about lines, and nothing enters them.
   sum: the memory sum, as the reader or the run before handed it out. One sum serves all four tasks: the stores of each are in it.
   Returns 0 with the result written. Answer 1 in it says that the budget is spent, and else 0 that no task is ready. Answer 2 (a memory
   of another length, a budget above GLIDECOTTON_BUDGET, a quantum that is not 1 to GLIDECOTTON_QUANTUM, a sum above GLIDECOTTON_MOST_SUM,
   a task whose state is not well formed, whether it is ready or not, or that keeps another number than it can) comes with no steps and
   no cycles, with the sum that was given, and with tasks and memory untouched.
   Returns 2 with all untouched where tasks_len is not GLIDECOTTON_TASKS or result_len not GLIDECOTTON_RESULT.
   A budget should be longer than the quantum: each run starts with task 0 again, so else a task 0 that neither pauses nor leaves is the
   only one that moves. */
uint64_t glidecotton_run_tasks(uint8_t *tasks, size_t tasks_len, uint8_t *memory, size_t memory_len, uint64_t quantum,
                               uint64_t budget, uint64_t sum, uint8_t *result, size_t result_len);

/* The two functions below alter a state between runs. For a task hand in the first GLIDECOTTON_STATE bytes of its GLIDECOTTON_TASK.
   Neither asks whether the state is well formed, which is the next run's matter. */

/* Raises a line: sets its bit in the number at GLIDECOTTON_WAITING, and nothing else. It stays set until the line enters, in whichever
   run that is. However often a line is raised before it enters, it enters once; raised while its own routine runs, once more after the RTI.
   Returns 0 where this is done. Returns 2 with the state untouched where state_len is not GLIDECOTTON_STATE or line not 1 to
   GLIDECOTTON_LINES. */
uint64_t glidecotton_raise_line(uint8_t *state, size_t state_len, uint64_t line);

/* Sets the number at GLIDECOTTON_MASK, and nothing else. A line that the mask keeps out goes on waiting, and does not hold back others.
   Returns 0 where this is done. Returns 2 with the state untouched where state_len is not GLIDECOTTON_STATE or mask is above
   GLIDECOTTON_MOST_MASK. */
uint64_t glidecotton_set_mask(uint8_t *state, size_t state_len, uint64_t mask);

#endif
