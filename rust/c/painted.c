/* How much stack a call takes, seen on a stack of its own that is painted before.

   Counted is what the function and all that it calls write below the lowest byte that a call of a function which does nothing
   writes, made from the same place with the same words: so neither the caller's frame nor words handed over on the stack, nor the
   return address where a call puts one on the stack. A byte that a frame keeps and nothing writes is not seen. */

#define _DEFAULT_SOURCE
#include <stdint.h>
#include <stdlib.h>
#include <ucontext.h>

#include "glidecotton.h"

enum { STACK = 2 * GLIDECOTTON_TASKS_STACK, STACK_WORDS = STACK / 8 };

/* A pointer and a number are handed over alike, each as a word, and a function does not look at words that it does not take. */
typedef uint64_t function(uint64_t, uint64_t, uint64_t, uint64_t, uint64_t, uint64_t, uint64_t, uint64_t, uint64_t);

const uint64_t promised_stack = GLIDECOTTON_STACK;
const uint64_t promised_tasks_stack = GLIDECOTTON_TASKS_STACK;

static _Alignas(16) uint64_t stack[STACK_WORDS];
static ucontext_t here, there;
static function *called;
static const uint64_t *words;
static uint64_t paint, answer, untouched;

static uint64_t nothing(uint64_t a, uint64_t b, uint64_t c, uint64_t d, uint64_t e, uint64_t f, uint64_t g, uint64_t h, uint64_t i) {
    return a ^ b ^ c ^ d ^ e ^ f ^ g ^ h ^ i;
}

/* Runs on the painted stack; looks at it before anything else can write there. */
static void call_and_look(void) {
    answer = called(words[0], words[1], words[2], words[3], words[4], words[5], words[6], words[7], words[8]);
    const uint8_t *bytes = (const uint8_t *)stack;
    size_t at = 0;
    while (at < STACK_WORDS && stack[at] == paint) at++;
    untouched = 8 * at;
    while (untouched < STACK && bytes[untouched] == (uint8_t)paint) untouched++;
}

/* The bytes from the stack's low end up to the first that has lost its paint in the call. */
static uint64_t untouched_by(function *this) {
    called = this;
    for (size_t at = 0; at < STACK_WORDS; at++) stack[at] = paint;
    if (getcontext(&there) != 0) abort();
    there.uc_stack.ss_sp = stack;
    there.uc_stack.ss_size = STACK;
    there.uc_link = &here;
    makecontext(&there, call_and_look, 0);
    if (swapcontext(&here, &there) != 0) abort();
    return untouched;
}

/* Calls a function with nine words on a stack painted with a byte, and gives the bytes that it took, and its answer beside. The
   stack is twice the greater one of those promised, so that a function which takes up to twice as much is still seen to. */
uint64_t painted_call(function *this, const uint64_t *nine_words, uint8_t painted_with, uint64_t *its_answer) {
    words = nine_words;
    paint = painted_with * UINT64_C(0x0101010101010101);
    uint64_t by_nothing = untouched_by(nothing);
    uint64_t by_this = untouched_by(this);
    *its_answer = answer;
    return by_nothing - by_this;
}
