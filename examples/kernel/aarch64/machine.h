// machine.h: QEMU's `virt` machine with an AArch64 processor, for the files that all machines share.
#pragma once

#include <stdbool.h>
#include <stdint.h>

// A tick is 4 microseconds: the timer counts 62.5 million in a second. A step of work is two instructions of a count.
enum { COUNTS_PER_TICK = 250, COUNTS_PER_STEP = 2, DISTURBED_CALLS = 0 };

// What the processor's registers hold for a thread, while it doesn't run.
typedef struct frame { uint64_t x[31], sp, pc, pstate; } frame;

// What `trap` was called with: its kind, an object, and what is sent.
static inline uint64_t *arguments_of(frame *thread) { return thread->x; }

// What the trap is to return.
static inline void give(frame *thread, uint32_t result) { thread->x[0] = result; }

// Whether the thread stopped by a trap. Otherwise it was interrupted, if this is 0, or it faulted.
static inline bool has_trapped(uint64_t stop) { return stop >> 26 == 0x15; }

static inline void do_steps(uint64_t steps) { __asm__ volatile("1: subs %0, %0, #1; b.ne 1b" : "+r"(steps)::"cc"); }
