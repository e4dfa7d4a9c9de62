// machine.h: QEMU's `q35` machine with an x86-64 processor, for the files that all machines share.
#pragma once

#include <stdbool.h>
#include <stdint.h>

// A tick is 4 microseconds: timer and time stamps count a billion in a second. A step of work is two instructions of
// 16 counts each. So many calls are made with interrupts on.
enum { COUNTS_PER_TICK = 4000, COUNTS_PER_STEP = 32, DISTURBED_CALLS = 3000000 };

// What the processor's registers hold for a thread, while it doesn't run.
typedef struct frame { uint64_t rdi, rsi, rdx, rax, rbx, rcx, rbp, r[8], pc, flags, sp; } frame;

// What `trap` was called with: its kind, an object, and what is sent.
static inline uint64_t *arguments_of(frame *thread) { return &thread->rdi; }

// What the trap is to return.
static inline void give(frame *thread, uint32_t result) { thread->rax = result; }

enum { TIMER_VECTOR = 32, TRAP_VECTOR = 33, VECTORS = 34 };

// Whether the thread stopped by a trap. Otherwise it was interrupted, if this is 0, or it faulted.
static inline bool has_trapped(uint64_t stop) { return stop == TRAP_VECTOR; }

static inline void do_steps(uint64_t steps) { __asm__ volatile("1: sub $1, %0; jnz 1b" : "+r"(steps)::"cc"); }
