// What the BPF program and the scheduler in user space share: events come by a ring, and the winners of draws go back
// by a page that both map.

#ifndef SHARED_H
#define SHARED_H

#include <linux/types.h>

// The library has at most 64 processors and 4096 threads.
enum { MOST_PROCESSORS = 64, MOST_TASKS = 4096, RING_BYTES = 1 << 20 };

// What happened to a task.
enum told {
    TOLD_READY = 1, // it waits for a processor: it woke, is new, or its quantum is over
    TOLD_YIELDED,   // it waits for a processor, since it gave up its own by sched_yield
    TOLD_ASLEEP,
    TOLD_DEAD,
    TOLD_LEFT // another scheduler has it from here on, or it may not run on every processor
};

struct told_event {
    __u64 at;  // the time, in nanoseconds
    __u64 ran; // the nanoseconds that it has run since its last event
    __u32 id;  // no two tasks have the same, whereas Linux gives a pid again
    __s32 pid;
    __u32 uid;
    __u32 weight; // by its nice value: 100 for a nice of 0
    __u32 kind;   // told
    __u32 unused;
};

// A winner is id << 32 | pid, or 0 for none. The processor that takes it stores 0.
struct shared {
    __u64 winner[MOST_PROCESSORS];
    __u64 since[MOST_PROCESSORS]; // the time of the latest event before the draw
    __u64 quantum;                // in nanoseconds
    __u32 processors;
    __u32 exit_kind; // why Linux has ended the scheduler, or 0
    __u64 tasks;     // that user space knows of
    // Counts.
    __u64 started;   // winners that began to run
    __u64 vanished;  // winners that had ended or slept when their processor took them
    __u64 outside;   // times that a task ran outside the lottery
    __u64 kept;      // ends of a quantum at which a task had to go on
    __u64 dropped;   // events for which the ring had no place: the scheduler ends
    __u64 wait_sum;  // nanoseconds from an event to the start of the winner, in total
    __u64 wait_most; // and at most
};

// The argument of the program that wakes processors.
struct kick {
    __u64 processors; // a set of bits
};

#endif
