// Green threads with quanta by lottery: three threads of one process hold 3, 2 and 1 tickets, and each draw of the
// kernel says which of them goes on. A thread counts, and gives the processor back when its quantum is over; one of
// them yields at half of it, and is compensated for that.
//
//     green_threads [DRAWS]

#define _XOPEN_SOURCE 700

#include "lot.h"

#include <stdio.h>
#include <stdlib.h>
#include <ucontext.h>

enum { THREADS = 3, QUANTUM = 100, STACK = 64 * 1024 };

static const uint64_t tickets[THREADS] = {3, 2, 1};
static const char *const names[THREADS] = {"swift", "steady", "small"};
// How many ticks each runs before it gives the processor back.
static const uint32_t runs_for[THREADS] = {QUANTUM, QUANTUM, QUANTUM / 2};

static ucontext_t scheduler, contexts[THREADS];
static uint64_t counted[THREADS];

// Counts a tick at a time, for ever.
static void count(int me) {
    for (;;) {
        for (uint32_t tick = 0; tick < runs_for[me]; tick++) {
            counted[me]++;
        }
        swapcontext(&contexts[me], &scheduler);
    }
}

static void must(uint32_t status) {
    if (status != LOT_DONE) {
        fprintf(stderr, "%s\n", lot_status_text(status));
        exit(1);
    }
}

static void start(int me, char *stack) {
    getcontext(&contexts[me]);
    contexts[me].uc_stack.ss_sp = stack;
    contexts[me].uc_stack.ss_size = STACK;
    contexts[me].uc_link = &scheduler;
    makecontext(&contexts[me], (void (*)(void))count, 1, me);
}

static lot_reply answer(lot_kernel *kernel, lot_event event) {
    lot_reply reply;
    must(lot_kernel_event(kernel, &event, &reply));
    return reply;
}

// Runs the winner of a draw until it gives the processor back, and tells the kernel how it did.
static void run_one(lot_kernel *kernel, uint64_t number) {
    lot_reply winner = answer(kernel, lot_draw(1, lot_wide_of(number)));
    int me = (int)winner.thread - 1;
    swapcontext(&scheduler, &contexts[me]);
    if (runs_for[me] == QUANTUM) {
        answer(kernel, lot_expire(1));
    } else {
        answer(kernel, lot_yield(1, runs_for[me] - 1));
    }
}

int main(int argc, char **argv) {
    static char stacks[THREADS][STACK];
    long draws = argc > 1 ? strtol(argv[1], NULL, 10) : 60000;
    lot_kernel kernel = LOT_KERNEL_NONE;
    lot_generator generator;
    must(lot_generator_new(1, &generator));
    lot_sizes sizes = lot_sizes_small();
    sizes.quantum = QUANTUM;
    sizes.unit = 256;
    must(lot_kernel_new(&sizes, &kernel));
    for (int me = 0; me < THREADS; me++) {
        start(me, stacks[me]);
        answer(&kernel, lot_make_funded(tickets[me], lot_name_of("base"), lot_name_of(names[me]), 1));
    }
    for (long i = 0; i < draws; i++) {
        uint64_t number;
        must(lot_generator_number(&generator, &number));
        run_one(&kernel, number);
    }
    uint64_t all = counted[0] + counted[1] + counted[2];
    for (int me = 0; me < THREADS; me++) {
        lot_thread_row row;
        must(lot_kernel_thread_row(&kernel, (uint32_t)me + 1, &row));
        printf("%-6s %llu of 6 tickets: %5.2f%% of the ticks, %llu quanta\n", names[me],
               (unsigned long long)tickets[me], 100.0 * (double)counted[me] / (double)all,
               (unsigned long long)row.quanta);
        if (row.ticks != counted[me]) {
            return 1;
        }
    }
    must(lot_kernel_free(&kernel));
    return 0;
}
