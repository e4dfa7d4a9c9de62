// A driver sleeps until its device has something for it. The host preempts the worker that runs then, wakes the driver
// and draws. The driver keeps the processor for twice its quantum, which the host tells the kernel: the driver weighs
// half in the next draw.

#include "lot.h"

#include <stdio.h>
#include <stdlib.h>

enum { DRIVER = 1, WORKER = 2 }; // in order of making

static const char *const names[3] = {"nobody", "driver", "worker"};

static lot_reply answer(lot_kernel *kernel, lot_event event) {
    lot_reply reply;
    uint32_t status = lot_kernel_event(kernel, &event, &reply);
    if (status != LOT_DONE || lot_refused(&reply)) {
        fprintf(stderr, "%s\n", status != LOT_DONE ? lot_status_text(status) : lot_refusal_text(reply.reason));
        exit(1);
    }
    return reply;
}

// A host draws this number by its own means, or by lot_generator_number.
static void draw(lot_kernel *kernel, uint64_t number) {
    lot_reply winner = answer(kernel, lot_draw(1, lot_wide_of(number)));
    printf("draw %llu of %llu: %s\n", (unsigned long long)winner.number.low, (unsigned long long)winner.total.low,
           names[winner.thread]);
}

// Whatever takes a thread off the processor says in its reply how many ticks the thread is charged.
static void stop(lot_kernel *kernel, lot_event event, const char *how) {
    lot_reply reply = answer(kernel, event);
    printf("%s %s: %u ticks\n", names[reply.thread], how, reply.ticks);
}

int main(void) {
    lot_kernel kernel = LOT_KERNEL_NONE;
    lot_sizes sizes = lot_sizes_small(); // a quantum of 100 ticks
    if (lot_kernel_new(&sizes, &kernel) != LOT_DONE) {
        return 1;
    }
    answer(&kernel, lot_make_funded(400, lot_name_of("base"), lot_name_of(names[DRIVER]), 1));
    answer(&kernel, lot_make_funded(100, lot_name_of("base"), lot_name_of(names[WORKER]), 1));
    draw(&kernel, 0);
    stop(&kernel, lot_sleep(1, 19), "sleeps");
    draw(&kernel, 99);
    // The device interrupts.
    stop(&kernel, lot_preempt(1, 30), "is preempted");
    answer(&kernel, lot_wake(DRIVER));
    // The driver used a fifth of its quantum, so it weighs 5 times its tickets.
    draw(&kernel, 1999);
    stop(&kernel, lot_overrun(1, 100), "is late");
    draw(&kernel, 299);
    stop(&kernel, lot_expire(1), "is stopped");
    return lot_kernel_free(&kernel) != LOT_DONE;
}
