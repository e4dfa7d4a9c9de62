// A million events of a kernel with eight threads, as a caller in C makes them: `bindings/check` compares what it
// prints, and the time that it takes, with callers in Rust and Python that make the same events.
//
//     many_events [THREADS [ROUNDS]]
//
// A round is two events. THREADS is a multiple of 8. Half of the threads are alice's, who has two thirds of base.

#include "lot.h"

#include <stdio.h>
#include <stdlib.h>

static lot_reply answer(lot_kernel *kernel, lot_event event) {
    lot_reply reply;
    if (lot_kernel_event(kernel, &event, &reply) != LOT_DONE) {
        exit(1);
    }
    return reply;
}

// A user's currency, funded by the ticket with this number.
static void make_user(lot_kernel *kernel, uint64_t ticket, const char *user, uint64_t amount) {
    answer(kernel, lot_make_currency(lot_name_of(user)));
    answer(kernel, lot_make_ticket(amount, lot_name_of("base")));
    answer(kernel, lot_fund(ticket, lot_name_of(user)));
}

static void make_thread(lot_kernel *kernel, const char *currency, char first, unsigned i) {
    char name[16];
    snprintf(name, sizeof name, "%c%u", first, i);
    answer(kernel, lot_make_funded(100 * (i % 4 + 1), lot_name_of(currency), lot_name_of(name), 1));
}

// A draw, and then the winner's expiry, or its yield if its number is even. The winner, 0 if there is none.
static uint32_t play_round(lot_kernel *kernel, uint64_t number) {
    lot_reply reply = answer(kernel, lot_draw(1, lot_wide_of(number)));
    if (reply.kind != LOT_REPLY_WINNER) {
        return 0;
    }
    if (reply.thread % 2 == 0) {
        answer(kernel, lot_yield(1, 19));
    } else {
        answer(kernel, lot_expire(1));
    }
    return reply.thread;
}

static unsigned long argument(int argc, char **argv, int i, unsigned long otherwise) {
    return i < argc ? strtoul(argv[i], NULL, 10) : otherwise;
}

int main(int argc, char **argv) {
    unsigned threads = (unsigned)argument(argc, argv, 1, 8);
    unsigned long rounds = argument(argc, argv, 2, 500000);
    lot_kernel kernel = LOT_KERNEL_NONE;
    lot_generator generator;
    lot_sizes sizes = {.tickets = threads + 2, .currencies = 2, .threads = threads, .processors = 1, .scripts = 1,
                       .quantum = 100, .unit = 1};
    if (lot_generator_new(1, &generator) != LOT_DONE || lot_kernel_new(&sizes, &kernel) != LOT_DONE) {
        return 1;
    }
    make_user(&kernel, 1, "alice", 250 * (uint64_t)threads);
    make_user(&kernel, 2, "bob", 125 * (uint64_t)threads);
    for (unsigned i = 0; i < threads / 2; i++) {
        make_thread(&kernel, "alice", 'a', i);
        make_thread(&kernel, "bob", 'b', i);
    }
    uint64_t sum = 0;
    for (unsigned long round = 0; round < rounds; round++) {
        uint64_t number = 0;
        if (lot_generator_number(&generator, &number) != LOT_DONE) {
            return 1;
        }
        sum += play_round(&kernel, number) * (round % 5 + 1);
    }
    printf("%lu events, sum %llu\n", 2 * rounds, (unsigned long long)sum);
    return lot_kernel_free(&kernel) == LOT_DONE ? 0 : 1;
}
