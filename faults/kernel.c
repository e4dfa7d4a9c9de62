// A kernel through C: two threads, draws and a lock, a row of each, and a lottery over weights. It prints once all is done, and ends with
// 3 if memory was refused.

#include "lot.h"

#include <stdio.h>
#include <unistd.h>

enum { DONE = 0, FAILED = 1, NO_MEMORY = 3 };

static const lot_sizes SIZES = {.tickets = 4, .currencies = 2, .threads = 2, .ports = 1, .mutexes = 1, .processors = 1, .scripts = 1,
                                .quantum = 100, .unit = 256};

static int status_of(uint32_t answer) {
    return answer == LOT_DONE ? DONE : answer == LOT_NO_MEMORY ? NO_MEMORY : FAILED;
}

// Makes two threads, draws one of them, and has it lock a mutex and exit.
static int play(lot_kernel *kernel) {
    const lot_event events[] = {
        {.kind = LOT_MAKE_FUNDED, .amount = 3, .currency = lot_name_of("base"), .name = lot_name_of("a"), .script = 1},
        {.kind = LOT_MAKE_FUNDED, .amount = 1, .currency = lot_name_of("base"), .name = lot_name_of("b"), .script = 1},
        {.kind = LOT_DRAW, .processor = 1, .number = {.low = 800}},
        {.kind = LOT_LOCK, .processor = 1, .ticks = 9, .object = 1},
        {.kind = LOT_EXPIRE, .processor = 1},
    };
    lot_reply replies[5];
    size_t done = 0;
    return status_of(lot_kernel_run(kernel, events, 5, replies, 5, &done));
}

// Writes the thread's row behind `text`.
static int show(lot_kernel *kernel, uint32_t thread, char *text, size_t room) {
    lot_thread_row row;
    int status = status_of(lot_kernel_thread_row(kernel, thread, &row));
    if (status == DONE) {
        snprintf(text, room, "thread %u value %lu quanta %lu ticks %lu\n", thread, (unsigned long)row.value, (unsigned long)row.quanta,
                 (unsigned long)row.ticks);
    }
    return status;
}

static int hold_lottery(char *text, size_t room) {
    const lot_wide weights[] = {{.low = 1}, {.low = 5}, {.low = 2}}, number = {.low = 13};
    lot_drawn drawn;
    int status = status_of(lot_winner(weights, 3, &number, &drawn));
    if (status == DONE) {
        snprintf(text, room, "place %lu\n", (unsigned long)drawn.place);
    }
    return status;
}

int main(void) {
    lot_kernel kernel = LOT_KERNEL_NONE;
    char texts[3][128];
    int status = status_of(lot_kernel_new(&SIZES, &kernel));
    if (status != DONE) {
        return kernel.at == NULL ? status : FAILED;
    }
    if ((status = play(&kernel)) != DONE || (status = show(&kernel, 1, texts[0], sizeof texts[0])) != DONE ||
        (status = show(&kernel, 2, texts[1], sizeof texts[1])) != DONE || (status = hold_lottery(texts[2], sizeof texts[2])) != DONE) {
        return status;
    }
    char all[400];
    int length = snprintf(all, sizeof all, "%s%s%s", texts[0], texts[1], texts[2]);
    return lot_kernel_free(&kernel) == LOT_DONE && write(STDOUT_FILENO, all, (size_t)length) == length ? DONE : FAILED;
}
