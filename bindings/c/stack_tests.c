// How much stack the library takes: each call is made on a stack of its own that was painted before, and the lowest
// byte that lost its paint says how far the call went down. It prints what it measured, and ends with status 1 where
// a call took more than is said here. lot.h says what was measured.

#define _XOPEN_SOURCE 700

#include "lot.h"

#include <stdio.h>
#include <stdlib.h>
#include <string.h>
#include <ucontext.h>

enum { ROOM = 64 * 1024, PAINT = 0xa5, ROUNDS = 4000 };

static unsigned char room[ROOM];
static ucontext_t caller, callee;
static void (*call)(void);
static uintptr_t top;

// What the calls below read and write.
static lot_sizes sizes;
static lot_kernel kernel;
static lot_event event;
static lot_reply reply;
static lot_thread_row row;
static lot_ticket_row ticket_row;
static lot_wide weights[40];
static uint32_t status;

static void make_call(void) {
    unsigned char mark = 0;
    top = (uintptr_t)&mark;
    call();
}

// How many bytes of stack the function takes.
static size_t taken_by(void (*function)(void)) {
    memset(room, PAINT, sizeof room);
    call = function;
    getcontext(&callee);
    callee.uc_stack.ss_sp = room;
    callee.uc_stack.ss_size = sizeof room;
    callee.uc_link = &caller;
    makecontext(&callee, make_call, 0);
    swapcontext(&caller, &callee);
    size_t lowest = 0;
    while (room[lowest] == PAINT) {
        lowest++;
    }
    return (size_t)(top - (uintptr_t)&room[lowest]);
}

static void new_kernel(void) { status = lot_kernel_new(&sizes, &kernel); }
static void free_kernel(void) { status = lot_kernel_free(&kernel); }
static void do_event(void) { status = lot_kernel_event(&kernel, &event, &reply); }
static void read_row(void) { status = lot_kernel_thread_row(&kernel, 1, &row); }
static void read_ticket_row(void) { status = lot_kernel_ticket_row(&kernel, 1, &ticket_row); }
static void settle(void) { status = lot_kernel_settle(&kernel); }
static void read_settled_row(void) { status = lot_kernel_settled_ticket_row(&kernel, 1, &ticket_row); }

static void hold_lottery(void) {
    lot_wide number = lot_wide_of(7);
    lot_drawn drawn;
    status = lot_winner(weights, 40, &number, &drawn);
}

static void must_be_at_most(const char *name, size_t taken, size_t most) {
    printf("%s: %zu bytes of stack\n", name, taken);
    if (status != LOT_DONE || taken > most) {
        printf("not so: at most %zu, status %s\n", most, lot_status_text(status));
        exit(1);
    }
}

static uint64_t below(uint64_t bound) {
    static lot_generator generator = {1};
    uint32_t value = 0;
    return lot_generator_next(&generator, &value) == LOT_DONE ? value % bound : 0;
}

// An event that means something more often than not. Ends are rare, so that there is somebody to run.
static lot_event some_event(void) {
    static const char *const names[8] = {"base", "a", "b", "c", "d", "e", "f", "g"};
    lot_event made = lot_make_funded(below(1000), lot_name_of(names[below(8)]), lot_name_of(names[below(8)]), 1);
    made.kind = (uint32_t)below(LOT_MAKE_FUNDED_IN) + 1;
    made.processor = 1;
    made.ticks = (uint32_t)below(40);
    made.object = (uint32_t)below(2) + 1;
    made.ticket = below(70);
    made.number = lot_wide_of(below(1 << 20));
    if (made.kind == LOT_EXIT && below(512) != 0) {
        made.kind = LOT_DRAW;
    }
    return made;
}

static size_t taken_by_events(void) {
    size_t most = 0;
    for (int i = 0; i < ROUNDS; i++) {
        event = some_event();
        size_t taken = taken_by(do_event);
        most = taken > most ? taken : most;
    }
    return most;
}

// Fills all sizes with a chain of currencies, each funded by the one before, and a thread at its end: a draw then
// settles as many values as it can.
static size_t taken_by_chain(void) {
    char name[8] = "base", next[8];
    size_t most = 0;
    for (uint32_t i = 1; i <= sizes.currencies; i++) {
        snprintf(next, sizeof next, "c%u", i);
        lot_event events[3] = {lot_make_currency(lot_name_of(next)), lot_make_ticket(1000, lot_name_of(name)),
                               lot_fund(i, lot_name_of(next))};
        lot_reply replies[3];
        size_t done = 0;
        status = lot_kernel_run(&kernel, events, 3, replies, 3, &done);
        memcpy(name, next, sizeof name);
    }
    lot_event last[2] = {lot_make_funded(5, lot_name_of(name), lot_name_of("t"), 1), lot_draw(1, lot_wide_of(0))};
    for (size_t i = 0; i < 2; i++) {
        event = last[i];
        size_t taken = taken_by(do_event);
        most = taken > most ? taken : most;
    }
    if (reply.kind != LOT_REPLY_WINNER || reply.total.low != 1000 * 256) {
        status = LOT_NOT_THERE;
    }
    return most;
}

// Kills the thread that the draw above left running.
static size_t taken_by_kill(void) {
    event = lot_kill_numbered(1);
    size_t taken = taken_by(do_event);
    if (reply.kind != LOT_REPLY_DONE) {
        status = LOT_NOT_THERE;
    }
    return taken;
}

int main(void) {
    sizes = lot_sizes_small();
    sizes.queued_lend = 1;
    must_be_at_most("lot_kernel_new", taken_by(new_kernel), 14 * 1024);
    must_be_at_most("lot_kernel_event", taken_by_events(), 3 * 1024);
    must_be_at_most("lot_kernel_thread_row", taken_by(read_row), 2 * 1024);
    must_be_at_most("lot_kernel_free", taken_by(free_kernel), 6 * 1024);
    sizes = (lot_sizes){65535, 4096, 4096, 256, 256, 64, 256, 1000, 256, 1, 1, 1};
    must_be_at_most("lot_kernel_new, largest", taken_by(new_kernel), 14 * 1024);
    must_be_at_most("lot_kernel_event, largest", taken_by_chain(), 3 * 1024);
    must_be_at_most("lot_kernel_thread_row, largest", taken_by(read_row), 2 * 1024);
    must_be_at_most("lot_kernel_ticket_row, largest", taken_by(read_ticket_row), 2 * 1024);
    must_be_at_most("lot_kernel_event, a kill", taken_by_kill(), 3 * 1024);
    must_be_at_most("lot_kernel_settle", taken_by(settle), 2 * 1024);
    must_be_at_most("lot_kernel_settled_ticket_row", taken_by(read_settled_row), 2 * 1024);
    must_be_at_most("lot_kernel_free, largest", taken_by(free_kernel), 6 * 1024);
    weights[0] = lot_wide_of(1);
    must_be_at_most("lot_winner", taken_by(hold_lottery), 1024);
    puts("ok: stack");
    return 0;
}
