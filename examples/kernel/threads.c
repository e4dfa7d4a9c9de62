// threads.c: threads, and the lottery that says which of them runs. A thread goes on until the alarm interrupts it, or
// until it traps: it yields, sleeps, calls, locks, ends and so on. `run_threads` tells the library which of these it
// was, and asks who runs next. It is the kernel's only loop, on the kernel's own stack and with interrupts masked. So
// no two calls of the library overlap, threads' stacks may be small, and vector registers are the library's alone.
#include "kernel.h"

enum { PROCESSOR = 1, STACK_WORDS = 512, CANARY = 0x5afe };

typedef struct thread {
    frame registers;
    uint32_t ticket;  // that funds it
    uint64_t counts;  // how long it has run, by the timer
    uint64_t charged; // the ticks that the library has been told of
    uint64_t wakes;   // when its sleep is over; 0 if it doesn't sleep
    _Alignas(16) uint64_t stack[STACK_WORDS];
} thread;

static thread threads[THREADS + 1]; // each in the place of its number, which is 1 at least
static lot_kernel lottery = LOT_KERNEL_NONE;
static lot_generator generator;
static uint64_t now, started; // the time, in counts, and where the timer was when it began to go on
uint32_t ends[3];

// ---- the time: it stands still in the kernel, so what threads do doesn't depend on how fast the library is

static void start_time(uint64_t alarm) {
    started = counter();
    alarm_at(started + (alarm - now));
}

static uint64_t stop_time(void) {
    uint64_t passed = counter() - started;
    now += passed;
    return passed;
}

uint64_t time_now(void) { return now + (counter() - started); }

// ---- the library

static lot_wide drawn_number(void) {
    lot_wide number;
    if (lot_generator_wide_number(&generator, &number) != LOT_DONE) {
        panic("there is no number");
    }
    return number;
}

// Tells the library of an event. What was sent to a thread is what its trap returns.
static lot_reply tell(lot_event event) {
    lot_reply reply;
    uint32_t status = lot_kernel_event(&lottery, &event, &reply);
    if (status != LOT_DONE || lot_refused(&reply)) {
        panic("event %u: %s", event.kind, status != 0 ? lot_status_text(status) : lot_refusal_text(reply.reason));
    }
    if (reply.has_sent) {
        give(&threads[reply.thread].registers, reply.sent);
    }
    return reply;
}

void start_lottery(uint32_t seed) {
    // Threads come and go, so the numbers of buried ones are given again: the sizes count what exists at once.
    lot_sizes sizes = {.tickets = 64, .currencies = 16, .threads = THREADS, .ports = 1, .mutexes = 1, .processors = 1,
                       .scripts = 1, .quantum = QUANTUM, .unit = 256, .reuse = 1};
    if (lot_generator_new(seed, &generator) != LOT_DONE || lot_kernel_new(&sizes, &lottery) != LOT_DONE) {
        panic("there is no lottery");
    }
}

void make_currency(const char *name, uint32_t base_tickets) {
    tell(lot_make_currency(lot_name_of(name)));
    tell(lot_fund(tell(lot_make_ticket(base_tickets, lot_name_of("base"))).ticket, lot_name_of(name)));
}

void take_tickets(uint32_t number) {
    tell(lot_unfund(threads[number].ticket));
    tell(lot_remove_ticket(threads[number].ticket));
}

// Asks so often for a funding that would make a circle of two currencies, with interrupts on. Each time the library
// refuses it, whatever comes between.
void refuse_circles(uint32_t times, const char *one, const char *other) {
    lot_reply there = tell(lot_make_ticket(1, lot_name_of(one))), back = tell(lot_make_ticket(1, lot_name_of(other)));
    tell(lot_fund(there.ticket, lot_name_of(other)));
    lot_event circle = lot_fund(back.ticket, lot_name_of(one));
    uint64_t before = disturb(true);
    for (uint32_t count = 0; count < times; count++) {
        lot_reply reply;
        uint32_t status = lot_kernel_event(&lottery, &circle, &reply);
        if (status != LOT_DONE || reply.reason != LOT_REFUSAL_CYCLE) {
            panic("circle %u isn't refused", count);
        }
    }
    uint64_t interrupts = disturb(false) - before;
    print("%u circles were refused, and %u interrupts came meanwhile\n", times, (uint32_t)interrupts);
    tell(lot_unfund(there.ticket));
    tell(lot_remove_ticket(there.ticket));
    tell(lot_remove_ticket(back.ticket));
}

uint64_t counts_of(uint32_t number) { return threads[number].counts; }

lot_thread_row row_of(uint32_t number) {
    lot_thread_row row;
    if (lot_kernel_thread_row(&lottery, number, &row) != LOT_DONE) {
        panic("there is no thread %u", number);
    }
    return row;
}

// ---- a thread's life

static void end_thread(void) { trap(LOT_EXIT, 0, 0); }

// Makes a thread, which begins with its body and returns from there to `end_thread`.
uint32_t spawn(const char *name, uint32_t tickets, const char *currency, thread_body *body, uint32_t argument) {
    lot_reply made = tell(lot_make_funded(tickets, lot_name_of(currency), lot_name_of(name), 1));
    thread *it = &threads[made.thread];
    it->ticket = made.ticket;
    it->counts = it->charged = 0; // another thread may have had the number
    it->stack[0] = CANARY;
    begin(&it->registers, it->stack + STACK_WORDS, body, argument, end_thread);
    return made.thread;
}

// A thread has ended by itself, or another one has killed it. Its ticket goes, and its name may be given again.
static void bury(uint32_t number) {
    threads[number].wakes = 0;
    take_tickets(number);
    tell(lot_remove_thread_numbered(number));
}

// Wakes the sleepers whose time has come, and gives the time of the next one.
static uint64_t wake_sleepers(void) {
    uint64_t next = NEVER;
    for (uint32_t number = 1; number <= THREADS; number++) {
        uint64_t wakes = threads[number].wakes;
        if (wakes != 0 && wakes <= now) {
            threads[number].wakes = 0;
            tell(lot_wake(number));
        } else if (wakes != 0 && wakes < next) {
            next = wakes;
        }
    }
    return next;
}

// ---- the scheduler

// The alarm has interrupted a thread: for a sleeper, at the quantum's end, or late, since interrupts were masked.
static void stop(uint32_t ticks, uint32_t left) {
    if (ticks < left) {
        tell(lot_preempt(PROCESSOR, ticks));
    } else if (ticks == left) {
        tell(lot_expire(PROCESSOR));
    } else {
        tell(lot_overrun(PROCESSOR, ticks - left));
    }
    ends[(ticks >= left) + (ticks > left)]++;
}

// The event that a trap is, after so many ticks of work. What isn't here no thread may ask for.
static lot_event event_of(uint32_t kind, uint32_t ticks, uint32_t object, uint32_t sent) {
    switch (kind) {
    case LOT_YIELD: return lot_yield(PROCESSOR, ticks);
    case LOT_SLEEP: return lot_sleep(PROCESSOR, ticks);
    case LOT_CALL: return lot_call(PROCESSOR, ticks, object, sent);
    case LOT_RECEIVE: return lot_receive(PROCESSOR, ticks, object);
    case LOT_SERVE: return lot_serve(PROCESSOR, ticks, object, sent);
    case LOT_LOCK: return lot_lock(PROCESSOR, ticks, object);
    case LOT_UNLOCK: return lot_unlock(PROCESSOR, ticks, object, drawn_number());
    case LOT_EXIT: return lot_exit(PROCESSOR, ticks);
    case LOT_KILL_NUMBERED: return lot_kill_numbered(object);
    default: panic("there is no trap %u", kind);
    }
}

// A thread has trapped after so many ticks, the last of which is the trap's own. Its registers have `trap`'s arguments.
// Gives the ticks that it was charged: none for a kill, which is a command to the library and no trap. The thread that
// asked for it goes on, and these ticks count when it next stops.
static uint32_t do_trap(uint32_t number, uint32_t ticks) {
    uint64_t *given = arguments_of(&threads[number].registers);
    uint32_t kind = (uint32_t)given[0], object = (uint32_t)given[1];
    tell(event_of(kind, ticks - 1, object, (uint32_t)given[2]));
    if (kind == LOT_SLEEP) {
        threads[number].wakes = now + (uint64_t)object * COUNTS_PER_TICK;
    } else if (kind == LOT_EXIT || kind == LOT_KILL_NUMBERED) {
        bury(kind == LOT_EXIT ? number : object);
    }
    return kind == LOT_KILL_NUMBERED ? 0 : ticks;
}

// Runs a thread until it stops, and charges it what the timer says. A trap costs one tick at least, and at most what
// the quantum has left; what is charged too much or too little by that counts when the thread next stops.
static void run(lot_runner runner, uint64_t next_wake) {
    thread *it = &threads[runner.thread];
    uint32_t left = QUANTUM - runner.used;
    uint64_t end = now + (it->charged + left) * COUNTS_PER_TICK - it->counts;
    start_time(end < next_wake ? end : next_wake);
    uint64_t reason = resume(&it->registers);
    it->counts += stop_time();
    uint64_t ran = it->counts / COUNTS_PER_TICK;
    uint32_t ticks = ran > it->charged ? (uint32_t)(ran - it->charged) : 0;
    if (it->stack[0] != CANARY || (reason != 0 && !has_trapped(reason))) {
        panic("thread %u: fault %x at %x", runner.thread, (uint32_t)reason, (uint32_t)it->registers.pc);
    }
    if (reason != 0) {
        ticks = ticks == 0 ? 1 : ticks < left ? ticks : left;
        ticks = do_trap(runner.thread, ticks);
    } else {
        end_interrupt();
        stop(ticks, left);
    }
    it->charged += ticks;
}

// Runs threads for so many ticks. The processor rests while all of them wait, and it returns early if none sleeps then.
void run_threads(uint32_t ticks) {
    uint64_t until = now + (uint64_t)ticks * COUNTS_PER_TICK;
    lot_runner runner;
    while (now < until) {
        uint64_t next_wake = wake_sleepers();
        if (lot_kernel_runner(&lottery, PROCESSOR, &runner) == LOT_DONE) {
            run(runner, next_wake);
        } else if (tell(lot_draw(PROCESSOR, drawn_number())).kind == LOT_REPLY_IDLE) {
            if (next_wake == NEVER) {
                return;
            }
            start_time(next_wake);
            wait_for_alarm();
            stop_time();
        }
    }
}
