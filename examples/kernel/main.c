// main.c: the experiment. Threads share the processor by their tickets, for two times five seconds:
//
//   - A client calls a server that has no tickets, and runs on those that the client lends it.
//   - Three threads want one mutex. One that waits lends its tickets to the owner, and a lottery picks the next owner.
//   - alice and bob have currencies. One of alice's threads yields after a fifth of each quantum, and gets its share
//     all the same (compensation). bob gets a third thread in the second half: his other two have half as much from
//     then on, and nobody else has less (insulation).
//   - One thread masks interrupts, so that its quanta end late. It has its share, and no more.
//   - One sleeps nearly always. When its sleep is over, the thread that runs loses the processor.
//   - In each half a hog takes the mutex for good. The sleeper kills it as soon as it wakes. The mutex passes to the
//     thread that has waited longest.
//   - One ends in each half. Both have one name, since the first is removed.
#include "kernel.h"

enum { PORT = 1, MUTEX = 1, HALF = 1250000, NAP = 2500 };

static uint32_t acquired[3], calls, naps, late, hog, killed;
static volatile uint32_t hogged; // volatile: else a compiler may leave out the write before `spins`, which never ends

// As `boot` starts QEMU, each instruction takes the same time.
static void work(uint32_t ticks) { do_steps((uint64_t)ticks * COUNTS_PER_TICK / COUNTS_PER_STEP); }

static void spins(uint32_t ticks) {
    for (;; work(ticks)) {
    }
}

static void yields(uint32_t ticks) {
    for (;; trap(LOT_YIELD, 0, 0)) {
        work(ticks);
    }
}

static void locks(uint32_t me) {
    for (;; work(60)) {
        trap(LOT_LOCK, MUTEX, 0);
        acquired[me]++;
        work(60);
        trap(LOT_UNLOCK, MUTEX, 0);
    }
}

static void asks(uint32_t ticks) {
    for (;; calls++) {
        work(ticks);
        if (trap(LOT_CALL, PORT, calls) != calls * calls) {
            panic("the reply is wrong");
        }
    }
}

static void squares(uint32_t ticks) {
    for (uint32_t asked = trap(LOT_RECEIVE, PORT, 0);; asked = trap(LOT_SERVE, PORT, asked * asked)) {
        work(ticks);
    }
}

static void masks(uint32_t ticks) {
    for (;; mask_interrupts(false)) {
        mask_interrupts(true);
        work(ticks);
    }
}

static void hogs(uint32_t ticks) {
    trap(LOT_LOCK, MUTEX, 0);
    hogged++;
    spins(ticks);
}

static void sleeps(uint32_t ticks) {
    for (;; naps++) {
        uint64_t due = time_now() + NAP * COUNTS_PER_TICK;
        trap(LOT_SLEEP, NAP, 0);
        late += (uint32_t)((time_now() - due) / COUNTS_PER_TICK);
        if (killed < hogged) {
            killed++;
            trap(LOT_KILL_NUMBERED, hog, 0);
        }
        work(ticks);
    }
}

static void greets(uint32_t half) { print("\nhello in half %u, and goodbye\n", half); }

// Threads, and how many percent are due to each in the two halves; + is with those above.
static const struct {
    const char *name, *currency;
    uint32_t tickets;
    thread_body *body;
    uint32_t argument;
    const char *due[2];
} all[] = {
    {"sleeper", "base", 100, sleeps, 5, {" 0.0", " 0.0"}},
    {"server", "base", 0, squares, 80, {"25.0", "25.0"}},
    {"client", "base", 200, asks, 30, {"   +", "   +"}},
    {"rich", "base", 100, locks, 0, {"25.0", "25.0"}},
    {"poor", "base", 50, locks, 1, {"   +", "   +"}},
    {"poor-too", "base", 50, locks, 2, {"   +", "   +"}},
    {"spins", "alice", 3, spins, 1, {"18.8", "18.8"}},
    {"yields", "alice", 1, yields, 20, {" 6.2", " 6.2"}},
    {"first", "bob", 1, spins, 1, {" 6.2", " 3.1"}},
    {"second", "bob", 1, spins, 1, {" 6.2", " 3.1"}},
    {"late", "base", 100, masks, 250, {"12.5", "12.5"}},
    {"third", "bob", 2, spins, 1, {" 0.0", " 6.3"}},
};

enum { MANY = sizeof all / sizeof all[0] };

static uint32_t made, numbers[MANY];
static uint64_t had[MANY]; // counts, until this half

static void make(void) {
    uint32_t tickets = all[made].tickets == 0 ? 1 : all[made].tickets;
    numbers[made] = spawn(all[made].name, tickets, all[made].currency, all[made].body, all[made].argument);
    made++;
}

static void print_row(uint32_t place, uint32_t half, uint64_t sum) {
    uint64_t counts = counts_of(numbers[place]);
    uint32_t share = (uint32_t)(((counts - had[place]) * 1000 + sum / 2) / sum);
    lot_thread_row row = row_of(numbers[place]);
    print("%8s %7u %5s    %s", all[place].name, all[place].tickets, all[place].currency, all[place].due[half]);
    print(" %5u.%u %8u %8u %8u\n", share / 10, share % 10, (uint32_t)row.quanta, (uint32_t)(counts / COUNTS_PER_TICK),
          (uint32_t)row.ticks);
    had[place] = counts;
}

static void run_half(uint32_t half) {
    uint64_t sum = 0;
    spawn("greeter", 100, "base", greets, half + 1);
    hog = spawn("hog", 100, "base", hogs, 1);
    run_threads(HALF);
    for (uint32_t place = 0; place < made; place++) {
        sum += counts_of(numbers[place]) - had[place];
    }
    print("thread   tickets           due     had   quanta    ticks  charged\n");
    for (uint32_t place = 0; place < made; place++) {
        print_row(place, half, sum);
    }
}

void kernel_main(void) {
    start_machine();
    start_lottery(1994);
    make_currency("alice", 200);
    make_currency("bob", 100);
    if (DISTURBED_CALLS != 0) {
        refuse_circles(DISTURBED_CALLS, "alice", "bob");
    }
    make(); // the sleeper, alone for ten naps: the processor rests
    run_threads(10 * NAP);
    print("alone, the sleeper has slept %u times, and went on %u ticks late\n", naps, late);
    make(); // the server. Without a ticket it would never come to its port, so it has one until it waits there.
    run_threads(QUANTUM);
    take_tickets(numbers[1]);
    while (made < MANY - 1) {
        make();
    }
    run_half(0);
    make();
    run_half(1);
    print("\nquanta ended: %u early, for the sleeper, %u in time, %u late\n", ends[0], ends[1], ends[2]);
    print("the mutex was had %u, %u and %u times\n", acquired[0], acquired[1], acquired[2]);
    print("%u hogs took it for good, and %u were killed; the server was called %u times\n", hogged, killed, calls);
    print("the sleeper has slept %u times, and went on %u ticks late on average\n", naps, late / naps);
    power_off();
}
