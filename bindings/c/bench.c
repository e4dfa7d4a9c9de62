// The kernel by itself, with no texts around it: what it replies to ten workloads, and how long an event takes.
//
//     bench [--time] [--events N] [--only NAME | --threads N]
//
// It makes 10000 events of each workload, and prints how many replies of each kind there were, a digest of all in
// order, and the kernel's counts of its own work. These are the same in each run; bench.out has them. With --time it
// makes ten million of each, and prints the nanoseconds of processor time that an event took, in the fastest 10000 and
// in all. A second kernel makes each 10000 beforehand, so only calls of the library are timed. --only takes one of the
// workloads, and --threads N so many threads that compute.

#include "lot.h"

#include <stdio.h>
#include <stdlib.h>
#include <string.h>
#include <time.h>

enum { QUANTUM = 100, PART = 10000, MOST_THREADS = 4096, MOST_PROCESSORS = 64 };
enum { FIRST_TICKET = 1, LOOSE_TICKET = 67 }; // of a chain: base's for the first currency, and one without a target

typedef enum sort {
    DRAWS,      // threads that compute without end
    CHAIN,      // a thread behind 64 currencies that fund each other; a ticket that goes to and from the first of them
    INFLATION,  // the same, but base's ticket for the first currency has one amount and another in turn
    YIELDS,     // threads over 64 currencies, each of which yields before a third of its quantum is used
    PING_PONG,  // a server and a client that calls it, beside threads that compute
    CONTENTION, // threads that want one mutex
} sort;

typedef struct workload {
    const char *name;
    sort sort;
    uint32_t threads, currencies, processors;
} workload;

static const workload workloads[] = {
    {"draw2", DRAWS, 2, 0, 1},
    {"draw16", DRAWS, 16, 0, 1},
    {"draw256", DRAWS, 256, 0, 1},
    {"draw4096", DRAWS, 4096, 0, 1},
    {"chain64", CHAIN, 2, 64, 1},
    {"inflate64", INFLATION, 2, 64, 1},
    {"yield4096", YIELDS, 4096, 64, 1},
    {"pingpong", PING_PONG, 258, 0, 1},
    {"contention", CONTENTION, 16, 0, 1},
    {"million", DRAWS, 512, 0, 64},
};

// A thread with its two traps, which it makes in turn, each after so many ticks of work. One that computes has none.
typedef struct thread {
    uint32_t amount, currency; // of the ticket that funds it
    struct {
        uint32_t kind, ticks;
    } traps[2];
    uint32_t next, worked; // the trap that it makes next, and the ticks of work done towards that
} thread;

// The workload under way. The leader makes its events one after another, and the follower makes them again.
static struct {
    const workload *load;
    lot_kernel leader, follower;
    lot_event events[PART];
    uint64_t made;                                   // by the leader
    lot_generator generators[MOST_PROCESSORS + 1];   // by processor, each with its number as its seed
    thread threads[MOST_THREADS + 1];                // by number
    unsigned long long kinds[LOT_REPLY_REFUSED + 1]; // the leader's replies of each kind
    unsigned long long digest;
} bench;

static void require(bool holds, const char *otherwise) {
    if (!holds) {
        fprintf(stderr, "bench: %s\n", otherwise);
        exit(1);
    }
}

static void must(uint32_t status) { require(status == LOT_DONE, lot_status_text(status)); }

static lot_reply answer(lot_kernel *kernel, lot_event event) {
    lot_reply reply;
    must(lot_kernel_event(kernel, &event, &reply));
    require(!lot_refused(&reply), lot_refusal_text(reply.reason));
    return reply;
}

// The thread with this number before its first event. One that locks has little work to do at first.
static thread new_thread(const workload *load, uint32_t number) {
    switch (load->sort) {
    case DRAWS: return (thread){.amount = number * 37 % 100 + 1};
    case CHAIN:
    case INFLATION: return number == 1 ? (thread){.amount = 5, .currency = 64} : (thread){.amount = 300};
    case YIELDS: return (thread){number % 7 + 1, number % 64 + 1, {{LOT_YIELD, 25}, {LOT_YIELD, 25}}, 0, 0};
    case CONTENTION: return (thread){number * 10, 0, {{LOT_LOCK, 6}, {LOT_UNLOCK, 150}}, 0, 4};
    case PING_PONG: break;
    }
    return number == 1   ? (thread){3000, 0, {{LOT_RECEIVE, 1}, {LOT_REPLY, 1}}, 0, 0}
           : number == 2 ? (thread){7000, 0, {{LOT_CALL, 4}, {LOT_CALL, 4}}, 0, 0}
                         : (thread){.amount = 10};
}

// Makes a kernel with the largest tables, and the workload's currencies and threads, each funded by one ticket. In a
// chain each currency issues the next one's ticket; otherwise base issues those of all currencies.
static void open_kernel(lot_kernel *kernel, const workload *load) {
    bool is_chain = load->sort == CHAIN || load->sort == INFLATION;
    lot_sizes sizes = {.tickets = 65535, .currencies = 4096, .threads = MOST_THREADS, .ports = 1, .mutexes = 1,
                       .processors = load->processors, .scripts = 1, .quantum = QUANTUM, .unit = 1};
    must(lot_kernel_new(&sizes, kernel));
    for (uint32_t currency = 1; currency <= load->currencies; currency++) {
        uint32_t issuer = is_chain ? currency - 1 : 0;
        char name[16];
        snprintf(name, sizeof name, "c%u", (unsigned)currency);
        answer(kernel, lot_make_currency(lot_name_of(name)));
        answer(kernel, lot_make_ticket_in(issuer > 0 ? issuer * 10 : currency * 1000, issuer));
        answer(kernel, lot_fund_currency(currency, currency));
    }
    for (uint32_t number = 1; number <= load->threads; number++) {
        const thread *funded = &bench.threads[number];
        answer(kernel, lot_make_funded_in(funded->amount, funded->currency, lot_no_name(), 1));
    }
    if (load->sort == CHAIN) {
        answer(kernel, lot_make_ticket_in(500, 0));
    }
}

static void start(const workload *load) {
    memset(&bench, 0, sizeof bench);
    bench.load = load;
    for (uint32_t number = 1; number <= load->threads; number++) {
        bench.threads[number] = new_thread(load, number);
    }
    for (uint32_t processor = 1; processor <= load->processors; processor++) {
        must(lot_generator_new(processor, &bench.generators[processor]));
    }
    open_kernel(&bench.leader, load);
    open_kernel(&bench.follower, load);
}

// The running thread's next trap, or its expiry if its quantum ends before that.
static lot_event thread_event(uint32_t processor, lot_runner runner) {
    thread *self = &bench.threads[runner.thread];
    uint32_t kind = self->traps[self->next].kind, ticks = self->traps[self->next].ticks - self->worked;
    if (kind == 0 || ticks >= QUANTUM - runner.used) {
        self->worked += QUANTUM - runner.used;
        return lot_expire(processor);
    }
    self->next = 1 - self->next;
    self->worked = 0;
    return (lot_event){.kind = kind, .processor = processor, .ticks = ticks, .object = 1, .sent = 1};
}

// Processors take turns. In a chain each third event is a command.
static lot_event next_event(void) {
    uint64_t turn = bench.made++;
    uint32_t processor = (uint32_t)(turn % bench.load->processors) + 1;
    lot_event event = lot_draw(processor, lot_wide_of(0));
    lot_runner runner;
    if (turn % 3 == 0 && bench.load->sort == CHAIN) {
        return turn % 2 == 0 ? lot_fund(LOOSE_TICKET, lot_name_of("c1")) : lot_unfund(LOOSE_TICKET);
    }
    if (turn % 3 == 0 && bench.load->sort == INFLATION) {
        return lot_set_ticket(FIRST_TICKET, turn % 2 == 0 ? 1500 : 1000);
    }
    if (lot_kernel_runner(&bench.leader, processor, &runner) == LOT_DONE) {
        event = thread_event(processor, runner);
    }
    if (event.kind == LOT_DRAW || event.kind == LOT_UNLOCK) {
        must(lot_generator_number(&bench.generators[processor], &event.number.low));
    }
    return event;
}

// Counts a reply. It adds four words to the digest: its kind (the listings are one), its thread, and two more.
static void count(lot_reply reply) {
    bool is_won = reply.kind == LOT_REPLY_WINNER;
    uint64_t outcome = reply.outcome == LOT_OUTCOME_PASSED ? 12 + reply.other : reply.outcome;
    uint64_t words[4] = {reply.kind > LOT_REPLY_LIST_TICKETS ? reply.kind - 2 : reply.kind, reply.thread,
                         is_won ? reply.number.low : reply.ticks, is_won ? reply.total.low : outcome};
    for (int i = 0; i < 4; i++) {
        bench.digest = bench.digest * 1099511628211 + words[i];
    }
    bench.kinds[reply.kind]++;
}

// Makes the next events on the leader, and then on the follower. Returns the seconds that the follower took.
static double make_part(void) {
    uint32_t faults = 0;
    for (int i = 0; i < PART; i++) {
        bench.events[i] = next_event();
        count(answer(&bench.leader, bench.events[i]));
    }
    clock_t began = clock();
    for (int i = 0; i < PART; i++) {
        lot_reply reply;
        faults |= lot_kernel_event(&bench.follower, &bench.events[i], &reply);
    }
    clock_t spent = clock() - began;
    must(faults);
    return (double)spent / CLOCKS_PER_SEC;
}

static void print_replies(lot_meter meter) {
    printf("won %llu idle %llu expired %llu trapped %llu done %llu refused %llu digest %llu reads %llu visits %llu\n",
           bench.kinds[LOT_REPLY_WINNER], bench.kinds[LOT_REPLY_IDLE], bench.kinds[LOT_REPLY_EXPIRED],
           bench.kinds[LOT_REPLY_TRAPPED], bench.kinds[LOT_REPLY_DONE], bench.kinds[LOT_REPLY_REFUSED], bench.digest,
           (unsigned long long)meter.ticket_reads, (unsigned long long)meter.tree_visits);
}

// Makes the events of a workload, in whole parts. Prints the replies, or the time.
static void run(const workload *load, unsigned long events, bool is_timed) {
    unsigned long parts = events < PART ? 1 : events / PART;
    double fastest = 1e9, total = 0;
    lot_meter led, followed;
    start(load);
    for (unsigned long part = 0; part < parts; part++) {
        double spent = make_part();
        fastest = spent < fastest ? spent : fastest;
        total += spent;
    }
    must(lot_kernel_meter(&bench.leader, &led));
    must(lot_kernel_meter(&bench.follower, &followed));
    require(memcmp(&led, &followed, sizeof led) == 0, "two kernels count the same events differently");
    printf("%s ", load->name);
    if (is_timed) {
        printf("%.1f mean %.1f\n", fastest / PART * 1e9, total / PART / (double)parts * 1e9);
    } else {
        print_replies(led);
    }
    lot_kernel_free(&bench.leader);
    lot_kernel_free(&bench.follower);
}

// The workload with this name, or all if it is NULL.
static void run_named(const char *name, unsigned long events, bool is_timed) {
    bool is_found = false;
    for (size_t i = 0; i < sizeof workloads / sizeof *workloads; i++) {
        if (name == NULL || strcmp(name, workloads[i].name) == 0) {
            run(&workloads[i], events, is_timed);
            is_found = true;
        }
    }
    require(is_found, "no workload has this name");
}

int main(int argc, char **argv) {
    const char *only = NULL;
    unsigned long events = 0, threads = 0;
    bool is_timed = false;
    for (int i = 1; i < argc; i++) {
        bool has_value = i + 1 < argc;
        if (strcmp(argv[i], "--time") == 0) {
            is_timed = true;
        } else if (has_value && strcmp(argv[i], "--events") == 0) {
            events = strtoul(argv[++i], NULL, 10);
        } else if (has_value && strcmp(argv[i], "--only") == 0) {
            only = argv[++i];
        } else if (has_value && strcmp(argv[i], "--threads") == 0) {
            threads = strtoul(argv[++i], NULL, 10);
        } else {
            require(false, "usage: bench [--time] [--events N] [--only NAME | --threads N]");
        }
    }
    events = events > 0 ? events : is_timed ? 1000 * PART : PART;
    require(threads <= MOST_THREADS, "too many threads");
    if (threads > 0) {
        char name[16];
        snprintf(name, sizeof name, "draw%lu", threads);
        run(&(workload){name, DRAWS, (uint32_t)threads, 0, 1}, events, is_timed);
    } else {
        run_named(only, events, is_timed);
    }
    return 0;
}
