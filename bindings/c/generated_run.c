// A generated run: millions of events of all kinds, each of which must have the reply that a plain model has for it.
//
//     generated_run [EVENTS [SEED]]
//
// The first kernel has the largest sizes and gets an eighth of the events. The third is small, gives numbers again and
// gets a third of the events: in it threads, tickets and currencies are born and die for as long as it lasts, far more
// than it has room for at once. The fourth has the largest sizes and gives numbers again; it gets a hundredth of the
// events, since it fills up with tickets that fund each other, and each draw then settles many. The others are small,
// with a larger one now and then, until there are EVENTS. A third of them give numbers again, a third have plain names,
// as the fourth kernel has, and in a third queued calls lend, as in the third and the fourth kernel. Threads, tickets
// and currencies come and go all the time, a quarter of the threads have no name, and some events are hostile.
// Compared with the model are
//   - of each event the status and the reply. In a small kernel the model holds each lottery itself, over values that
//     it computes from the tickets. In a larger one it holds one of many, and each in which the kernel finds nobody
//     worth anything; of the others it takes the winner and the total from the kernel, if that winner may win;
//   - of each kernel at its end, and of the one at hand after each million events, all rows, runners and counts;
//   - after some events a single row, half of them by the calls for readers.
// And a kernel that gives numbers again is full only while as many exist as its sizes say.
//
// The events depend on the two arguments alone. The nth kernel has the seed SEED + n - 1, so one that fails comes again
// as the first one of a run with the seed that is printed.

#include "model.h"
#include "test_kinds.h"
#include "test_random.h"

#include <stdio.h>
#include <stdlib.h>
#include <string.h>

enum {
    EVENTS = 10000000,        // if no argument says otherwise
    EVENTS_FOR_ALL = 1000000, // from which on each kind, outcome and refusal comes up
    EVENTS_OF_LINE = 1000000, // after as many there is a line, and all rows are compared
    EVENTS_OF_LARGER = 40000, // of a larger kernel
    LARGEST_IN = 4096,        // one kernel in as many has the largest sizes,
    LARGEST_HAS = 8,          // and one event in as many;
    LARGEST_AGAIN_HAS = 100,  // another gives numbers again, and has one event in as many
    LARGER_IN = 64,           // one in as many is larger than others
    LASTING_HAS = 3,          // one event in as many is of the kernel that lasts
    LIFE = 1000,              // in as many events its tables fill and empty
    STILL = 60                // after as many idle draws in a row a kernel is given up
};

// What is meant of structs that have bytes behind their last field.
#define UP_TO(type, last) (offsetof(type, last) + sizeof(((type *)NULL)->last))

// ---- what is going on

static uint64_t events_wanted, first_seed = 1, kernel_seed;
static lot_kernel kernel;

// Of the kernel at hand.
static struct {
    uint64_t events, most;  // made so far, and to be made
    uint64_t life;          // in as many events all that may be made is made, and most of it goes
    bool is_flood;          // whether more is made than goes, where numbers are given again
    uint64_t still;         // idle draws in a row
    uint32_t rush;          // as many threads are made at once
    uint32_t density;       // so many tickets for a thread
    uint64_t exit_gap;      // one trap in as many is an exit
    uint64_t row_gap;       // after one event in as many a row is compared
    uint64_t hostile_gap;   // one event in as many is hostile
    bool has_planned;       // whether there is an event that comes next
    lot_event planned;
    uint32_t doomed; // a currency that is to be removed, 0 for none
} run;

// Of all kernels.
static struct {
    uint64_t events, kernels, rows, no_events;
    uint64_t births, exits, kills, removals;
    uint64_t full;         // refusals where numbers are given again
    uint64_t unnamed;      // threads born without a name
    uint64_t plain;        // threads born with a plain name
    uint64_t bad_names[2]; // where names are good names, and where they are plain ones
    uint64_t kinds[LAST_KIND + 1], outcomes[LAST_OUTCOME + 1], reasons[LAST_REFUSAL + 1];
} total;

// ---- random numbers

// One of so many numbers from 1; 1 if there is none.
static uint32_t one_of(uint32_t count) {
    return from_to(1, count == 0 ? 1 : count);
}

// A number up to the greatest, small ones as often as large ones.
static uint32_t up_to(uint32_t most) {
    return one_of(most >> below(12));
}

// ---- what went wrong

static void print_reply(const char *whose, uint32_t status, const lot_reply *it) {
    printf("%s: status %u, kind %u, reason %u, ticket %u, currency %u, thread %u, ticks %u, outcome %u, other %u, "
           "replied_to %u, sent %u, has_sent %d, has_draw %d, ends %d, goes_on %d, number %llu + 2^64 * %llu, "
           "total %llu + 2^64 * %llu\n",
           whose, status, it->kind, it->reason, it->ticket, it->currency, it->thread, it->ticks, it->outcome,
           it->other, it->replied_to, it->sent, it->has_sent, it->has_draw, it->ends, it->goes_on,
           (unsigned long long)it->number.low, (unsigned long long)it->number.high,
           (unsigned long long)it->total.low, (unsigned long long)it->total.high);
}

static void print_bytes(const char *whose, const void *at, size_t size) {
    printf("%s:", whose);
    for (size_t i = 0; i < size; i++) {
        printf(" %02x", ((const unsigned char *)at)[i]);
    }
    puts("");
}

static void print_place(const char *what) {
    const lot_sizes *sizes = &machine.sizes;
    printf("DIFFERS: %s\nafter event %llu of the kernel with seed %llu; again: generated_run %llu %llu\n", what,
           (unsigned long long)run.events, (unsigned long long)kernel_seed, (unsigned long long)events_wanted,
           (unsigned long long)kernel_seed);
    printf("sizes: %u tickets, %u currencies, %u threads, %u ports, %u mutexes, %u processors, %u scripts, quantum %u, "
           "unit %u, reuse %u, plain names %u, queued calls lend %u\n",
           sizes->tickets, sizes->currencies, sizes->threads, sizes->ports, sizes->mutexes, sizes->processors,
           sizes->scripts, sizes->quantum, sizes->unit, sizes->reuse, sizes->plain_names, sizes->queued_lend);
}

static void fail_reply(const lot_event *event, uint32_t status, const lot_reply *got, uint32_t due,
                       const lot_reply *wanted) {
    print_place("a reply");
    printf("kind %u\n", event->kind);
    print_bytes("event", event, sizeof *event);
    print_reply("kernel", status, got);
    print_reply("model", due, wanted);
    exit(1);
}

static void fail_row(const char *what, uint32_t number, const void *got, const void *wanted, size_t size) {
    print_place(what);
    printf("number %u\n", number);
    print_bytes("kernel", got, size);
    print_bytes("model", wanted, size);
    exit(1);
}

static void check(bool holds, const char *what) {
    if (!holds) {
        print_place(what);
        exit(1);
    }
}

// ---- rows

// Both have the row, with the same bytes, or neither has.
static void compare_row(const char *what, uint32_t number, uint32_t status, bool is_there, const void *got,
                        const void *wanted, size_t size) {
    total.rows++;
    if (status != (is_there ? LOT_DONE : LOT_NOT_THERE) || (is_there && memcmp(got, wanted, size) != 0)) {
        fail_row(what, number, got, wanted, size);
    }
}

// Whether the next row is read from the settled kernel.
static bool reads_settled;

static void compare_ticket(uint32_t ticket) {
    lot_ticket_row got = {.amount = 0}, wanted = {.amount = 0};
    uint32_t status = reads_settled ? lot_kernel_settled_ticket_row(&kernel, ticket, &got)
                                    : lot_kernel_ticket_row(&kernel, ticket, &got);
    bool is_there = model_ticket_row(ticket, &wanted);
    compare_row("a ticket's row", ticket, status, is_there, &got, &wanted, UP_TO(lot_ticket_row, is_active));
}

static void compare_currency(uint32_t currency) {
    lot_currency_row got = {.value = 0}, wanted = {.value = 0};
    uint32_t status = reads_settled ? lot_kernel_settled_currency_row(&kernel, currency, &got)
                                    : lot_kernel_currency_row(&kernel, currency, &got);
    bool is_there = model_currency_row(currency, &wanted);
    compare_row("a currency's row", currency, status, is_there, &got, &wanted, UP_TO(lot_currency_row, name));
}

static void compare_thread(uint32_t thread) {
    lot_thread_row got = {.value = 0}, wanted = {.value = 0};
    uint32_t status = reads_settled ? lot_kernel_settled_thread_row(&kernel, thread, &got)
                                    : lot_kernel_thread_row(&kernel, thread, &got);
    uint32_t script = 0;
    bool is_there = model_thread_row(thread, &wanted);
    compare_row("a thread's row", thread, status, is_there, &got, &wanted, UP_TO(lot_thread_row, name));
    status = lot_kernel_script_of(&kernel, thread, &script);
    compare_row("a thread's script", thread, status, is_there, &script, &machine.threads[is_there ? thread : 0].script,
                sizeof script);
}

static void compare_runner(uint32_t processor) {
    lot_runner got = {0, 0}, wanted = {0, 0};
    bool is_there = processor >= 1 && processor <= machine.sizes.processors && machine.runners[processor] != 0;
    if (is_there) {
        wanted = (lot_runner){machine.runners[processor], machine.threads[machine.runners[processor]].used};
    }
    uint32_t status = lot_kernel_runner(&kernel, processor, &got);
    compare_row("a runner", processor, status, is_there, &got, &wanted, sizeof got);
}

static void compare_counts(void) {
    uint32_t tickets = 0, currencies = 0;
    lot_sizes sizes = {.tickets = 0};
    check(lot_kernel_limits(&kernel, &sizes) == LOT_DONE && memcmp(&sizes, &machine.sizes, sizeof sizes) == 0, "sizes");
    check(lot_kernel_ticket_count(&kernel, &tickets) == LOT_DONE && tickets == machine.ticket_count, "ticket numbers");
    check(lot_kernel_currency_count(&kernel, &currencies) == LOT_DONE && currencies == machine.currency_count,
          "currency numbers");
}

// From the first number to the last one and the one behind it.
static void compare_each(void (*compare)(uint32_t), uint32_t first, uint32_t last) {
    for (uint32_t number = first; number <= last + 1; number++) {
        compare(number);
    }
}

static void compare_all(void) {
    compare_counts();
    compare_each(compare_thread, 0, machine.sizes.threads);
    compare_each(compare_currency, 0, machine.currency_count);
    compare_each(compare_ticket, 0, machine.ticket_count);
    compare_each(compare_runner, 0, machine.sizes.processors);
}

static void compare_one(void) {
    reads_settled = one_in(2);
    check(!reads_settled || lot_kernel_settle(&kernel) == LOT_DONE, "a kernel is settled");
    switch (below(4)) {
    case 0: compare_ticket(from_to(0, machine.ticket_count + 1)); break;
    case 1: compare_currency(from_to(0, machine.currency_count)); break;
    case 2: compare_thread(from_to(0, machine.thread_count + 1)); break;
    default: compare_runner(from_to(0, machine.sizes.processors + 1)); break;
    }
    reads_settled = false;
}

// ---- what to name

static uint32_t member(const struct set *set, uint32_t otherwise) {
    return set->count == 0 ? otherwise : set->members[below(set->count)];
}

// A number up to a few more than there are, or any number at all.
static uint32_t any_number(uint32_t count) {
    return one_in(4) ? (uint32_t)random_bits() : from_to(0, count + 2);
}

static uint32_t some_currency(void) {
    if (one_in(40)) {
        return any_number(machine.currency_count);
    }
    return one_in(3) ? 0 : member(&machine.currencies_there, 0);
}

// Mostly not base.
static uint32_t some_user_currency(void) {
    return one_in(30) ? some_currency() : member(&machine.currencies_there, 0);
}

static uint32_t some_thread(void) {
    return one_in(40) ? any_number(machine.thread_count) : member(&machine.threads_there, 1);
}

// A ticket, one that funds something or one that doesn't, if one of a few has it so.
static uint32_t some_ticket(bool is_funding) {
    uint32_t ticket = one_in(40) ? any_number(machine.ticket_count) : member(&machine.tickets_there, 1);
    for (unsigned tries = 0; tries < 6 && is_ticket(ticket); tries++) {
        if ((machine.tickets[ticket].target.kind != UNFUNDED) == is_funding) {
            break;
        }
        ticket = member(&machine.tickets_there, 1);
    }
    return ticket;
}

// A thread with this status, if one of a few has it.
static uint32_t some_thread_that(lot_thread_status_kind status) {
    uint32_t thread = some_thread();
    for (unsigned tries = 0; tries < 8 && is_thread(thread) && machine.threads[thread].status != status; tries++) {
        thread = member(&machine.threads_there, 1);
    }
    return thread;
}

static lot_name some_name(void) {
    return names[one_in(200) ? 0 : from_to(1, machine.name_count - 1)];
}

// For a new thread.
static lot_name some_name_or_none(void) {
    return one_in(4) ? lot_no_name() : some_name();
}

// A name that no currency can have, and but for the first no thread.
static lot_name bad_name(void) {
    static const char *const bad[2][9] = {
        {"", "Upper", "1st", "_x", "a b", "a.b", "-", "sixteen-letters.", "bas\x80"},
        {"", " ", "\x7f", "a b", "tab\t", "\x1f", "sixteen letters-", "bas\x80", "\xff"}};
    lot_name name = lot_name_of(bad[machine.sizes.plain_names][below(9)]);
    name.length = one_in(3) ? (uint32_t)(17 + below(UINT32_MAX - 17)) : name.length;
    return name;
}

// What is written in place of a number that no currency or thread has is a name that one may have.
static lot_name name_of_currency(uint32_t currency) {
    return currency < machine.currency_count ? names[machine.currencies[currency].name] : some_name();
}

static bool has_no_name(uint32_t thread) {
    return thread >= 1 && thread <= machine.thread_count && machine.threads[thread].name == NOTHING;
}

static lot_name name_of_thread(uint32_t thread) {
    if (has_no_name(thread)) {
        return lot_no_name();
    }
    return thread >= 1 && thread <= machine.thread_count ? names[machine.threads[thread].name] : some_name();
}

// Whether an event is to have the thread's number: half of them, and nearly all for a thread without a name.
static bool goes_by_number(uint32_t thread) {
    return one_in(2) || (has_no_name(thread) && !one_in(50));
}

static uint64_t some_amount(void) {
    if (one_in(100)) {
        return one_in(2) ? 0 : (uint64_t)UINT32_MAX + below(3);
    }
    return up_to(one_in(8) ? UINT32_MAX : 2000);
}

static uint32_t some_script(void) {
    return one_in(50) ? any_number(machine.sizes.scripts) : one_of(machine.sizes.scripts);
}

static lot_wide some_number(void) {
    uint64_t low = random_bits(), high = one_in(2) ? 0 : random_bits();
    return (lot_wide){low, high};
}

// ---- traps

// Most ports have one that waits, for a call or to receive. The trap is mostly the one that ends its wait.
static lot_event use_port(uint32_t processor, uint32_t ticks) {
    if (machine.sizes.ports == 0 && !one_in(30)) {
        return lot_yield(processor, ticks);
    }
    uint32_t port = one_in(50) ? any_number(machine.sizes.ports) : one_of(machine.sizes.ports);
    bool is_there = port >= 1 && port <= machine.sizes.ports;
    bool receives = one_in(2);
    if (is_there && !one_in(4) && machine.ports[port].calls.count != machine.ports[port].receivers.count) {
        receives = machine.ports[port].calls.count != 0;
    }
    return receives ? lot_receive(processor, ticks, port) : lot_call(processor, ticks, port, (uint32_t)random_bits());
}

// A mutex that few wait for and that no dead thread owns, if one of a few is such; otherwise mostly NOTHING.
static uint32_t some_mutex(void) {
    if (machine.sizes.mutexes == 0 && !one_in(30)) {
        return NOTHING;
    }
    for (unsigned tries = 0; tries < 4; tries++) {
        uint32_t mutex = one_of(machine.sizes.mutexes);
        const struct mutex *it = &machine.mutexes[mutex];
        if ((it->waiters.count < 3 && machine.threads[it->owner].status != LOT_STATUS_DEAD) || one_in(1000)) {
            return mutex;
        }
    }
    return NOTHING;
}

// The first caller in the port's queue that owns a mutex, 0 for none.
static uint32_t owner_at(uint32_t port) {
    uint32_t caller = machine.ports[port].calls.first;
    while (caller != 0 && machine.threads[caller].owned.first == 0) {
        caller = next_waiting(caller);
    }
    return caller;
}

// A thread that owns a mutex and whose call is queued at a port that this one serves, 0 for none.
static uint32_t caller_of(uint32_t thread) {
    uint32_t port = machine.sizes.ports;
    while (port != 0 && (machine.ports[port].server != thread || owner_at(port) == 0)) {
        port--;
    }
    return port == 0 ? 0 : owner_at(port);
}

// A thread that lends to this one: a caller, a client, or one that waits for its mutex, 0 for none.
static uint32_t lender_to(uint32_t thread) {
    const struct thread *it = &machine.threads[thread];
    uint32_t caller = caller_of(thread);
    uint32_t lender = caller != 0 ? caller : it->clients.first;
    return lender == 0 && it->owned.first != 0 ? machine.mutexes[it->owned.first].waiters.first : lender;
}

// A mutex of a thread that lends to this one, or some other, or NOTHING.
static uint32_t mutex_to_lock(uint32_t thread) {
    uint32_t lenders = machine.threads[lender_to(thread)].owned.first;
    if (lenders != 0 && machine.mutexes[lenders].waiters.count < 3 && one_in(4)) {
        return lenders;
    }
    return one_in(50) ? any_number(machine.sizes.mutexes) : some_mutex();
}

static lot_event lock_mutex(uint32_t processor, uint32_t ticks, uint32_t thread) {
    uint32_t mutex = mutex_to_lock(thread);
    return mutex == NOTHING ? lot_yield(processor, ticks) : lot_lock(processor, ticks, mutex);
}

static lot_event give_up_mutex(uint32_t processor, uint32_t ticks, uint32_t thread) {
    uint32_t owned = machine.threads[thread].owned.first;
    uint32_t mutex = owned == 0 || one_in(30) ? one_of(machine.sizes.mutexes) : owned;
    return lot_unlock(processor, ticks, mutex, some_number());
}

// A reply, or a serving at a port where a call waits, if one of a few is such.
static lot_event answer(uint32_t processor, uint32_t ticks) {
    uint32_t port = one_in(50) ? any_number(machine.sizes.ports) : one_of(machine.sizes.ports);
    for (unsigned tries = 0; tries < 3 && port < machine.sizes.ports && machine.ports[port].calls.count == 0; tries++) {
        port++;
    }
    uint32_t sent = (uint32_t)random_bits();
    return one_in(3) ? lot_serve(processor, ticks, port, sent) : lot_reply_with(processor, ticks, sent);
}

// Ticks of work that fit the rest of the quantum with the trap's own, mostly few.
static uint32_t some_ticks(uint32_t thread) {
    uint32_t rest = machine.sizes.quantum - machine.threads[thread].used;
    if (one_in(200)) {
        return any_number(rest);
    }
    return one_in(10) ? rest - 1 : (uint32_t)below(1 + rest / 4);
}

static lot_event trap(uint32_t processor, uint32_t thread) {
    const struct thread *it = &machine.threads[thread];
    uint32_t ticks = some_ticks(thread);
    bool is_bound = it->clients.first != 0 || it->owned.first != 0;
    if (one_in(run.exit_gap) && (!is_bound || one_in(10))) {
        return lot_exit(processor, ticks);
    }
    if (it->owned.first != 0 ? !one_in(3) : one_in(200)) {
        return give_up_mutex(processor, ticks, thread);
    }
    if (it->clients.first != 0 ? !one_in(3) : one_in(100)) {
        return answer(processor, ticks);
    }
    switch (below(8)) {
    case 0: return lot_sleep(processor, ticks);
    case 1: return lot_yield(processor, ticks);
    case 2:
    case 3:
    case 4: return use_port(processor, ticks);
    default: return lock_mutex(processor, ticks, thread);
    }
}

static lot_event end_quantum(uint32_t processor, uint32_t thread) {
    uint32_t rest = machine.sizes.quantum - machine.threads[thread].used;
    uint32_t most_late = UINT32_MAX - machine.sizes.quantum;
    switch (below(4)) {
    case 0: return lot_preempt(processor, one_in(100) ? any_number(rest) : from_to(0, rest));
    case 1: return lot_overrun(processor, one_in(20) ? most_late - 1 + from_to(0, 2) : up_to(5000) - 1);
    default: return lot_expire(processor);
    }
}

// What a processor does next: a draw, or an event of its thread.
static lot_event turn(void) {
    uint32_t processor = from_to(1, machine.sizes.processors), thread = machine.runners[processor];
    if (thread == 0) {
        return lot_draw(processor, some_number());
    }
    return one_in(5) ? end_quantum(processor, thread) : trap(processor, thread);
}

// ---- commands, by name and by number

static lot_event ticket_in(uint32_t currency) {
    uint64_t amount = some_amount();
    return one_in(2) ? lot_make_ticket_in(amount, currency) : lot_make_ticket(amount, name_of_currency(currency));
}

static lot_event make_some_ticket(void) {
    return ticket_in(some_currency());
}

static lot_event fund_currency(uint32_t ticket, uint32_t currency) {
    return one_in(2) ? lot_fund_currency(ticket, currency) : lot_fund(ticket, name_of_currency(currency));
}

static lot_event fund_thread(uint32_t ticket, uint32_t thread) {
    return goes_by_number(thread) ? lot_fund_thread(ticket, thread) : lot_fund(ticket, name_of_thread(thread));
}

static lot_event fund_something(void) {
    uint32_t ticket = some_ticket(false);
    return one_in(3) ? fund_currency(ticket, some_user_currency()) : fund_thread(ticket, some_thread());
}

static lot_event fund_ready_thread(void) {
    uint32_t ticket = some_ticket(false);
    return fund_thread(ticket, some_thread_that(LOT_STATUS_READY));
}

static lot_event unfund_some_ticket(void) {
    return lot_unfund(some_ticket(true));
}

static lot_event set_some_ticket(void) {
    uint32_t ticket = some_ticket(one_in(2));
    return lot_set_ticket(ticket, some_amount());
}

static lot_event make_some_currency(void) {
    return lot_make_currency(some_name());
}

static lot_event make_some_thread(void) {
    lot_name name = some_name_or_none();
    if (one_in(5)) {
        return lot_make_thread(name, some_script());
    }
    uint64_t amount = some_amount();
    uint32_t currency = some_currency(), script = some_script();
    return one_in(2) ? lot_make_funded_in(amount, currency, name, script)
                     : lot_make_funded(amount, name_of_currency(currency), name, script);
}

static lot_event kill_thread(uint32_t thread) {
    return goes_by_number(thread) ? lot_kill_numbered(thread) : lot_kill(name_of_thread(thread));
}

// The thread that this one waits for, or that that one waits for, and so on, unless it is dead.
static uint32_t awaited_by(uint32_t thread) {
    uint32_t next = borrower_of(thread);
    while (next != 0 && machine.threads[next].status != LOT_STATUS_DEAD) {
        thread = next;
        next = borrower_of(thread);
    }
    return thread;
}

static bool is_dead(uint32_t thread) {
    return is_thread(thread) && machine.threads[thread].status == LOT_STATUS_DEAD;
}

// Mostly one that isn't dead.
static lot_event kill_some_thread(void) {
    uint32_t thread = some_thread();
    for (unsigned tries = 0; tries < 3 && is_dead(thread); tries++) {
        thread = some_thread();
    }
    return kill_thread(is_thread(thread) && one_in(2) ? awaited_by(thread) : thread);
}

static lot_event remove_thread(uint32_t thread) {
    return goes_by_number(thread) ? lot_remove_thread_numbered(thread) : lot_remove_thread(name_of_thread(thread));
}

// The ticket loses its target, or is removed if it has none.
static lot_event undo_ticket(uint32_t ticket) {
    bool is_funding = machine.tickets[ticket].target.kind != UNFUNDED;
    return is_funding ? lot_unfund(ticket) : lot_remove_ticket(ticket);
}

// The ticket goes, by two events if it has a target.
static lot_event waste_ticket(uint32_t ticket) {
    if (machine.tickets[ticket].target.kind == UNFUNDED) {
        return lot_remove_ticket(ticket);
    }
    run.has_planned = true;
    run.planned = lot_remove_ticket(ticket);
    return lot_unfund(ticket);
}

// Where there are many tickets, one of them loses its target or goes.
static lot_event undo_some_ticket(void) {
    uint32_t ticket = some_ticket(one_in(2));
    if (machine.tickets_there.count < run.density * machine.threads_there.count && !one_in(10)) {
        return turn();
    }
    return is_ticket(ticket) && !one_in(30) ? undo_ticket(ticket) : lot_remove_ticket(ticket);
}

// A step towards the removal of a thread that is dead: of its tickets, its clients and those that wait for its mutexes.
static lot_event bury_some_thread(void) {
    uint32_t dead = member(&machine.dead_there, 0);
    if (dead == 0) {
        return one_in(10) ? remove_thread(some_thread()) : turn();
    }
    const struct thread *it = &machine.threads[dead];
    if (it->backing.first != 0) {
        return one_in(20) ? remove_thread(dead) : lot_unfund(it->backing.first);
    }
    uint32_t waiter = it->owned.first == 0 ? 0 : machine.mutexes[it->owned.first].waiters.first;
    uint32_t blocked = it->clients.first != 0 ? it->clients.first : waiter;
    return blocked == 0 || one_in(3) ? remove_thread(dead) : kill_thread(blocked);
}

static lot_event remove_currency(uint32_t currency) {
    return one_in(2) ? lot_remove_currency_numbered(currency) : lot_remove_currency(name_of_currency(currency));
}

// A ticket that the currency issues, or one that funds it, 0 for none.
static uint32_t ticket_of(uint32_t currency) {
    const struct currency *it = &machine.currencies[currency];
    return it->issued.first != 0 ? it->issued.first : it->backing.first;
}

// A step towards the removal of a currency: of its tickets, and then of itself.
static lot_event wind_up_some_currency(void) {
    if (one_in(20)) {
        return remove_currency(some_currency());
    }
    if (run.doomed == 0 || !is_currency(run.doomed)) {
        run.doomed = some_user_currency();
    }
    uint32_t doomed = run.doomed, ticket = doomed != 0 && is_currency(doomed) ? ticket_of(doomed) : 0;
    if (ticket != 0) {
        return undo_ticket(ticket);
    }
    run.doomed = 0;
    return remove_currency(doomed);
}

// A currency that funds this one, or one that funds that one, and so on.
static uint32_t upstream_of(uint32_t currency) {
    uint32_t ticket = machine.currencies[currency].backing.first;
    while (ticket != 0 && machine.tickets[ticket].issuer != 0) {
        currency = machine.tickets[ticket].issuer;
        ticket = one_in(2) ? 0 : machine.currencies[currency].backing.first;
    }
    return currency;
}

// A ticket of a currency, which is to fund the currency itself or one upstream: that would be a cycle.
static lot_event try_cycle(void) {
    uint32_t currency = member(&machine.currencies_there, 0);
    run.has_planned = true;
    run.planned = fund_currency(next_ticket(), upstream_of(currency));
    return ticket_in(currency);
}

static lot_event list_something(void) {
    return lot_event_of(LOT_LIST_TICKETS + from_to(0, 2));
}

static lot_event wake_some_thread(void) {
    return lot_wake(some_thread_that(LOT_STATUS_ASLEEP));
}

// ---- the next event

// Mostly there is such a kind, and rarely an exit, which would end too many.
static uint32_t any_kind(void) {
    uint32_t kind = one_in(50) ? (uint32_t)random_bits() : (uint32_t)below(LAST_KIND + 3);
    return kind == LOT_EXIT && !one_in(10) ? LOT_YIELD : kind;
}

// An event of any kind with numbers that mean something or not, and names that may be bad.
static lot_event hostile(void) {
    lot_event event = lot_event_of(any_kind());
    event.processor = any_number(machine.sizes.processors);
    event.ticks = any_number(machine.sizes.quantum);
    uint32_t most = one_in(2) ? 8 : one_in(2) ? machine.currency_count : machine.thread_count;
    event.object = any_number(most);
    event.sent = (uint32_t)random_bits();
    event.script = any_number(machine.sizes.scripts);
    event.number = some_number();
    event.amount = one_in(2) ? random_bits() : some_amount();
    event.ticket = one_in(8) ? random_bits() : any_number(machine.ticket_count);
    event.currency = one_in(4) ? bad_name() : some_name();
    event.name = one_in(4) ? bad_name() : some_name_or_none();
    return event;
}

// What the next event may be, with how often it is in 65536; a turn takes what is left.
enum {
    WAKES,
    MAKES_TICKET,
    FUNDS,
    UNFUNDS,
    SETS_TICKET,
    UNDOES_TICKET,
    MAKES_CURRENCY,
    WINDS_UP_CURRENCY,
    MAKES_THREAD,
    KILLS,
    BURIES,
    TRIES_CYCLE,
    LISTS,
    WAYS
};

static lot_event (*const ways[WAYS])(void) = {
    [WAKES] = wake_some_thread,
    [MAKES_TICKET] = make_some_ticket,
    [FUNDS] = fund_something,
    [UNFUNDS] = unfund_some_ticket,
    [SETS_TICKET] = set_some_ticket,
    [UNDOES_TICKET] = undo_some_ticket,
    [MAKES_CURRENCY] = make_some_currency,
    [WINDS_UP_CURRENCY] = wind_up_some_currency,
    [MAKES_THREAD] = make_some_thread,
    [KILLS] = kill_some_thread,
    [BURIES] = bury_some_thread,
    [TRIES_CYCLE] = try_cycle,
    [LISTS] = list_something,
};

static uint32_t shares[WAYS];

static lot_event next_by_shares(void) {
    uint64_t number = below(65536);
    unsigned way = 0;
    while (way < WAYS && number >= shares[way]) {
        number -= shares[way++];
    }
    return way == WAYS ? turn() : ways[way]();
}

// At first much is made, so that there is something to run.
static lot_event rush(void) {
    switch (below(8)) {
    case 0: return make_some_currency();
    case 1:
    case 2: return make_some_ticket();
    case 3:
    case 4: return fund_something();
    default: return make_some_thread();
    }
}

// Where numbers are given again there is always a way on: what is there makes room for a thread that is worth more
// than nothing, since base issues its ticket.
static lot_event make_way(void) {
    switch (below(6)) {
    case 0:
    case 1: return bury_some_thread();
    case 2: return kill_some_thread();
    case 3: return waste_ticket(member(&machine.tickets_there, 1));
    default: return lot_make_funded_in(up_to(2000), 0, some_name_or_none(), one_of(machine.sizes.scripts));
    }
}

// What may help where nobody can run: all sleep, wait, are dead, or have no ticket that is worth something.
static lot_event revive(void) {
    if (machine.sizes.reuse != 0 && (one_in(2) || run.still > STILL / 2)) {
        return make_way();
    }
    switch (below(8)) {
    case 0: return make_some_thread();
    case 1: return make_some_ticket();
    case 2: return fund_something();
    case 3:
    case 4: return fund_ready_thread();
    case 5: return run.still > 10 ? kill_some_thread() : unfund_some_ticket();
    default: return wake_some_thread();
    }
}

static lot_event next_event(void) {
    if (run.has_planned) {
        run.has_planned = false;
        return run.planned;
    }
    if (one_in(run.hostile_gap)) {
        return hostile();
    }
    if (run.still > 1 && (one_in(2) || run.still > STILL / 2)) {
        return revive();
    }
    bool rushes = machine.thread_count < run.rush && machine.ticket_count < machine.sizes.tickets / 2;
    return rushes ? rush() : next_by_shares();
}

// ---- one event

static void count_trap(const lot_reply *reply) {
    total.outcomes[reply->outcome]++;
    total.exits += reply->outcome == LOT_OUTCOME_EXITED;
    total.reasons[reply->reason] += reply->outcome == LOT_OUTCOME_REFUSED;
}

// Whether as many exist as the sizes say of what the command is to make. Base isn't counted.
static bool is_full(uint32_t kind) {
    bool has_all_tickets = machine.tickets_there.count == machine.sizes.tickets;
    bool has_all_threads = machine.threads_there.count == machine.sizes.threads;
    switch (kind) {
    case LOT_MAKE_TICKET:
    case LOT_MAKE_TICKET_IN: return has_all_tickets;
    case LOT_MAKE_CURRENCY: return machine.currencies_there.count == machine.sizes.currencies + 1;
    case LOT_MAKE_THREAD: return has_all_threads;
    default: return has_all_tickets || has_all_threads;
    }
}

static void check_full(const lot_event *event, const lot_reply *reply) {
    bool says_full = reply->kind == LOT_REPLY_REFUSED && reply->reason == LOT_REFUSAL_FULL;
    if (says_full && machine.sizes.reuse != 0) {
        check(is_full(event->kind), "full means that as many exist");
        total.full++;
    }
}

static void count(const lot_event *event, const lot_reply *reply) {
    bool is_kill = event->kind == LOT_KILL || event->kind == LOT_KILL_NUMBERED;
    bool is_removal = event->kind == LOT_REMOVE_THREAD || event->kind == LOT_REMOVE_THREAD_NUMBERED;
    bool is_done = reply->kind == LOT_REPLY_DONE;
    bool is_birth = reply->kind == LOT_REPLY_THREAD || reply->kind == LOT_REPLY_FUNDED;
    total.kinds[event->kind]++;
    total.births += is_birth;
    total.unnamed += is_birth && event->name.length == 0;
    total.plain += is_birth && event->name.length != 0 && machine.sizes.plain_names != 0;
    total.kills += is_kill && is_done;
    total.removals += is_removal && is_done;
    total.reasons[reply->reason] += reply->kind == LOT_REPLY_REFUSED;
    run.still = reply->kind == LOT_REPLY_IDLE ? run.still + 1 : reply->kind == LOT_REPLY_WINNER ? 0 : run.still;
    if (reply->kind == LOT_REPLY_TRAPPED) {
        count_trap(reply);
    }
}

static void make_event(void) {
    lot_event event = next_event();
    lot_reply got, wanted;
    memset(&got, 0, sizeof got);
    uint32_t status = lot_kernel_event(&kernel, &event, &got);
    uint32_t due = model_event(&event, &got, &wanted);
    run.events++;
    total.events++;
    if (status != due || memcmp(&got, &wanted, UP_TO(lot_reply, goes_on)) != 0) {
        fail_reply(&event, status, &got, due, &wanted);
    }
    if (status == LOT_DONE) {
        check_full(&event, &got);
        count(&event, &got);
    } else {
        total.no_events++;
        total.bad_names[machine.sizes.plain_names] += status == LOT_BAD_NAME;
    }
    if (one_in(run.row_gap)) {
        compare_one();
    }
}

static void say_so_far(void) {
    printf("%llu events in %llu kernels: %llu threads born, %llu exited, %llu killed, %llu removed\n",
           (unsigned long long)total.events, (unsigned long long)total.kernels, (unsigned long long)total.births,
           (unsigned long long)total.exits, (unsigned long long)total.kills, (unsigned long long)total.removals);
    fflush(stdout);
}

// ---- kernels

static lot_sizes largest_sizes(uint32_t options) {
    lot_sizes sizes = {.tickets = MOST_TICKETS, .currencies = MOST_CURRENCIES, .threads = MOST_THREADS};
    sizes.ports = MOST_PORTS;
    sizes.mutexes = MOST_MUTEXES;
    sizes.processors = MOST_PROCESSORS;
    sizes.scripts = MOST_SCRIPTS;
    sizes.quantum = from_to(50, 1000);
    sizes.unit = one_in(2) ? 1 : 256;
    sizes.reuse = sizes.plain_names = sizes.queued_lend = options;
    return sizes;
}

static lot_sizes small_sizes(uint32_t scale) {
    bool is_tiny = one_in(8);
    lot_sizes sizes = {.tickets = 0};
    sizes.tickets = is_tiny ? up_to(16) : from_to(50, 250 * scale);
    sizes.currencies = is_tiny ? up_to(4) : from_to(4, 32 * scale);
    sizes.threads = is_tiny ? up_to(8) : from_to(10, 64 * scale);
    sizes.ports = from_to(0, 3 * scale);
    sizes.mutexes = from_to(0, 3 * scale);
    sizes.processors = from_to(1, 4 * scale);
    sizes.scripts = one_in(50) ? 0 : from_to(1, 4);
    sizes.quantum = up_to(1000);
    sizes.unit = one_in(2) ? 1 : 256;
    sizes.reuse = one_in(3);
    sizes.plain_names = one_in(3);
    sizes.queued_lend = one_in(3);
    return sizes;
}

// Of the kernel that lasts.
static lot_sizes lasting_sizes(void) {
    lot_sizes sizes = {.tickets = 80, .currencies = 10, .threads = 24, .ports = 2, .mutexes = 3, .processors = 3};
    sizes.scripts = 4;
    sizes.quantum = 100;
    sizes.unit = 256;
    sizes.reuse = sizes.queued_lend = 1;
    return sizes;
}

static uint64_t least(uint64_t a, uint64_t b) {
    return a < b ? a : b;
}

// How often something is done in 65536 events, if it is done so often in all.
static uint32_t share_of(uint64_t made, uint64_t events) {
    return (uint32_t)least(made * 65536 / events + 1, 8000);
}

// All that may be made is made over so many events, and most of it goes. In a flood more is made.
static void set_shares(const lot_sizes *sizes, uint64_t events) {
    uint64_t flood = run.is_flood ? 4 : 1;
    shares[WAKES] = 1800;
    shares[MAKES_TICKET] = share_of(sizes->tickets * flood, events);
    shares[FUNDS] = share_of(sizes->tickets * flood * 3 / 2, events);
    shares[UNFUNDS] = share_of(sizes->tickets / 8, events);
    shares[SETS_TICKET] = share_of(sizes->tickets / 4, events);
    shares[UNDOES_TICKET] = share_of(sizes->tickets * 3, events);
    shares[MAKES_CURRENCY] = share_of(sizes->currencies * flood, events);
    shares[WINDS_UP_CURRENCY] = share_of(sizes->currencies * 2, events);
    shares[MAKES_THREAD] = share_of(sizes->threads * flood * 2 / 3, events);
    shares[KILLS] = share_of(sizes->threads / 3, events);
    shares[BURIES] = share_of(sizes->threads * 3, events);
    shares[TRIES_CYCLE] = share_of(sizes->currencies / 4, events);
    shares[LISTS] = 20;
}

// Where numbers are given again there is a flood, and then an ebb, and so on.
static void turn_tide(void) {
    run.is_flood = !run.is_flood;
    set_shares(&machine.sizes, run.life);
}

// A kernel that is to make so many events, unless the run ends before; the model holds one lottery in `every`.
static void open_kernel(const lot_sizes *sizes, uint64_t events, uint64_t life, uint64_t every) {
    memset(&run, 0, sizeof run);
    run.most = least(events, events_wanted - total.events);
    run.life = life;
    run.rush = sizes->threads / 2;
    run.density = every == 1 ? from_to(2, 6) : 2;
    run.exit_gap = 1 + life / (2 * sizes->threads);
    run.row_gap = 64 * every;
    run.hostile_gap = from_to(10, 100);
    set_shares(sizes, life);
    kernel = lot_kernel_none();
    model_open(sizes, every);
    check(lot_kernel_new(sizes, &kernel) == LOT_DONE, "a kernel is made");
    total.kernels++;
}

// Makes all its events, unless nothing can run any more.
static void run_kernel(void) {
    while (run.events < run.most && run.still < STILL) {
        make_event();
        if (machine.sizes.reuse != 0 && one_in(run.life)) {
            turn_tide();
        }
        if (total.events % EVENTS_OF_LINE == 0) {
            compare_all();
            say_so_far();
        }
    }
    compare_all();
    check(lot_kernel_free(&kernel) == LOT_DONE, "a kernel is freed");
}

static void open_small(void) {
    lot_sizes sizes = small_sizes(1);
    uint64_t events = from_to(500, 6000);
    open_kernel(&sizes, events, sizes.reuse == 0 ? events : 1 + events / from_to(1, 10), 1);
}

static void open_largest(uint32_t options, uint64_t part) {
    lot_sizes sizes = largest_sizes(options);
    uint64_t events = 1 + events_wanted / part;
    open_kernel(&sizes, events, events, 1000);
}

static void open_lasting(void) {
    lot_sizes sizes = lasting_sizes();
    open_kernel(&sizes, 1 + events_wanted / LASTING_HAS, LIFE, 1);
}

static void open_larger(void) {
    lot_sizes sizes = small_sizes(16);
    open_kernel(&sizes, EVENTS_OF_LARGER, EVENTS_OF_LARGER, 50);
}

// The kernel's seed says which sizes it has.
static void run_next(void) {
    seed = kernel_seed * UINT64_C(0xd1342543de82ef95);
    uint64_t place = kernel_seed % LARGEST_IN;
    switch (place) {
    case 1: open_largest(0, LARGEST_HAS); break;
    case 3: open_lasting(); break;
    case 4: open_largest(1, LARGEST_AGAIN_HAS); break;
    default:
        if (kernel_seed % LARGER_IN == 2) {
            open_larger();
        } else {
            open_small();
        }
    }
    run_kernel();
    bool must_end = place == 1 || place == 3 || place == 4;
    check(run.events == run.most || !must_end, "the largest kernels and the one that lasts run to their ends");
    kernel_seed++;
}

// ---- the whole run

static void say_reasons(void) {
    printf("given again: %llu tickets, %llu currencies, %llu threads; full in spite of that: %llu\n",
           (unsigned long long)machine.free_tickets.taken, (unsigned long long)machine.free_currencies.taken,
           (unsigned long long)machine.free_threads.taken, (unsigned long long)total.full);
    const struct servers *it = &machine.servers;
    printf("queued calls that lent: %llu; ports that got another server: %llu, and that lost theirs by a call: %llu, "
           "by a lock: %llu, by an exit: %llu, by a kill: %llu\n",
           (unsigned long long)it->lent_to, (unsigned long long)it->changed, (unsigned long long)it->gone_by_call,
           (unsigned long long)it->gone_by_lock, (unsigned long long)it->gone_by_exit,
           (unsigned long long)it->gone_by_kill);
    printf("born without a name: %llu threads, with a plain one: %llu\n", (unsigned long long)total.unnamed,
           (unsigned long long)total.plain);
    printf("no event: %llu, by bad names: %llu, and %llu where names are plain\n", (unsigned long long)total.no_events,
           (unsigned long long)total.bad_names[0], (unsigned long long)total.bad_names[1]);
    for (uint32_t reason = 1; reason <= LAST_REFUSAL; reason++) {
        if (total.reasons[reason] != 0) {
            printf("refused: %s: %llu\n", lot_refusal_text(reason), (unsigned long long)total.reasons[reason]);
        }
    }
}

static bool is_seen(const uint64_t *counts, uint32_t first, uint32_t last) {
    while (first <= last && counts[first] != 0) {
        first++;
    }
    return first > last;
}

// Each kind of event, each outcome and each refusal came up.
static void check_all_seen(void) {
    check(is_seen(total.kinds, 1, LAST_KIND), "each kind of event came up");
    check(is_seen(total.outcomes, 1, LAST_OUTCOME), "each outcome came up");
    for (uint32_t reason = LOT_REFUSAL_NAME_TAKEN; reason <= LAST_REFUSAL; reason++) {
        bool is_reason = strcmp(lot_refusal_text(reason), "unknown refusal") != 0;
        check(!is_reason || total.reasons[reason] != 0, "each refusal came up");
    }
    check(machine.free_tickets.taken != 0 && machine.free_currencies.taken != 0 && machine.free_threads.taken != 0 &&
              total.full != 0, "numbers are given again, and kernels that do so are full");
    const struct servers *it = &machine.servers;
    check(it->lent_to != 0 && it->changed != 0 && it->gone_by_call != 0 && it->gone_by_lock != 0 &&
              it->gone_by_exit != 0 && it->gone_by_kill != 0,
          "queued calls lend, and ports lose their servers in each way");
    check(total.unnamed != 0 && total.plain != 0 && total.bad_names[0] != 0 && total.bad_names[1] != 0,
          "threads have no name and plain ones, and names are bad");
}

int main(int argc, char **argv) {
    events_wanted = argc > 1 ? strtoull(argv[1], NULL, 10) : EVENTS;
    first_seed = argc > 2 ? strtoull(argv[2], NULL, 10) : first_seed;
    kernel_seed = first_seed;
    model_spell();
    while (total.events < events_wanted) {
        run_next();
    }
    say_so_far();
    say_reasons();
    if (total.events >= EVENTS_FOR_ALL) {
        check_all_seen();
    }
    printf("ok: a generated run: seed %llu, %llu events, %llu rows, %llu of %llu lotteries held by the model\n",
           (unsigned long long)first_seed, (unsigned long long)total.events, (unsigned long long)total.rows,
           (unsigned long long)machine.held, (unsigned long long)machine.lotteries);
    return 0;
}
