// A fuzz test of the archive: whatever bytes may be handed in, between pages that nothing may touch.
//
//     fuzz [STEPS [SEED]]
//
// Each block that the library takes, and each struct that it is handed, stands right before a page without rights or
// right behind one. A read or a write outside of it faults. That holds of the archive's code too, which no sanitizer
// watches. What else is in the pages of a struct or a block is painted, and must stay so.
//
// A struct that is handed in has random bytes in each field that the call doesn't read. Some have them in all fields.
// The others mean something more often than not, so that kernels get into deep states. After each step:
//   - The status is one that the bytes deserve.
//   - If it isn't LOT_DONE, nothing has changed: no byte of what the pointers point to, no row and no count. If the
//     event was refused, no row and no count has changed.
//   - A draw and an unlock have the reply that this file's own lottery comes to, over the rows that the kernel showed
//     before. A thread is removed if these rows say so, and is gone then.
//   - A command by number is refused if these rows have nothing of that number. Otherwise the ticket that it made or
//     that it funds by has the currency or the target with that number. Each ticket's row has the name of what it funds
//     by its number, and no name for a thread without one.
//   - A sleep, a wake, a preemption and an overrun have the reply that these rows lead to, and the thread's row
//     follows. Each thread weighs what its value makes with the compensation that this file has kept for it.
//   - Who waits at a port or for a mutex, and whom a thread serves, comes in the order in which this file has it.
//   - Each thread is worth the tickets that fund it and the threads that lend to it: the clients that it serves, those
//     that wait for its mutexes, and, if queued calls lend, those whose calls wait at a port that it took a call from
//     last. A lock is refused as a cycle if this file finds one that passes no port's queue.
//   - What is made has the number that this file expects: the one behind all others, or that of what was removed last
//     where the sizes have `reuse`. A thread with such a number has run nothing. Something is made unless as many exist
//     as the sizes allow, or, without `reuse`, were ever made.
//   - A kill leaves the thread dead and its processor idle. Its clients are ready, and so is the thread that has waited
//     longest for each of its mutexes. No other row of a thread and no other processor has changed but for values.
//
// At the end of a kernel a fresh one gets all events that were done, with 0 in the fields that they don't read, and
// with the name in place of the number that was given of a currency, or of a thread that has a name. It gives the same
// replies and shows the same rows, though its blocks held other bytes at first and nobody read its rows between.
//
// The steps depend on the seed alone. A kernel that begins after SECONDS isn't begun, so that a slow machine ends the
// test early, and says so.

#define _DEFAULT_SOURCE

#include "lot.h"
#include "test_kinds.h"
#include "test_random.h"

#include <signal.h>
#include <stdio.h>
#include <stdlib.h>
#include <string.h>
#include <sys/mman.h>
#include <time.h>
#include <unistd.h>

__extension__ typedef unsigned __int128 wide;

enum {
    STEPS = 400000,         // if no argument says otherwise
    STEPS_FOR_ALL = 200000, // from which on each outcome and each refusal comes up
    SECONDS = 8,            // no kernel is begun after as many
    STEPS_OF_KERNEL = 1500, // at most
    EVENTS_OF_STEP = 8,     // at most, in one call
    EVENTS_OF_REPLAY = 24,  // the same, where events are replayed
    STILL = 100,            // after as many steps in which nothing could run, it is given up
    WEIGHTS = 40,           // at most, in one lottery
    BLOCKS = 512,           // at most, at a time
    PAINT = 0xc3,
    // At most, of a kernel:
    TICKETS = 250,
    CURRENCIES = 20,
    THREADS = 24,
    PORTS = 3,
    MUTEXES = 3,
    PROCESSORS = 4,
    SCRIPTS = 2
};

// What is meant of structs that have bytes behind their last field.
#define UP_TO(type, last) (offsetof(type, last) + sizeof(((type *)NULL)->last))

static const size_t REPLY_BYTES = UP_TO(lot_reply, goes_on);

// ---- what went wrong

static uint64_t first_seed = 1;
static unsigned long steps;
static lot_event given; // the last one that was handed in alone, or compared

static void check(bool holds, const char *text, int line) {
    if (holds) {
        return;
    }
    printf("line %d: not so: %s\nseed %llu, step %lu, kind %u; the event's bytes:", line, text,
           (unsigned long long)first_seed, steps, given.kind);
    for (size_t i = 0; i < sizeof given; i++) {
        printf(" %02x", ((const unsigned char *)&given)[i]);
    }
    puts("");
    exit(1);
}

#define CHECK(holds) check((holds), #holds, __LINE__)

// Ends the test at a fault. What was interrupted is a call of the library, so that printf may be called here.
static void say_fault(int number) {
    signal(number, SIG_DFL);
    check(false, "a call reads and writes nothing outside", __LINE__);
}

// ---- random numbers

static void fill(void *at, size_t size) {
    for (size_t i = 0; i < size; i++) {
        ((unsigned char *)at)[i] = (unsigned char)random_bits();
    }
}

// ---- pages

// Pages between two without rights.
struct room {
    unsigned char *first;
    size_t size; // a multiple of a page's
};

static size_t page;

static struct room make_room(size_t least) {
    size_t size = (least + page - 1) / page * page;
    unsigned char *at = mmap(NULL, size + 2 * page, PROT_NONE, MAP_PRIVATE | MAP_ANONYMOUS, -1, 0);
    CHECK(at != MAP_FAILED && mprotect(at + page, size, PROT_READ | PROT_WRITE) == 0);
    memset(at + page, PAINT, size);
    return (struct room){at + page, size};
}

static void free_room(struct room room) {
    CHECK(munmap(room.first - page, room.size + 2 * page) == 0);
}

static bool is_painted(const unsigned char *from, const unsigned char *to) {
    return from == to || (*from == PAINT && memcmp(from, from + 1, (size_t)(to - from) - 1) == 0);
}

// Whether all of the room is painted, except a block of it.
static bool keeps_paint(struct room room, const unsigned char *at, size_t size) {
    return is_painted(room.first, at) && is_painted(at + size, room.first + room.size);
}

// ---- the heap

struct block {
    struct room room;
    unsigned char *at;
    size_t size;
};

static struct block blocks[BLOCKS];
static size_t block_count;
static unsigned long asked;
static int fresh = 0x5a; // what is in a block at first

// A block that ends at a page without rights is aligned to what its size is a multiple of, which is the least that the
// library is promised.
lot_block rattle_alloc(size_t size, size_t align) {
    size_t taken = size != 0 ? size : align;
    CHECK(block_count < BLOCKS && taken % align == 0);
    struct block block = {make_room(taken), NULL, taken};
    block.at = block.room.first + (one_in(2) ? 0 : block.room.size - taken);
    memset(block.at, fresh, taken);
    blocks[block_count++] = block;
    asked++;
    return (lot_block){true, block.at};
}

void rattle_dealloc(void *at) {
    size_t i = 0;
    while (i < block_count && blocks[i].at != at) {
        i++;
    }
    CHECK(i < block_count && keeps_paint(blocks[i].room, blocks[i].at, blocks[i].size));
    free_room(blocks[i].room);
    blocks[i] = blocks[--block_count];
}

lot_block rattle_realloc(void *at, size_t kept, size_t size, size_t align) {
    lot_block block = rattle_alloc(size, align);
    memcpy(block.at, at, kept);
    rattle_dealloc(at);
    return block;
}

// ---- structs that are handed in

// Where the argument of a call is, and what it was before the call.
struct place {
    struct room room;
    unsigned char *at;
    size_t size;
    unsigned char before[4096];
};

static struct place handle_place, input, second_input, output, second_output;

// Puts a struct, or many, before a page without rights or behind one. Most structs are better aligned there than they
// need to be. So one time in eight they stand in the midst, with the least alignment that the library asks for.
static void *put(struct place *place, const void *bytes, size_t size, size_t align) {
    uint64_t way = below(8);
    struct room room = place->room;
    CHECK(size <= sizeof place->before && size + 64 <= room.size);
    memset(room.first, PAINT, room.size);
    place->at = way < 4 ? room.first + room.size - size : way < 7 ? room.first : room.first + 16 + align;
    place->size = size;
    if (size != 0) {
        memcpy(place->at, bytes, size);
        memcpy(place->before, bytes, size);
    }
    return place->at;
}

#define PUT(place, value) put((place), &(value), sizeof(value), _Alignof(__typeof__(value)))

static bool is_unchanged(const struct place *place) {
    return memcmp(place->at, place->before, place->size) == 0;
}

static void check_paint(const struct place *place) {
    CHECK(keeps_paint(place->room, place->at, place->size));
}

// An argument that is read, and not written.
static void check_input(const struct place *place) {
    CHECK(is_unchanged(place));
    check_paint(place);
}

// An argument that is written if the call was done, and otherwise not.
static void check_output(const struct place *place, uint32_t status) {
    CHECK(status == LOT_DONE || is_unchanged(place));
    check_paint(place);
}

// Puts random bytes where a call is to write.
static void *put_output(struct place *place, size_t size, size_t align) {
    unsigned char bytes[4096];
    fill(bytes, size);
    return put(place, bytes, size, align);
}

#define PUT_OUTPUT(place, type) put_output((place), sizeof(type), _Alignof(type))

// ---- what a kernel shows

// All that it shows, except how much it has worked. What isn't there is 0.
struct view {
    uint32_t ticket_count, currency_count;
    uint32_t thread_count; // the greatest number of a thread that has a row
    uint32_t scripts[THREADS];
    lot_ticket_row tickets[TICKETS];
    lot_currency_row currencies[CURRENCIES + 1];
    lot_thread_row threads[THREADS];
    lot_runner runners[PROCESSORS];
    bool has_ticket[TICKETS], has_currency[CURRENCIES + 1], has_thread[THREADS];
};

static struct room row_room;

// Where a row is to be written: at one end of the room and at the other in turn.
static void *row_place(size_t size) {
    static bool at_end;
    at_end = !at_end;
    return row_room.first + (at_end ? row_room.size - size : 0);
}

static bool is_there(uint32_t status) {
    CHECK(status == LOT_DONE || status == LOT_NOT_THERE);
    return status == LOT_DONE;
}

static void view_tickets(lot_kernel *kernel, struct view *view) {
    CHECK(lot_kernel_ticket_count(kernel, &view->ticket_count) == LOT_DONE && view->ticket_count <= TICKETS);
    for (uint32_t i = 0; i < view->ticket_count; i++) {
        lot_ticket_row *row = row_place(sizeof *row);
        view->has_ticket[i] = is_there(lot_kernel_ticket_row(kernel, i + 1, row));
        if (view->has_ticket[i]) {
            memcpy(&view->tickets[i], row, UP_TO(lot_ticket_row, is_active));
        }
    }
}

static void view_currencies(lot_kernel *kernel, struct view *view) {
    CHECK(lot_kernel_currency_count(kernel, &view->currency_count) == LOT_DONE);
    CHECK(view->currency_count <= CURRENCIES + 1);
    for (uint32_t i = 0; i < view->currency_count; i++) {
        lot_currency_row *row = row_place(sizeof *row);
        view->has_currency[i] = is_there(lot_kernel_currency_row(kernel, i, row));
        if (view->has_currency[i]) {
            memcpy(&view->currencies[i], row, UP_TO(lot_currency_row, name));
        }
    }
}

// A thread that was removed has no row, and those behind it have one.
static void view_threads(lot_kernel *kernel, uint32_t most, struct view *view) {
    for (uint32_t i = 0; i < most; i++) {
        lot_thread_row *row = row_place(sizeof *row);
        view->has_thread[i] = is_there(lot_kernel_thread_row(kernel, i + 1, row));
        CHECK(is_there(lot_kernel_script_of(kernel, i + 1, &view->scripts[i])) == view->has_thread[i]);
        if (view->has_thread[i]) {
            memcpy(&view->threads[i], row, UP_TO(lot_thread_row, name));
            view->thread_count = i + 1;
        }
    }
}

static void view_runners(lot_kernel *kernel, uint32_t processors, struct view *view) {
    for (uint32_t i = 0; i < processors; i++) {
        lot_runner *runner = row_place(sizeof *runner);
        if (is_there(lot_kernel_runner(kernel, i + 1, runner))) {
            view->runners[i] = *runner;
        }
    }
}

static void view_kernel(lot_kernel *kernel, const lot_sizes *sizes, struct view *view) {
    memset(view, 0, sizeof *view);
    view_tickets(kernel, view);
    view_currencies(kernel, view);
    view_threads(kernel, sizes->threads, view);
    view_runners(kernel, sizes->processors, view);
}

// ---- what rows don't tell

// Threads in the order in which they came.
struct queue {
    uint32_t threads[THREADS];
    size_t count;
};

// Numbers that were removed and are given again, the one left last at the end; and the next one if there is none.
struct numbers {
    uint32_t next, free[TICKETS];
    size_t count;
};

// Who owns a mutex, and who waits for it; whose calls wait at a port, who waits there for a call, and who is its
// server if queued calls lend, 0 for none; whom a thread serves; which number a thread is given when it next wins a
// draw, and which it sent with its call; how many ticks it has used since it won, and its compensation, 0 for none;
// whether it is there, and its name, of length 0 if it has none; the name of a currency, of length 0 if there is none;
// and the numbers of what comes next.
static struct {
    uint32_t owner[MUTEXES + 1], server[PORTS + 1];
    struct queue waiters[MUTEXES + 1], callers[PORTS + 1], receivers[PORTS + 1], clients[THREADS + 1];
    uint32_t delivered[THREADS + 1], sent[THREADS + 1];
    bool has_delivered[THREADS + 1];
    uint32_t used[THREADS + 1], compensation[THREADS + 1];
    bool has_thread[THREADS + 1];
    lot_name names[THREADS + 1], currency_names[CURRENCIES + 1];
    struct numbers tickets, currencies, threads;
    bool reuse, plain_names, queued_lend;
} known;

static void join(struct queue *queue, uint32_t thread) {
    CHECK(queue->count < THREADS);
    queue->threads[queue->count++] = thread;
}

// The queue without the thread, and whether it was there.
static bool take_out(struct queue *queue, uint32_t thread) {
    size_t kept = 0;
    for (size_t i = 0; i < queue->count; i++) {
        if (queue->threads[i] != thread) {
            queue->threads[kept++] = queue->threads[i];
        }
    }
    bool was_there = kept != queue->count;
    queue->count = kept;
    return was_there;
}

// The thread that came first leaves the queue.
static uint32_t take_first(struct queue *queue) {
    CHECK(queue->count != 0);
    uint32_t first = queue->threads[0];
    take_out(queue, first);
    return first;
}

static bool stands_in(const struct queue *queue, uint32_t thread) {
    size_t i = 0;
    while (i < queue->count && queue->threads[i] != thread) {
        i++;
    }
    return i < queue->count;
}

// The thread that this one lends to, 0 for none. Callers in a port's queue count if that is asked for.
static uint32_t borrower_of(uint32_t thread, bool by_ports) {
    for (uint32_t mutex = 1; mutex <= MUTEXES; mutex++) {
        if (stands_in(&known.waiters[mutex], thread)) {
            return known.owner[mutex];
        }
    }
    for (uint32_t port = 1; by_ports && port <= PORTS; port++) {
        if (stands_in(&known.callers[port], thread)) {
            return known.server[port];
        }
    }
    uint32_t server = THREADS;
    while (server != 0 && !stands_in(&known.clients[server], thread)) {
        server--;
    }
    return server;
}

// Whether one thread is the other, or lends lead from it to the other. From 0 they lead nowhere.
static bool lends_lead(uint32_t from, uint32_t to, bool by_ports) {
    while (from != 0 && from != to) {
        from = borrower_of(from, by_ports);
    }
    return from != 0;
}

static unsigned long queued_lent, servers_gone, servers_cut;

// The thread took a call at the port.
static void learn_server(uint32_t port, uint32_t thread) {
    known.server[port] = known.queued_lend ? thread : 0;
}

// The thread has ended, so it is no port's server.
static void learn_end(uint32_t thread) {
    for (uint32_t port = 1; port <= PORTS; port++) {
        servers_gone += known.server[port] == thread;
        known.server[port] = known.server[port] == thread ? 0 : known.server[port];
    }
}

// A call waits. The port has no server then whose lends lead to the caller.
static void learn_queued(uint32_t port, uint32_t thread) {
    CHECK(known.receivers[port].count == 0);
    if (lends_lead(known.server[port], thread, true)) {
        known.server[port] = 0;
        servers_cut++;
    }
    queued_lent += known.server[port] != 0;
    join(&known.callers[port], thread);
}

// A thread waits for a mutex. If lends lead from its owner to the thread, they pass a port's queue, and no port has a
// server then whose lends lead to the thread.
static void learn_mutex_wait(uint32_t mutex, uint32_t thread) {
    uint32_t next = borrower_of(known.owner[mutex], true);
    bool leads[PORTS + 1];
    CHECK(!lends_lead(borrower_of(known.owner[mutex], false), thread, false));
    for (uint32_t port = 1; port <= PORTS; port++) {
        leads[port] = lends_lead(next, thread, true) && lends_lead(known.server[port], thread, true);
    }
    for (uint32_t port = 1; port <= PORTS; port++) {
        servers_cut += leads[port];
        known.server[port] = leads[port] ? 0 : known.server[port];
    }
    join(&known.waiters[mutex], thread);
}

static void deliver(uint32_t thread, uint32_t sent) {
    known.has_delivered[thread] = true;
    known.delivered[thread] = sent;
}

// A call is taken from those that wait at the port, by a thread that serves the caller from then on.
static void learn_receipt(uint32_t server, uint32_t port, const lot_reply *reply) {
    CHECK(take_first(&known.callers[port]) == reply->other);
    CHECK(reply->has_sent && reply->sent == known.sent[reply->other]);
    join(&known.clients[server], reply->other);
    learn_server(port, server);
}

// A server replies to the client that it took first.
static void learn_reply(uint32_t server, uint32_t client, uint32_t sent) {
    CHECK(take_first(&known.clients[server]) == client);
    deliver(client, sent);
}

// A thread waits for a mutex, or at a port where no call waits.
static void learn_wait(const lot_event *event, uint32_t thread) {
    if (event->kind == LOT_LOCK) {
        learn_mutex_wait(event->object, thread);
    } else {
        CHECK(known.callers[event->object].count == 0);
        join(&known.receivers[event->object], thread);
    }
}

static void learn_trap(const lot_event *event, const lot_reply *reply) {
    uint32_t thread = reply->thread, object = event->object;
    switch ((lot_outcome)reply->outcome) {
    case LOT_OUTCOME_SERVED_BY:
        CHECK(take_first(&known.receivers[object]) == reply->other);
        join(&known.clients[reply->other], thread);
        learn_server(object, reply->other);
        deliver(reply->other, event->sent);
        break;
    case LOT_OUTCOME_QUEUED:
        learn_queued(object, thread);
        known.sent[thread] = event->sent;
        break;
    case LOT_OUTCOME_REPLIED: learn_reply(thread, reply->other, event->sent); break;
    case LOT_OUTCOME_REPLIED_THEN_WAITS:
        learn_reply(thread, reply->replied_to, event->sent);
        learn_wait(event, thread);
        break;
    case LOT_OUTCOME_REPLIED_THEN_RECEIVED:
        learn_reply(thread, reply->replied_to, event->sent);
        learn_receipt(thread, object, reply);
        break;
    case LOT_OUTCOME_RECEIVED: learn_receipt(thread, object, reply); break;
    case LOT_OUTCOME_WAITS: learn_wait(event, thread); break;
    case LOT_OUTCOME_LOCKED: known.owner[object] = thread; break;
    case LOT_OUTCOME_FREED: known.owner[object] = 0; break;
    case LOT_OUTCOME_PASSED:
        known.owner[object] = reply->other;
        CHECK(take_out(&known.waiters[object], reply->other));
        break;
    case LOT_OUTCOME_EXITED: learn_end(thread); break;
    case LOT_OUTCOME_REFUSED:
        CHECK(reply->reason != LOT_TRAP_REFUSAL_LOCK_CYCLE ||
              lends_lead(borrower_of(known.owner[object], false), thread, false));
        break;
    case LOT_OUTCOME_YIELDED:
    case LOT_OUTCOME_SLEPT: break;
    }
}

static unsigned long inherited, released;

// What a killed thread owned passes to the one that has waited longest. It waits nowhere, and serves nobody.
static void learn_kill(uint32_t thread) {
    for (uint32_t mutex = 1; mutex <= MUTEXES; mutex++) {
        take_out(&known.waiters[mutex], thread);
        if (known.owner[mutex] == thread) {
            bool has_waiter = known.waiters[mutex].count != 0;
            known.owner[mutex] = has_waiter ? take_first(&known.waiters[mutex]) : 0;
            inherited += has_waiter;
        }
    }
    for (uint32_t port = 1; port <= PORTS; port++) {
        take_out(&known.callers[port], thread);
        take_out(&known.receivers[port], thread);
    }
    for (uint32_t server = 1; server <= THREADS; server++) {
        take_out(&known.clients[server], thread);
    }
    learn_end(thread);
    released += known.clients[thread].count;
    known.clients[thread].count = 0;
    known.compensation[thread] = 0;
}

// Bytes behind a name say nothing.
static bool is_equal(const lot_name *name, const lot_name *other) {
    return name->length == other->length && memcmp(name->bytes, other->bytes, other->length) == 0;
}

static unsigned long tickets_again, currencies_again, threads_again, unnamed, plainly_named;

// Something was made with this number.
static void learn_number(struct numbers *numbers, uint32_t number, unsigned long *again) {
    if (numbers->count != 0) {
        CHECK(number == numbers->free[--numbers->count]);
        ++*again;
    } else {
        CHECK(number == numbers->next++);
    }
}

// What had this number was removed.
static void learn_removal(struct numbers *numbers, uint32_t number) {
    if (known.reuse) {
        numbers->free[numbers->count++] = number;
    }
}

// A thread was made. It has used nothing, and nothing is delivered to it.
static void learn_thread(uint32_t thread, const lot_name *name) {
    learn_number(&known.threads, thread, &threads_again);
    unnamed += name->length == 0;
    plainly_named += name->length != 0 && known.plain_names;
    known.has_thread[thread] = true;
    known.names[thread] = *name;
    known.used[thread] = known.compensation[thread] = 0;
    known.has_delivered[thread] = false;
}

// Whether it is a command by number.
static bool is_by_number(const lot_event *event) {
    return kinds_of_events[event->kind].named != 0;
}

// Which currency a removal was of.
static uint32_t known_currency(const lot_event *event) {
    if (is_by_number(event)) {
        return event->object;
    }
    uint32_t currency = CURRENCIES;
    while (currency != 0 && !is_equal(&event->currency, &known.currency_names[currency])) {
        currency--;
    }
    CHECK(currency != 0);
    return currency;
}

// Which thread a removal or a kill was of. A run of events may have made it since rows were last read.
static uint32_t known_thread(const lot_event *event) {
    if (is_by_number(event)) {
        return event->object;
    }
    uint32_t thread = THREADS;
    while (thread != 0 && !is_equal(&event->name, &known.names[thread])) {
        thread--;
    }
    CHECK(thread != 0 && event->name.length != 0);
    return thread;
}

static void learn_thread_removed(uint32_t thread) {
    learn_removal(&known.threads, thread);
    known.has_thread[thread] = false;
    known.names[thread].length = 0;
}

static void learn_currency_removed(uint32_t currency) {
    learn_removal(&known.currencies, currency);
    known.currency_names[currency].length = 0;
}

// What is made, removed and killed.
static void learn_command(const lot_event *event, const lot_reply *reply) {
    switch (event->kind) {
    case LOT_MAKE_TICKET:
    case LOT_MAKE_TICKET_IN: learn_number(&known.tickets, reply->ticket, &tickets_again); break;
    case LOT_REMOVE_TICKET: learn_removal(&known.tickets, (uint32_t)event->ticket); break;
    case LOT_MAKE_CURRENCY:
        learn_number(&known.currencies, reply->currency, &currencies_again);
        known.currency_names[reply->currency] = event->name;
        break;
    case LOT_REMOVE_CURRENCY:
    case LOT_REMOVE_CURRENCY_NUMBERED: learn_currency_removed(known_currency(event)); break;
    case LOT_MAKE_THREAD: learn_thread(reply->thread, &event->name); break;
    case LOT_MAKE_FUNDED:
    case LOT_MAKE_FUNDED_IN:
        learn_number(&known.tickets, reply->ticket, &tickets_again);
        learn_thread(reply->thread, &event->name);
        break;
    case LOT_REMOVE_THREAD:
    case LOT_REMOVE_THREAD_NUMBERED: learn_thread_removed(known_thread(event)); break;
    case LOT_KILL:
    case LOT_KILL_NUMBERED: learn_kill(known_thread(event)); break;
    default: break;
    }
}

// Whether a thread yields or blocks by this outcome, so that it is compensated for what is left of its quantum.
static bool is_compensated(uint32_t outcome) {
    switch ((lot_outcome)outcome) {
    case LOT_OUTCOME_YIELDED:
    case LOT_OUTCOME_SERVED_BY:
    case LOT_OUTCOME_QUEUED:
    case LOT_OUTCOME_WAITS:
    case LOT_OUTCOME_PASSED:
    case LOT_OUTCOME_REPLIED_THEN_WAITS:
    case LOT_OUTCOME_SLEPT: return true;
    case LOT_OUTCOME_RECEIVED:
    case LOT_OUTCOME_REPLIED:
    case LOT_OUTCOME_LOCKED:
    case LOT_OUTCOME_FREED:
    case LOT_OUTCOME_EXITED:
    case LOT_OUTCOME_REFUSED:
    case LOT_OUTCOME_REPLIED_THEN_RECEIVED: break;
    }
    return false;
}

// What a thread has used, and its compensation. After an overrun it counts as one that used more than its quantum.
static void learn_compensation(const lot_event *event, const lot_reply *reply, uint32_t quantum) {
    uint32_t thread = reply->thread;
    if (reply->kind == LOT_REPLY_WINNER) {
        known.used[thread] = 0;
        known.compensation[thread] = 0;
    } else if (reply->kind == LOT_REPLY_TRAPPED) {
        known.used[thread] += reply->ticks;
        bool is_early = known.used[thread] < quantum;
        known.compensation[thread] = is_early && is_compensated(reply->outcome) ? known.used[thread] : 0;
    } else if (reply->kind == LOT_REPLY_EXPIRED) {
        known.compensation[thread] = event->kind == LOT_OVERRUN ? quantum + event->ticks : 0;
    }
}

static void learn(const lot_event *event, const lot_reply *reply, uint32_t quantum) {
    learn_compensation(event, reply, quantum);
    if (reply->kind == LOT_REPLY_WINNER) {
        known.has_delivered[reply->thread] = false;
    } else if (reply->kind == LOT_REPLY_TRAPPED) {
        learn_trap(event, reply);
    } else if (reply->kind != LOT_REPLY_REFUSED) {
        learn_command(event, reply);
    }
}

// ---- a lottery of our own

struct lottery {
    wide number, total;
    size_t place;
    bool is_above; // the weights sum to more than a wide number
};

static wide wide_of(lot_wide number) {
    return (wide)number.high << 64 | number.low;
}

static lot_wide lot_wide_from(wide number) {
    return (lot_wide){(uint64_t)number, (uint64_t)(number >> 64)};
}

// The first whose running sum is above the number modulo the sum. If the sum is 0 there is no winner.
static struct lottery hold(const wide *weights, size_t count, wide number) {
    struct lottery held = {0, 0, 0, false};
    wide sum = 0;
    for (size_t i = 0; i < count; i++) {
        held.total += weights[i];
        held.is_above = held.is_above || held.total < weights[i];
    }
    if (held.total == 0 || held.is_above) {
        return held;
    }
    held.number = number % held.total;
    while ((sum += weights[held.place]) <= held.number) {
        held.place++;
    }
    return held;
}

// What a value weighs with a compensation, which is more than the quantum if the quantum ended late. What is worth
// something weighs something.
static wide weight_of(uint64_t value, uint32_t compensation, uint32_t quantum) {
    wide weight = compensation == 0 ? value : (wide)value * quantum / compensation;
    return value != 0 && weight == 0 ? 1 : weight;
}

static unsigned long draws_held, unlocks_held;

static lot_reply refused(uint32_t reason) {
    return (lot_reply){.kind = LOT_REPLY_REFUSED, .reason = reason};
}

// Each thread has the name with which it was made. Its weight is what our own lottery makes of its value.
static void check_threads(const struct view *view, const lot_sizes *sizes) {
    for (uint32_t i = 0; i < view->thread_count; i++) {
        CHECK(view->has_thread[i] == known.has_thread[i + 1]);
        CHECK(!view->has_thread[i] || is_equal(&view->threads[i].name, &known.names[i + 1]));
        wide weight = weight_of(view->threads[i].value, known.compensation[i + 1], sizes->quantum);
        CHECK(!view->has_thread[i] || wide_of(view->threads[i].weight) == weight);
    }
}

static bool is_currency(const struct view *view, uint32_t currency) {
    return currency < view->currency_count && view->has_currency[currency];
}

static bool is_thread(const struct view *view, uint32_t thread) {
    return thread != 0 && thread <= view->thread_count && view->has_thread[thread - 1];
}

// What a ticket funds is there, and its row has its name.
static void check_target(const struct view *view, const lot_ticket_row *row) {
    lot_name none = lot_no_name();
    uint32_t number = row->target_number;
    CHECK(row->has_target == (row->target_kind != LOT_TARGET_NONE));
    switch ((lot_target_kind)row->target_kind) {
    case LOT_TARGET_NONE: CHECK(number == 0 && memcmp(&row->target, &none, sizeof none) == 0); return;
    case LOT_TARGET_CURRENCY:
        CHECK(number != 0 && is_currency(view, number));
        CHECK(memcmp(&row->target, &view->currencies[number].name, sizeof none) == 0);
        return;
    case LOT_TARGET_THREAD:
        CHECK(is_thread(view, number));
        CHECK(memcmp(&row->target, &view->threads[number - 1].name, sizeof none) == 0);
        return;
    }
    CHECK(false);
}

static void check_targets(const struct view *view) {
    for (uint32_t i = 0; i < view->ticket_count; i++) {
        if (view->has_ticket[i]) {
            check_target(view, &view->tickets[i]);
        }
    }
}

static uint64_t sum_of(const struct view *view, const struct queue *queue) {
    uint64_t sum = 0;
    for (size_t i = 0; i < queue->count; i++) {
        sum += view->threads[queue->threads[i] - 1].value;
    }
    return sum;
}

// Each thread is worth the tickets that fund it and the threads that lend to it. What is lent to nobody counts for 0.
static void check_values(const struct view *view) {
    uint64_t sums[THREADS + 1] = {0};
    for (uint32_t i = 0; i < view->ticket_count; i++) {
        bool is_of_thread = view->has_ticket[i] && view->tickets[i].target_kind == LOT_TARGET_THREAD;
        sums[is_of_thread ? view->tickets[i].target_number : 0] += view->tickets[i].value;
    }
    for (uint32_t thread = 1; thread <= THREADS; thread++) {
        sums[thread] += sum_of(view, &known.clients[thread]);
    }
    for (uint32_t mutex = 1; mutex <= MUTEXES; mutex++) {
        sums[known.owner[mutex]] += sum_of(view, &known.waiters[mutex]);
    }
    for (uint32_t port = 1; port <= PORTS; port++) {
        sums[known.server[port]] += sum_of(view, &known.callers[port]);
    }
    for (uint32_t i = 0; i < view->thread_count; i++) {
        CHECK(!view->has_thread[i] || view->threads[i].value == sums[i + 1]);
    }
}

// The reply that a draw must have in the kernel of this view.
static lot_reply reply_to_draw(const struct view *view, const lot_sizes *sizes, const lot_event *event) {
    wide weights[THREADS];
    uint32_t ready[THREADS];
    size_t count = 0;
    if (event->processor == 0 || event->processor > sizes->processors) {
        return refused(LOT_REFUSAL_BAD_PROCESSOR);
    }
    if (view->runners[event->processor - 1].thread != 0) {
        return refused(LOT_REFUSAL_BUSY);
    }
    for (uint32_t i = 0; i < view->thread_count; i++) {
        if (view->threads[i].status.kind == LOT_STATUS_READY) {
            weights[count] = weight_of(view->threads[i].value, known.compensation[i + 1], sizes->quantum);
            ready[count++] = i + 1;
        }
    }
    struct lottery held = hold(weights, count, wide_of(event->number));
    if (held.total == 0) {
        return (lot_reply){.kind = LOT_REPLY_IDLE};
    }
    draws_held++;
    uint32_t thread = ready[held.place];
    lot_reply reply = {.kind = LOT_REPLY_WINNER, .thread = thread, .has_draw = true, .goes_on = true};
    reply.number = lot_wide_from(held.number);
    reply.total = lot_wide_from(held.total);
    reply.has_sent = known.has_delivered[thread];
    reply.sent = reply.has_sent ? known.delivered[thread] : 0;
    return reply;
}

// The lottery over what the waiters of a mutex are worth. If all are worth nothing, the first one gets the mutex.
static void pass(const struct view *view, const lot_event *event, lot_reply *reply) {
    const uint32_t *waiters = known.waiters[event->object].threads;
    size_t count = known.waiters[event->object].count;
    wide values[THREADS];
    for (size_t i = 0; i < count; i++) {
        values[i] = view->threads[waiters[i] - 1].value;
    }
    struct lottery held = hold(values, count, wide_of(event->number));
    reply->outcome = LOT_OUTCOME_PASSED;
    // Its outcome says that the thread runs no more. `ends` is for those that would go on.
    reply->ends = false;
    reply->goes_on = false;
    reply->other = waiters[held.place];
    reply->has_draw = held.total != 0;
    reply->number = lot_wide_from(held.number);
    reply->total = lot_wide_from(held.total);
    unlocks_held++;
}

// The reply that an unlock must have in the kernel of this view.
static lot_reply reply_to_unlock(const struct view *view, const lot_sizes *sizes, const lot_event *event) {
    if (event->processor == 0 || event->processor > sizes->processors) {
        return refused(LOT_REFUSAL_BAD_PROCESSOR);
    }
    lot_runner runner = view->runners[event->processor - 1];
    uint64_t used = (uint64_t)runner.used + event->ticks + 1;
    if (runner.thread == 0 || used > sizes->quantum) {
        return refused(runner.thread == 0 ? LOT_REFUSAL_NOT_RUNNING : LOT_REFUSAL_BAD_TICKS);
    }
    lot_reply reply = {.kind = LOT_REPLY_TRAPPED, .thread = runner.thread, .ticks = event->ticks + 1};
    reply.ends = used == sizes->quantum;
    reply.goes_on = !reply.ends;
    if (event->object == 0 || event->object > sizes->mutexes) {
        reply.outcome = LOT_OUTCOME_REFUSED;
        reply.reason = LOT_TRAP_REFUSAL_NO_MUTEX;
    } else if (known.owner[event->object] != runner.thread) {
        reply.outcome = LOT_OUTCOME_REFUSED;
        reply.reason = LOT_TRAP_REFUSAL_NOT_OWNER;
    } else if (known.waiters[event->object].count == 0) {
        reply.outcome = LOT_OUTCOME_FREED;
    } else {
        pass(view, event, &reply);
    }
    return reply;
}

// Which thread has this name, or 0. An event that comes so far has a name.
static uint32_t thread_named(const struct view *view, const lot_name *name) {
    for (uint32_t i = 0; i < view->thread_count; i++) {
        if (view->has_thread[i] && is_equal(name, &view->threads[i].name)) {
            return i + 1;
        }
    }
    return 0;
}

static bool funds(const lot_ticket_row *row, uint32_t kind, uint32_t number) {
    return row->target_kind == kind && row->target_number == number;
}

// The place of a ticket that funds the thread, or how many tickets were made.
static uint32_t ticket_funding(const struct view *view, uint32_t thread) {
    uint32_t i = 0;
    while (i < view->ticket_count &&
           !(view->has_ticket[i] && funds(&view->tickets[i], LOT_TARGET_THREAD, thread))) {
        i++;
    }
    return i;
}

// Whether a ticket funds the thread, or it has a client or owns a mutex.
static bool is_in_use(const struct view *view, uint32_t thread) {
    bool is_used = ticket_funding(view, thread) < view->ticket_count;
    for (uint32_t i = 0; i < view->thread_count; i++) {
        lot_thread_status status = view->threads[i].status;
        is_used = is_used || (status.kind == LOT_STATUS_SERVED && status.other == thread);
    }
    for (uint32_t mutex = 1; mutex <= MUTEXES; mutex++) {
        is_used = is_used || known.owner[mutex] == thread;
    }
    return is_used;
}

static unsigned long removals, sleeps, wakes, preemptions, overruns, numbered;
static unsigned long kills[LOT_STATUS_ASLEEP + 1]; // by the thread's status before

// The reply that a sleep must have in the kernel of this view.
static lot_reply reply_to_sleep(const struct view *view, const lot_sizes *sizes, const lot_event *event) {
    if (event->processor == 0 || event->processor > sizes->processors) {
        return refused(LOT_REFUSAL_BAD_PROCESSOR);
    }
    lot_runner runner = view->runners[event->processor - 1];
    if (runner.thread == 0) {
        return refused(LOT_REFUSAL_NOT_RUNNING);
    }
    if ((uint64_t)runner.used + event->ticks + 1 > sizes->quantum) {
        return refused(LOT_REFUSAL_BAD_TICKS);
    }
    sleeps++;
    return (lot_reply){.kind = LOT_REPLY_TRAPPED,
                       .thread = runner.thread,
                       .ticks = event->ticks + 1,
                       .outcome = LOT_OUTCOME_SLEPT};
}

// The reply that a preemption or an overrun must have in the kernel of this view.
static lot_reply reply_to_stop(const struct view *view, const lot_sizes *sizes, const lot_event *event) {
    bool is_late = event->kind == LOT_OVERRUN;
    if (event->processor == 0 || event->processor > sizes->processors) {
        return refused(LOT_REFUSAL_BAD_PROCESSOR);
    }
    lot_runner runner = view->runners[event->processor - 1];
    if (runner.thread == 0) {
        return refused(LOT_REFUSAL_NOT_RUNNING);
    }
    uint64_t used = (is_late ? (uint64_t)sizes->quantum : runner.used) + event->ticks;
    if (used > (is_late ? UINT32_MAX : sizes->quantum)) {
        return refused(LOT_REFUSAL_BAD_TICKS);
    }
    preemptions += !is_late;
    overruns += is_late;
    return (lot_reply){.kind = LOT_REPLY_EXPIRED, .thread = runner.thread, .ticks = (uint32_t)used - runner.used};
}

// The reply that a wake must have in the kernel of this view.
static lot_reply reply_to_wake(const struct view *view, const lot_event *event) {
    uint32_t thread = event->object;
    if (thread == 0 || thread > view->thread_count || !view->has_thread[thread - 1]) {
        return refused(LOT_REFUSAL_NO_THREAD);
    }
    if (view->threads[thread - 1].status.kind != LOT_STATUS_ASLEEP) {
        return refused(LOT_REFUSAL_NOT_ASLEEP);
    }
    wakes++;
    return (lot_reply){.kind = LOT_REPLY_DONE};
}

// The thread that a removal or a kill means, or 0.
static uint32_t thread_meant(const struct view *view, const lot_event *event) {
    if (event->kind == LOT_REMOVE_THREAD || event->kind == LOT_KILL) {
        return thread_named(view, &event->name);
    }
    return is_thread(view, event->object) ? event->object : 0;
}

// The reply that a removal must have in the kernel of this view.
static lot_reply reply_to_removal(const struct view *view, const lot_event *event) {
    uint32_t thread = thread_meant(view, event);
    if (thread == 0) {
        return refused(LOT_REFUSAL_NO_THREAD);
    }
    if (view->threads[thread - 1].status.kind != LOT_STATUS_DEAD) {
        return refused(LOT_REFUSAL_ALIVE);
    }
    if (is_in_use(view, thread)) {
        return refused(LOT_REFUSAL_IN_USE);
    }
    removals++;
    return (lot_reply){.kind = LOT_REPLY_DONE};
}

// The reply that a kill must have in the kernel of this view.
static lot_reply reply_to_kill(const struct view *view, const lot_event *event) {
    uint32_t thread = thread_meant(view, event);
    if (thread == 0) {
        return refused(LOT_REFUSAL_NO_THREAD);
    }
    uint32_t status = view->threads[thread - 1].status.kind;
    if (status == LOT_STATUS_DEAD) {
        return refused(LOT_REFUSAL_DEAD_THREAD);
    }
    kills[status]++;
    return (lot_reply){.kind = LOT_REPLY_DONE};
}

// Whether what a command by number refers to is there, in the kernel of this view.
static bool is_number_there(const struct view *view, const lot_event *event) {
    return kinds_of_events[event->kind].of_thread ? is_thread(view, event->object) : is_currency(view, event->object);
}

// The reply that a command by number must have if nothing has the number. The checks before this one are of the amount
// and of the ticket.
static lot_reply reply_to_no_number(const struct view *view, const lot_event *event) {
    switch (event->kind) {
    case LOT_MAKE_TICKET_IN:
    case LOT_MAKE_FUNDED_IN:
        return refused(event->amount == 0 || event->amount > UINT32_MAX ? LOT_REFUSAL_BAD_AMOUNT
                                                                        : LOT_REFUSAL_NO_CURRENCY);
    case LOT_FUND_CURRENCY:
    case LOT_FUND_THREAD: {
        bool is_ticket = event->ticket != 0 && event->ticket <= view->ticket_count &&
                         view->has_ticket[event->ticket - 1];
        return refused(is_ticket ? LOT_REFUSAL_NO_TARGET : LOT_REFUSAL_NO_TICKET);
    }
    default: return refused(LOT_REFUSAL_NO_CURRENCY);
    }
}

// Whether what a command by number refers to is there and has a name.
static bool has_name(const struct view *view, const lot_event *event) {
    return is_number_there(view, event) &&
           (!kinds_of_events[event->kind].of_thread || known.names[event->object].length != 0);
}

// The same command by name, if what has the number is there and has a name; otherwise the event itself.
static lot_event by_name(const struct view *view, const lot_event *event) {
    if (!is_by_number(event) || !has_name(view, event)) {
        return *event;
    }
    numbered++;
    const struct kind *kind = &kinds_of_events[event->kind];
    lot_name name = kind->of_thread ? view->threads[event->object - 1].name : view->currencies[event->object].name;
    lot_event named = *event;
    named.kind = kind->named;
    *(kinds_of_events[named.kind].currency ? &named.currency : &named.name) = name;
    return only_read(&named);
}

// ---- the statuses that bytes deserve

static bool is_letter(uint8_t byte) {
    return byte >= 'a' && byte <= 'z';
}

static bool goes_on_name(uint8_t byte) {
    return is_letter(byte) || (byte >= '0' && byte <= '9') || byte == '_' || byte == '-';
}

static uint32_t status_of_name(const uint8_t *bytes, size_t length, bool is_plain) {
    if (length > 16) {
        return LOT_LONG_NAME;
    }
    bool is_name = length != 0 && (is_plain || is_letter(bytes[0]));
    for (size_t i = 0; i < length; i++) {
        is_name = is_name && (is_plain ? bytes[i] >= 33 && bytes[i] <= 126 : goes_on_name(bytes[i]));
    }
    return is_name ? LOT_DONE : LOT_BAD_NAME;
}

// The event with random bytes in each field that its kind doesn't read.
static lot_event with_rest(lot_event event) {
    lot_event ones, rest;
    memset(&ones, 0xff, sizeof ones);
    ones.kind = event.kind;
    lot_event read = only_read(&ones);
    fill(&rest, sizeof rest);
    for (size_t i = sizeof event.kind; i < sizeof event; i++) {
        if (((const unsigned char *)&read)[i] == 0) {
            ((unsigned char *)&event)[i] = ((const unsigned char *)&rest)[i];
        }
    }
    return event;
}

// Whether an event may have this status. Where two names are wrong, it has that of either.
static bool deserves(const lot_event *event, uint32_t status) {
    uint32_t kind = event->kind, currency = LOT_DONE, name = LOT_DONE;
    if (kind == 0 || kind > LAST_KIND) {
        return status == LOT_BAD_KIND;
    }
    if (kinds_of_events[kind].currency) {
        currency = status_of_name(event->currency.bytes, event->currency.length, known.plain_names);
    }
    if (kinds_of_events[kind].name && (event->name.length != 0 || !kinds_of_events[kind].makes_thread)) {
        name = status_of_name(event->name.bytes, event->name.length, known.plain_names);
    }
    if (currency == LOT_DONE || name == LOT_DONE) {
        return status == (currency != LOT_DONE ? currency : name);
    }
    return status == currency || status == name;
}

static bool within(uint32_t size, uint32_t least, uint32_t most) {
    return size >= least && size <= most;
}

static bool are_sizes(const lot_sizes *sizes) {
    return within(sizes->tickets, 1, 65535) && within(sizes->currencies, 1, 4096) &&
           within(sizes->threads, 1, 4096) && sizes->ports <= 256 && sizes->mutexes <= 256 &&
           within(sizes->processors, 1, 64) && sizes->scripts <= 256 && within(sizes->quantum, 1, 1000) &&
           (sizes->unit == 1 || sizes->unit == 256);
}

// ---- events that mean something

static lot_kernel kernel;
static lot_sizes sizes;
static struct view now, after, before_kill;

// A name that probably nothing has.
static lot_name new_name(void) {
    static const char bytes[] = "abcdefghijklmnopqrstuvwxyz0123456789-_";
    lot_name name = {one_in(8) ? 16 : from_to(3, 15), {0}};
    for (size_t i = 0; i < name.length; i++) {
        name.bytes[i] = known.plain_names ? (uint8_t)from_to(33, 126) : (uint8_t)bytes[below(i == 0 ? 26 : 38)];
    }
    return name;
}

// Whether the thread at this place has a name; one time in eight one without a name counts too.
static bool may_be_named(uint64_t i) {
    return now.has_thread[i] && (now.threads[i].name.length != 0 || one_in(8));
}

static lot_name name_of_thread(void) {
    uint64_t i = now.thread_count != 0 ? below(now.thread_count) : 0;
    return may_be_named(i) ? now.threads[i].name : new_name();
}

static lot_name name_of_currency(void) {
    uint64_t i = below(now.currency_count);
    return now.has_currency[i] ? now.currencies[i].name : new_name();
}

static lot_name some_name(void) {
    return one_in(30) ? new_name() : one_in(2) ? name_of_thread() : name_of_currency();
}

static uint64_t some_amount(void) {
    switch (below(16)) {
    case 0: return UINT32_MAX;
    case 1: return below(3) + UINT32_MAX;
    case 2: return 0;
    case 3: return random_bits();
    default: return below(1000) + 1;
    }
}

static lot_wide some_number(void) {
    lot_wide number = {random_bits(), random_bits()};
    switch (below(6)) {
    case 0: return lot_wide_of(below(100000));
    case 1: return lot_wide_of(number.low);
    case 2: return lot_wide_of(0);
    case 3: return (lot_wide){UINT64_MAX - below(4), UINT64_MAX};
    default: return number;
    }
}

// A removal, most often of a dead thread. A ticket that still funds it is taken from it first.
static lot_event some_removal(void) {
    for (uint32_t i = 0; i < now.thread_count; i++) {
        const lot_thread_row *row = &now.threads[i];
        if (now.has_thread[i] && row->status.kind == LOT_STATUS_DEAD && !one_in(4)) {
            uint32_t place = ticket_funding(&now, i + 1);
            return place < now.ticket_count && !one_in(4) ? lot_unfund(place + 1)
                   : may_be_named(i) && one_in(2)         ? lot_remove_thread(row->name)
                                                          : lot_remove_thread_numbered(i + 1);
        }
    }
    return lot_remove_thread(some_name());
}

// A thread that sleeps, if there is any.
static uint32_t some_asleep(uint32_t otherwise) {
    uint32_t first = now.thread_count != 0 ? (uint32_t)below(now.thread_count) : 0;
    for (uint32_t i = 0; i < now.thread_count; i++) {
        uint32_t at = (first + i) % now.thread_count;
        if (now.threads[at].status.kind == LOT_STATUS_ASLEEP) {
            return at + 1;
        }
    }
    return otherwise;
}

// A thread for which another waits, if there is any.
static uint32_t some_awaited(uint32_t otherwise) {
    for (uint32_t mutex = 1; mutex <= MUTEXES; mutex++) {
        if (known.waiters[mutex].count != 0 && one_in(2)) {
            return known.owner[mutex];
        }
    }
    for (uint32_t thread = 1; thread <= THREADS; thread++) {
        if (known.clients[thread].count != 0 && one_in(2)) {
            return thread;
        }
    }
    return otherwise;
}

// A kill, by name or by number, more often of a thread that sleeps or for which another waits. It is rare, since
// kernels have few threads.
static lot_event some_kill(void) {
    uint32_t thread = one_in(16) ? (uint32_t)random_bits() : (uint32_t)below((uint64_t)now.thread_count + 2);
    thread = one_in(4) ? some_asleep(thread) : one_in(2) ? some_awaited(thread) : thread;
    if (is_thread(&now, thread) && may_be_named(thread - 1) && one_in(2)) {
        return lot_kill(now.threads[thread - 1].name);
    }
    return one_in(16) ? lot_kill(some_name()) : lot_kill_numbered(thread);
}

// A command by number, most often one that something has.
static lot_event some_numbered(uint64_t ticket, lot_name name, uint32_t script) {
    uint32_t currency = one_in(16) ? (uint32_t)random_bits() : (uint32_t)below((uint64_t)now.currency_count + 1);
    uint32_t thread = one_in(16) ? (uint32_t)random_bits() : (uint32_t)below((uint64_t)now.thread_count + 2);
    switch (below(8)) {
    case 0: return lot_remove_currency_numbered(currency);
    case 1: return lot_remove_thread_numbered(thread);
    case 2:
    case 3: return lot_make_ticket_in(some_amount(), currency);
    case 4: return lot_fund_currency(ticket, currency);
    case 5:
    case 6: return lot_fund_thread(ticket, thread);
    default: return lot_make_funded_in(some_amount(), currency, name, script);
    }
}

static lot_event some_command(void) {
    uint64_t ticket = below((uint64_t)now.ticket_count + 2);
    lot_name currency = one_in(16) ? some_name() : one_in(2) ? lot_name_of("base") : name_of_currency();
    lot_name name = one_in(16) ? some_name() : new_name(), or_none = one_in(4) ? lot_no_name() : name;
    uint32_t script = one_in(16) ? (uint32_t)random_bits() : 1;
    if (one_in(4)) {
        return some_numbered(ticket, or_none, script);
    }
    switch (below(17)) {
    case 0: return lot_remove_ticket(ticket);
    case 1: return lot_set_ticket(ticket, some_amount());
    case 2: return lot_unfund(ticket);
    case 3: return lot_remove_currency(currency);
    case 4: return lot_event_of(LOT_LIST_TICKETS + (uint32_t)below(3));
    case 5: return lot_make_thread(or_none, script);
    case 6: return lot_make_currency(name);
    case 7:
    case 8: return lot_make_ticket(some_amount(), currency);
    case 9: return lot_fund(now.ticket_count, name_of_currency());
    case 10: return one_in(3) ? some_kill() : some_removal();
    case 11:
    case 12:
    case 13: return lot_fund(ticket, some_name());
    default: return lot_make_funded(some_amount(), currency, or_none, script);
    }
}

static uint32_t some_ticks(lot_runner runner) {
    switch (below(32)) {
    case 0:
    case 1: return (uint32_t)below(sizes.quantum);
    case 2:
    case 3: return sizes.quantum - runner.used - 1;
    case 4: return sizes.quantum - runner.used;
    case 5: return one_in(2) ? (uint32_t)random_bits() : UINT32_MAX;
    case 6: return 1;
    default: return 0;
    }
}

// How many threads a draw may pick.
static uint32_t drawable(void) {
    uint32_t count = 0;
    for (uint32_t i = 0; i < now.thread_count; i++) {
        count += now.threads[i].status.kind == LOT_STATUS_READY && wide_of(now.threads[i].weight) != 0;
    }
    return count;
}

// A mutex for an unlock: one that the thread owns, if it owns any.
static uint32_t some_owned(uint32_t thread, uint32_t otherwise) {
    for (uint32_t mutex = 1; mutex <= MUTEXES; mutex++) {
        if (known.owner[mutex] == thread && !one_in(8)) {
            return mutex;
        }
    }
    return otherwise;
}

// How many ticks late a quantum ends: few, as many as it has, or as many as there may be, and one more.
static uint32_t some_late(void) {
    switch (below(8)) {
    case 0: return 0;
    case 1: return UINT32_MAX - sizes.quantum;
    case 2: return UINT32_MAX - sizes.quantum + 1;
    case 3: return (uint32_t)random_bits();
    case 4: return sizes.quantum;
    default: return (uint32_t)below(2000);
    }
}

// A wake, most often of a thread that sleeps.
static lot_event some_wake(void) {
    uint32_t other = one_in(4) ? (uint32_t)random_bits() : (uint32_t)below(THREADS + 2);
    return lot_wake(one_in(16) ? other : some_asleep(other));
}

// A trap that blocks nobody for long, or another end of the thread's time on its processor.
static lot_event some_short_trap(uint32_t processor, uint32_t ticks, uint32_t mutex) {
    switch (below(6)) {
    case 0: return lot_yield(processor, ticks);
    case 1: return lot_expire(processor);
    case 2: return lot_reply_with(processor, ticks, (uint32_t)random_bits());
    case 3: return lot_preempt(processor, one_in(4) ? ticks + 1 : ticks);
    case 4: return lot_overrun(processor, some_late());
    default: return lot_unlock(processor, ticks, mutex, some_number());
    }
}

// Where few are left whom a draw may pick, a trap that blocks is rare, so that kernels seldom come to a standstill.
static lot_event some_trap(uint32_t processor, lot_runner runner) {
    uint32_t ticks = some_ticks(runner), sent = (uint32_t)random_bits();
    uint32_t object = one_in(16) ? (uint32_t)below(6) : one_in(4) ? 2 : 1;
    uint32_t count = drawable();
    if (count < 3 && !one_in(20)) {
        return some_short_trap(processor, ticks, some_owned(runner.thread, object));
    }
    if (count > 4 && one_in(24)) {
        return lot_exit(processor, ticks);
    }
    switch (below(11)) {
    case 0:
    case 1: return lot_call(processor, ticks, object, sent);
    case 2: return lot_receive(processor, ticks, object);
    case 3:
    case 4: return lot_serve(processor, ticks, object, sent);
    case 5:
    case 6: return lot_lock(processor, ticks, object);
    case 7: return lot_sleep(processor, ticks);
    default: return some_short_trap(processor, ticks, some_owned(runner.thread, object));
    }
}

static lot_event some_meaning(void) {
    uint32_t processor = from_to(1, sizes.processors);
    lot_runner runner = now.runners[processor - 1];
    if (one_in(drawable() < 4 ? 6 : 24)) {
        return some_wake();
    }
    if (below(16) < (drawable() < 4 ? 8u : 2u)) {
        return some_command();
    }
    if (one_in(16)) {
        return some_trap((uint32_t)below((uint64_t)sizes.processors + 2), runner);
    }
    return runner.thread == 0 ? lot_draw(processor, some_number()) : some_trap(processor, runner);
}

// One event in eight is bytes alone, and another one has up to three wrong bytes.
static lot_event some_event(void) {
    lot_event event;
    uint64_t way = below(8);
    if (way == 0) {
        fill(&event, sizeof event);
        event.kind = one_in(2) ? event.kind : (uint32_t)below(LAST_KIND + 2);
        return event;
    }
    event = with_rest(some_meaning());
    for (uint64_t wrong = way == 1 ? below(3) + 1 : 0; wrong != 0; wrong--) {
        ((unsigned char *)&event)[below(sizeof event)] = (unsigned char)random_bits();
    }
    return event;
}

// ---- steps with a kernel

static struct {
    lot_event event;
    lot_reply reply;
} records[STEPS_OF_KERNEL * EVENTS_OF_STEP];
static size_t record_count;
static unsigned long failed, answered, kernels, replayed, full_again;
static unsigned long outcomes[LAST_OUTCOME + 1], kinds[LAST_REPLY + 1];
static unsigned long reasons[LAST_REFUSAL + 1];

static void record(const lot_event *event, const lot_event *again, const lot_reply *reply) {
    CHECK(reply->kind <= LAST_REPLY && reply->outcome <= LAST_OUTCOME);
    CHECK(reply->reason <= LAST_REFUSAL);
    learn(event, reply, sizes.quantum);
    records[record_count].event = *again;
    records[record_count++].reply = *reply;
    answered++;
    kinds[reply->kind]++;
    outcomes[reply->outcome]++;
    reasons[reply->reason]++;
}

static lot_meter meter_of(lot_kernel *handle) {
    lot_meter meter;
    CHECK(lot_kernel_meter(handle, &meter) == LOT_DONE);
    return meter;
}

// Looks at the kernel after a step. Where the step was to change nothing, it still shows the same.
static void look(lot_kernel *handle, bool stays) {
    view_kernel(handle, &sizes, &after);
    CHECK(!stays || memcmp(&now, &after, sizeof now) == 0);
    memcpy(&now, &after, sizeof now);
    check_threads(&now, &sizes);
    check_targets(&now);
    check_values(&now);
}

static bool changes_nothing(const lot_reply *reply) {
    return reply->kind == LOT_REPLY_REFUSED || reply->kind == LOT_REPLY_IDLE ||
           (reply->kind >= LOT_REPLY_LIST_TICKETS && reply->kind <= LOT_REPLY_LIST_THREADS);
}

// How many of a table count against its limit: those that are there, or all ever made if no number is given again.
static size_t counted(const struct numbers *numbers, const bool *has, size_t places) {
    size_t count = 0;
    for (size_t i = 0; i < places; i++) {
        count += has[i];
    }
    return known.reuse ? count : numbers->next - 1;
}

// Whether there is no room for what an event is to make, in what the kernel showed before. Base doesn't count.
static bool is_full(uint32_t kind) {
    bool has_all_tickets = counted(&known.tickets, now.has_ticket, TICKETS) >= sizes.tickets;
    bool has_all_threads = counted(&known.threads, now.has_thread, THREADS) >= sizes.threads;
    switch (kind) {
    case LOT_MAKE_TICKET:
    case LOT_MAKE_TICKET_IN: return has_all_tickets;
    case LOT_MAKE_CURRENCY:
        return counted(&known.currencies, now.has_currency + 1, CURRENCIES) >= sizes.currencies;
    case LOT_MAKE_THREAD: return has_all_threads;
    default: return has_all_tickets || has_all_threads;
    }
}

// Something is made only where there is room, and refused for want of it only where there is none.
static void compare_room(const lot_event *event, const lot_reply *reply) {
    bool made = reply->kind == LOT_REPLY_TICKET || reply->kind == LOT_REPLY_CURRENCY ||
                reply->kind == LOT_REPLY_THREAD || reply->kind == LOT_REPLY_FUNDED;
    bool found_none = reply->kind == LOT_REPLY_REFUSED && reply->reason == LOT_REFUSAL_FULL;
    CHECK((!made && !found_none) || is_full(event->kind) == found_none);
    full_again += found_none && known.reuse;
}

// Compares the reply to an event with what the kernel showed before, where these rows and our own lottery say it all.
static void compare(const lot_event *event, const lot_reply *reply) {
    lot_reply expected = *reply;
    if (is_by_number(event) && !is_number_there(&now, event)) {
        expected = reply_to_no_number(&now, event);
    }
    switch ((lot_event_kind)event->kind) {
    case LOT_DRAW: expected = reply_to_draw(&now, &sizes, event); break;
    case LOT_UNLOCK: expected = reply_to_unlock(&now, &sizes, event); break;
    case LOT_REMOVE_THREAD:
    case LOT_REMOVE_THREAD_NUMBERED: expected = reply_to_removal(&now, event); break;
    case LOT_KILL:
    case LOT_KILL_NUMBERED: expected = reply_to_kill(&now, event); break;
    case LOT_SLEEP: expected = reply_to_sleep(&now, &sizes, event); break;
    case LOT_PREEMPT:
    case LOT_OVERRUN: expected = reply_to_stop(&now, &sizes, event); break;
    case LOT_WAKE: expected = reply_to_wake(&now, event); break;
    default: break;
    }
    CHECK(memcmp(reply, &expected, REPLY_BYTES) == 0);
    CHECK(reply->reason != LOT_REFUSAL_NAME_TAKEN || event->name.length != 0);
    compare_room(event, reply);
}

// What a thread ran, before an event.
static uint64_t ticks_before(uint32_t thread) {
    return thread != 0 && thread <= THREADS ? now.threads[thread - 1].ticks : 0;
}

// The row of a thread that lost its processor, slept or was woken. It was charged the ticks of the reply. One that was
// made has run nothing, also if another had its number.
static void check_row_follows(const lot_event *event, const lot_reply *reply, uint64_t before) {
    if (reply->kind == LOT_REPLY_EXPIRED || reply->kind == LOT_REPLY_TRAPPED) {
        const lot_thread_row *row = &now.threads[reply->thread - 1];
        bool slept = reply->kind == LOT_REPLY_TRAPPED && reply->outcome == LOT_OUTCOME_SLEPT;
        CHECK(row->ticks == before + reply->ticks);
        CHECK(reply->kind != LOT_REPLY_EXPIRED || row->status.kind == LOT_STATUS_READY);
        CHECK((row->status.kind == LOT_STATUS_ASLEEP) == slept);
    }
    if (event->kind == LOT_WAKE && reply->kind == LOT_REPLY_DONE) {
        CHECK(now.threads[event->object - 1].status.kind == LOT_STATUS_READY);
    }
    if (reply->kind == LOT_REPLY_THREAD || reply->kind == LOT_REPLY_FUNDED) {
        const lot_thread_row *row = &now.threads[reply->thread - 1];
        CHECK(row->status.kind == LOT_STATUS_READY && row->quanta == 0 && row->ticks == 0);
    }
    if (reply->kind == LOT_REPLY_FUNDED) {
        CHECK(funds(&now.tickets[reply->ticket - 1], LOT_TARGET_THREAD, reply->thread));
    }
}

// The rows after a command by number that wasn't refused: what it made or changed has to do with what has the number.
static void check_number_follows(const lot_event *event, const lot_reply *reply) {
    const uint32_t object = event->object;
    switch (event->kind) {
    case LOT_MAKE_TICKET_IN:
    case LOT_MAKE_FUNDED_IN:
        CHECK(memcmp(&now.tickets[reply->ticket - 1].issuer, &now.currencies[object].name, sizeof(lot_name)) == 0);
        break;
    case LOT_FUND_CURRENCY: CHECK(funds(&now.tickets[event->ticket - 1], LOT_TARGET_CURRENCY, object)); break;
    case LOT_FUND_THREAD: CHECK(funds(&now.tickets[event->ticket - 1], LOT_TARGET_THREAD, object)); break;
    case LOT_REMOVE_CURRENCY_NUMBERED: CHECK(object != 0 && !is_currency(&now, object)); break;
    case LOT_REMOVE_THREAD_NUMBERED: CHECK(!is_thread(&now, object)); break;
    default: break;
    }
}

// Whether the kill ended what a thread waited for: it was a client, or it owns the mutex for which it waited.
static bool is_released(const struct view *before, uint32_t thread, uint32_t killed) {
    lot_thread_status status = before->threads[thread - 1].status;
    return (status.kind == LOT_STATUS_SERVED && status.other == killed) ||
           (status.kind == LOT_STATUS_WAITING && known.owner[status.other] == thread);
}

// The rows after a kill.
static void check_kill_follows(const struct view *before, uint32_t killed) {
    for (uint32_t thread = 1; thread <= now.thread_count; thread++) {
        const lot_thread_row *row = &now.threads[thread - 1], *was = &before->threads[thread - 1];
        lot_thread_status status = was->status;
        if (thread == killed || is_released(before, thread, killed)) {
            status = (lot_thread_status){.kind = thread == killed ? LOT_STATUS_DEAD : LOT_STATUS_READY};
        }
        CHECK(memcmp(&row->status, &status, sizeof status) == 0);
        CHECK(row->ticks == was->ticks && row->quanta == was->quanta);
    }
    CHECK(now.threads[killed - 1].value == 0 && now.thread_count == before->thread_count);
    for (uint32_t i = 0; i < sizes.processors; i++) {
        lot_runner runner = before->runners[i];
        CHECK(now.runners[i].thread == (runner.thread == killed ? 0 : runner.thread));
        CHECK(now.runners[i].used == (runner.thread == killed ? 0 : runner.used));
    }
}

// Who runs after a draw and after a trap.
static void check_runner(const lot_event *event, const lot_reply *reply) {
    if (event->processor == 0 || event->processor > sizes.processors) {
        return;
    }
    lot_runner runner = now.runners[event->processor - 1];
    CHECK(reply->kind != LOT_REPLY_WINNER || (runner.thread == reply->thread && runner.used == 0));
    CHECK(!kinds_of_events[event->kind].is_trap || lot_goes_on(reply) == (runner.thread != 0));
    CHECK(!reply->goes_on || (runner.thread == reply->thread && runner.thread != 0));
    CHECK(reply->kind != LOT_REPLY_EXPIRED || runner.thread == 0);
}

static void step_event(void) {
    given = some_event();
    lot_kernel *handle = PUT(&handle_place, kernel);
    const lot_event *event = PUT(&input, given);
    lot_reply *reply = PUT_OUTPUT(&output, lot_reply);
    lot_meter before = meter_of(handle);
    unsigned long asked_before = asked;
    uint32_t status = lot_kernel_event(handle, event, reply);
    lot_meter behind = meter_of(handle);
    CHECK(deserves(&given, status) && asked == asked_before);
    check_input(&handle_place);
    check_input(&input);
    check_output(&output, status);
    bool stays = status != LOT_DONE || reply->kind == LOT_REPLY_REFUSED;
    CHECK(!stays || memcmp(&before, &behind, sizeof before) == 0);
    if (status == LOT_DONE) {
        compare(&given, reply);
        uint64_t ticks = ticks_before(reply->thread);
        const lot_event again = by_name(&now, &given);
        bool is_kill = (given.kind == LOT_KILL || given.kind == LOT_KILL_NUMBERED) && reply->kind == LOT_REPLY_DONE;
        if (is_kill) {
            memcpy(&before_kill, &now, sizeof now);
        }
        record(&given, &again, reply);
        look(handle, changes_nothing(reply));
        check_runner(&given, reply);
        check_row_follows(&given, reply, ticks);
        if (reply->kind != LOT_REPLY_REFUSED) {
            check_number_follows(&given, reply);
        }
        if (is_kill) {
            check_kill_follows(&before_kill, thread_meant(&before_kill, &given));
        }
        bool is_removal = given.kind == LOT_REMOVE_THREAD && reply->kind == LOT_REPLY_DONE;
        CHECK(!is_removal || thread_named(&now, &given.name) == 0);
    } else {
        failed++;
        look(handle, true);
    }
}

// Many events in one call, with as many replies or with more or fewer. Those before the first that is at fault are
// done, and no reply to a later one is written.
static void step_run(void) {
    lot_event events[EVENTS_OF_STEP];
    size_t count = below(EVENTS_OF_STEP + 1), reply_count = count, first = 0, done = 77;
    for (size_t i = 0; i < count; i++) {
        events[i] = some_event();
    }
    if (one_in(8)) {
        reply_count = below(EVENTS_OF_STEP + 1);
    }
    while (first < count && deserves(&events[first], LOT_DONE)) {
        first++;
    }
    lot_kernel *handle = PUT(&handle_place, kernel);
    const lot_event *given_events = put(&input, events, count * sizeof *events, _Alignof(lot_event));
    lot_reply *replies = put_output(&output, reply_count * sizeof *replies, _Alignof(lot_reply));
    size_t *given_done = PUT(&second_output, done);
    uint32_t status = lot_kernel_run(handle, count == 0 ? NULL : given_events, count,
                                     reply_count == 0 ? NULL : replies, reply_count, given_done);
    check_input(&handle_place);
    check_input(&input);
    check_paint(&output);
    check_paint(&second_output);
    if (reply_count != count) {
        CHECK(status == LOT_COUNTS_DIFFER && is_unchanged(&output) && is_unchanged(&second_output));
        look(handle, true);
        return;
    }
    CHECK(first == count ? status == LOT_DONE : deserves(&events[first], status));
    CHECK(*given_done == first);
    size_t written = first * sizeof *replies;
    CHECK(memcmp(output.at + written, output.before + written, output.size - written) == 0);
    for (size_t i = 0; i < first; i++) {
        record(&events[i], &events[i], &replies[i]);
    }
    look(handle, first == 0);
}

// Whether a row is there, in what the kernel showed, and that it is written only then.
static void check_row(uint32_t status, bool is_shown, const void *row, const void *shown, size_t size) {
    CHECK(status == (is_shown ? LOT_DONE : LOT_NOT_THERE));
    check_input(&handle_place);
    check_output(&output, status);
    CHECK(!is_shown || memcmp(row, shown, size) == 0);
}

// A row of any number, there or not. The kernel is settled, since all rows were read, so that readers see it too.
static void step_row(void) {
    bool settled = one_in(2);
    uint32_t number = one_in(4) ? (uint32_t)random_bits() : (uint32_t)below(TICKETS + 2) % (one_in(2) ? 8 : TICKETS);
    uint32_t i = number - 1;
    lot_kernel *handle = PUT(&handle_place, kernel);
    switch (below(5)) {
    case 0: {
        lot_ticket_row *row = PUT_OUTPUT(&output, lot_ticket_row);
        bool is_shown = number != 0 && number <= now.ticket_count && now.has_ticket[i];
        uint32_t status = settled ? lot_kernel_settled_ticket_row(handle, number, row)
                                  : lot_kernel_ticket_row(handle, number, row);
        check_row(status, is_shown, row, &now.tickets[is_shown ? i : 0], UP_TO(lot_ticket_row, is_active));
        break;
    }
    case 1: {
        lot_currency_row *row = PUT_OUTPUT(&output, lot_currency_row);
        bool is_shown = number < now.currency_count && now.has_currency[number];
        uint32_t status = settled ? lot_kernel_settled_currency_row(handle, number, row)
                                  : lot_kernel_currency_row(handle, number, row);
        check_row(status, is_shown, row, &now.currencies[is_shown ? number : 0], UP_TO(lot_currency_row, name));
        break;
    }
    case 2: {
        lot_thread_row *row = PUT_OUTPUT(&output, lot_thread_row);
        bool is_shown = number != 0 && number <= now.thread_count && now.has_thread[i];
        uint32_t status = settled ? lot_kernel_settled_thread_row(handle, number, row)
                                  : lot_kernel_thread_row(handle, number, row);
        check_row(status, is_shown, row, &now.threads[is_shown ? i : 0], UP_TO(lot_thread_row, name));
        break;
    }
    case 3: {
        lot_runner *runner = PUT_OUTPUT(&output, lot_runner);
        bool is_shown = number != 0 && number <= sizes.processors && now.runners[i].thread != 0;
        uint32_t status = lot_kernel_runner(handle, number, runner);
        check_row(status, is_shown, runner, &now.runners[is_shown ? i : 0], sizeof *runner);
        break;
    }
    default: {
        uint32_t *script = PUT_OUTPUT(&output, uint32_t);
        bool is_shown = number != 0 && number <= now.thread_count && now.has_thread[i];
        uint32_t status = lot_kernel_script_of(handle, number, script);
        check_row(status, is_shown, script, &now.scripts[is_shown ? i : 0], sizeof *script);
        break;
    }
    }
    look(handle, true);
}

// What a kernel counts and what it was made with, and that no second one is made in its place.
static void step_counts(void) {
    lot_kernel *handle = PUT(&handle_place, kernel);
    uint32_t *count = PUT_OUTPUT(&output, uint32_t);
    CHECK(lot_kernel_ticket_count(handle, count) == LOT_DONE && *count == now.ticket_count);
    check_paint(&output);
    count = PUT_OUTPUT(&output, uint32_t);
    CHECK(lot_kernel_currency_count(handle, count) == LOT_DONE && *count == now.currency_count);
    check_paint(&output);
    lot_sizes *limits = PUT_OUTPUT(&output, lot_sizes);
    lot_sizes expected = sizes;
    expected.reuse = sizes.reuse != 0;
    expected.plain_names = sizes.plain_names != 0;
    expected.queued_lend = sizes.queued_lend != 0;
    CHECK(lot_kernel_limits(handle, limits) == LOT_DONE && memcmp(limits, &expected, sizeof expected) == 0);
    check_paint(&output);
    lot_meter *meter = PUT_OUTPUT(&output, lot_meter);
    CHECK(lot_kernel_meter(handle, meter) == LOT_DONE);
    check_paint(&output);
    lot_sizes other = sizes;
    unsigned long asked_before = asked;
    CHECK(lot_kernel_new(PUT(&input, other), handle) == LOT_KERNEL_THERE && asked == asked_before);
    check_input(&input);
    check_input(&handle_place);
    look(handle, true);
}

// ---- steps without one

// A handle that holds no kernel: each call but lot_kernel_free says so, and all of them write nothing.
static void step_none(void) {
    lot_kernel none = LOT_KERNEL_NONE;
    size_t count = below(4);
    lot_event event = some_event();
    uint32_t number = (uint32_t)random_bits(), status = LOT_NO_KERNEL, wanted = LOT_NO_KERNEL;
    lot_kernel *handle = PUT(&handle_place, none);
    const lot_event *given_event = PUT(&input, event);
    // As large as any of what is written below, so that one place does for all.
    lot_reply *reply = PUT_OUTPUT(&output, lot_reply);
    void *row = reply;
    size_t *done = PUT(&second_output, count);
    switch (below(16)) {
    case 0: status = lot_kernel_event(handle, given_event, reply); break;
    case 1: status = lot_kernel_run(handle, given_event, 1, reply, 1, done); break;
    case 2: status = lot_kernel_ticket_row(handle, number, row); break;
    case 3: status = lot_kernel_currency_row(handle, number, row); break;
    case 4: status = lot_kernel_thread_row(handle, number, row); break;
    case 5: status = lot_kernel_runner(handle, number, row); break;
    case 6: status = lot_kernel_script_of(handle, number, row); break;
    case 7: status = lot_kernel_ticket_count(handle, row); break;
    case 8: status = lot_kernel_currency_count(handle, row); break;
    case 9: status = lot_kernel_limits(handle, row); break;
    case 10: status = lot_kernel_meter(handle, row); break;
    case 11: status = lot_kernel_settle(handle); break;
    case 12: status = lot_kernel_settled_ticket_row(handle, number, row); break;
    case 13: status = lot_kernel_settled_currency_row(handle, number, row); break;
    case 14: status = lot_kernel_settled_thread_row(handle, number, row); break;
    default:
        status = lot_kernel_free(handle);
        wanted = LOT_DONE;
        break;
    }
    CHECK(status == wanted && is_unchanged(&second_output));
    check_input(&handle_place);
    check_input(&input);
    check_output(&output, status);
}

static lot_sizes some_sizes(void) {
    static const uint32_t quanta[8] = {1, 2, 10, 100, 100, 100, 1000, 1000};
    return (lot_sizes){.tickets = one_in(16) ? from_to(1, 8) : from_to(80, TICKETS),
                       .currencies = from_to(1, CURRENCIES),
                       .threads = one_in(16) ? from_to(1, 4) : from_to(8, THREADS),
                       .ports = one_in(8) ? 0 : from_to(1, PORTS),
                       .mutexes = one_in(8) ? 0 : from_to(1, MUTEXES),
                       .processors = from_to(1, PROCESSORS),
                       .scripts = one_in(16) ? 0 : from_to(1, SCRIPTS),
                       .quantum = quanta[below(8)],
                       .unit = one_in(2) ? 1 : 256,
                       .reuse = one_in(2) ? 0 : (uint32_t)random_bits(),
                       .plain_names = one_in(2) ? 0 : (uint32_t)random_bits(),
                       .queued_lend = one_in(2) ? 0 : (uint32_t)random_bits()};
}

// Sizes of any bytes, up to the largest, or such as above with one byte changed.
static lot_sizes any_sizes(void) {
    lot_sizes any = some_sizes();
    if (one_in(40)) {
        return (lot_sizes){from_to(1, 65535), from_to(1, 4096), from_to(1, 4096), from_to(0, 256), from_to(0, 256),
                           from_to(1, 64),    from_to(0, 256),  from_to(1, 1000), one_in(2) ? 1 : 256,
                           (uint32_t)random_bits(), (uint32_t)random_bits(), (uint32_t)random_bits()};
    }
    if (one_in(2)) {
        fill(&any, sizeof any);
    } else {
        ((unsigned char *)&any)[below(sizeof any)] = (unsigned char)below(one_in(2) ? 256 : 4);
    }
    return any;
}

// A new kernel, and how many bytes it takes, if the sizes are within their bounds, and neither otherwise.
static void step_new(void) {
    lot_kernel none = LOT_KERNEL_NONE;
    lot_sizes any = any_sizes();
    size_t held = block_count;
    uint64_t bytes = 77;
    lot_kernel *handle = PUT(&handle_place, none);
    uint32_t status = lot_kernel_new(PUT(&input, any), handle);
    CHECK(status == (are_sizes(&any) ? LOT_DONE : LOT_BAD_LIMITS));
    CHECK(lot_kernel_bytes(&any, &bytes) == status && (bytes == 77) == (status != LOT_DONE));
    CHECK((handle->at != NULL) == (status == LOT_DONE));
    check_input(&input);
    check_output(&handle_place, status);
    CHECK(status != LOT_DONE || lot_kernel_free(handle) == LOT_DONE);
    CHECK(handle->at == NULL && block_count == held);
}

// Weights of any size: their lottery, that they sum to 0, or that they sum to too much.
static void step_winner(void) {
    lot_wide weights[WEIGHTS], number = some_number();
    wide same[WEIGHTS] = {0};
    size_t count = below(WEIGHTS);
    unsigned long asked_before = asked;
    uint64_t way = below(4);
    for (size_t i = 0; i < count; i++) {
        weights[i] = way == 0 ? lot_wide_of(0) : way == 1 ? lot_wide_of(below(100)) : some_number();
        weights[i].high >>= way == 2 ? 6 : 0;
        same[i] = wide_of(weights[i]);
    }
    struct lottery held = hold(same, count, wide_of(number));
    const lot_wide *given_weights = put(&input, weights, count * sizeof *weights, _Alignof(lot_wide));
    lot_drawn *drawn = PUT_OUTPUT(&output, lot_drawn);
    uint32_t status = lot_winner(count == 0 ? NULL : given_weights, count, PUT(&second_input, number), drawn);
    CHECK(status == (held.is_above ? LOT_TOO_LARGE : held.total == 0 ? LOT_NO_WINNER : LOT_DONE));
    CHECK(asked == asked_before);
    check_input(&input);
    check_input(&second_input);
    check_output(&output, status);
    if (status == LOT_DONE) {
        CHECK(wide_of(drawn->number) == held.number && wide_of(drawn->total) == held.total);
        CHECK(drawn->place == held.place);
    }
}

static const uint32_t MODULUS = 2147483647;

static uint32_t next_value(uint32_t *value) {
    *value = (uint32_t)((uint64_t)*value * 16807 % MODULUS);
    return *value;
}

static uint64_t next_number(uint32_t *value) {
    uint64_t first = next_value(value);
    return (first - 1) * (MODULUS - 1) + next_value(value) - 1;
}

// A generator of any value: the next value, or a number of two or of four values.
static void step_generator(void) {
    lot_generator any = {one_in(4) ? (uint32_t)random_bits() : one_in(4) ? MODULUS - (uint32_t)below(3)
                                                                          : (uint32_t)below(MODULUS)};
    bool is_good = any.value >= 1 && any.value < MODULUS;
    uint32_t status, value = any.value;
    lot_generator *generator = PUT(&second_output, any);
    wide expected, got;
    switch (below(4)) {
    case 0: {
        uint32_t *to = PUT_OUTPUT(&output, uint32_t);
        status = lot_generator_next(generator, to);
        expected = is_good ? next_value(&value) : 0;
        got = *to;
        break;
    }
    case 1: {
        uint64_t *to = PUT_OUTPUT(&output, uint64_t);
        status = lot_generator_number(generator, to);
        expected = is_good ? next_number(&value) : 0;
        got = *to;
        break;
    }
    case 2: {
        lot_wide *to = PUT_OUTPUT(&output, lot_wide);
        status = lot_generator_wide_number(generator, to);
        expected = is_good ? (wide)next_number(&value) * (MODULUS - 1) * (MODULUS - 1) : 0;
        expected += is_good ? next_number(&value) : 0;
        got = wide_of(*to);
        break;
    }
    default:
        PUT_OUTPUT(&output, lot_generator);
        status = lot_generator_new(any.value, generator);
        expected = got = 0;
        break;
    }
    CHECK(status == (is_good ? LOT_DONE : LOT_BAD_SEED));
    CHECK(generator->value == value && (!is_good || got == expected));
    check_paint(&second_output);
    check_output(&output, status);
}

// A name of any bytes, or one that is mostly a name, or a plain one.
static void step_name(void) {
    static const char often[] = "azb-_09", often_plain[] = "!/09AZ~";
    bool is_plain = one_in(2);
    uint8_t bytes[20];
    size_t count = below(19);
    fill(bytes, sizeof bytes);
    for (size_t i = one_in(4) ? count : 0; i < count; i++) {
        bytes[i] = one_in(20) ? bytes[i] : (uint8_t)(is_plain ? often_plain : often)[below(i == 0 ? 3 : 7)];
    }
    const uint8_t *given_bytes = put(&input, bytes, count, 1);
    lot_name *name = PUT_OUTPUT(&output, lot_name);
    uint32_t (*call)(const uint8_t *, size_t, lot_name *) = is_plain ? lot_plain_name_new : lot_name_new;
    uint32_t status = call(count == 0 ? NULL : given_bytes, count, name);
    CHECK(status == status_of_name(bytes, count, is_plain));
    check_input(&input);
    check_output(&output, status);
    if (status == LOT_DONE) {
        lot_name expected = {(uint32_t)count, {0}};
        memcpy(expected.bytes, bytes, count);
        CHECK(memcmp(name, &expected, sizeof expected) == 0);
    }
}

static void step_weight(void) {
    uint64_t value = one_in(2) ? random_bits() : below(1000);
    uint32_t quantum = one_in(2) ? from_to(1, 1000) : (uint32_t)random_bits();
    uint32_t compensation = one_in(4) ? 0 : one_in(2) ? (uint32_t)below(quantum + 1u) : (uint32_t)random_bits();
    lot_wide *weight = PUT_OUTPUT(&output, lot_wide);
    lot_weight(value, compensation, quantum, weight);
    CHECK(wide_of(*weight) == weight_of(value, compensation, quantum));
    check_paint(&output);
}

// ---- a kernel from its start to its end

static void step(void) {
    uint64_t way = below(100);
    steps++;
    if (way < 80) {
        step_event();
    } else if (way < 84) {
        step_run();
    } else if (way < 88) {
        step_row();
    } else if (way < 89) {
        step_counts();
    } else if (way < 91) {
        step_none();
    } else if (way < 92) {
        step_new();
    } else if (way < 94) {
        step_winner();
    } else if (way < 96) {
        step_generator();
    } else if (way < 98) {
        step_name();
    } else {
        step_weight();
    }
}

// Gives the recorded events to a fresh kernel, many in a call, and compares replies and rows.
static void replay(void) {
    lot_kernel again = LOT_KERNEL_NONE;
    CHECK(lot_kernel_new(&sizes, &again) == LOT_DONE);
    for (size_t i = 0, count; i < record_count; i += count) {
        lot_event events[EVENTS_OF_REPLAY];
        size_t left = record_count - i, done = 0;
        count = below(EVENTS_OF_REPLAY) + 1;
        count = count < left ? count : left;
        for (size_t k = 0; k < count; k++) {
            events[k] = only_read(&records[i + k].event);
        }
        const lot_event *given_events = put(&input, events, count * sizeof *events, _Alignof(lot_event));
        lot_reply *replies = put_output(&output, count * sizeof *replies, _Alignof(lot_reply));
        CHECK(lot_kernel_run(&again, given_events, count, replies, count, &done) == LOT_DONE && done == count);
        for (size_t k = 0; k < count; k++) {
            given = records[i + k].event;
            CHECK(memcmp(&replies[k], &records[i + k].reply, REPLY_BYTES) == 0);
        }
        check_input(&input);
        check_paint(&output);
        replayed += count;
    }
    view_kernel(&again, &sizes, &after);
    CHECK(memcmp(&now, &after, sizeof now) == 0);
    CHECK(lot_kernel_free(&again) == LOT_DONE && again.at == NULL);
}

static void fuzz_kernel(unsigned long count) {
    sizes = some_sizes();
    kernel = lot_kernel_none();
    record_count = 0;
    memset(&known, 0, sizeof known);
    known.tickets.next = known.currencies.next = known.threads.next = 1;
    known.reuse = sizes.reuse != 0;
    known.plain_names = sizes.plain_names != 0;
    known.queued_lend = sizes.queued_lend != 0;
    fresh = 0x5a;
    CHECK(lot_kernel_new(&sizes, &kernel) == LOT_DONE && kernel.at != NULL);
    view_kernel(&kernel, &sizes, &now);
    for (unsigned still = 0; count != 0 && still < STILL; count--) {
        step();
        still = drawable() + now.runners[0].thread == 0 ? still + 1 : 0;
    }
    fresh = 0xa5;
    replay();
    CHECK(lot_kernel_free(&kernel) == LOT_DONE && kernel.at == NULL && block_count == 0);
    CHECK(is_painted(row_room.first + sizeof(lot_thread_row), row_room.first + row_room.size - sizeof(lot_thread_row)));
    kernels++;
}

static double seconds(void) {
    struct timespec now_is;
    CHECK(clock_gettime(CLOCK_MONOTONIC, &now_is) == 0);
    return (double)now_is.tv_sec + (double)now_is.tv_nsec / 1e9;
}

// Each kind of reply, each outcome and each refusal came up: kernels got into the states that they need.
static void check_all_seen(void) {
    for (uint32_t kind = 1; kind <= LAST_REPLY; kind++) {
        CHECK(kinds[kind] != 0);
    }
    for (uint32_t outcome = 1; outcome <= LAST_OUTCOME; outcome++) {
        CHECK(outcomes[outcome] != 0);
    }
    for (uint32_t reason = LOT_REFUSAL_NAME_TAKEN; reason <= LAST_REFUSAL; reason++) {
        CHECK(reasons[reason] != 0 || strcmp(lot_refusal_text(reason), "unknown refusal") == 0);
    }
    CHECK(draws_held != 0 && unlocks_held != 0 && removals != 0 && failed != 0);
    CHECK(sleeps != 0 && wakes != 0 && preemptions != 0 && overruns != 0 && numbered != 0);
    for (uint32_t status = LOT_STATUS_READY; status <= LAST_STATUS; status++) {
        CHECK(kills[status] != 0 || status == LOT_STATUS_DEAD);
    }
    CHECK(inherited != 0 && released != 0);
    CHECK(tickets_again != 0 && currencies_again != 0 && threads_again != 0 && full_again != 0);
    CHECK(unnamed != 0 && plainly_named != 0);
    CHECK(queued_lent != 0 && servers_cut != 0 && servers_gone != 0);
}

int main(int argc, char **argv) {
    unsigned long count = argc > 1 ? strtoul(argv[1], NULL, 10) : STEPS;
    first_seed = argc > 2 ? strtoull(argv[2], NULL, 10) : first_seed;
    seed = first_seed;
    page = (size_t)sysconf(_SC_PAGESIZE);
    struct place *places[5] = {&handle_place, &input, &second_input, &output, &second_output};
    for (size_t i = 0; i < 5; i++) {
        places[i]->room = make_room(page);
        put(places[i], NULL, 0, 1);
    }
    row_room = make_room(page);
    signal(SIGSEGV, say_fault);
    signal(SIGBUS, say_fault);
    double start = seconds();
    while (steps < count && seconds() - start < SECONDS) {
        unsigned long left = count - steps, some = from_to(100, STEPS_OF_KERNEL);
        fuzz_kernel(some < left ? some : left);
    }
    if (steps < count) {
        printf("the clock ended it after %d seconds\n", SECONDS);
    } else if (count >= STEPS_FOR_ALL) {
        check_all_seen();
    }
    printf("ok: fuzz: seed %llu, %lu steps in %lu kernels: %lu events answered, %lu with another status\n",
           (unsigned long long)first_seed, steps, kernels, answered, failed);
    printf("ok: fuzz: %lu draws and %lu unlocks as our own lottery has them, %lu removals, %lu events replayed\n",
           draws_held, unlocks_held, removals, replayed);
    printf("ok: fuzz: %lu sleeps, %lu wakes, %lu preemptions, %lu overruns, %lu commands by number\n", sleeps, wakes,
           preemptions, overruns, numbered);
    printf("ok: fuzz: %lu tickets, %lu currencies and %lu threads with a number given again\n", tickets_again,
           currencies_again, threads_again);
    printf("ok: fuzz: %lu threads without a name, %lu with a plain one\n", unnamed, plainly_named);
    printf("ok: fuzz: %lu queued calls lent to a server; %lu servers taken away, %lu ended\n", queued_lent, servers_cut,
           servers_gone);
    unsigned long killed = 0;
    for (uint32_t status = 0; status <= LAST_STATUS; status++) {
        killed += kills[status];
    }
    printf("ok: fuzz: %lu kills, which released %lu clients and passed %lu mutexes on\n", killed, released, inherited);
    return 0;
}
