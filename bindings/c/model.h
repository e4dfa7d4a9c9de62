// A plain model of a kernel, written by the definitions in crates/lot_machine/specs and not by the kernel's code:
// generated_run.c compares the kernel with it, event by event.
//
// It has a table of what there is of each sort, and lists of those that wait, in order. It keeps no value and no
// weight: what a lottery or a row needs is computed from the tickets, each currency once. Where that would be too slow,
// it takes the winner of a lottery from the kernel's reply if that may be, and computes all else.

#ifndef LOT_MODEL_H
#define LOT_MODEL_H

#include "lot.h"

__extension__ typedef unsigned __int128 wide;

// The largest sizes, and three names for each thread and each currency, beside two.
enum {
    MOST_TICKETS = 65535,
    MOST_CURRENCIES = 4096,
    MOST_THREADS = 4096,
    MOST_PORTS = 256,
    MOST_MUTEXES = 256,
    MOST_PROCESSORS = 64,
    MOST_SCRIPTS = 256,
    MOST_NAMES = 2 + 3 * (MOST_THREADS + MOST_CURRENCIES)
};

// No currency, thread, ticket or name.
#define NOTHING UINT32_MAX

// A list of numbers from 1. The neighbours of a number stand in a table of their own, 0 for none.
struct list {
    uint32_t first, last, count;
};

struct neighbours {
    uint32_t before, behind;
};

// Numbers from 0 in any order, with the place of each.
struct set {
    uint32_t count;
    uint32_t members[MOST_TICKETS + 1], places[MOST_TICKETS + 1];
};

// Numbers that were given and are free, the one that was left last at the end; and how often one was taken from here,
// in all kernels.
struct stack {
    uint32_t count;
    uint32_t numbers[MOST_TICKETS];
    uint64_t taken;
};

enum target_kind { UNFUNDED, TO_CURRENCY, TO_THREAD };

struct target {
    enum target_kind kind;
    uint32_t number;
};

struct ticket {
    bool exists;
    uint32_t amount;
    uint32_t issuer;
    struct target target;
};

struct currency {
    bool exists;
    uint32_t name;       // its place among the names
    struct list issued;  // the tickets that it issues
    struct list backing; // the tickets that fund it
};

struct thread {
    bool exists;
    uint32_t name; // its place among the names, NOTHING if it has none
    uint32_t script;
    lot_thread_status_kind status;
    uint32_t place;        // the processor, port, server or mutex of its status, 0 if it has none
    uint32_t used;         // ticks of its quantum, while it runs
    uint32_t compensation; // 0 for none
    bool has_delivered;
    uint32_t delivered;
    uint32_t sent; // with the call that waits
    uint64_t quanta, ticks;
    struct list backing; // the tickets that fund it
    struct list clients; // in the order in which they were taken
    struct list owned;   // its mutexes
};

struct port {
    struct list calls; // their callers
    struct list receivers;
    uint32_t server; // 0 for none, and unless queued calls lend
};

struct mutex {
    uint32_t owner; // 0 for none
    struct list waiters;
};

// How often, in all kernels, a queued call lent to a port's server, a port got another server than it had, and one was
// taken away by a call, a lock, an exit or a kill.
struct servers {
    uint64_t lent_to, changed, gone_by_call, gone_by_lock, gone_by_exit, gone_by_kill;
};

// Tables are numbered as the kernel numbers, base being currency 0.
struct machine {
    lot_sizes sizes;
    uint32_t ticket_count, currency_count, thread_count; // the places of the tables, also of what was removed
    struct ticket tickets[MOST_TICKETS + 1];
    struct currency currencies[MOST_CURRENCIES + 1];
    struct thread threads[MOST_THREADS + 1];
    struct port ports[MOST_PORTS + 1];
    struct mutex mutexes[MOST_MUTEXES + 1];
    uint32_t runners[MOST_PROCESSORS + 1]; // the thread on each processor, 0 for none
    uint32_t name_count;                   // the names that this kernel's run uses
    struct target holders[MOST_NAMES];     // what has each name
    struct set tickets_there, currencies_there, threads_there, dead_there;
    struct stack free_tickets, free_currencies, free_threads; // empty unless numbers are given again
    uint64_t lotteries, held; // of all kernels, and those that the model held itself
    uint64_t every;           // it holds one in as many itself
    struct servers servers;
};

extern struct machine machine;

// The names that the kernel at hand takes, base first; model_spell fills them in, and model_open picks them.
extern const lot_name *names;
void model_spell(void);

// The opening state of a kernel with these sizes.
void model_open(const lot_sizes *sizes, uint64_t every);

// Makes one event, and stores the reply that it must have. Returns the status that the call must have. `seen` is the
// kernel's reply.
uint32_t model_event(const lot_event *event, const lot_reply *seen, lot_reply *reply);

// Store the row of what has this number. Return whether there is one.
bool model_ticket_row(uint32_t ticket, lot_ticket_row *row);
bool model_currency_row(uint32_t currency, lot_currency_row *row);
bool model_thread_row(uint32_t thread, lot_thread_row *row);

// Whether there is a ticket, a currency or a thread with this number.
bool is_ticket(uint64_t ticket);
bool is_currency(uint32_t currency);
bool is_thread(uint32_t thread);

// The number that the next ticket gets.
uint32_t next_ticket(void);

// The thread that this one lends to, 0 for none.
uint32_t borrower_of(uint32_t thread);

// The one behind this number in the list that it stands in, 0 for none: of the tickets of a currency, and of the
// threads that wait or are served.
uint32_t next_issued(uint32_t ticket);
uint32_t next_backing(uint32_t ticket);
uint32_t next_waiting(uint32_t thread);

#endif
