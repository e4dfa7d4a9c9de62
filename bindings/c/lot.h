// lot.h: a lottery-scheduled kernel, proved, as a static library. For C11 and C++11, and later ones.
//
// A kernel holds tickets, currencies, threads, ports and lottery mutexes. You pass it events, one at a time: commands
// that make and fund things, draws, ends of quanta, traps of running threads, and wakes of sleeping ones. It returns a
// reply to each event. It runs nothing itself: the replies name the threads to run, and your program runs them.
// docs/MACHINE.md of the repository defines the effect of each event.
//
// examples/embed/first_draw.c draws between two threads. It links the release, or the archive that dist/build makes:
//
//     cc -Ibindings/c examples/embed/first_draw.c dist/x86_64-linux/liblot.a
//
// STATUS. Each call of the library returns a status, except lot_weight and lot_version, which cannot fail. LOT_DONE
// means success. Any other status means that the call has changed nothing: neither the kernel nor the memory behind its
// pointers. (lot_kernel_run is the one exception: it makes the events before the faulty one.) The compiler warns of a
// status that is dropped, except that of lot_kernel_free, which is always LOT_DONE.
//
// A REFUSED EVENT has the status LOT_DONE, since the kernel has replied to it. The reply's kind is LOT_REPLY_REFUSED,
// its reason gives the cause, and nothing has changed.
//
// A REFUSED TRAP is an event that has taken place. The reply's kind is LOT_REPLY_TRAPPED, its outcome is
// LOT_OUTCOME_REFUSED, and its reason gives the cause. The trap costs its ticks, and its thread goes on unless its
// quantum is used up. Nothing else has changed. So check two things: the status, and lot_refused of the reply.
//
// VERSION. Header and library go together if lot_version() and LOT_VERSION have the same major and minor number, so
// compare `lot_version() >> 8` with `LOT_VERSION >> 8`. Another patch number changes no struct, no number and no call.
// Another minor number may, as long as the major one is 0. The soname of liblot.so has both numbers: liblot.so.0.4.
//
// WHAT THE LIBRARY CHECKS. Struct arguments may have any bytes in any field: a nonexistent kind, a name that is too
// long or has invalid bytes, sizes out of their bounds, a seed out of its range, and a lot_kernel without a kernel each
// have a status. Fields that a kind doesn't read may have any value.
//
// WHAT YOU MUST ENSURE, since nothing can check it:
//   - Each pointer points to a whole struct of its type, or to as many as the count beside it says. It isn't NULL,
//     unless that count is 0, or the call is lot_kernel_free. No two pointers of a call overlap.
//   - A pointer is aligned as the compiler aligns its type: to 4 bytes for a lot_sizes, lot_name, lot_runner,
//     lot_generator or uint32_t, to 8 for any other struct and uint64_t. The library requires no more.
//   - A lot_kernel starts as LOT_KERNEL_NONE, and only lot_kernel_new and lot_kernel_free change it. After copying it,
//     use only one of the copies.
//   - No two calls on one kernel overlap, in time or from a signal handler, unless both take a `const lot_kernel *`.
//     Different kernels share nothing.
//   - Any thread may call, and a kernel may move from one thread to another, if a lock, a thread's start or end or the
//     like orders the calls.
//   - malloc aligns its blocks as C requires.
//
// READERS. A call that takes a `const lot_kernel *` writes nothing except through its last pointer: neither the handle
// nor the kernel's memory. So several threads may make such calls on one kernel at once, while no other call on it
// runs: order the readers and the other calls by a lock for many readers or one writer, or the like. Three of the calls
// for rows aren't among them, since they recompute stale values. lot_kernel_settle recomputes all of these, and from
// then at least until the next event lot_kernel_settled_thread_row and the other two store the same rows for readers.
//
// SIGNAL HANDLERS. lot_kernel_new and lot_kernel_free call malloc and free, so don't call them from signal handlers,
// nor in the forked child of a process with threads. The other calls take no memory and no lock, and keep no state
// between calls, so a handler may make them. It must not use a kernel that the interrupted code may be using, except
// that both may read it: block the signal around the calls on that kernel, or set a flag in the handler and pass the
// event later.
//
// MEMORY. lot_kernel_new allocates all the memory that a kernel will ever use: 11 kilobytes for 16 threads, 4.3
// megabytes at the largest sizes. With `reuse` it takes 4 bytes more for each ticket, currency and thread, and with
// `queued_lend` 97 more for each port: 4.7 megabytes at most. lot_kernel_bytes gives the number of bytes for any sizes.
// Events, rows and counts allocate nothing. lot_kernel_free frees the memory. No other call allocates.
//
// STACK. Measured on x86-64 and aarch64 by bindings/c/stack_tests.c: an event takes at most 1.7 kilobytes of stack at
// any size of the kernel, a row 0.6, lot_kernel_settle and lot_winner 0.3, lot_kernel_new 11.5, lot_kernel_free 5.5.
// The last two include glibc's malloc and free. Where the dynamic linker looks up symbols at their first call, it runs
// in the first lot_kernel_new, which then takes 14.1 on x86-64, and more on a processor with more registers to save.
//
// TIME. Most events take the same time at any size, and a draw one logarithmic in the number of threads. But where a
// thread of a currency sleeps, wakes, comes or goes, or a ticket gets another amount, the active amount of the currency
// changes, and with it the value of each of its tickets: the event marks them, and the next draw or row computes each.
// Tickets of base keep their values. So a draw, a sleep and a wake take half a microsecond among 4095 threads of base,
// and 210 among 4095 threads of one currency. The longest event took 1.6 milliseconds: a draw that computed 61440
// tickets. (All measured on one machine, of x86-64.) An event that funds a currency also looks for a cycle, and an
// unlock at each thread that waits. With `queued_lend` a call that is queued also looks for a cycle of lends, and an
// exit at each port.
//
// SYMBOLS. The archive's member lot_c.o calls memcpy and memset, __udivti3 and __umodti3 (divisions of 128 bits, in the
// compiler's own library), and the three functions at the end of this header. Its member heap.o defines these three,
// and calls malloc, realloc and free. The archive needs no other symbol. Its code for x86-64 needs a processor of level
// x86-64-v2, and uses SSE4.1. Its code for aarch64 needs NEON. lot_c.o has no unwind tables: a debugger shows no frame
// above a call of the library, and no exception of C++ may pass through one, as from a rattle_alloc of your own.
//
// WITHOUT AN OPERATING SYSTEM. On x86-64 the library uses the 128 bytes below the stack pointer (the red zone). So an
// interrupt's handler must not run on the stack of a call: mask interrupts meanwhile, or give handlers a stack of their
// own (IST). SSE must be on: CR4.OSFXSR set, CR0.EM clear. docs/embedding/BARE_METAL.md says what aarch64 needs.
//
// NUMBERS. Tickets, threads, processors, ports, mutexes and scripts are numbered from 1. Currencies are numbered from
// 0, which is base. Without `reuse` numbers follow the order of making, and no removed number is used again. A removed
// number has no row. So a number is a handle: keep the one in the reply to a making for as long as the made thing
// exists.
//
// REUSE. A program that never ends makes more threads than any sizes allow, though few exist at once. Set `reuse` of
// lot_sizes: then the next ticket, currency or thread gets the number of the last one of its sort that was removed, if
// that is still free, then that of the one removed before it, and so on; and a new number if none is free. The thing
// begins as any new one does, and nothing in the kernel refers to the old one. But a number that your program still
// holds for the old one now names the new one: forget it with the removal. A dead thread keeps its number until it is
// removed.
//
// NAMES. Currencies and threads share one set of names. A name is a letter a to z, followed by letters a to z, digits,
// '_' or '-', 1 to 16 bytes in all. If the kernel was made with `plain_names` of lot_sizes, a name may have any
// printable ASCII but the space: 1 to 16 bytes, each 33 to 126. An event with any other name has the status
// LOT_BAD_NAME or LOT_LONG_NAME. A dead thread keeps its name and its row until it is removed: the kernel refuses to
// make a currency or another thread with that name, LOT_REFUSAL_NAME_TAKEN. LOT_REMOVE_THREAD frees the name of a
// thread, and LOT_REMOVE_CURRENCY that of a currency. The limits of lot_sizes are on all that were ever made, including
// removed ones; with `reuse`, on what exists at once.
//
// NO NAME. A thread needs no name: make it with lot_no_name(), whose length is 0. Any number of threads may have none.
// Refer to such a thread by its number. Except where a thread is made, a name of length 0 has the status LOT_BAD_NAME.
// A currency always has a name.
//
// BY NAME OR BY NUMBER. A command refers to a currency or a thread by its name or by its number. lot_fund takes the
// name of either. lot_fund_currency and lot_fund_thread take a number, and so do lot_make_ticket_in,
// lot_make_funded_in, lot_remove_currency_numbered, lot_remove_thread_numbered and lot_kill_numbered. Each has the
// effect and the refusals of the event by name. A lookup by number reads one place of a table; a lookup by name
// compares the name with those in its bucket of an index. A ticket's row has both of what the ticket funds.
//
// SLEEP AND WAKE. A thread that runs goes to sleep by a trap, LOT_SLEEP, and no draw picks it until LOT_WAKE names its
// number. It is ready then, with the compensation of a thread that blocks: if it used 20 of 100 ticks it weighs 5 times
// its value until it next wins. Your program keeps track of the clock or device for which it waits. A thread that isn't
// asleep can't be woken (LOT_REFUSAL_NOT_ASLEEP), and the kernel keeps no wake for later: pass LOT_SLEEP before any
// event source may wake the thread. While it sleeps its tickets are inactive, so that others with tickets of its
// currencies are worth more. It keeps its mutexes and its clients, and threads that wait for them continue to wait.
//
// ENDS OF A QUANTUM. LOT_EXPIRE ends it in time: the rest of it counts as used. LOT_PREEMPT ends it early, to free the
// processor: the thread is charged the ticks that it ran, and gets no compensation. LOT_OVERRUN ends it late, because
// the host's clock was late: the thread is charged the late ticks too, and weighs value * quantum / (quantum + late)
// until it next wins, rounded down, but at least 1 if its value is. So a thread that keeps its processor for twice the
// quantum wins half as often. With 0 ticks late the effect is that of LOT_EXPIRE. After all three the thread is ready,
// and the reply is LOT_REPLY_EXPIRED with the ticks that it is charged.
//
// KILL. LOT_KILL ends a thread, whatever its status. If it runs, it leaves its processor, so draw there: the reply
// doesn't name the processor, and lot_kernel_runner shows which one is idle. The thread is charged nothing for what it
// ran since its last event. To charge it, pass LOT_PREEMPT first, and then LOT_KILL. A kill also ends what others wait
// for. The calls of its clients return: each client is ready, with nothing delivered, so has_sent is false when it next
// wins. Each of its mutexes passes to the thread that has waited longest for it, which is ready and owns it; without a
// waiter the mutex is free. No lottery is held. Threads whose waits end keep their compensation. LOT_EXIT releases
// nobody: a thread that exits keeps its mutexes and its clients, and a dead thread can't be killed. To release them,
// pass LOT_KILL in place of LOT_EXIT.
//
// SHARES. Values are whole numbers, rounded down. A ticket of a currency is worth value * amount / active amount, by
// the value and the active amount of the currency: 0 if value * amount is below the active amount. A thread that is
// worth 0 wins no draw, and a draw where all ready threads are is LOT_REPLY_IDLE. So give tickets of base amounts of a
// million: it costs nothing. `unit` 256 makes all values 256 times as large, which does the same for amounts of 4000.
//
// A SERVER WITHOUT TICKETS never reaches its first LOT_RECEIVE: nobody lends to it yet, so it weighs nothing, and no
// draw picks it. Give it a ticket. Once it waits at its port it needs none, since each client lends to it while it is
// served. From then on it replies and takes the next call in one trap, LOT_SERVE. But clients in the port's queue lend
// nothing, so a rich client behind a poor one waits as long as the poor one would. If that matters, set `queued_lend`,
// or leave the server tickets of its own.
//
// QUEUED CALLS. Set `queued_lend` of lot_sizes: then a thread whose call is queued at a port lends to the port's
// server, the thread that took the last call there, as the call came, by LOT_RECEIVE or by LOT_SERVE. So a server that
// works for a poor client has the funding of the rich ones whose calls wait. Where several threads serve a port, one
// of them is its server at a time. A port has no server before a thread takes a call there, and after its server has
// exited or was killed. Callers in its queue lend to nobody then, until another thread takes a call. Two traps take a
// port's server away, since nothing may be lent in a circle: a call that is queued there, if lends lead from the
// server to the caller, as when a server calls its own port; and a lock whose wait would close a cycle through the
// port. Such a lock isn't refused, since another thread may receive there and end the wait.
//
// ENUMS. Fields and return values are uint32_t, which has one size for every compiler, and each has an enum of its
// values. Switch over the enum without a default: then the compiler names any missing case (-Wswitch, part of -Wall).
//
//     switch ((lot_refusal)reply.reason) {               // C
//     switch (static_cast<lot_refusal>(reply.reason)) {  // C++

#ifndef LOT_H
#define LOT_H

#include <stdbool.h>
#include <stddef.h>
#include <stdint.h>

// These are only for this header, which undefines them at its end. In C++ the underlying type of each enum is uint32_t,
// so that any number may be cast to it. LOT_NODISCARD has the compiler warn of a caller that drops the status.
#ifdef __cplusplus
#define LOT_CAST(type, value) static_cast<type>(value)
#define LOT_OF_UINT32 : uint32_t
extern "C" {
#else
#define LOT_CAST(type, value) ((type)(value))
#define LOT_OF_UINT32
#endif
#if (defined(__cplusplus) && __cplusplus >= 201703L) || (defined(__STDC_VERSION__) && __STDC_VERSION__ >= 202311L)
#define LOT_NODISCARD [[nodiscard]]
#elif defined(__GNUC__)
#define LOT_NODISCARD __attribute__((warn_unused_result))
#else
#define LOT_NODISCARD
#endif

// ---- the version

// The version of this header, 0.4.0: major << 16 | minor << 8 | patch. VERSION above says what has to agree.
#define LOT_VERSION 0x000400u

// Returns the version of the library.
uint32_t lot_version(void);

// ---- numbers, made by bindings/write_tables of the table that the proofs read

// The statuses of calls.
typedef enum lot_status LOT_OF_UINT32 {
    LOT_DONE = 0,
    LOT_NO_KERNEL = 1,
    LOT_KERNEL_THERE = 2,
    LOT_BAD_LIMITS = 3,
    LOT_NO_MEMORY = 4,
    LOT_BAD_KIND = 5,
    LOT_LONG_NAME = 6,
    LOT_BAD_NAME = 7,
    LOT_NOT_THERE = 8,
    LOT_COUNTS_DIFFER = 9,
    LOT_BAD_SEED = 10, // a seed or a generator's value is 0 or above 2147483646
    LOT_NO_WINNER = 11,
    LOT_TOO_LARGE = 12,
    LOT_NOT_SETTLED = 13 // a value is stale, since an event may have changed it
} lot_status;

// Returns the status in words, for printing: a static string, "unknown status" for any other number.
static inline const char *lot_status_text(uint32_t status) {
    switch (LOT_CAST(lot_status, status)) {
    case LOT_DONE: return "done";
    case LOT_NO_KERNEL: return "the handle holds no kernel";
    case LOT_KERNEL_THERE: return "the handle holds a kernel already";
    case LOT_BAD_LIMITS: return "a size is out of its bounds";
    case LOT_NO_MEMORY: return "out of memory";
    case LOT_BAD_KIND: return "no such kind of event";
    case LOT_LONG_NAME: return "a name has more than 16 bytes";
    case LOT_BAD_NAME: return "a name is empty, or has a byte that names may not have";
    case LOT_NOT_THERE: return "nothing has this number";
    case LOT_COUNTS_DIFFER: return "not as many replies as events";
    case LOT_BAD_SEED: return "a seed is out of its range";
    case LOT_NO_WINNER: return "the weights sum to 0";
    case LOT_TOO_LARGE: return "the weights sum to 2 ^ 128 or more";
    case LOT_NOT_SETTLED: return "the kernel isn't settled";
    }
    return "unknown status";
}

// The kinds of events. A kind by number has the effect and the refusals of that by name.
typedef enum lot_event_kind LOT_OF_UINT32 {
    LOT_MAKE_TICKET = 1, // amount, currency
    LOT_REMOVE_TICKET = 2, // ticket
    LOT_MAKE_CURRENCY = 3, // name
    LOT_REMOVE_CURRENCY = 4, // currency
    LOT_FUND = 5, // ticket, name: target
    LOT_UNFUND = 6, // ticket
    LOT_MAKE_THREAD = 7, // name, script
    LOT_MAKE_FUNDED = 8, // amount, currency, name, script
    LOT_LIST_TICKETS = 9, // no field
    LOT_LIST_CURRENCIES = 10, // no field
    LOT_LIST_THREADS = 11, // no field
    LOT_DRAW = 12, // processor, number
    LOT_EXPIRE = 13, // processor
    LOT_YIELD = 14, // processor, ticks
    LOT_CALL = 15, // processor, ticks, object: port, sent
    LOT_RECEIVE = 16, // processor, ticks, object: port
    LOT_REPLY = 17, // processor, ticks, sent
    LOT_LOCK = 18, // processor, ticks, object: mutex
    LOT_UNLOCK = 19, // processor, ticks, object: mutex, number
    LOT_EXIT = 20, // processor, ticks
    LOT_SERVE = 21, // processor, ticks, object: port, sent
    LOT_SET_TICKET = 22, // ticket, amount
    LOT_REMOVE_THREAD = 23, // name: thread
    LOT_SLEEP = 24, // processor, ticks
    LOT_PREEMPT = 25, // processor, ticks
    LOT_OVERRUN = 26, // processor, ticks: late
    LOT_WAKE = 27, // object: thread
    LOT_MAKE_TICKET_IN = 28, // amount, object: currency
    LOT_REMOVE_CURRENCY_NUMBERED = 29, // object: currency
    LOT_FUND_CURRENCY = 30, // ticket, object: currency
    LOT_FUND_THREAD = 31, // ticket, object: thread
    LOT_REMOVE_THREAD_NUMBERED = 32, // object: thread
    LOT_MAKE_FUNDED_IN = 33, // amount, object: currency, name, script
    LOT_KILL = 34, // name: thread
    LOT_KILL_NUMBERED = 35 // object: thread
} lot_event_kind;

// The kinds of replies, with the fields that each sets.
typedef enum lot_reply_kind LOT_OF_UINT32 {
    LOT_REPLY_TICKET = 1, // ticket: its number. A ticket was made.
    LOT_REPLY_CURRENCY = 2, // currency: its number. A currency was made.
    LOT_REPLY_THREAD = 3, // thread: its number. A thread was made.
    // ticket: the ticket's number; thread: the thread's number. A thread and the ticket that funds it were made.
    LOT_REPLY_FUNDED = 4,
    LOT_REPLY_DONE = 5, // The event is done.
    LOT_REPLY_LIST_TICKETS = 6, // A listing was requested. Read the rows one by one.
    LOT_REPLY_LIST_CURRENCIES = 7, // A listing was requested. Read the rows one by one.
    LOT_REPLY_LIST_THREADS = 8, // A listing was requested. Read the rows one by one.
    // thread: its number; number: the drawn number, below the total; total: the sum of the weights, in base units;
    // sent, has_sent: the number sent to the thread while it waited, by a call or a reply. A thread won the draw, and
    // runs on the processor.
    LOT_REPLY_WINNER = 9,
    LOT_REPLY_IDLE = 10, // No ready thread has any weight, perhaps as values round to 0, and nothing has changed.
    // thread: its number; ticks: the ticks that it is charged. A thread's quantum is over, or it was preempted, and it
    // no longer runs.
    LOT_REPLY_EXPIRED = 11,
    // thread: its number; ticks: the ticks that it ran since its last event, the trap's own included; outcome: the
    // trap's outcome; ends: whether its quantum is used up, so that it no longer runs though the outcome would let it
    // go on; goes_on: whether it runs on, since its outcome leaves it on its processor and its quantum isn't used up.
    // A thread made a trap.
    LOT_REPLY_TRAPPED = 12,
    LOT_REPLY_REFUSED = 13 // reason: the refusal. The event is refused, and has changed nothing.
} lot_reply_kind;

// The outcomes of traps, with the fields that each sets.
typedef enum lot_outcome LOT_OF_UINT32 {
    LOT_OUTCOME_YIELDED = 1, // The thread gave up the rest of its quantum. It no longer runs.
    LOT_OUTCOME_SERVED_BY = 2, // other: the thread that serves the call. The caller no longer runs.
    LOT_OUTCOME_QUEUED = 3, // The call waits for a server. The caller no longer runs.
    LOT_OUTCOME_WAITS = 4, // The thread waits for a call or for a mutex. It no longer runs.
    // other: the thread that called; sent, has_sent: the number that it sent. A call was taken.
    LOT_OUTCOME_RECEIVED = 5,
    LOT_OUTCOME_REPLIED = 6, // other: the client. A client got a reply.
    LOT_OUTCOME_LOCKED = 7, // The thread owns the mutex.
    LOT_OUTCOME_FREED = 8, // The mutex is free.
    // other: the new owner; number, total, has_draw: the number and the total of the lottery, if one was held: not if
    // the waiters were worth nothing, so that the one that had waited longest got the mutex. The mutex was passed on.
    // The thread that unlocked it no longer runs.
    LOT_OUTCOME_PASSED = 9,
    LOT_OUTCOME_EXITED = 10, // The thread has ended.
    LOT_OUTCOME_REFUSED = 11, // reason: the refusal. The trap is refused. It cost its ticks even so.
    // replied_to: the client that got the reply; other: the thread that called; sent, has_sent: the number that it
    // sent. A client got a reply, and then a call was taken.
    LOT_OUTCOME_REPLIED_THEN_RECEIVED = 12,
    // replied_to: the client that got the reply. The thread waits for a call. It no longer runs.
    LOT_OUTCOME_REPLIED_THEN_WAITS = 13,
    LOT_OUTCOME_SLEPT = 14 // The thread sleeps until it is woken. It no longer runs.
} lot_outcome;

// Returns the outcome in words, for printing: a static string, "unknown outcome" for any other number.
static inline const char *lot_outcome_text(uint32_t outcome) {
    switch (LOT_CAST(lot_outcome, outcome)) {
    case LOT_OUTCOME_YIELDED: return "yielded";
    case LOT_OUTCOME_SERVED_BY: return "served by a thread";
    case LOT_OUTCOME_QUEUED: return "queued at a port";
    case LOT_OUTCOME_WAITS: return "waits";
    case LOT_OUTCOME_RECEIVED: return "received a call";
    case LOT_OUTCOME_REPLIED: return "replied";
    case LOT_OUTCOME_LOCKED: return "locked a mutex";
    case LOT_OUTCOME_FREED: return "freed a mutex";
    case LOT_OUTCOME_PASSED: return "passed a mutex on";
    case LOT_OUTCOME_EXITED: return "exited";
    case LOT_OUTCOME_REFUSED: return "refused";
    case LOT_OUTCOME_REPLIED_THEN_RECEIVED: return "replied, then received a call";
    case LOT_OUTCOME_REPLIED_THEN_WAITS: return "replied, then waits";
    case LOT_OUTCOME_SLEPT: return "sleeps";
    }
    return "unknown outcome";
}

// The reasons for refusing an event or, from 30 on, a trap. A refused trap costs its ticks even so.
typedef enum lot_refusal LOT_OF_UINT32 {
    LOT_REFUSAL_BAD_NAME = 1, // the kernel doesn't take such a name. For C and Python that is a status.
    // a currency or a thread, perhaps a dead one, has the name already. Removed ones don't count.
    LOT_REFUSAL_NAME_TAKEN = 2,
    LOT_REFUSAL_NO_CURRENCY = 3, // no currency has the name or the number
    LOT_REFUSAL_NO_TICKET = 4, // no ticket has the number
    LOT_REFUSAL_NO_TARGET = 5, // no currency or thread has the name or the number
    LOT_REFUSAL_BAD_AMOUNT = 6, // the amount is 0 or above 4294967295
    LOT_REFUSAL_IN_USE = 7, // tickets are in it or fund it, or the thread has a client or owns a mutex
    LOT_REFUSAL_FUNDING = 8, // the ticket funds something already
    LOT_REFUSAL_NOT_FUNDING = 9,
    LOT_REFUSAL_CYCLE = 10, // the funding would close a cycle of currencies
    LOT_REFUSAL_BASE_FIXED = 11, // base can be neither removed nor funded
    LOT_REFUSAL_DEAD_THREAD = 12, // the thread has ended
    // the kernel has room for no more of them. `tickets`, `currencies` or `threads` of the sizes is reached, whichever
    // the event adds to, by all ever made or, with `reuse`, by what exists.
    LOT_REFUSAL_FULL = 13,
    LOT_REFUSAL_NO_SCRIPT = 14, // no script has the number
    LOT_REFUSAL_NO_THREAD = 15, // no thread has the name or the number. A dead one has both until it is removed.
    LOT_REFUSAL_ALIVE = 16, // the thread hasn't ended. It may wait for good.
    LOT_REFUSAL_BAD_PROCESSOR = 20, // no processor has the number
    LOT_REFUSAL_BUSY = 21, // a thread runs on the processor already
    LOT_REFUSAL_NOT_RUNNING = 22,
    // the ticks are more than the quantum has left, or than may be counted. A trap's own tick counts.
    LOT_REFUSAL_BAD_TICKS = 23,
    LOT_REFUSAL_NOT_ASLEEP = 24, // the thread doesn't sleep. It is ready, runs, waits or is dead.
    LOT_TRAP_REFUSAL_NO_PORT = 30, // no port has the number
    LOT_TRAP_REFUSAL_NOTHING_TO_REPLY = 32,
    LOT_TRAP_REFUSAL_NO_MUTEX = 33, // no mutex has the number
    LOT_TRAP_REFUSAL_NOT_OWNER = 34,
    LOT_TRAP_REFUSAL_ALREADY_OWNER = 35,
    // the wait would close a cycle of threads that wait for each other. Calls that are queued at a port don't count.
    LOT_TRAP_REFUSAL_LOCK_CYCLE = 36
} lot_refusal;

// Returns the refusal in words, for printing: a static string, "unknown refusal" for any other number.
static inline const char *lot_refusal_text(uint32_t refusal) {
    switch (LOT_CAST(lot_refusal, refusal)) {
    case LOT_REFUSAL_BAD_NAME: return "bad name";
    case LOT_REFUSAL_NAME_TAKEN: return "the name is taken";
    case LOT_REFUSAL_NO_CURRENCY: return "no such currency";
    case LOT_REFUSAL_NO_TICKET: return "no such ticket";
    case LOT_REFUSAL_NO_TARGET: return "no such currency or thread";
    case LOT_REFUSAL_BAD_AMOUNT: return "the amount is out of its range";
    case LOT_REFUSAL_IN_USE: return "the currency or thread is in use";
    case LOT_REFUSAL_FUNDING: return "the ticket funds something";
    case LOT_REFUSAL_NOT_FUNDING: return "the ticket funds nothing";
    case LOT_REFUSAL_CYCLE: return "currencies would fund each other in a cycle";
    case LOT_REFUSAL_BASE_FIXED: return "base can't be removed or funded";
    case LOT_REFUSAL_DEAD_THREAD: return "the thread is dead";
    case LOT_REFUSAL_FULL: return "the limit is used up";
    case LOT_REFUSAL_NO_SCRIPT: return "no such script";
    case LOT_REFUSAL_NO_THREAD: return "no such thread";
    case LOT_REFUSAL_ALIVE: return "the thread isn't dead";
    case LOT_REFUSAL_BAD_PROCESSOR: return "no such processor";
    case LOT_REFUSAL_BUSY: return "a thread runs on the processor";
    case LOT_REFUSAL_NOT_RUNNING: return "no thread runs on the processor";
    case LOT_REFUSAL_BAD_TICKS: return "too many ticks";
    case LOT_REFUSAL_NOT_ASLEEP: return "the thread isn't asleep";
    case LOT_TRAP_REFUSAL_NO_PORT: return "no such port";
    case LOT_TRAP_REFUSAL_NOTHING_TO_REPLY: return "the thread serves no client";
    case LOT_TRAP_REFUSAL_NO_MUTEX: return "no such mutex";
    case LOT_TRAP_REFUSAL_NOT_OWNER: return "the thread doesn't own the mutex";
    case LOT_TRAP_REFUSAL_ALREADY_OWNER: return "the thread owns the mutex already";
    case LOT_TRAP_REFUSAL_LOCK_CYCLE: return "the wait would close a cycle";
    }
    return "unknown refusal";
}

// The statuses of threads, with the fields that each sets.
typedef enum lot_thread_status_kind LOT_OF_UINT32 {
    LOT_STATUS_READY = 1, // it competes in draws
    LOT_STATUS_RUNNING = 2, // it runs on `processor`, and has used `used` ticks of its quantum, below the quantum
    LOT_STATUS_RECEIVING = 3, // it waits for a call at the port `other`
    LOT_STATUS_QUEUED = 4, // its call waits at the port `other`
    LOT_STATUS_SERVED = 5, // the thread `other` serves it
    LOT_STATUS_WAITING = 6, // it waits for the mutex `other`
    LOT_STATUS_DEAD = 7, // it has ended
    LOT_STATUS_ASLEEP = 8 // it sleeps until it is woken
} lot_thread_status_kind;

// What a ticket funds.
typedef enum lot_target_kind LOT_OF_UINT32 {
    LOT_TARGET_NONE = 0, // nothing; target_number is 0
    LOT_TARGET_CURRENCY = 1, // target_number is the currency's, from 0
    LOT_TARGET_THREAD = 2 // target_number is the thread's, from 1
} lot_target_kind;

// ---- names and wide numbers

// A name of a currency or a thread: the first `length` of the bytes, at most 16, without a terminating 0. One of length
// 0 is no name, for a thread that has none. The library pads the names that it stores with 0.
typedef struct lot_name {
    uint32_t length;
    uint8_t bytes[16];
} lot_name;

// Stores the name with these bytes, if every kernel takes it: a letter a to z, followed by letters a to z, digits, '_'
// or '-'. LOT_LONG_NAME, LOT_BAD_NAME.
LOT_NODISCARD uint32_t lot_name_new(const uint8_t *bytes, size_t count, lot_name *name);

// Stores the name with these bytes, if a kernel with `plain_names` takes it: 1 to 16 bytes, each 33 to 126.
// LOT_LONG_NAME, LOT_BAD_NAME.
LOT_NODISCARD uint32_t lot_plain_name_new(const uint8_t *bytes, size_t count, lot_name *name);

// Returns the name with the bytes of a string. If it is too long, the call to which you pass it refuses it.
static inline lot_name lot_name_of(const char *text) {
    lot_name name = {0, {0}};
    while (name.length <= sizeof name.bytes && text[name.length] != 0) {
        if (name.length < sizeof name.bytes) {
            name.bytes[name.length] = LOT_CAST(uint8_t, text[name.length]);
        }
        name.length++;
    }
    return name;
}

// Returns no name: that of a thread without one, which only its number refers to. So does lot_name_of("").
static inline lot_name lot_no_name(void) {
    lot_name name = {0, {0}};
    return name;
}

// A number below 2 ^ 128: high * 2 ^ 64 + low.
typedef struct lot_wide {
    uint64_t low;
    uint64_t high;
} lot_wide;

// Returns this number as a wide one.
static inline lot_wide lot_wide_of(uint64_t low) {
    lot_wide wide = {low, 0};
    return wide;
}

// ---- a kernel

// A handle of a kernel, or of none. Only the library may access the memory to which it points.
typedef struct lot_kernel {
    void *at;
} lot_kernel;

// The initialiser of a lot_kernel that holds no kernel.
#ifdef __cplusplus
#define LOT_KERNEL_NONE {nullptr}
#else
#define LOT_KERNEL_NONE {NULL}
#endif

// Returns LOT_KERNEL_NONE, to be assigned.
static inline lot_kernel lot_kernel_none(void) {
    lot_kernel kernel = LOT_KERNEL_NONE;
    return kernel;
}

// The sizes of a kernel. It never grows.
typedef struct lot_sizes {
    uint32_t tickets;    // the largest number ever made, 1 to 65535, unless `reuse` is set
    uint32_t currencies; // the largest number ever made, not counting base, 1 to 4096
    uint32_t threads;    // the largest number ever made, 1 to 4096
    uint32_t ports;      // at most 256
    uint32_t mutexes;    // at most 256
    uint32_t processors; // 1 to 64
    uint32_t scripts;    // at most 256; a thread's script is a number that the kernel keeps for you
    uint32_t quantum;    // in ticks, 1 to 1000
    uint32_t unit;       // the value of one of base: 1 or 256. SHARES above says what for
    uint32_t reuse;      // 0 if each number is given once. Otherwise the numbers of removed tickets, currencies and
                         // threads are given again, the last removed first, and the first three sizes count what
                         // exists at once. The kernel keeps it as 0 or 1
    uint32_t plain_names; // 0 if a name is a letter a to z, followed by letters a to z, digits, '_' or '-'. Otherwise
                          // it may have any printable ASCII but the space. The kernel keeps it as 0 or 1
    uint32_t queued_lend; // 0 if a thread whose call is queued lends to nobody. Otherwise it lends to the port's
                          // server: QUEUED CALLS above. The kernel keeps it as 0 or 1
} lot_sizes;

// Returns sizes to begin with, for 16 threads: 64 tickets, 16 currencies, 2 ports, mutexes and processors, 1 script, a
// quantum of 100 ticks and a unit of 1; no number is given again, no plain names, and queued calls lend nothing. Change
// any of them.
static inline lot_sizes lot_sizes_small(void) {
    lot_sizes sizes = {64, 16, 16, 2, 2, 2, 1, 100, 1, 0, 0, 0};
    return sizes;
}

// Makes a kernel with base alone, for a lot_kernel that holds none. LOT_KERNEL_THERE, LOT_BAD_LIMITS, LOT_NO_MEMORY.
LOT_NODISCARD uint32_t lot_kernel_new(const lot_sizes *sizes, lot_kernel *kernel);

// Stores the total of bytes that lot_kernel_new requests from the heap for these sizes. It requests them in at most
// LOT_KERNEL_BLOCKS blocks, and frees none of them before lot_kernel_free. So `*bytes + 16 * LOT_KERNEL_BLOCKS` bytes
// are enough for a heap of your own that aligns each block to 16 bytes. LOT_BAD_LIMITS.
LOT_NODISCARD uint32_t lot_kernel_bytes(const lot_sizes *sizes, uint64_t *bytes);
#define LOT_KERNEL_BLOCKS 49

// The symbol lot_kernel_free of the library, which takes no NULL. Only for this header.
uint32_t lot_kernel_free_held(lot_kernel *kernel) __asm__("lot_kernel_free");

// Frees the kernel, and sets the handle to LOT_KERNEL_NONE. For NULL or a handle without a kernel it does nothing. The
// status is always LOT_DONE.
static inline uint32_t lot_kernel_free(lot_kernel *kernel) __asm__("lot_kernel_free_held_or_null");
static inline uint32_t lot_kernel_free(lot_kernel *kernel) {
    return kernel ? lot_kernel_free_held(kernel) : LOT_CAST(uint32_t, LOT_DONE);
}

// ---- events

// An event. A struct that is all 0 has no kind.
typedef struct lot_event {
    uint32_t kind; // lot_event_kind
    uint32_t processor;
    uint32_t ticks;
    uint32_t object;
    uint32_t sent;
    uint32_t script;
    lot_wide number;
    uint64_t amount;
    uint64_t ticket;
    lot_name currency;
    lot_name name;
} lot_event;

// The event with these fields, in the order of lot_event. Only for this header. The compiler builds an expression in
// place, whereas gcc would copy a variable that a function returns, which makes a draw slower.
#ifdef __cplusplus
#define LOT_EVENT(...) lot_event{__VA_ARGS__}
#else
#define LOT_EVENT(...) ((lot_event){__VA_ARGS__})
#endif

// Returns an event of this kind with all other fields 0.
static inline lot_event lot_event_of(uint32_t kind) {
    return LOT_EVENT(kind, 0, 0, 0, 0, 0, {0, 0}, 0, 0, {0, {0}}, {0, {0}});
}

// The functions below each make an event of one kind. They say the kind of its reply, or the outcome of its trap, and
// its refusals in the order of the kernel's checks: the first check that fails is the reason. For a thread without a
// name the kernel leaves out NAME_TAKEN.
//
// A trap is one of the thread that runs on the processor, after `ticks` ticks of work. The trap itself costs one tick
// more, and all of these must fit in the rest of the quantum, or the event is refused with BAD_TICKS. Refusals after
// BAD_TICKS are of the trap alone, LOT_OUTCOME_REFUSED: it costs its ticks even so.

// ---- functions, made by bindings/write_tables of the same table

// Makes a ticket of this amount, 1 to 4294967295, issued in the currency. It funds nothing yet. Reply: TICKET.
// Refusals: BAD_AMOUNT, NO_CURRENCY, FULL.
static inline lot_event lot_make_ticket(uint64_t amount, lot_name currency) {
    return LOT_EVENT(LOT_MAKE_TICKET, 0, 0, 0, 0, 0, {0, 0}, amount, 0, currency, {0, {0}});
}

// Removes a ticket that funds nothing. Its number is used again only with `reuse`. Reply: DONE. Refusals: NO_TICKET,
// FUNDING.
static inline lot_event lot_remove_ticket(uint64_t ticket) {
    return LOT_EVENT(LOT_REMOVE_TICKET, 0, 0, 0, 0, 0, {0, 0}, 0, ticket, {0, {0}}, {0, {0}});
}

// Makes a currency, with a name that neither a currency nor a thread has, a dead one included. Reply: CURRENCY.
// Refusals: NAME_TAKEN, FULL.
static inline lot_event lot_make_currency(lot_name name) {
    return LOT_EVENT(LOT_MAKE_CURRENCY, 0, 0, 0, 0, 0, {0, 0}, 0, 0, {0, {0}}, name);
}

// Removes a currency other than base that issues no ticket and that no ticket funds. Reply: DONE. Refusals:
// NO_CURRENCY, BASE_FIXED, IN_USE.
static inline lot_event lot_remove_currency(lot_name currency) {
    return LOT_EVENT(LOT_REMOVE_CURRENCY, 0, 0, 0, 0, 0, {0, 0}, 0, 0, currency, {0, {0}});
}

// Makes a ticket that funds nothing fund a currency other than base, or a thread that isn't dead. Reply: DONE.
// Refusals: NO_TICKET, NO_TARGET, BASE_FIXED, DEAD_THREAD, FUNDING, CYCLE.
static inline lot_event lot_fund(uint64_t ticket, lot_name target) {
    return LOT_EVENT(LOT_FUND, 0, 0, 0, 0, 0, {0, 0}, 0, ticket, {0, {0}}, target);
}

// Takes away the target of a ticket that funds something. Reply: DONE. Refusals: NO_TICKET, NOT_FUNDING.
static inline lot_event lot_unfund(uint64_t ticket) {
    return LOT_EVENT(LOT_UNFUND, 0, 0, 0, 0, 0, {0, 0}, 0, ticket, {0, {0}}, {0, {0}});
}

// Makes a thread, with a name or without. It is ready, and nothing funds it yet. Its script, 1 to `scripts`, is a
// number that the kernel keeps for its caller. Reply: THREAD. Refusals: NAME_TAKEN, NO_SCRIPT, FULL.
static inline lot_event lot_make_thread(lot_name name, uint32_t script) {
    return LOT_EVENT(LOT_MAKE_THREAD, 0, 0, 0, 0, script, {0, 0}, 0, 0, {0, {0}}, name);
}

// Makes a thread, with a name or without, and a ticket of this amount, 1 to 4294967295, which is issued in the
// currency and funds the thread. Reply: FUNDED. Refusals: BAD_AMOUNT, NO_CURRENCY, NAME_TAKEN, NO_SCRIPT, FULL.
static inline lot_event lot_make_funded(uint64_t amount, lot_name currency, lot_name name, uint32_t script) {
    return LOT_EVENT(LOT_MAKE_FUNDED, 0, 0, 0, 0, script, {0, 0}, amount, 0, currency, name);
}

// Requests a listing of the tickets. The reply contains no rows: read them one by one. Reply: LIST_TICKETS. It is
// never refused.
static inline lot_event lot_list_tickets(void) {
    return LOT_EVENT(LOT_LIST_TICKETS, 0, 0, 0, 0, 0, {0, 0}, 0, 0, {0, {0}}, {0, {0}});
}

// Requests a listing of the currencies. The reply contains no rows: read them one by one. Reply: LIST_CURRENCIES. It
// is never refused.
static inline lot_event lot_list_currencies(void) {
    return LOT_EVENT(LOT_LIST_CURRENCIES, 0, 0, 0, 0, 0, {0, 0}, 0, 0, {0, {0}}, {0, {0}});
}

// Requests a listing of the threads. The reply contains no rows: read them one by one. Reply: LIST_THREADS. It is
// never refused.
static inline lot_event lot_list_threads(void) {
    return LOT_EVENT(LOT_LIST_THREADS, 0, 0, 0, 0, 0, {0, 0}, 0, 0, {0, {0}}, {0, {0}});
}

// Holds a lottery over the ready threads with this number, any 128 bits. The winner runs on the processor, which must
// be idle. Reply: WINNER or IDLE. Refusals: BAD_PROCESSOR, BUSY.
static inline lot_event lot_draw(uint32_t processor, lot_wide number) {
    return LOT_EVENT(LOT_DRAW, processor, 0, 0, 0, 0, number, 0, 0, {0, {0}}, {0, {0}});
}

// Ends the quantum of the thread that runs on the processor. The rest of the quantum counts as used. Reply: EXPIRED.
// Refusals: BAD_PROCESSOR, NOT_RUNNING.
static inline lot_event lot_expire(uint32_t processor) {
    return LOT_EVENT(LOT_EXPIRE, processor, 0, 0, 0, 0, {0, 0}, 0, 0, {0, {0}}, {0, {0}});
}

// Gives up the processor. The thread is compensated for the rest of its quantum. Outcome: YIELDED. Refusals:
// BAD_PROCESSOR, NOT_RUNNING, BAD_TICKS.
static inline lot_event lot_yield(uint32_t processor, uint32_t ticks) {
    return LOT_EVENT(LOT_YIELD, processor, ticks, 0, 0, 0, {0, 0}, 0, 0, {0, {0}}, {0, {0}});
}

// Sends a number to a port, and waits for the reply. The thread lends to the one that serves it; with `queued_lend`
// also, while its call is queued, to the one that took the last call at the port. Outcome: SERVED_BY or QUEUED.
// Refusals: BAD_PROCESSOR, NOT_RUNNING, BAD_TICKS, NO_PORT.
static inline lot_event lot_call(uint32_t processor, uint32_t ticks, uint32_t port, uint32_t sent) {
    return LOT_EVENT(LOT_CALL, processor, ticks, port, sent, 0, {0, 0}, 0, 0, {0, {0}}, {0, {0}});
}

// Takes the call that has waited longest at a port, or waits for one. Outcome: RECEIVED or WAITS. Refusals:
// BAD_PROCESSOR, NOT_RUNNING, BAD_TICKS, NO_PORT.
static inline lot_event lot_receive(uint32_t processor, uint32_t ticks, uint32_t port) {
    return LOT_EVENT(LOT_RECEIVE, processor, ticks, port, 0, 0, {0, 0}, 0, 0, {0, {0}}, {0, {0}});
}

// Replies with a number to the client that the thread took first. Outcome: REPLIED. Refusals: BAD_PROCESSOR,
// NOT_RUNNING, BAD_TICKS, NOTHING_TO_REPLY.
static inline lot_event lot_reply_with(uint32_t processor, uint32_t ticks, uint32_t sent) {
    return LOT_EVENT(LOT_REPLY, processor, ticks, 0, sent, 0, {0, 0}, 0, 0, {0, {0}}, {0, {0}});
}

// Takes a mutex, or waits for it and lends to its owner. Outcome: LOCKED or WAITS. Refusals: BAD_PROCESSOR,
// NOT_RUNNING, BAD_TICKS, NO_MUTEX, ALREADY_OWNER, LOCK_CYCLE.
static inline lot_event lot_lock(uint32_t processor, uint32_t ticks, uint32_t mutex) {
    return LOT_EVENT(LOT_LOCK, processor, ticks, mutex, 0, 0, {0, 0}, 0, 0, {0, {0}}, {0, {0}});
}

// Frees a mutex, or passes it on to a waiter by a lottery with this number, any 128 bits. Outcome: FREED or PASSED.
// Refusals: BAD_PROCESSOR, NOT_RUNNING, BAD_TICKS, NO_MUTEX, NOT_OWNER.
static inline lot_event lot_unlock(uint32_t processor, uint32_t ticks, uint32_t mutex, lot_wide number) {
    return LOT_EVENT(LOT_UNLOCK, processor, ticks, mutex, 0, 0, number, 0, 0, {0, {0}}, {0, {0}});
}

// Ends the thread. Its name, its mutexes, its clients and the tickets that fund it stay as they are. Outcome: EXITED.
// Refusals: BAD_PROCESSOR, NOT_RUNNING, BAD_TICKS.
static inline lot_event lot_exit(uint32_t processor, uint32_t ticks) {
    return LOT_EVENT(LOT_EXIT, processor, ticks, 0, 0, 0, {0, 0}, 0, 0, {0, {0}}, {0, {0}});
}

// Replies with a number to the client that the thread took first, and then receives a call at a port or waits for one.
// Outcome: REPLIED_THEN_RECEIVED or REPLIED_THEN_WAITS. Refusals: BAD_PROCESSOR, NOT_RUNNING, BAD_TICKS, NO_PORT,
// NOTHING_TO_REPLY.
static inline lot_event lot_serve(uint32_t processor, uint32_t ticks, uint32_t port, uint32_t sent) {
    return LOT_EVENT(LOT_SERVE, processor, ticks, port, sent, 0, {0, 0}, 0, 0, {0, {0}}, {0, {0}});
}

// Sets a ticket's amount, 1 to 4294967295, which counts at once: inflation and deflation (3.2). The ticket keeps its
// target. Reply: DONE. Refusals: BAD_AMOUNT, NO_TICKET.
static inline lot_event lot_set_ticket(uint64_t ticket, uint64_t amount) {
    return LOT_EVENT(LOT_SET_TICKET, 0, 0, 0, 0, 0, {0, 0}, amount, ticket, {0, {0}}, {0, {0}});
}

// Removes a dead thread that no ticket funds, and that has no client and owns no mutex. Its name may be used again,
// its number only with `reuse`. Reply: DONE. Refusals: NO_THREAD, ALIVE, IN_USE.
static inline lot_event lot_remove_thread(lot_name thread) {
    return LOT_EVENT(LOT_REMOVE_THREAD, 0, 0, 0, 0, 0, {0, 0}, 0, 0, {0, {0}}, thread);
}

// Sleeps until a wake. The thread's tickets are inactive meanwhile; it keeps its mutexes and its clients, and is
// compensated for the rest of its quantum. Outcome: SLEPT. Refusals: BAD_PROCESSOR, NOT_RUNNING, BAD_TICKS.
static inline lot_event lot_sleep(uint32_t processor, uint32_t ticks) {
    return LOT_EVENT(LOT_SLEEP, processor, ticks, 0, 0, 0, {0, 0}, 0, 0, {0, {0}}, {0, {0}});
}

// Preempts the thread that runs on the processor, after `ticks` ticks of work, at most the rest of its quantum. The
// thread becomes ready, is charged these ticks, and isn't compensated. Reply: EXPIRED. Refusals: BAD_PROCESSOR,
// NOT_RUNNING, BAD_TICKS.
static inline lot_event lot_preempt(uint32_t processor, uint32_t ticks) {
    return LOT_EVENT(LOT_PREEMPT, processor, ticks, 0, 0, 0, {0, 0}, 0, 0, {0, {0}}, {0, {0}});
}

// Ends the quantum of the thread that runs on the processor, `late` ticks after its time. The rest of the quantum and
// the late ticks count as used: until the thread next wins, its weight is value * quantum / (quantum + late), rounded
// down, but at least 1 if its value is. The quantum and the late ticks together are at most 4294967295. Reply:
// EXPIRED. Refusals: BAD_PROCESSOR, NOT_RUNNING, BAD_TICKS.
static inline lot_event lot_overrun(uint32_t processor, uint32_t late) {
    return LOT_EVENT(LOT_OVERRUN, processor, late, 0, 0, 0, {0, 0}, 0, 0, {0, {0}}, {0, {0}});
}

// Makes a sleeping thread ready, with the compensation from when it went to sleep. Reply: DONE. Refusals: NO_THREAD,
// NOT_ASLEEP.
static inline lot_event lot_wake(uint32_t thread) {
    return LOT_EVENT(LOT_WAKE, 0, 0, thread, 0, 0, {0, 0}, 0, 0, {0, {0}}, {0, {0}});
}

// The same as lot_make_ticket, given the number of the currency. Reply: TICKET. Refusals: BAD_AMOUNT, NO_CURRENCY,
// FULL.
static inline lot_event lot_make_ticket_in(uint64_t amount, uint32_t currency) {
    return LOT_EVENT(LOT_MAKE_TICKET_IN, 0, 0, currency, 0, 0, {0, 0}, amount, 0, {0, {0}}, {0, {0}});
}

// The same as lot_remove_currency, given the number of the currency. Reply: DONE. Refusals: NO_CURRENCY, BASE_FIXED,
// IN_USE.
static inline lot_event lot_remove_currency_numbered(uint32_t currency) {
    return LOT_EVENT(LOT_REMOVE_CURRENCY_NUMBERED, 0, 0, currency, 0, 0, {0, 0}, 0, 0, {0, {0}}, {0, {0}});
}

// The same as lot_fund, given the number of the currency. Reply: DONE. Refusals: NO_TICKET, NO_TARGET, BASE_FIXED,
// FUNDING, CYCLE.
static inline lot_event lot_fund_currency(uint64_t ticket, uint32_t currency) {
    return LOT_EVENT(LOT_FUND_CURRENCY, 0, 0, currency, 0, 0, {0, 0}, 0, ticket, {0, {0}}, {0, {0}});
}

// The same as lot_fund, given the number of the thread. Reply: DONE. Refusals: NO_TICKET, NO_TARGET, DEAD_THREAD,
// FUNDING.
static inline lot_event lot_fund_thread(uint64_t ticket, uint32_t thread) {
    return LOT_EVENT(LOT_FUND_THREAD, 0, 0, thread, 0, 0, {0, 0}, 0, ticket, {0, {0}}, {0, {0}});
}

// The same as lot_remove_thread, given the number of the thread. Reply: DONE. Refusals: NO_THREAD, ALIVE, IN_USE.
static inline lot_event lot_remove_thread_numbered(uint32_t thread) {
    return LOT_EVENT(LOT_REMOVE_THREAD_NUMBERED, 0, 0, thread, 0, 0, {0, 0}, 0, 0, {0, {0}}, {0, {0}});
}

// The same as lot_make_funded, given the number of the currency. Reply: FUNDED. Refusals: BAD_AMOUNT, NO_CURRENCY,
// NAME_TAKEN, NO_SCRIPT, FULL.
static inline lot_event lot_make_funded_in(uint64_t amount, uint32_t currency, lot_name name, uint32_t script) {
    return LOT_EVENT(LOT_MAKE_FUNDED_IN, 0, 0, currency, 0, script, {0, 0}, amount, 0, {0, {0}}, name);
}

// Ends a thread, whatever its status. If it runs, its processor is idle then, and it is charged nothing more: to
// charge what it ran, preempt it first. Its clients are ready, with nothing delivered. Each of its mutexes passes to
// the thread that has waited longest for it. A thread that exits keeps its clients and its mutexes. Reply: DONE.
// Refusals: NO_THREAD, DEAD_THREAD.
static inline lot_event lot_kill(lot_name thread) {
    return LOT_EVENT(LOT_KILL, 0, 0, 0, 0, 0, {0, 0}, 0, 0, {0, {0}}, thread);
}

// The same as lot_kill, given the number of the thread. Reply: DONE. Refusals: NO_THREAD, DEAD_THREAD.
static inline lot_event lot_kill_numbered(uint32_t thread) {
    return LOT_EVENT(LOT_KILL_NUMBERED, 0, 0, thread, 0, 0, {0, 0}, 0, 0, {0, {0}}, {0, {0}});
}

// ---- replies

// A reply. Its kind, and the outcome of a trap, say which fields are set; all others are 0.
typedef struct lot_reply {
    lot_wide number; // the drawn number of a lottery, below the total
    lot_wide total;  // the sum of a lottery's weights
    uint32_t kind;   // lot_reply_kind
    uint32_t reason; // lot_refusal
    uint32_t ticket;
    uint32_t currency;
    uint32_t thread;
    uint32_t ticks;
    uint32_t outcome; // lot_outcome
    uint32_t other;
    uint32_t replied_to;
    uint32_t sent;
    bool has_sent;
    bool has_draw;
    bool ends;
    bool goes_on; // the thread runs on its processor now: it has won a draw, or its trap and its quantum leave it there
} lot_reply;

// Returns whether the thread that made a trap still runs on its processor, given the reply to the trap. If it doesn't,
// draw there. A trap, a preemption or an overrun refused with LOT_REFUSAL_BAD_TICKS has changed nothing, so its thread
// still runs. For the reply to any other event the result is false.
static inline bool lot_goes_on(const lot_reply *reply) {
    if (reply->kind == LOT_REPLY_REFUSED) {
        return reply->reason == LOT_REFUSAL_BAD_TICKS;
    }
    return reply->kind == LOT_REPLY_TRAPPED && reply->goes_on;
}

// Returns whether the reply is a refusal, of an event or of a trap. Its `reason` is the cause.
static inline bool lot_refused(const lot_reply *reply) {
    return reply->kind == LOT_REPLY_REFUSED || reply->outcome == LOT_OUTCOME_REFUSED;
}

// Makes one event and stores its reply. LOT_NO_KERNEL, LOT_BAD_KIND, LOT_LONG_NAME, LOT_BAD_NAME: the kernel's sizes
// say which names it takes. Of two bad names the status is the currency's.
LOT_NODISCARD uint32_t lot_kernel_event(lot_kernel *kernel, const lot_event *event, lot_reply *reply);

// Makes events in order and stores the reply to each at its index, up to the first event with a status other than
// LOT_DONE: the call returns that status, and stores in `done` how many events it made before. If it made all events,
// it returns LOT_DONE. LOT_COUNTS_DIFFER and LOT_NO_KERNEL change nothing, `done` included.
LOT_NODISCARD uint32_t lot_kernel_run(lot_kernel *kernel, const lot_event *events, size_t event_count,
                                      lot_reply *replies, size_t reply_count, size_t *done);

// ---- rows of listings

typedef struct lot_ticket_row {
    uint64_t value; // in base units; 0 if it is inactive
    uint32_t amount;
    lot_name issuer;        // the currency that issues it
    lot_name target;        // the name of what it funds, if has_target; of length 0 for a thread without a name
    uint32_t target_kind;   // lot_target_kind
    uint32_t target_number; // the currency or thread that it funds
    bool has_target;        // whether it funds anything
    bool is_active;
} lot_ticket_row;

typedef struct lot_currency_row {
    uint64_t active_amount; // the sum of the amounts of its active issued tickets
    uint64_t value;         // in base units
    uint32_t backing;       // the number of tickets that fund it, active or not
    uint32_t issued;        // the number of tickets that it issues, active or not
    lot_name name;
} lot_currency_row;

typedef struct lot_thread_status {
    uint32_t kind; // lot_thread_status_kind
    uint32_t processor;
    uint32_t used;
    uint32_t other;
} lot_thread_status;

typedef struct lot_thread_row {
    lot_wide weight; // its weight in a draw, in base units
    uint64_t value;  // in base units
    uint64_t quanta; // the draws that it has won
    uint64_t ticks;  // the total of ticks that it has run
    lot_thread_status status;
    lot_name name; // of length 0 if it has none
} lot_thread_row;

// Store the row of the ticket, currency or thread with this number. LOT_NO_KERNEL, LOT_NOT_THERE. They recompute stale
// values, and count that, so the kernel isn't const and no other call on it may overlap; later replies don't depend on
// it.
LOT_NODISCARD uint32_t lot_kernel_ticket_row(lot_kernel *kernel, uint32_t ticket, lot_ticket_row *row);
LOT_NODISCARD uint32_t lot_kernel_currency_row(lot_kernel *kernel, uint32_t currency, lot_currency_row *row);
LOT_NODISCARD uint32_t lot_kernel_thread_row(lot_kernel *kernel, uint32_t thread, lot_thread_row *row);

// Recomputes all stale values, and counts that; later replies don't depend on it. LOT_NO_KERNEL.
LOT_NODISCARD uint32_t lot_kernel_settle(lot_kernel *kernel);

// Store the same rows, and only read. LOT_NO_KERNEL, LOT_NOT_SETTLED, LOT_NOT_THERE. A kernel is settled after
// lot_kernel_settle, and stays so at least until an event that isn't refused.
LOT_NODISCARD uint32_t lot_kernel_settled_ticket_row(const lot_kernel *kernel, uint32_t ticket, lot_ticket_row *row);
LOT_NODISCARD uint32_t lot_kernel_settled_currency_row(const lot_kernel *kernel, uint32_t currency,
                                                       lot_currency_row *row);
LOT_NODISCARD uint32_t lot_kernel_settled_thread_row(const lot_kernel *kernel, uint32_t thread, lot_thread_row *row);

typedef struct lot_runner {
    uint32_t thread;
    uint32_t used; // the ticks of its quantum that it has used, below the quantum
} lot_runner;

// Stores the thread that runs on the processor. LOT_NO_KERNEL, LOT_NOT_THERE: none does.
LOT_NODISCARD uint32_t lot_kernel_runner(const lot_kernel *kernel, uint32_t processor, lot_runner *runner);

// Stores the thread's script, which was fixed when it was made. LOT_NO_KERNEL, LOT_NOT_THERE.
LOT_NODISCARD uint32_t lot_kernel_script_of(const lot_kernel *kernel, uint32_t thread, uint32_t *script);

// Store the number of tickets or currencies ever made, including removed ones; one that got a number again doesn't
// count. Ticket numbers go from 1 to this count, currency numbers from 0 to one below it. Thread numbers go from 1 to
// the greatest in a LOT_REPLY_THREAD or LOT_REPLY_FUNDED so far, which is at most `threads` of lot_sizes. Any of them
// without a row was removed. LOT_NO_KERNEL.
LOT_NODISCARD uint32_t lot_kernel_ticket_count(const lot_kernel *kernel, uint32_t *count);
LOT_NODISCARD uint32_t lot_kernel_currency_count(const lot_kernel *kernel, uint32_t *count);

// Stores the sizes with which the kernel was made. LOT_NO_KERNEL.
LOT_NODISCARD uint32_t lot_kernel_limits(const lot_kernel *kernel, lot_sizes *sizes);

typedef struct lot_meter {
    uint64_t ticket_reads; // the number of tickets, lends and owners read to compute values
    uint64_t tree_visits;  // the number of places of the tree of weights that draws visited
} lot_meter;

// Stores the kernel's counts of its own work. LOT_NO_KERNEL.
LOT_NODISCARD uint32_t lot_kernel_meter(const lot_kernel *kernel, lot_meter *meter);

// ---- the lottery by itself

// The generator of Park and Miller, whose values are 1 to 2147483646: each is 16807 times the one before, modulo
// 2147483647.
typedef struct lot_generator {
    uint32_t value;
} lot_generator;

// Makes a generator with this seed. LOT_BAD_SEED.
LOT_NODISCARD uint32_t lot_generator_new(uint32_t seed, lot_generator *generator);

// Advances to the next value and stores it. LOT_BAD_SEED: the generator's value is out of its range.
LOT_NODISCARD uint32_t lot_generator_next(lot_generator *generator, uint32_t *value);

// Stores the number drawn from the next two values, 0 to 4611686009837453315, and advances to the second.
// LOT_BAD_SEED.
LOT_NODISCARD uint32_t lot_generator_number(lot_generator *generator, uint64_t *number);

// Stores the wide number drawn from the next four values, below 2 ^ 124, and advances to the fourth.
// LOT_BAD_SEED.
LOT_NODISCARD uint32_t lot_generator_wide_number(lot_generator *generator, lot_wide *number);

// Stores the weight of a thread with this value in a draw. `compensation` is 0 for none; or the ticks of its quantum
// that it had used when it yielded, blocked or went to sleep before the quantum's end; or the sum of the quantum and
// the ticks by which it ended late. With a compensation the weight is value * quantum / compensation, rounded down, but
// at least 1 if the value is; otherwise it is the value.
void lot_weight(uint64_t value, uint32_t compensation, uint32_t quantum, lot_wide *weight);

typedef struct lot_drawn {
    lot_wide number; // the number modulo the total
    lot_wide total;  // the sum of the weights
    uint64_t place;  // the winner's, from 0: the first weight whose running sum is greater than the number
} lot_drawn;

// Holds a lottery over the weights with this number, any 128 bits, and stores its result. It reads the weights where
// they are, twice at most, and allocates nothing. LOT_NO_WINNER, LOT_TOO_LARGE.
LOT_NODISCARD uint32_t lot_winner(const lot_wide *weights, size_t count, const lot_wide *number, lot_drawn *drawn);

// ---- the heap, for a host without malloc

// A block of memory, or the failure to get one.
typedef struct lot_block {
    bool ok;  // whether the allocation succeeded
    void *at; // the block; not NULL, even if out of memory
} lot_block;

// The library allocates memory with these three functions; don't call them yourself. The archive's heap.o defines them
// with malloc, realloc and free. A program that defines all three itself links its own, and then needs no malloc.
//
//   - rattle_alloc returns a block of `size` bytes, or of at least one byte if `size` is 0.
//   - rattle_realloc returns a block of `size` bytes that begins with the first `kept` bytes of the block `at`. It
//     frees that block, unless out of memory.
//   - rattle_dealloc frees a block.
//
// `align` is a power of two, at most 16. A block is aligned to every power of two up to 16 that divides its size, and
// to `align`. It stays at its address until it is freed.
lot_block rattle_alloc(size_t size, size_t align);
lot_block rattle_realloc(void *at, size_t kept, size_t size, size_t align);
void rattle_dealloc(void *at);

#ifdef __cplusplus
}
#endif

#undef LOT_CAST
#undef LOT_EVENT
#undef LOT_NODISCARD
#undef LOT_OF_UINT32

#endif
