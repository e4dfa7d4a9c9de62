// Each event of a task becomes an event of the library, and the library's draws become winners. A user is a currency,
// and a task is a thread that a ticket of its user's currency funds. Whatever the library refuses ends the program, and
// then Linux's own scheduler takes over.

#include "policy.h"

#include "lot.h"

#include <stdbool.h>
#include <stdlib.h>
#include <string.h>

// QUANTUM is in ticks, so a tick is a thousandth of a quantum.
enum { USERS = 4096, STRANGERS_TICKETS = 100, QUANTUM = 1000, BUCKETS = 8192 };

struct user {
    uint32_t uid, currency;
    uint64_t tickets; // of base
    uint64_t tasks;   // all that came
    uint64_t ticks;   // that they were charged
};

enum state {
    READY = 1,
    RUNNING,
    ASLEEP,
    PARKED // asleep, but ready in the library, where only a running thread goes to sleep: so its ticket doesn't fund it
};

struct task {
    struct task *next; // in its bucket
    struct user *user;
    uint32_t id, thread, ticket, weight, processor;
    int32_t pid;
    enum state state;
    uint64_t rest; // nanoseconds that are no whole tick yet
};

const char *const told_words[] = {"", "ready", "yielded", "asleep", "dead", "left"};

static lot_kernel kernel = LOT_KERNEL_NONE;
static lot_generator generator;
static struct user users[USERS];
static uint32_t user_count, processor_count;
static struct task tasks[MOST_TASKS + 1];         // by the thread's number, from 1
static struct task *buckets[BUCKETS];             // by the task's id
static struct task *runners[MOST_PROCESSORS + 1]; // by the processor's number in the library, from 1
static uint64_t tick;                             // in nanoseconds
static FILE *record;
static uint64_t counts[LOT_KILL_NUMBERED + 1]; // of events, by their kind
static uint64_t late;                          // ticks past the end of a quantum
static uint64_t unlotted; // nanoseconds that a task ran while the library had it ready or asleep

static void fail(const char *what) {
    fprintf(stderr, "policy: %s\n", what);
    exit(1);
}

static void must(uint32_t status) {
    if (status != LOT_DONE) {
        fail(lot_status_text(status));
    }
}

static lot_reply answer(lot_event event) {
    lot_reply reply;
    must(lot_kernel_event(&kernel, &event, &reply));
    if (lot_refused(&reply)) {
        fprintf(stderr, "policy: event %u: %s\n", event.kind, lot_refusal_text(reply.reason));
        exit(1);
    }
    counts[event.kind]++;
    return reply;
}

// ---- users

static struct user *add_user(uint32_t uid, uint64_t tickets) {
    char name[17];
    if (user_count == USERS) {
        fail("too many users");
    }
    snprintf(name, sizeof name, "u%u", uid);
    struct user *user = &users[user_count++];
    *user = (struct user){.uid = uid, .tickets = tickets};
    user->currency = answer(lot_make_currency(lot_name_of(name))).currency;
    answer(lot_fund_currency(answer(lot_make_ticket_in(tickets, 0)).ticket, user->currency));
    return user;
}

static struct user *user_of(uint32_t uid) {
    for (struct user *user = users; user < users + user_count; user++) {
        if (user->uid == uid) {
            return user;
        }
    }
    return add_user(uid, STRANGERS_TICKETS);
}

// ---- tasks

// Returns where the pointer to the task with this id is, or would be.
static struct task **place_of(uint32_t id) {
    struct task **at = &buckets[id % BUCKETS];
    while (*at != NULL && (*at)->id != id) {
        at = &(*at)->next;
    }
    return at;
}

static void add(const struct told_event *told) {
    struct user *user = user_of(told->uid);
    lot_reply made = answer(lot_make_funded_in(told->weight, user->currency, lot_no_name(), 1));
    struct task *task = &tasks[made.thread];
    *task = (struct task){.user = user, .id = told->id, .thread = made.thread, .ticket = made.ticket,
                          .weight = told->weight, .pid = told->pid, .state = READY};
    *place_of(told->id) = task;
    user->tasks++;
}

// Returns the whole ticks of what a task has run. The rest counts the next time.
static uint64_t ticks_of(struct task *task, uint64_t ran) {
    uint64_t total = task->rest + ran;
    task->rest = total % tick;
    return total / tick;
}

// Returns the ticks of work before a trap, which costs one more.
static uint32_t work(uint64_t ticks) {
    return ticks == 0 ? 0 : (uint32_t)ticks - 1;
}

// A task has lost its processor. Its user is charged what the reply says.
static void stop(struct task *task, lot_reply reply, enum state state) {
    task->user->ticks += reply.ticks;
    runners[task->processor] = NULL;
    task->state = state;
}

static void overrun(struct task *task, uint64_t ticks) {
    uint64_t past = ticks - QUANTUM < UINT32_MAX - QUANTUM ? ticks - QUANTUM : UINT32_MAX - QUANTUM;
    late += past;
    stop(task, answer(lot_overrun(task->processor, (uint32_t)past)), READY);
}

// A running task has lost its processor, and is ready.
static void end_quantum(struct task *task, uint64_t ran, bool yields) {
    uint64_t ticks = ticks_of(task, ran);
    if (ticks >= QUANTUM) {
        overrun(task, ticks);
    } else if (yields) {
        stop(task, answer(lot_yield(task->processor, work(ticks))), READY);
    } else {
        stop(task, answer(lot_preempt(task->processor, (uint32_t)ticks)), READY);
    }
}

static void change_user(struct task *task, uint32_t uid) {
    answer(lot_unfund(task->ticket));
    answer(lot_remove_ticket(task->ticket));
    task->user = user_of(uid);
    task->user->tasks++;
    task->ticket = answer(lot_make_ticket_in(task->weight, task->user->currency)).ticket;
    answer(lot_fund_thread(task->ticket, task->thread));
}

static void make_ready(struct task *task, const struct told_event *told) {
    switch (task->state) {
    case READY: break;
    case RUNNING: end_quantum(task, told->ran, told->kind == TOLD_YIELDED); break;
    case ASLEEP: answer(lot_wake(task->thread)); break;
    case PARKED: answer(lot_fund_thread(task->ticket, task->thread)); break;
    }
    task->state = READY;
    if (task->user->uid != told->uid) {
        change_user(task, told->uid);
    }
    if (task->weight != told->weight) {
        answer(lot_set_ticket(task->ticket, told->weight));
        task->weight = told->weight;
    }
}

// A task blocks. One whose quantum is over has to be charged that first, and is ready then.
static void block(struct task *task, uint64_t ran) {
    if (task->state == RUNNING) {
        uint64_t ticks = ticks_of(task, ran);
        if (ticks < QUANTUM) {
            stop(task, answer(lot_sleep(task->processor, work(ticks))), ASLEEP);
        } else {
            overrun(task, ticks);
        }
    }
    if (task->state == READY) {
        answer(lot_unfund(task->ticket));
        task->state = PARKED;
    }
}

// A task is charged what it ran, and nothing of it stays. The next one may have its numbers.
static void end(struct task *task, uint64_t ran) {
    if (task->state == RUNNING) {
        end_quantum(task, ran, false);
    }
    answer(lot_kill_numbered(task->thread));
    if (task->state != PARKED) {
        answer(lot_unfund(task->ticket));
    }
    answer(lot_remove_ticket(task->ticket));
    answer(lot_remove_thread_numbered(task->thread));
    *place_of(task->id) = task->next;
}

static void hear(struct task *task, const struct told_event *told) {
    if (task->state != RUNNING) {
        unlotted += told->ran;
    }
    switch ((enum told)told->kind) {
    case TOLD_READY:
    case TOLD_YIELDED: make_ready(task, told); break;
    case TOLD_ASLEEP: block(task, told->ran); break;
    case TOLD_DEAD:
    case TOLD_LEFT: end(task, told->ran); break;
    }
}

void policy_hear(const struct told_event *told) {
    struct task *task = *place_of(told->id);
    if (record != NULL) {
        fprintf(record, "%s %llu %u %u %u\n", told_words[told->kind], told->ran, told->id, told->uid, told->weight);
    }
    if (task != NULL) {
        hear(task, told);
    } else if (told->kind == TOLD_READY || told->kind == TOLD_YIELDED) {
        add(told);
    }
}

// ---- draws

// Returns the winner, or NULL if nobody is ready.
static struct task *draw(uint32_t processor) {
    uint64_t number;
    must(lot_generator_number(&generator, &number));
    lot_reply reply = answer(lot_draw(processor, lot_wide_of(number)));
    if (reply.kind == LOT_REPLY_IDLE) {
        return NULL;
    }
    struct task *task = &tasks[reply.thread];
    task->state = RUNNING;
    task->processor = processor;
    return runners[processor] = task;
}

uint64_t policy_draw(uint64_t winner[MOST_PROCESSORS]) {
    uint64_t drawn = 0;
    for (uint32_t processor = 1; processor <= processor_count; processor++) {
        struct task *task = runners[processor] == NULL ? draw(processor) : NULL;
        if (task != NULL) {
            winner[processor - 1] = (uint64_t)task->id << 32 | (uint32_t)task->pid;
            drawn |= (uint64_t)1 << (processor - 1);
        }
        if (record != NULL) {
            fprintf(record, "%s %u", processor == 1 ? "draw" : "", task == NULL ? 0 : task->id);
        }
    }
    if (record != NULL) {
        fprintf(record, "\n");
    }
    return drawn;
}

// ---- start and end

void policy_record(FILE *file) {
    record = file;
}

void policy_start(uint32_t processors, uint64_t quantum, uint32_t seed) {
    lot_sizes sizes = {.tickets = MOST_TASKS + USERS, .currencies = USERS, .threads = MOST_TASKS,
                       .processors = processors, .scripts = 1, .quantum = QUANTUM, .unit = 256, .reuse = 1};
    must(lot_kernel_free(&kernel));
    must(lot_kernel_new(&sizes, &kernel));
    must(lot_generator_new(seed, &generator));
    memset(buckets, 0, sizeof buckets);
    memset(runners, 0, sizeof runners);
    memset(counts, 0, sizeof counts);
    user_count = 0;
    late = unlotted = 0;
    processor_count = processors;
    tick = quantum / QUANTUM;
    if (record != NULL) {
        fprintf(record, "start %u %llu %u\n", processors, (unsigned long long)quantum, seed);
    }
}

void policy_fund(uint32_t uid, uint64_t tickets) {
    add_user(uid, tickets);
    if (record != NULL) {
        fprintf(record, "fund %u %llu\n", uid, (unsigned long long)tickets);
    }
}

void policy_print(FILE *file) {
    static const struct {
        lot_event_kind kind;
        const char *name;
    } shown[] = {{LOT_DRAW, "draws"}, {LOT_OVERRUN, "whole quanta"}, {LOT_PREEMPT, "preempted"},
                 {LOT_YIELD, "yields"}, {LOT_SLEEP, "sleeps"}, {LOT_WAKE, "wakes"}, {LOT_KILL_NUMBERED, "ends"}};
    uint64_t total = 0;
    for (uint32_t i = 0; i < user_count; i++) {
        total += users[i].ticks;
    }
    for (struct user *user = users; user < users + user_count; user++) {
        fprintf(file, "lottery: uid %u, tickets %llu, tasks %llu, ticks %llu, share %.4f\n", user->uid,
                (unsigned long long)user->tickets, (unsigned long long)user->tasks, (unsigned long long)user->ticks,
                total == 0 ? 0 : (double)user->ticks / (double)total);
    }
    fprintf(file, "lottery:");
    for (size_t i = 0; i < sizeof shown / sizeof *shown; i++) {
        fprintf(file, " %s %llu,", shown[i].name, (unsigned long long)counts[shown[i].kind]);
    }
    fprintf(file, " ticks late %llu, nanoseconds outside the lottery %llu\n", (unsigned long long)late,
            (unsigned long long)unlotted);
}
