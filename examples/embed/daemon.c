// A daemon for jobs without end: they come, work, sleep while their device does, wake, and end. Three users share one
// processor by the tickets of their currencies, however many jobs each has.
//
// A million jobs come, and at most 24 are there at once, in one kernel of 4096 threads, the most that a kernel has.
// `reuse` lets the next job have the numbers of one that was buried: of its ticket and its thread, which are removed. A
// job has no name: its number refers to it.
//
// One burst in a hundred is stuck: it would go on for ever. The daemon kills its job once it has worked for 450 ticks
// without sleep. At that time the job runs, in the middle of a quantum. So the daemon preempts it first, which charges
// it for the 50 ticks of this quantum. A kill charges nothing, and leaves the processor idle for the next draw.

#include "lot.h"

#include <stdio.h>
#include <stdlib.h>

enum { USERS = 3, PLACES = 24, JOBS = 1000000, THREADS = 4096, QUANTUM = 100, PATIENCE = 450 };

// Users have 3, 2 and 1 tickets of base, and 12, 8 and 4 of the places.
static struct user {
    const char *name;
    uint64_t tickets;
    uint32_t currency, jobs, killed;
    uint64_t ticks;
} users[USERS] = {{"alice", 3, 0, 0, 0, 0}, {"bob", 2, 0, 0, 0, 0}, {"carol", 1, 0, 0, 0, 0}};

// The job at a place, with the ticks that are left of its burst, and those that it has worked since it last slept. It
// sleeps until `wakes`, if that isn't 0.
static struct job {
    struct user *user;
    uint32_t thread, ticket, bursts, left, worked;
    uint64_t wakes;
} jobs[PLACES];

static lot_kernel kernel = LOT_KERNEL_NONE;
static lot_generator generator;
static struct job *job_of[THREADS + 1]; // by the thread's number
static uint64_t now;
static uint32_t made;

static void must(uint32_t status) {
    if (status != LOT_DONE) {
        fprintf(stderr, "%s\n", lot_status_text(status));
        exit(1);
    }
}

static lot_reply answer(lot_event event) {
    lot_reply reply;
    must(lot_kernel_event(&kernel, &event, &reply));
    if (lot_refused(&reply)) {
        fprintf(stderr, "%s\n", lot_refusal_text(reply.reason));
        exit(1);
    }
    return reply;
}

static uint64_t drawn(void) {
    uint64_t number;
    must(lot_generator_number(&generator, &number));
    return number;
}

static uint32_t from_to(uint32_t least, uint32_t most) {
    return least + (uint32_t)(drawn() % (most - least + 1));
}

static void make_user(struct user *user) {
    user->currency = answer(lot_make_currency(lot_name_of(user->name))).currency;
    uint64_t ticket = answer(lot_make_ticket(user->tickets, lot_name_of("base"))).ticket;
    answer(lot_fund_currency(ticket, user->currency));
}

static uint32_t burst(void) {
    return from_to(1, 100) == 1 ? UINT32_MAX : from_to(10, 150);
}

// Starts a job at a place.
static void start(struct job *job) {
    lot_reply reply = answer(lot_make_funded_in(100, job->user->currency, lot_no_name(), 1));
    *job = (struct job){job->user, reply.thread, reply.ticket, from_to(1, 2), burst(), 0, 0};
    job_of[job->thread] = job;
    job->user->jobs++;
    made++;
}

// Removes what an ended job leaves, and starts the next one at its place.
static void bury(struct job *job) {
    answer(lot_unfund(job->ticket));
    answer(lot_remove_ticket(job->ticket));
    answer(lot_remove_thread_numbered(job->thread));
    if (made < JOBS) {
        start(job);
    }
}

// Runs a job until its quantum ends, or its burst: it sleeps then, or ends with its last burst. One that is stuck runs
// until the daemon's patience ends.
static void run(struct job *job) {
    struct user *user = job->user;
    lot_reply reply;
    if (job->worked + QUANTUM > PATIENCE) {
        reply = answer(lot_preempt(1, PATIENCE - job->worked));
        answer(lot_kill_numbered(job->thread));
        user->killed++;
        bury(job);
    } else if (job->left >= QUANTUM) {
        job->left -= QUANTUM;
        job->worked += QUANTUM;
        reply = answer(lot_expire(1));
    } else if (--job->bursts > 0) {
        reply = answer(lot_sleep(1, job->left));
        job->left = burst();
        job->worked = 0;
        job->wakes = now + reply.ticks + from_to(50, 500);
    } else {
        reply = answer(lot_exit(1, job->left));
        bury(job);
    }
    user->ticks += reply.ticks;
    now += reply.ticks;
}

static void wake_all(void) {
    for (struct job *job = jobs; job < jobs + PLACES; job++) {
        if (job->wakes != 0 && job->wakes <= now) {
            job->wakes = 0;
            answer(lot_wake(job->thread));
        }
    }
}

// Where nobody is ready the clock goes on.
static void step(void) {
    wake_all();
    lot_reply reply = answer(lot_draw(1, lot_wide_of(drawn())));
    if (reply.kind == LOT_REPLY_IDLE) {
        now++;
    } else {
        run(job_of[reply.thread]);
    }
}

int main(void) {
    lot_sizes sizes = {.tickets = THREADS + USERS, .currencies = USERS, .threads = THREADS, .processors = 1,
                       .scripts = 1, .quantum = QUANTUM, .unit = 256, .reuse = 1};
    must(lot_generator_new(1, &generator));
    must(lot_kernel_new(&sizes, &kernel));
    for (int i = 0; i < USERS; i++) {
        make_user(&users[i]);
    }
    for (int i = 0; i < PLACES; i++) {
        jobs[i].user = &users[i < 12 ? 0 : i < 20 ? 1 : 2];
        start(&jobs[i]);
    }
    while (made < JOBS) {
        step();
    }
    for (int i = 0; i < USERS; i++) {
        printf("%-5s %llu of 6 tickets: %4.1f%% of the ticks, %u jobs, of which %u were killed\n", users[i].name,
               (unsigned long long)users[i].tickets, 100.0 * (double)users[i].ticks / (double)now, users[i].jobs,
               users[i].killed);
    }
    must(lot_kernel_free(&kernel));
    return 0;
}
