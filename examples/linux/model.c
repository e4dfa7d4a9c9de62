// Tries policy.c on a model of Linux's processors and tasks, and compares what tasks had with what is due to them.
//
// The model tells the same events as lot.bpf.c, in the same order. A quantum ends at the first tick of the clock after
// its time, so it is late. Where nothing else is said, a group's due is its user's part of all tickets.

#include "policy.h"

#include <stdbool.h>
#include <stdlib.h>

enum { TASKS = 512, GROUPS = 3, CLOCK = 1000000, QUANTUM = 5000000, SEED = 1 };
static const uint64_t HALF = 30000000000; // of each trial, in nanoseconds

// After a burst a task may end, and then another one comes; or it yields or sleeps.
enum after { ENDS, YIELDS, SLEEPS };

// Tasks alike. A burst of 0 has no end.
struct group {
    uint32_t uid, count;
    uint64_t burst, pause;
    enum after after;
    double due; // its part of what all tasks have run
};

struct task {
    const struct group *group;
    uint32_t id, uid, weight; // no id is given twice: modulo TASKS it is the place from 1
    uint64_t left, wakes; // of its burst; when it is ready
    uint64_t told, total; // what it had run at its last event, and until now
    int processor;        // -1 if it doesn't run
    bool is_ready, lives;
};

static struct task tasks[TASKS];
static uint32_t task_count, processor_count;
static uint64_t now, began[MOST_PROCESSORS]; // when the quantum of each processor began

static void tell(struct task *task, enum told kind) {
    struct told_event event = {.ran = task->total - task->told, .id = task->id, .pid = (int32_t)task->id,
                               .uid = task->uid, .weight = task->weight, .kind = kind};
    task->told = task->total;
    policy_hear(&event);
}

static void add(const struct group *group) {
    struct task *task = &tasks[task_count++];
    *task = (struct task){.group = group, .id = task_count, .uid = group->uid, .weight = 100, .left = group->burst,
                          .processor = -1, .is_ready = true, .lives = true};
    tell(task, TOLD_READY);
}

// ---- what happens in the middle of a trial, to the second task

static void change_user(void) { tasks[1].uid = 1003; }

static void make_nice(void) { tasks[1].weight = 33; }

// Linux takes the task from its processor, if it has one, and it is away until `wakes`.
static void take(enum told kind, uint64_t wakes) {
    if (tasks[1].processor >= 0) {
        tasks[1].processor = -1;
        tell(&tasks[1], TOLD_READY);
    }
    tell(&tasks[1], kind);
    tasks[1].is_ready = false;
    tasks[1].wakes = wakes;
    tasks[1].lives = kind != TOLD_DEAD;
}

static void block(void) { take(TOLD_ASLEEP, now + HALF / 2); }

static void leave(void) { take(TOLD_LEFT, now + HALF / 2); }

static void die(void) { take(TOLD_DEAD, 0); }

// ---- time

static void wake_sleepers(void) {
    for (struct task *task = tasks; task < tasks + task_count; task++) {
        if (task->lives && !task->is_ready && task->wakes <= now) {
            task->is_ready = true;
            task->left = task->group->burst;
            tell(task, TOLD_READY);
        }
    }
}

static void start_winners(void) {
    uint64_t winner[MOST_PROCESSORS], drawn = policy_draw(winner);
    for (uint32_t processor = 0; processor < processor_count; processor++) {
        if (drawn >> processor & 1) {
            tasks[((winner[processor] >> 32) - 1) % TASKS].processor = (int)processor;
            began[processor] = now;
        }
    }
}

static void end_burst(struct task *task) {
    static const enum told told[] = {[ENDS] = TOLD_DEAD, [YIELDS] = TOLD_YIELDED, [SLEEPS] = TOLD_ASLEEP};
    enum after after = task->group->after;
    task->processor = -1;
    task->left = task->group->burst;
    task->is_ready = after != SLEEPS;
    task->wakes = now + task->group->pause;
    tell(task, told[after]);
    if (after == ENDS) {
        task->id += TASKS;
        tell(task, TOLD_READY);
    }
}

// Every processor runs until the next tick of the clock, or until its task's burst ends.
static void run_tick(void) {
    now += CLOCK;
    for (struct task *task = tasks; task < tasks + task_count; task++) {
        if (task->processor < 0) {
            continue;
        }
        bool ends = task->group->burst != 0 && task->left <= CLOCK;
        uint64_t step = ends ? task->left : CLOCK;
        task->total += step;
        task->left -= task->group->burst != 0 ? step : 0;
        if (ends) {
            end_burst(task);
        } else if (now - began[task->processor] > QUANTUM) {
            task->processor = -1;
            tell(task, TOLD_READY);
        }
    }
}

static void run(uint64_t time) {
    for (uint64_t end = now + time; now < end;) {
        wake_sleepers();
        start_winners();
        run_tick();
    }
}

// ---- trials

// On two processors, whose quanta end in turn, each draw is among all but the one task that runs. So a task that weighs
// w of all W wins in proportion to w * (W - w): 3 * 2/9 * 7/9 to 2 * 1/6 * 5/6 is 28 to 15.
//
// A quantum takes 6 ms in place of 5, so a hog weighs 5/6. The sleeper has used a fifth of its quantum and weighs 5, so
// it wins 6 of 7 draws after a quantum of the hog: it has 6 * 1 ms for each 7 * 6 of the hog. One that yields wins 6 of
// 7 draws too, but may win the next one as well: it has 6 * 1 ms for each 1 * 6. A task that ends leaves no weight
// behind: such tasks weigh 1 together and win 6 of 11 draws, so they have 6 * 1 ms for each 5 * 6 of the hog.
static const struct trial {
    const char *name;
    uint32_t processors;
    uint64_t tickets[2]; // of users 1001 and 1002; nobody funds 1003
    void (*change)(void);
    struct group groups[GROUPS];
} trials[] = {
    {"a hog each", 1, {2000, 1000}, NULL,
     {{1001, 1, 0, 0, ENDS, 2.0 / 3}, {1002, 1, 0, 0, ENDS, 1.0 / 3}}},
    {"three hogs and two", 1, {2000, 1000}, NULL,
     {{1001, 3, 0, 0, ENDS, 2.0 / 3}, {1002, 2, 0, 0, ENDS, 1.0 / 3}}},
    {"the user with more hogs is poor", 1, {1000, 2000}, NULL,
     {{1001, 3, 0, 0, ENDS, 1.0 / 3}, {1002, 2, 0, 0, ENDS, 2.0 / 3}}},
    {"400 tasks, each of which ends after 1 ms", 1, {100, 100}, NULL,
     {{1001, 1, 0, 0, ENDS, 5.0 / 6}, {1002, 400, 1000000, 0, ENDS, 1.0 / 6}}},
    {"two processors", 2, {2000, 1000}, NULL,
     {{1001, 3, 0, 0, ENDS, 28.0 / 43}, {1002, 2, 0, 0, ENDS, 15.0 / 43}}},
    {"one yields after 1 ms", 1, {100, 100}, NULL,
     {{1001, 1, 0, 0, ENDS, 1.0 / 2}, {1002, 1, 1000000, 0, YIELDS, 1.0 / 2}}},
    {"one sleeps after 1 ms", 1, {100, 100}, NULL,
     {{1001, 1, 0, 0, ENDS, 7.0 / 8}, {1002, 1, 1000000, 1000000, SLEEPS, 1.0 / 8}}},
    // The second task has 1/4 before, and 1/3 after.
    {"a task changes its user", 1, {100, 100}, change_user,
     {{1001, 1, 0, 0, ENDS, 7.0 / 24}, {1001, 1, 0, 0, ENDS, 7.0 / 24}, {1002, 1, 0, 0, ENDS, 5.0 / 12}}},
    // It has 1/4 before, and 33/133 of a half after.
    {"a task becomes nice", 1, {100, 100}, make_nice,
     {{1001, 1, 0, 0, ENDS, 333.0 / 1064}, {1001, 1, 0, 0, ENDS, 199.0 / 1064}, {1002, 1, 0, 0, ENDS, 1.0 / 2}}},
    // It has 1/2 of three quarters of the time, or of the first half alone.
    {"a task blocks as it waits", 1, {100, 100}, block,
     {{1001, 1, 0, 0, ENDS, 5.0 / 8}, {1002, 1, 0, 0, ENDS, 3.0 / 8}}},
    {"a task leaves and comes back", 1, {100, 100}, leave,
     {{1001, 1, 0, 0, ENDS, 5.0 / 8}, {1002, 1, 0, 0, ENDS, 3.0 / 8}}},
    {"a task dies as it waits", 1, {100, 100}, die,
     {{1001, 1, 0, 0, ENDS, 3.0 / 4}, {1002, 1, 0, 0, ENDS, 1.0 / 4}}},
};

static void start(const struct trial *trial) {
    task_count = 0;
    now = 0;
    processor_count = trial->processors;
    policy_start(trial->processors, QUANTUM, SEED);
    policy_fund(1001, trial->tickets[0]);
    policy_fund(1002, trial->tickets[1]);
    for (const struct group *group = trial->groups; group < trial->groups + GROUPS; group++) {
        for (uint32_t i = 0; i < group->count; i++) {
            add(group);
            if (task_count == 1) {
                run(QUANTUM / 2); // so that no two processors' quanta end at once
            }
        }
    }
}

// Prints what each group had, and returns whether all is within 0.015 of its due.
static bool is_near(const struct trial *trial) {
    uint64_t had[GROUPS] = {0}, total = 0;
    bool is_right = true;
    for (struct task *task = tasks; task < tasks + task_count; task++) {
        had[task->group - trial->groups] += task->total;
        total += task->total;
    }
    for (size_t i = 0; i < GROUPS && trial->groups[i].count != 0; i++) {
        double share = (double)had[i] / (double)total, off = share - trial->groups[i].due;
        bool is_off = off > 0.015 || off < -0.015;
        printf("%s: user %u had %.4f, due %.4f%s\n", trial->name, trial->groups[i].uid, share, trial->groups[i].due,
               is_off ? ": WRONG" : "");
        is_right = is_right && !is_off;
    }
    return is_right;
}

int main(void) {
    bool is_right = true;
    for (const struct trial *trial = trials; trial < trials + sizeof trials / sizeof *trials; trial++) {
        start(trial);
        run(HALF);
        if (trial->change != NULL) {
            trial->change();
        }
        run(HALF);
        is_right = is_near(trial) && is_right;
    }
    return is_right ? EXIT_SUCCESS : EXIT_FAILURE;
}
