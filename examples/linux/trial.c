// Runs processes of several users for a time, and prints the processor time that each user got.
//
//     trial NAME SECONDS ext|other UID:TICKETS:KIND:COUNT ...
//
// KIND is one of `kinds` below, COUNT how many there are. With `ext` they have the policy SCHED_EXT. TICKETS are what
// is due to the user, and only printed: the scheduler has its own table.

#define _GNU_SOURCE

#include <sched.h>
#include <signal.h>
#include <stdbool.h>
#include <stdint.h>
#include <stdio.h>
#include <stdlib.h>
#include <string.h>
#include <sys/prctl.h>
#include <sys/resource.h>
#include <sys/wait.h>
#include <time.h>
#include <unistd.h>

enum { POLICY_EXT = 7, GROUPS = 16, MILLISECOND = 1000000 };

struct kind;

static struct group {
    const struct kind *kind;
    unsigned uid, tickets, count;
    pid_t leader; // of the group of processes
    uint64_t ran, least, most; // nanoseconds, of all and of one
    unsigned ended;
} groups[GROUPS];
static int group_count, gate[2];
static bool is_ext;

static void fail(const char *what) {
    perror(what);
    exit(1);
}

static uint64_t clock_of(clockid_t clock) {
    struct timespec time;
    clock_gettime(clock, &time);
    return (uint64_t)time.tv_sec * 1000000000 + (uint64_t)time.tv_nsec;
}

static void compute(uint64_t nanoseconds) {
    uint64_t end = clock_of(CLOCK_PROCESS_CPUTIME_ID) + nanoseconds;
    while (clock_of(CLOCK_PROCESS_CPUTIME_ID) < end) {
        for (volatile int i = 0; i < 1000; i++) {
        }
    }
}

// ---- what a process does

static void hog(unsigned count) {
    (void)count;
    for (volatile unsigned long i = 0;; i++) {
    }
}

static void sleep_often(uint64_t work, long sleep) {
    struct timespec pause = {0, sleep};
    for (;;) {
        compute(work);
        nanosleep(&pause, NULL);
    }
}

static void wait_for_disk(unsigned count) {
    (void)count;
    sleep_often(2 * MILLISECOND, 8 * MILLISECOND);
}

static void wake(unsigned count) {
    (void)count;
    sleep_often(MILLISECOND / 10, 10 * MILLISECOND);
}

static void yield(unsigned count) {
    (void)count;
    for (;;) {
        compute(MILLISECOND);
        sched_yield();
    }
}

static void fork_often(unsigned count) {
    for (;;) {
        for (unsigned i = 0; i < count; i++) {
            if (fork() == 0) {
                compute(50 * MILLISECOND);
                _exit(0);
            }
        }
        while (wait(NULL) > 0) {
        }
    }
}

static void be_nice(unsigned count) {
    setpriority(PRIO_PROCESS, 0, 5);
    hog(count);
}

static void pin(unsigned count) {
    cpu_set_t first;
    CPU_ZERO(&first);
    CPU_SET(0, &first);
    sched_setaffinity(0, sizeof first, &first);
    hog(count);
}

static const struct kind {
    const char *name;
    void (*run)(unsigned count);
    bool is_one; // which makes COUNT more by itself
} kinds[] = {
    {"hog", hog, false},         // computes
    {"io", wait_for_disk, false}, // computes for 2 ms and sleeps for 8
    {"wakes", wake, false},      // computes for 0.1 ms and sleeps for 10
    {"yields", yield, false},    // computes for 1 ms and calls sched_yield
    {"bomb", fork_often, true},  // forks COUNT that compute for 50 ms, and COUNT more when all have ended
    {"nice", be_nice, false},    // a hog with a nice value of 5
    {"pinned", pin, false},      // a hog on processor 0
};

static const struct kind *kind_of(const char *name) {
    for (size_t i = 0; i < sizeof kinds / sizeof *kinds; i++) {
        if (strcmp(kinds[i].name, name) == 0) {
            return &kinds[i];
        }
    }
    fprintf(stderr, "trial: no such kind: %s\n", name);
    exit(2);
}

// ---- groups

// The child waits at the gate with the ordinary policy, and begins when all are there.
static void begin(const struct group *group) {
    char byte;
    struct sched_param priority = {0};
    setpgid(0, group->leader);
    if (setgid(group->uid) != 0 || setuid(group->uid) != 0) {
        fail("setuid");
    }
    close(gate[1]);
    if (read(gate[0], &byte, 1) < 0) {
        fail("read");
    }
    if (is_ext && sched_setscheduler(0, POLICY_EXT, &priority) != 0) {
        fail("SCHED_EXT");
    }
    group->kind->run(group->count);
}

static void start(struct group *group) {
    unsigned count = group->kind->is_one ? 1 : group->count;
    for (unsigned i = 0; i < count; i++) {
        pid_t pid = fork();
        if (pid < 0) {
            fail("fork");
        }
        if (pid == 0) {
            begin(group);
        }
        group->leader = group->leader == 0 ? pid : group->leader;
        setpgid(pid, group->leader);
    }
}

static void start_all(int count, char **words) {
    for (int i = 0; i < count && i < GROUPS; i++) {
        struct group *group = &groups[group_count++];
        char kind[8];
        if (sscanf(words[i], "%u:%u:%7[a-z]:%u", &group->uid, &group->tickets, kind, &group->count) != 4) {
            fprintf(stderr, "trial: no group: %s\n", words[i]);
            exit(2);
        }
        group->kind = kind_of(kind);
        start(group);
    }
}

static uint64_t nanoseconds(struct timeval time) {
    return (uint64_t)time.tv_sec * 1000000000 + (uint64_t)time.tv_usec * 1000;
}

// Ends the group and adds up what its processes ran. Orphans among them are this process's children too.
static void reap(struct group *group) {
    struct rusage usage;
    group->least = UINT64_MAX;
    while (kill(-group->leader, SIGKILL), wait4(-group->leader, NULL, 0, &usage) > 0) {
        uint64_t ran = nanoseconds(usage.ru_utime) + nanoseconds(usage.ru_stime);
        group->ran += ran;
        group->ended++;
        group->least = ran < group->least ? ran : group->least;
        group->most = ran > group->most ? ran : group->most;
    }
}

static void print(const char *name, double took) {
    double tickets = 0, total = 0;
    for (int i = 0; i < group_count; i++) {
        tickets += groups[i].tickets;
        total += (double)groups[i].ran;
    }
    for (int i = 0; i < group_count; i++) {
        const struct group *group = &groups[i];
        printf("trial %s %s: uid %u %s x %u: %.3f s of %.3f, share %.4f, tickets %.4f, each %.3f to %.3f s, %u ended\n",
               name, is_ext ? "ext" : "other", group->uid, group->kind->name, group->count, (double)group->ran / 1e9,
               took, (double)group->ran / total, group->tickets / tickets, (double)group->least / 1e9,
               (double)group->most / 1e9, group->ended);
    }
}

int main(int count, char **words) {
    if (count < 5) {
        fprintf(stderr, "usage: trial NAME SECONDS ext|other UID:TICKETS:KIND:COUNT ...\n");
        return 2;
    }
    is_ext = strcmp(words[3], "ext") == 0;
    if (prctl(PR_SET_CHILD_SUBREAPER, 1) != 0 || pipe(gate) != 0) {
        fail("pipe");
    }
    start_all(count - 4, words + 4);
    close(gate[0]);
    uint64_t began = clock_of(CLOCK_MONOTONIC);
    close(gate[1]); // all begin
    sleep((unsigned)atoi(words[2]));
    for (int i = 0; i < group_count; i++) {
        kill(-groups[i].leader, SIGKILL);
    }
    double took = (double)(clock_of(CLOCK_MONOTONIC) - began) / 1e9;
    for (int i = 0; i < group_count; i++) {
        reap(&groups[i]);
    }
    print(words[1], took);
    return 0;
}
