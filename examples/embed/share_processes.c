// Real processes share one processor by lottery. Two users, alice and bob, hold 2000 and 1000 tickets of base, and
// hand on what they have in currencies of their own: alice's tickets go to her children, bob's to his. Each child
// spins. All are pinned to one processor and stopped; the winner of each draw goes on for a quantum (SIGCONT), and is
// then stopped again (SIGSTOP). In the middle alice starts a third child: her other children get less, and bob's
// share stays.
//
//     share_processes [SECONDS [QUANTUM_IN_MILLISECONDS]]
//
// What is printed beside each child's tickets is its share of the processor time that the operating system has
// measured for all of them, in the first half and in the second. The draws are the same in each run; the measured
// times are not. Linux alone has what this needs.

#define _GNU_SOURCE

#include "lot.h"

#include <errno.h>
#include <sched.h>
#include <signal.h>
#include <stdio.h>
#include <stdlib.h>
#include <sys/prctl.h>
#include <sys/wait.h>
#include <time.h>
#include <unistd.h>

enum { CHILDREN = 4, LATE = 3, QUANTUM = 100 };

// A child, with how many tickets of which user fund it.
static struct {
    const char *name, *user;
    uint64_t tickets;
    double due[2]; // its share of all in each half, by its tickets
    pid_t pid;
    clockid_t clock;
    double seconds[2]; // what was measured in each half
} children[CHILDREN] = {
    {"first", "alice", 100, {2.0 / 9, 1.0 / 9}, 0, 0, {0, 0}},
    {"second", "alice", 200, {4.0 / 9, 2.0 / 9}, 0, 0, {0, 0}},
    {"other", "bob", 100, {3.0 / 9, 3.0 / 9}, 0, 0, {0, 0}},
    {"late", "alice", 300, {0, 3.0 / 9}, 0, 0, {0, 0}},
};

static void stop_all(void) {
    for (int i = 0; i < CHILDREN; i++) {
        if (children[i].pid > 0) {
            kill(children[i].pid, SIGKILL);
            waitpid(children[i].pid, NULL, 0);
            children[i].pid = 0;
        }
    }
}

static void give_up(const char *what) {
    perror(what);
    stop_all();
    exit(2);
}

static void must(uint32_t status) {
    if (status != LOT_DONE) {
        fprintf(stderr, "%s\n", lot_status_text(status));
        stop_all();
        exit(2);
    }
}

static lot_reply answer(lot_kernel *kernel, lot_event event) {
    lot_reply reply;
    must(lot_kernel_event(kernel, &event, &reply));
    return reply;
}

// The last of the processors that this process may use.
static size_t last_processor(void) {
    cpu_set_t set;
    if (sched_getaffinity(0, sizeof set, &set) != 0) {
        give_up("sched_getaffinity");
    }
    size_t last = 0;
    for (size_t i = 0; i < CPU_SETSIZE; i++) {
        if (CPU_ISSET(i, &set)) {
            last = i;
        }
    }
    return last;
}

static void spin(size_t processor) {
    cpu_set_t set;
    CPU_ZERO(&set);
    CPU_SET(processor, &set);
    prctl(PR_SET_PDEATHSIG, SIGKILL);
    if (sched_setaffinity(0, sizeof set, &set) != 0 || getppid() == 1) {
        _exit(1);
    }
    raise(SIGSTOP);
    for (volatile uint64_t turns = 0;; turns++) {
    }
}

static void wait_until_stopped(pid_t pid) {
    int status = 0;
    while (waitpid(pid, &status, WUNTRACED) != pid) {
        if (errno != EINTR) {
            give_up("waitpid");
        }
    }
    if (!WIFSTOPPED(status)) {
        errno = ECHILD;
        give_up("a child has ended");
    }
}

// Starts a child, stopped, and a thread of the kernel for it.
static void start(lot_kernel *kernel, int i, size_t processor) {
    children[i].pid = fork();
    if (children[i].pid < 0) {
        give_up("fork");
    }
    if (children[i].pid == 0) {
        spin(processor);
    }
    wait_until_stopped(children[i].pid);
    if (clock_getcpuclockid(children[i].pid, &children[i].clock) != 0) {
        give_up("clock_getcpuclockid");
    }
    lot_name user = lot_name_of(children[i].user), name = lot_name_of(children[i].name);
    answer(kernel, lot_make_funded(children[i].tickets, user, name, 1));
}

static double used(int i) {
    struct timespec time;
    if (children[i].pid == 0) {
        return 0;
    }
    if (clock_gettime(children[i].clock, &time) != 0) {
        give_up("clock_gettime");
    }
    return (double)time.tv_sec + 1e-9 * (double)time.tv_nsec;
}

// Lets the winner of a draw run for a quantum.
static void run_one(lot_kernel *kernel, uint64_t number, long milliseconds) {
    lot_reply winner = answer(kernel, lot_draw(1, lot_wide_of(number)));
    pid_t pid = children[winner.thread - 1].pid;
    struct timespec quantum = {milliseconds / 1000, milliseconds % 1000 * 1000000};
    kill(pid, SIGCONT);
    while (nanosleep(&quantum, &quantum) != 0 && errno == EINTR) {
    }
    kill(pid, SIGSTOP);
    wait_until_stopped(pid);
    answer(kernel, lot_expire(1));
}

static void run_half(lot_kernel *kernel, lot_generator *generator, int half, long draws, long milliseconds) {
    double before[CHILDREN];
    for (int i = 0; i < CHILDREN; i++) {
        before[i] = used(i);
    }
    for (long k = 0; k < draws; k++) {
        uint64_t number;
        must(lot_generator_number(generator, &number));
        run_one(kernel, number, milliseconds);
    }
    for (int i = 0; i < CHILDREN; i++) {
        children[i].seconds[half] = used(i) - before[i];
    }
}

static void make_user(lot_kernel *kernel, uint64_t ticket, const char *user, uint64_t tickets) {
    answer(kernel, lot_make_currency(lot_name_of(user)));
    answer(kernel, lot_make_ticket(tickets, lot_name_of("base")));
    answer(kernel, lot_fund(ticket, lot_name_of(user)));
}

// Prints each child's measured share of the half beside what is due to it. The largest difference, as a share of all.
static double print_half(const char *title, int half) {
    double all = 0, worst = 0;
    for (int i = 0; i < CHILDREN; i++) {
        all += children[i].seconds[half];
    }
    printf("%s: %.2f seconds of processor time\n", title, all);
    for (int i = 0; i < CHILDREN - 1 + half; i++) {
        double share = all > 0 ? children[i].seconds[half] / all : 0;
        double off = share < children[i].due[half] ? children[i].due[half] - share : share - children[i].due[half];
        printf("  %-6s %3llu of %-5s  due %5.1f%%  measured %5.1f%%\n", children[i].name,
               (unsigned long long)children[i].tickets, children[i].user, 100 * children[i].due[half], 100 * share);
        worst = off > worst ? off : worst;
    }
    return worst;
}

int main(int argc, char **argv) {
    double seconds = argc > 1 ? strtod(argv[1], NULL) : 4;
    long milliseconds = argc > 2 ? strtol(argv[2], NULL, 10) : 5;
    long draws = milliseconds > 0 ? (long)(1000 * seconds / (double)milliseconds / 2) : 0;
    if (draws <= 0) {
        fprintf(stderr, "share_processes [SECONDS [QUANTUM_IN_MILLISECONDS]]\n");
        return 2;
    }
    size_t processor = last_processor();
    lot_kernel kernel = LOT_KERNEL_NONE;
    lot_generator generator;
    must(lot_generator_new(1, &generator));
    lot_sizes sizes = lot_sizes_small();
    sizes.quantum = QUANTUM;
    sizes.unit = 256;
    must(lot_kernel_new(&sizes, &kernel));
    make_user(&kernel, 1, "alice", 2000);
    make_user(&kernel, 2, "bob", 1000);
    for (int i = 0; i < LATE; i++) {
        start(&kernel, i, processor);
    }
    run_half(&kernel, &generator, 0, draws, milliseconds);
    start(&kernel, LATE, processor);
    run_half(&kernel, &generator, 1, draws, milliseconds);
    printf("alice holds 2000 tickets of base and bob 1000; a quantum has %ld milliseconds\n", milliseconds);
    double first = print_half("before alice's third child", 0), second = print_half("after it", 1);
    stop_all();
    must(lot_kernel_free(&kernel));
    // Chance alone moves a share by a few hundredths in so few draws; more than 15 hundredths says that something is
    // wrong.
    return first > 0.15 || second > 0.15;
}
