// A scheduler for Linux tasks of the policy SCHED_EXT: the library decides, in user space, which of them runs.
//
//     lot_scx [-q MICROSECONDS] [-s SEED] [-r RECORD] [UID=TICKETS ...]
//
// Each user is a currency that TICKETS of base fund, or 100. Each of the user's tasks is a thread that a ticket of its
// currency funds, of amount 100 for a nice of 0, and more or less for another one. lot.bpf.c tells what happens to
// tasks, and starts the winners; policy.c makes events of the one and the other of replies. All other tasks, this one
// too, stay with Linux's own scheduler. It goes on until SIGINT or SIGTERM. With -r it writes a record, for replay.c.

#define _GNU_SOURCE

#include "policy.h"

#include <bpf/bpf.h>
#include <bpf/libbpf.h>
#include <errno.h>
#include <signal.h>
#include <stdbool.h>
#include <stdlib.h>
#include <string.h>
#include <sys/mman.h>
#include <sys/resource.h>
#include <unistd.h>

extern const unsigned char lot_object[], lot_object_end[]; // object.S

static uint64_t quantum = 20000000; // in nanoseconds
static uint32_t seed = 1;
static FILE *record;

static struct shared *shared;
static int kick_program;
static uint64_t latest; // the time of the latest event
static volatile sig_atomic_t is_stopped;

static void fail(const char *what) {
    fprintf(stderr, "lot_scx: %s\n", what);
    exit(1);
}

// ---- what happens, and who wins

static int hear(void *context, void *data, size_t size) {
    const struct told_event *told = data;
    (void)context;
    (void)size;
    latest = told->at;
    policy_hear(told);
    return 0;
}

// Stores the winners where the BPF program takes them, and wakes their processors.
static void start_winners(void) {
    uint64_t winner[MOST_PROCESSORS];
    struct kick kick = {policy_draw(winner)};
    struct bpf_test_run_opts options = {.sz = sizeof options, .ctx_in = &kick, .ctx_size_in = sizeof kick};
    for (uint32_t processor = 0; processor < MOST_PROCESSORS; processor++) {
        if (kick.processors >> processor & 1) {
            shared->since[processor] = latest;
            __atomic_store_n(&shared->winner[processor], winner[processor], __ATOMIC_RELEASE);
        }
    }
    if (kick.processors != 0 && bpf_prog_test_run_opts(kick_program, &options) != 0) {
        fail("the processors don't wake");
    }
}

// ---- the start

// Returns how many processors there are. They have to be numbered without a gap, as those of the library are.
static uint32_t count_processors(void) {
    unsigned last = 0;
    char end = 0, line[64] = "";
    FILE *file = fopen("/sys/devices/system/cpu/online", "r");
    if (file == NULL || fgets(line, sizeof line, file) == NULL) {
        fail("Linux doesn't say which processors there are");
    }
    fclose(file);
    bool is_range = sscanf(line, "0-%u%c", &last, &end) == 2 && end == '\n' && last < MOST_PROCESSORS;
    if (!is_range && strcmp(line, "0\n") != 0) {
        fail("the processors aren't 0 to 63 at most, without a gap");
    }
    return last + 1;
}

static uint64_t number_of(const char *text, uint64_t least, uint64_t most, const char *what) {
    char *end;
    uint64_t number = strtoull(text, &end, 10);
    if (*text == 0 || *end != 0 || number < least || number > most) {
        fail(what);
    }
    return number;
}

static void take_options(int count, char **words) {
    for (int option; (option = getopt(count, words, "q:s:r:")) != -1;) {
        switch (option) {
        case 'q': quantum = 1000 * number_of(optarg, 1000, 1000000, "-q: 1000 to 1000000 microseconds"); break;
        case 's': seed = (uint32_t)number_of(optarg, 1, 2147483646, "-s: a seed is 1 to 2147483646"); break;
        case 'r': record = fopen(optarg, "w"); break;
        default: fail("usage: lot_scx [-q MICROSECONDS] [-s SEED] [-r RECORD] [UID=TICKETS ...]");
        }
        if (option == 'r' && record == NULL) {
            fail("-r: the record can't be written");
        }
    }
}

static void start_lottery(uint32_t processors, int count, char **words) {
    policy_record(record);
    policy_start(processors, quantum, seed);
    for (int i = 0; i < count; i++) {
        unsigned uid, tickets;
        if (sscanf(words[i], "%u=%u", &uid, &tickets) != 2) {
            fail("a user and its tickets are UID=TICKETS");
        }
        policy_fund(uid, tickets);
    }
}

static struct bpf_object *load(uint32_t processors) {
    struct bpf_object_open_opts options = {.sz = sizeof options, .object_name = "lot"};
    struct bpf_object *object = bpf_object__open_mem(lot_object, (size_t)(lot_object_end - lot_object), &options);
    if (object == NULL || bpf_object__load(object) != 0) {
        fail("Linux doesn't load the BPF program: it takes root, and a Linux with sched_ext");
    }
    kick_program = bpf_program__fd(bpf_object__find_program_by_name(object, "lot_kick"));
    shared = mmap(NULL, sizeof *shared, PROT_READ | PROT_WRITE, MAP_SHARED,
                  bpf_object__find_map_fd_by_name(object, "shared_page"), 0);
    if (shared == MAP_FAILED) {
        fail("there is no shared page");
    }
    shared->quantum = quantum;
    shared->processors = processors;
    return object;
}

static void on_signal(int number) {
    (void)number;
    is_stopped = 1;
}

// This program must run whenever something has happened, and its memory must be there.
static void be_ready(void) {
    struct sigaction action = {.sa_handler = on_signal};
    sigaction(SIGINT, &action, NULL);
    sigaction(SIGTERM, &action, NULL);
    if (mlockall(MCL_CURRENT | MCL_FUTURE) != 0 || setpriority(PRIO_PROCESS, 0, -20) != 0) {
        fail("Linux gives no priority");
    }
}

// ---- the end

static void print_counts(void) {
    struct rusage usage;
    getrusage(RUSAGE_SELF, &usage);
    policy_print(stdout);
    printf("lot_scx: started %llu, vanished %llu, outside %llu, kept %llu, dropped %llu\n", shared->started,
           shared->vanished, shared->outside, shared->kept, shared->dropped);
    printf("lot_scx: from event to start %.0f ns, at most %llu; it took %ld.%06ld s as user and %ld.%06ld as system\n",
           shared->started == 0 ? 0 : (double)shared->wait_sum / (double)shared->started, shared->wait_most,
           (long)usage.ru_utime.tv_sec, (long)usage.ru_utime.tv_usec, (long)usage.ru_stime.tv_sec,
           (long)usage.ru_stime.tv_usec);
}

// Schedules until a signal comes, or until Linux or a lost event ends it.
static void schedule(struct ring_buffer *ring) {
    while (!is_stopped && shared->exit_kind == 0 && shared->dropped == 0) {
        int heard = ring_buffer__poll(ring, 200);
        if (heard < 0 && heard != -EINTR) {
            fail("the ring of events is broken");
        }
        if (heard > 0) {
            start_winners();
        }
    }
}

int main(int count, char **words) {
    uint32_t processors = count_processors();
    take_options(count, words);
    start_lottery(processors, count - optind, words + optind);
    struct bpf_object *object = load(processors);
    struct ring_buffer *ring = ring_buffer__new(bpf_object__find_map_fd_by_name(object, "events"), hear, NULL, NULL);
    be_ready();
    struct bpf_link *link = bpf_map__attach_struct_ops(bpf_object__find_map_by_name(object, "lot_ops"));
    if (ring == NULL || link == NULL) {
        fail("sched_ext doesn't take the scheduler");
    }
    printf("lot_scx: schedules %u processors, in quanta of %llu us\n", processors, (unsigned long long)quantum / 1000);
    fflush(stdout);
    schedule(ring);
    uint32_t kind = shared->exit_kind; // the next line sets it too
    bpf_link__destroy(link);
    print_counts();
    if (kind != 0) {
        printf("lot_scx: Linux has ended the scheduler, kind %u; its log says why\n", kind);
    }
    return kind != 0 || shared->dropped != 0;
}
