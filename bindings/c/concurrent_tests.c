// Tests of threads and of signal handlers over the archive: what lot.h says that they may do.
//
// What a kernel answers and shows depends on nothing but the order of its events. So each test notes that order, gives
// the same events to a fresh kernel with nothing beside it, and compares replies and rows.
//
// It prints a line for each test, and ends with status 1 at the first thing that is not as it should be.

#define _DEFAULT_SOURCE

#include "lot.h"

#include <pthread.h>
#include <sched.h>
#include <signal.h>
#include <stdio.h>
#include <stdlib.h>
#include <string.h>
#include <sys/time.h>
#include <time.h>

// The thread sanitizer hands a signal on when one of its own functions is called, and so hardly ever amid a turn.
#if defined(__SANITIZE_THREAD__)
#define HOLDS_SIGNALS 1
#elif defined(__has_feature)
#if __has_feature(thread_sanitizer)
#define HOLDS_SIGNALS 1
#endif
#endif
#ifndef HOLDS_SIGNALS
#define HOLDS_SIGNALS 0
#endif

enum {
    WORKERS = 4,
    DRAWS = 10000,      // of each worker
    READS = 20000,      // of each worker
    SIGNALS = 2000,     // that are handled in each test of them
    MICROSECONDS = 100, // between two signals
    SECONDS = 2,        // after which a test of signals takes what has come
    THREADS = 12,       // of each kernel
    NOTED = 4000000     // turns at most
};

static void check(bool holds, const char *text, int line) {
    if (!holds) {
        printf("line %d: not so: %s\n", line, text);
        exit(1);
    }
}

#define CHECK(holds) check((holds), #holds, __LINE__)

// ---- kernels and what they show

// A kernel with a processor for each worker, and more threads than processors.
static lot_kernel made(void) {
    lot_kernel kernel = LOT_KERNEL_NONE;
    lot_sizes sizes = lot_sizes_small();
    sizes.processors = WORKERS;
    CHECK(lot_kernel_new(&sizes, &kernel) == LOT_DONE);
    for (uint32_t i = 0; i < THREADS; i++) {
        lot_event event = lot_make_funded(10 + i, lot_name_of("base"), lot_no_name(), 1);
        lot_reply reply;
        CHECK(lot_kernel_event(&kernel, &event, &reply) == LOT_DONE && reply.thread == i + 1);
    }
    return kernel;
}

static void give_up(lot_kernel *kernel) {
    CHECK(lot_kernel_free(kernel) == LOT_DONE);
}

static lot_thread_row row_of(lot_kernel *kernel, uint32_t thread) {
    lot_thread_row row;
    CHECK(lot_kernel_thread_row(kernel, thread, &row) == LOT_DONE);
    return row;
}

// Whether two kernels show the same threads.
static bool same_rows(lot_kernel *first, lot_kernel *second) {
    for (uint32_t thread = 1; thread <= THREADS; thread++) {
        lot_thread_row a = row_of(first, thread), b = row_of(second, thread);
        if (memcmp(&a, &b, offsetof(lot_thread_row, name) + sizeof a.name) != 0) {
            return false;
        }
    }
    return true;
}

// ---- players

// Holds draws on a processor, and ends each quantum that is won there. What it does depends on its number alone.
struct player {
    lot_kernel *kernel;
    uint32_t processor;
    lot_generator generator;
    bool runs;                                // somebody does, on its processor
    unsigned long turns, wins;                // that it has had
    uint64_t quanta[THREADS], ticks[THREADS]; // of each thread, on its processor
    uint64_t sum;                             // of its replies' bytes, each at another weight
};

static struct player player_of(lot_kernel *kernel, uint32_t number) {
    struct player player = {.kernel = kernel, .processor = number};
    CHECK(lot_generator_new(number, &player.generator) == LOT_DONE);
    return player;
}

static lot_event next_event(struct player *player) {
    uint64_t number = 0;
    CHECK(lot_generator_number(&player->generator, &number) == LOT_DONE);
    if (!player->runs) {
        return lot_draw(player->processor, lot_wide_of(number));
    }
    return number % 4 == 0 ? lot_yield(player->processor, (uint32_t)(number % 90)) : lot_expire(player->processor);
}

static void add_to_sum(struct player *player, const lot_reply *reply) {
    const unsigned char *bytes = (const unsigned char *)reply;
    for (size_t i = 0; i < offsetof(lot_reply, ends) + sizeof reply->ends; i++) {
        player->sum = player->sum * 31 + bytes[i];
    }
}

// One event. A draw always has a winner, since more threads are ready than there are processors.
static void play(struct player *player) {
    lot_event event = next_event(player);
    lot_reply reply;
    CHECK(lot_kernel_event(player->kernel, &event, &reply) == LOT_DONE);
    CHECK(reply.kind == (player->runs ? event.kind == LOT_YIELD ? LOT_REPLY_TRAPPED : LOT_REPLY_EXPIRED
                                      : LOT_REPLY_WINNER));
    player->runs = reply.kind == LOT_REPLY_WINNER;
    player->turns++;
    player->wins += player->runs;
    player->quanta[reply.thread - 1] += player->runs;
    player->ticks[reply.thread - 1] += reply.ticks;
    add_to_sum(player, &reply);
}

// Whether two players had the same replies.
static bool same_replies(const struct player *first, const struct player *second) {
    return first->turns == second->turns && first->sum == second->sum;
}

// The same turns of a player, in a kernel with nothing beside it.
static void check_alone(struct player *player) {
    lot_kernel kernel = made();
    struct player alone = player_of(&kernel, player->processor);
    while (alone.turns < player->turns) {
        play(&alone);
    }
    CHECK(same_replies(&alone, player) && same_rows(&kernel, player->kernel));
    give_up(&kernel);
}

// ---- the order of turns

// Whose turn it was, in order, where players share a kernel.
static uint8_t order[NOTED];
static size_t noted;

static void play_and_note(struct player *player) {
    CHECK(noted < NOTED);
    play(player);
    order[noted++] = (uint8_t)player->processor;
}

// The same turns in the same order, made by one thread.
static void check_order(struct player *players, uint32_t count) {
    lot_kernel kernel = made();
    struct player alone[WORKERS];
    for (uint32_t i = 0; i < count; i++) {
        alone[i] = player_of(&kernel, i + 1);
    }
    for (size_t i = 0; i < noted; i++) {
        play(&alone[order[i] - 1]);
    }
    for (uint32_t i = 0; i < count; i++) {
        CHECK(same_replies(&alone[i], &players[i]));
    }
    CHECK(same_rows(&kernel, players[0].kernel));
    give_up(&kernel);
}

// What rows say that each thread has won and run is what the players' replies add up to.
static void check_counts(struct player *players, uint32_t count) {
    for (uint32_t thread = 1; thread <= THREADS; thread++) {
        lot_thread_row row = row_of(players[0].kernel, thread);
        for (uint32_t i = 0; i < count; i++) {
            row.quanta -= players[i].quanta[thread - 1];
            row.ticks -= players[i].ticks[thread - 1];
        }
        CHECK(row.quanta == 0 && row.ticks == 0);
    }
}

static size_t changes_of_turn(void) {
    size_t changes = 0;
    for (size_t i = 1; i < noted; i++) {
        changes += order[i] != order[i - 1];
    }
    return changes;
}

// ---- threads

static void run_workers(void *(*work)(void *), struct player *players) {
    pthread_t workers[WORKERS];
    for (size_t i = 0; i < WORKERS; i++) {
        CHECK(pthread_create(&workers[i], NULL, work, &players[i]) == 0);
    }
    for (size_t i = 0; i < WORKERS; i++) {
        CHECK(pthread_join(workers[i], NULL) == 0);
    }
}

static pthread_mutex_t lock = PTHREAD_MUTEX_INITIALIZER;

static void *share(void *argument) {
    struct player *player = argument;
    while (player->wins < DRAWS || player->runs) {
        CHECK(pthread_mutex_lock(&lock) == 0);
        play_and_note(player);
        CHECK(pthread_mutex_unlock(&lock) == 0);
        sched_yield(); // so that turns change hands often
    }
    return NULL;
}

// Threads share a kernel behind one lock, each with a processor of its own.
static void one_kernel(void) {
    lot_kernel kernel = made();
    struct player players[WORKERS];
    noted = 0;
    for (uint32_t i = 0; i < WORKERS; i++) {
        players[i] = player_of(&kernel, i + 1);
    }
    run_workers(share, players);
    uint64_t quanta = 0;
    for (uint32_t thread = 1; thread <= THREADS; thread++) {
        lot_thread_row row = row_of(&kernel, thread);
        CHECK(row.status.kind == LOT_STATUS_READY);
        quanta += row.quanta;
    }
    CHECK(quanta == WORKERS * DRAWS);
    check_counts(players, WORKERS);
    check_order(players, WORKERS);
    give_up(&kernel);
    printf("ok: %d threads share a kernel: %d draws won, turns changed hands %zu times\n", WORKERS, WORKERS * DRAWS,
           changes_of_turn());
}

static void hold_lottery(struct player *player) {
    lot_wide weights[20], number = lot_wide_of(player->turns % 20);
    lot_drawn drawn;
    for (size_t i = 0; i < 20; i++) {
        weights[i] = lot_wide_of(1);
    }
    CHECK(lot_winner(weights, 20, &number, &drawn) == LOT_DONE && drawn.place == number.low);
}

static void *have_own(void *argument) {
    struct player *player = argument;
    *player->kernel = made();
    while (player->wins < DRAWS || player->runs) {
        play(player);
        if (player->turns % 40 == 0) {
            lot_kernel other = made();
            hold_lottery(player);
            give_up(&other);
        }
    }
    return NULL;
}

// Each thread has a kernel of its own, and there is no lock. Who started the threads looks at the kernels in the end.
static void own_kernels(void) {
    lot_kernel kernels[WORKERS];
    struct player players[WORKERS];
    for (uint32_t i = 0; i < WORKERS; i++) {
        players[i] = player_of(&kernels[i], i + 1);
    }
    run_workers(have_own, players);
    for (uint32_t i = 0; i < WORKERS; i++) {
        check_counts(&players[i], 1);
        check_alone(&players[i]);
        give_up(&kernels[i]);
    }
    printf("ok: %d threads have a kernel each: %d draws won\n", WORKERS, WORKERS * DRAWS);
}

// ---- readers

// What the calls for a `const lot_kernel *` store, of a settled kernel.
struct seen {
    lot_thread_row threads[THREADS];
    lot_currency_row base;
    lot_ticket_row tickets_of[THREADS]; // each thread has one
    lot_runner runners[WORKERS];
    lot_sizes sizes;
    lot_meter meter;
    uint32_t scripts[THREADS], tickets, currencies;
};

// A processor on which nobody runs is left as it was.
static void see(const lot_kernel *kernel, struct seen *seen) {
    memset(seen, 0, sizeof *seen);
    for (uint32_t i = 0; i < WORKERS; i++) {
        uint32_t status = lot_kernel_runner(kernel, i + 1, &seen->runners[i]);
        CHECK(status == LOT_DONE || (status == LOT_NOT_THERE && seen->runners[i].thread == 0));
    }
    for (uint32_t i = 0; i < THREADS; i++) {
        CHECK(lot_kernel_script_of(kernel, i + 1, &seen->scripts[i]) == LOT_DONE);
        CHECK(lot_kernel_settled_thread_row(kernel, i + 1, &seen->threads[i]) == LOT_DONE);
        CHECK(lot_kernel_settled_ticket_row(kernel, i + 1, &seen->tickets_of[i]) == LOT_DONE);
    }
    CHECK(lot_kernel_settled_currency_row(kernel, 0, &seen->base) == LOT_DONE);
    CHECK(lot_kernel_ticket_count(kernel, &seen->tickets) == LOT_DONE);
    CHECK(lot_kernel_currency_count(kernel, &seen->currencies) == LOT_DONE);
    CHECK(lot_kernel_limits(kernel, &seen->sizes) == LOT_DONE);
    CHECK(lot_kernel_meter(kernel, &seen->meter) == LOT_DONE);
}

static struct seen before_reading;

static void *read_all(void *argument) {
    const struct player *player = argument;
    for (int i = 0; i < READS; i++) {
        struct seen seen;
        see(player->kernel, &seen);
        CHECK(memcmp(&seen, &before_reading, sizeof seen) == 0);
    }
    return NULL;
}

// Threads read one kernel at once, with no lock, while nothing else is done to it. Each sees at each time what it was
// before they began, and the kernel goes on afterwards as one that nobody has read.
static void readers(void) {
    lot_kernel kernel = made();
    struct player players[WORKERS];
    noted = 0;
    for (uint32_t i = 0; i < WORKERS; i++) {
        players[i] = player_of(&kernel, i + 1);
        while (players[i].wins < 100 + i) {
            play_and_note(&players[i]);
        }
    }
    CHECK(lot_kernel_settle(&kernel) == LOT_DONE);
    see(&kernel, &before_reading);
    CHECK(before_reading.runners[0].thread != 0 && before_reading.meter.tree_visits > 0);
    run_workers(read_all, players);
    play_and_note(&players[0]);
    check_order(players, WORKERS);
    give_up(&kernel);
    printf("ok: %d threads read a kernel at once, %d times each\n", WORKERS, READS);
}

// ---- signal handlers

static struct player in_handler;
static volatile sig_atomic_t handled, amid_turn, is_in_turn;

// A failed check prints, which a handler mustn't; the test has failed then anyway.
static void handle_alone(int number) {
    (void)number;
    play(&in_handler);
    handled++;
    amid_turn += is_in_turn;
}

static void handle_shared(int number) {
    (void)number;
    play_and_note(&in_handler);
    handled++;
}

static void set_timer(long microseconds) {
    struct itimerval every = {{0, microseconds}, {0, microseconds}};
    CHECK(setitimer(ITIMER_REAL, &every, NULL) == 0);
}

static void start_signals(void (*handler)(int)) {
    struct sigaction action;
    memset(&action, 0, sizeof action);
    action.sa_handler = handler;
    action.sa_flags = SA_RESTART;
    handled = amid_turn = 0;
    CHECK(sigaction(SIGALRM, &action, NULL) == 0);
    set_timer(MICROSECONDS);
}

// Stops the timer. A signal that is still on its way finds nobody who gives events.
static void end_signals(void) {
    set_timer(0);
    signal(SIGALRM, SIG_IGN);
    CHECK(handled > 0);
}

// Whether signals are still to come.
static bool waits_for_signals(time_t start) {
    return handled < SIGNALS && time(NULL) - start <= SECONDS;
}

// A handler gives events to its own kernel, amid the turns of another one.
static void handler_with_own_kernel(void) {
    lot_kernel kernel = made(), of_handler = made();
    struct player player = player_of(&kernel, 1);
    in_handler = player_of(&of_handler, 2);
    time_t start = time(NULL);
    start_signals(handle_alone);
    while (waits_for_signals(start)) {
        is_in_turn = 1;
        play(&player);
        is_in_turn = 0;
    }
    end_signals();
    CHECK(HOLDS_SIGNALS || amid_turn > 0);
    check_alone(&player);
    check_alone(&in_handler);
    give_up(&kernel);
    give_up(&of_handler);
    printf("ok: a handler has a kernel of its own: %d signals, %d of them amid another kernel's turn\n", (int)handled,
           (int)amid_turn);
}

// A handler and the interrupted code share a kernel, whose calls block the signal.
static void handler_with_same_kernel(void) {
    lot_kernel kernel = made();
    struct player players[2] = {player_of(&kernel, 1), player_of(&kernel, 2)};
    sigset_t alarms;
    sigemptyset(&alarms);
    sigaddset(&alarms, SIGALRM);
    in_handler = players[1];
    noted = 0;
    time_t start = time(NULL);
    start_signals(handle_shared);
    while (waits_for_signals(start) && noted < NOTED / 2) {
        CHECK(pthread_sigmask(SIG_BLOCK, &alarms, NULL) == 0);
        play_and_note(&players[0]);
        CHECK(pthread_sigmask(SIG_UNBLOCK, &alarms, NULL) == 0);
    }
    end_signals();
    players[1] = in_handler;
    check_counts(players, 2);
    check_order(players, 2);
    give_up(&kernel);
    printf("ok: a handler shares a kernel whose calls block its signal: %d signals\n", (int)handled);
}

int main(void) {
    one_kernel();
    own_kernels();
    readers();
    handler_with_own_kernel();
    handler_with_same_kernel();
    return 0;
}
