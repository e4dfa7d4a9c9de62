// Commands in users' shares of a processor, by lottery: whoever doesn't win is stopped. For any Linux, and any user.
//
//     lotd [-p PROCESSORS] [-q MILLISECONDS] [-s SEED] TICKETS:USER COMMAND .. [TICKETS:USER COMMAND ..] ..
//
// A user is a currency that TICKETS of base fund, and each of the user's commands is a thread that one ticket of that
// currency funds. A winner goes on until it has had a quantum of processor time, or waits for something else. One that
// waits isn't stopped, but as soon as it has work again it is, until it wins. When the last command has ended, each
// user's share of the processor time is printed. machine.h says what the operating system does for it.

#define _POSIX_C_SOURCE 200809L

#include "machine.h"

#include "lot.h"

#include <ctype.h>
#include <signal.h>
#include <stdio.h>
#include <stdlib.h>
#include <sys/wait.h>
#include <unistd.h>

// A quantum has TICKS ticks and some LOOKS looks at the winner. Tickets times SCALE leave no value that rounds to 0.
// A look that shows less than the one before, by up to ROUNDED nanoseconds, is rounded otherwise. By more, processes
// have left the command.
enum { TICKS = 1000, LOOKS = 5, SCALE = 1000, MOST_TICKETS = 1000000, MOST_COMMANDS = 1024, MOST_PROCESSORS = 64 };
enum { ROUNDED = 100000000 };

static const char usage[] = "[-p PROCESSORS] [-q MILLISECONDS] [-s SEED] TICKETS:USER COMMAND .. [TICKETS:USER ..] ..";

enum state { READY, RUNNING, ASLEEP, ENDED };

static struct user {
    const char *name;
    uint64_t tickets, ran;
    uint32_t currency;
} users[MOST_COMMANDS];

static struct command {
    const char *words;
    struct user *user;
    enum state state;
    int number, sent; // the machine's number, and the signal that all its processes have had last, or 0
    uint32_t thread, processor;
    uint64_t seen, ran, owed; // nanoseconds: what the last look showed, all looks together, and what isn't charged yet
    struct end end;
} commands[MOST_COMMANDS];

static uint32_t processors = 1, seed = 1, user_count, command_count, living;
static uint64_t tick = 10 * 1000000 / TICKS; // in nanoseconds
static struct command *runners[MOST_PROCESSORS + 1]; // by the processor's number
static lot_kernel kernel = LOT_KERNEL_NONE;
static lot_generator generator;

static void fail(const char *what, const char *why) {
    fprintf(stderr, "lotd: %s: %s\n", what, why);
    exit(2);
}

static void must(uint32_t status, const char *what) {
    if (status != LOT_DONE) {
        fail(what, lot_status_text(status));
    }
}

static lot_reply answer(lot_event event, const char *what) {
    lot_reply reply;
    must(lot_kernel_event(&kernel, &event, &reply), what);
    if (lot_refused(&reply)) {
        fail(what, lot_refusal_text(reply.reason));
    }
    return reply;
}

static void send_all(int signal) {
    for (struct command *command = commands; command < commands + command_count; command++) {
        if (command->state != ENDED) {
            machine_send(command->number, signal);
        }
    }
}

// However this program ends, it leaves nothing that is stopped.
static void release(void) {
    send_all(SIGTERM);
    send_all(SIGCONT);
}

// ---- the lottery

// The ticks of work before a trap, which costs one itself. Both are at most a quantum.
static uint32_t work(uint64_t ticks) {
    return ticks == 0 ? 0 : (uint32_t)(ticks < TICKS ? ticks : TICKS) - 1;
}

// A running command leaves its processor by this event. What that doesn't charge it owes the next time.
static void leave(struct command *command, lot_event event, enum state state) {
    uint64_t charged = answer(event, command->words).ticks * tick;
    command->owed -= charged < command->owed ? charged : command->owed;
    command->state = state;
    runners[command->processor] = NULL;
}

static void look(struct command *command) {
    struct look look = machine_look(command->number);
    command->sent = look.is_stopped ? 0 : command->sent;
    if (look.ran > command->seen) {
        command->ran += look.ran - command->seen;
        command->owed += look.ran - command->seen;
        command->seen = look.ran;
    } else if (look.ran + ROUNDED < command->seen) {
        command->seen = look.ran;
    }
    uint64_t ticks = command->owed / tick;
    if (command->state == ASLEEP && (look.is_busy || ticks > 0)) {
        answer(lot_wake(command->thread), command->words);
        command->state = READY;
    } else if (command->state == RUNNING && ticks >= TICKS) {
        leave(command, lot_overrun(command->processor, (uint32_t)(ticks - TICKS)), READY);
    } else if (command->state == RUNNING && !look.is_busy) {
        leave(command, lot_sleep(command->processor, work(ticks)), ASLEEP);
    }
}

static void end(struct command *command) {
    if (command->state == RUNNING) {
        leave(command, lot_exit(command->processor, work(command->owed / tick)), ENDED);
    } else {
        answer(lot_kill_numbered(command->thread), command->words);
    }
    command->state = ENDED;
    command->ran = command->end.ran > command->ran ? command->end.ran : command->ran;
    command->user->ran += command->ran;
    living--;
}

static void draw(uint32_t processor) {
    uint64_t number;
    must(lot_generator_number(&generator, &number), "draw");
    lot_reply reply = answer(lot_draw(processor, lot_wide_of(number)), "draw");
    if (reply.kind == LOT_REPLY_WINNER) {
        struct command *winner = runners[processor] = &commands[reply.thread - 1];
        winner->state = RUNNING;
        winner->processor = processor;
    }
}

// A command that is ready is stopped, and any other goes on.
static void send(struct command *command) {
    int signal = command->state == READY ? SIGSTOP : SIGCONT;
    if (command->state != ENDED && command->sent != signal) {
        machine_send(command->number, command->sent = signal);
    }
}

static void hear_ends(void) {
    for (struct command *command = commands; command < commands + command_count; command++) {
        if (command->state != ENDED && machine_ended(command->number, &command->end)) {
            end(command);
        }
    }
}

// Looks at the winners and, with `all`, at those that wait. Then each processor without a winner draws one, and all
// commands hear of it.
static void step(bool all) {
    for (struct command *command = commands; command < commands + command_count; command++) {
        if (command->state == RUNNING || (command->state == ASLEEP && all)) {
            look(command);
        }
    }
    for (uint32_t processor = 1; processor <= processors; processor++) {
        if (runners[processor] == NULL) {
            draw(processor);
        }
    }
    for (struct command *command = commands; command < commands + command_count; command++) {
        send(command);
    }
}

// Runs the commands until all have ended, and returns the last signal that told this program to end, or 0. A signal is
// passed on to all commands, and ends the lottery.
static int run(void) {
    int told = 0;
    for (uint64_t steps = 0; living > 0; steps++) {
        int signal = machine_told();
        if (signal != 0) {
            send_all(told = signal);
        }
        hear_ends();
        if (told == 0) {
            step(steps % LOOKS == 0);
        } else {
            send_all(SIGCONT);
        }
        machine_pause(tick * TICKS / LOOKS);
    }
    return told;
}

// ---- the command line, and the end

static void add_user(const char *name, uint64_t tickets) {
    if (tickets > MOST_TICKETS) {
        fail(name, "more than 1000000 tickets");
    }
    uint32_t currency = answer(lot_make_currency(lot_name_of(name)), name).currency;
    answer(lot_fund_currency(answer(lot_make_ticket_in(tickets * SCALE, 0), name).ticket, currency), name);
    users[user_count++] = (struct user){.name = name, .tickets = tickets, .currency = currency};
}

static void add_command(const char *words, struct user *user) {
    lot_reply made = answer(lot_make_funded_in(1, user->currency, lot_no_name(), 1), words);
    struct command *command = &commands[made.thread - 1];
    *command = (struct command){.words = words, .user = user, .thread = made.thread, .number = machine_start(words),
                                .sent = SIGSTOP};
    command_count++;
    living++;
}

static void add(const char *word) {
    char *name;
    uint64_t tickets = strtoull(word, &name, 10);
    if (isdigit((unsigned char)*word) && *name == ':' && name[1] != 0) {
        add_user(name + 1, tickets);
    } else if (user_count > 0) {
        add_command(word, &users[user_count - 1]);
    } else {
        fail("usage", usage);
    }
}

static uint32_t number_of(const char *word, uint32_t most) {
    char *end;
    unsigned long number = strtoul(word, &end, 10);
    if (*end != 0 || number == 0 || number > most) {
        fail(word, "the number is out of its range");
    }
    return (uint32_t)number;
}

static void read_options(int count, char **words) {
    for (int option; (option = getopt(count, words, "+p:q:s:")) != -1;) {
        switch (option) {
        case 'p': processors = number_of(optarg, MOST_PROCESSORS); break;
        case 'q': tick = number_of(optarg, 10000) * 1000000ull / TICKS; break;
        case 's': seed = number_of(optarg, 2147483646); break;
        default: fail("usage", usage);
        }
    }
}

// Prints what the operating system says that each has had. Returns whether all commands have ended well.
static bool print(void) {
    uint64_t total = 0;
    bool is_well = true;
    for (uint32_t i = 0; i < user_count; i++) {
        total += users[i].ran;
    }
    total += total == 0;
    for (struct user *user = users; user < users + user_count; user++) {
        printf("%.4f  %9.3f s  %s, %llu tickets\n", (double)user->ran / (double)total, 1e-9 * (double)user->ran,
               user->name, (unsigned long long)user->tickets);
    }
    for (struct command *command = commands; command < commands + command_count; command++) {
        bool is_signal = WIFSIGNALED(command->end.status);
        int status = is_signal ? WTERMSIG(command->end.status) : WEXITSTATUS(command->end.status);
        printf("%.4f  %9.3f s  %s, %s %d: %s\n", (double)command->ran / (double)total,
               1e-9 * (double)command->ran, command->user->name, is_signal ? "signal" : "status", status,
               command->words);
        is_well = is_well && command->end.status == 0;
    }
    return is_well;
}

int main(int count, char **words) {
    read_options(count, words);
    lot_sizes sizes = {.tickets = 2 * MOST_COMMANDS, .currencies = MOST_COMMANDS, .threads = MOST_COMMANDS,
                       .processors = processors, .scripts = 1, .quantum = TICKS, .unit = 256, .plain_names = 1};
    must(lot_generator_new(seed, &generator), "seed");
    must(lot_kernel_new(&sizes, &kernel), "sizes");
    machine_open(processors);
    atexit(release);
    for (int i = optind; i < count; i++) {
        add(words[i]);
    }
    if (command_count == 0) {
        fail("usage", usage);
    }
    int told = run();
    bool is_well = print();
    return told != 0 ? 128 + told : is_well ? 0 : 1;
}
