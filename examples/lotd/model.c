// A machine that is made up, with a clock of its own, for lotd. After LOTD_SECONDS of that clock it tells lotd to end,
// as by SIGTERM. A command is 'spin', 'work MILLISECONDS', which ends then, or 'nap WORK PAUSE', which works and waits
// again and again, in milliseconds. Those that aren't stopped share the processors in turn. Each fiftieth SIGCONT gets
// lost, as under Linux for a process that is just being made.

#include "machine.h"

#include <signal.h>
#include <stdio.h>
#include <stdlib.h>

enum { COMMANDS = 64, MILLISECOND = 1000000, SLICE = MILLISECOND / 10 };

static struct {
    uint64_t work, pause, left, wakes, ran; // work is 0 if it never waits or ends, pause 0 if it ends after its work
    bool is_stopped, ends, is_told;
    int signal;
} commands[COMMANDS];

static int count, next, continued;
static uint32_t processor_count;
static uint64_t now, until;

void machine_open(uint32_t processors) {
    const char *seconds = getenv("LOTD_SECONDS");
    processor_count = processors;
    until = (seconds == NULL ? 60 : strtoull(seconds, NULL, 10)) * 1000 * MILLISECOND;
}

int machine_told(void) {
    return now >= until ? SIGTERM : 0;
}

int machine_start(const char *words) {
    unsigned work = 0, pause = 0;
    if (count == COMMANDS || (sscanf(words, "nap %u %u", &work, &pause) < 1 && sscanf(words, "work %u", &work) < 1 &&
                              words[0] != 's')) {
        fprintf(stderr, "model: %s: no such command\n", words);
        exit(2);
    }
    commands[count].work = commands[count].left = (uint64_t)work * MILLISECOND;
    commands[count].pause = (uint64_t)pause * MILLISECOND;
    commands[count].is_stopped = true;
    return count++;
}

void machine_send(int command, int signal) {
    if (signal == SIGCONT) {
        commands[command].is_stopped = commands[command].is_stopped && ++continued % 50 == 0;
    } else if (signal == SIGSTOP) {
        commands[command].is_stopped = true;
    } else {
        commands[command].ends = true;
        commands[command].signal = signal;
    }
}

static bool is_busy(int command) {
    return !commands[command].is_stopped && !commands[command].ends && commands[command].wakes <= now;
}

struct look machine_look(int command) {
    bool is_stopped = commands[command].is_stopped;
    return (struct look){commands[command].ran, is_stopped || is_busy(command), is_stopped};
}

bool machine_ended(int command, struct end *end) {
    if (!commands[command].ends || commands[command].is_stopped || commands[command].is_told) {
        return false;
    }
    *end = (struct end){commands[command].ran, commands[command].signal};
    return commands[command].is_told = true;
}

static void run(int command) {
    commands[command].ran += SLICE;
    if (commands[command].work == 0 || (commands[command].left -= SLICE) > 0) {
        return;
    }
    commands[command].left = commands[command].work;
    commands[command].wakes = now + SLICE + commands[command].pause;
    commands[command].ends = commands[command].pause == 0;
}

// In a slice each processor runs another command, from the next one on.
void machine_pause(uint64_t nanoseconds) {
    for (uint64_t end = now + nanoseconds; now < end; now += SLICE) {
        uint32_t free = processor_count;
        int first = next;
        for (int i = 0; i < count && free > 0; i++) {
            int command = (first + i) % count;
            if (is_busy(command)) {
                run(command);
                next = command + 1;
                free--;
            }
        }
    }
}
