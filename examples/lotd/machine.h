// What lotd needs of an operating system: commands that stop and go on. linux.c has it of Linux, and model.c of a
// machine that is made up, with a clock of its own. What can't be done ends the program.

#ifndef MACHINE_H
#define MACHINE_H

#include <stdbool.h>
#include <stdint.h>

// What a look at a command shows.
struct look {
    uint64_t ran; // the nanoseconds of processor time that its processes had, and those for which they have waited
    bool is_busy; // whether a process runs, or would if it had a processor and weren't stopped
    bool is_stopped; // whether a process is stopped
};

// What is known of a command that has ended.
struct end {
    uint64_t ran; // the nanoseconds of processor time that it had, with what it has waited for (getrusage)
    int status;   // that of wait
};

// Keeps all commands to this many processors, and signals to this program for machine_told.
void machine_open(uint32_t processors);

// Returns a signal that has told this program to end since the last call, or 0.
int machine_told(void);

// Starts a command of the shell, stopped, and returns its number.
int machine_start(const char *words);

// Sends a signal to all processes of a command.
void machine_send(int command, int signal);

struct look machine_look(int command);

// Returns whether a command has ended, and stores what is known of it. It is told once.
bool machine_ended(int command, struct end *end);

// Waits this many nanoseconds, or less if a signal comes.
void machine_pause(uint64_t nanoseconds);

#endif
