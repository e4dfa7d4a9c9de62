// Which task runs next, for a scheduler of Linux tasks. It knows nothing of BPF: events of tasks go in and winners come
// out, so that model.c and replay.c try it without Linux.

#ifndef POLICY_H
#define POLICY_H

#include "shared.h"

#include <stdint.h>
#include <stdio.h>

// The word for each kind of event in a record.
extern const char *const told_words[TOLD_LEFT + 1];

// Writes all that follows to this file: the start, what each user has, each event and the winners of each draw.
void policy_record(FILE *file);

// Starts a new lottery for 1 to MOST_PROCESSORS processors, with quanta of this many nanoseconds, 1000 at least, and
// this seed of the generator, from 1 to 2147483646.
void policy_start(uint32_t processors, uint64_t quantum, uint32_t seed);

// Funds the currency of a user with these tickets of base, 1 to 4294967295. A user for whom nobody does has 100.
void policy_fund(uint32_t uid, uint64_t tickets);

// Takes in what happened to a task.
void policy_hear(const struct told_event *told);

// Draws for every processor on which no task runs. Stores each winner, as in `shared`, at its processor, from 0, and
// returns the set of these processors.
uint64_t policy_draw(uint64_t winner[MOST_PROCESSORS]);

// Prints what each user's tasks have run, and how many events of which kind there were.
void policy_print(FILE *file);

#endif
