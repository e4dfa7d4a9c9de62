// Gives policy.c the events of a record (lot_scx -r) from standard input, and writes the record that it makes of them.
// The two are the same if the winners are.

#include "policy.h"

#include <stdbool.h>
#include <stdlib.h>
#include <string.h>

// Returns the kind of event that a word names, or 0.
static uint32_t kind_of(const char *word) {
    for (uint32_t kind = TOLD_READY; kind <= TOLD_LEFT; kind++) {
        if (strcmp(word, told_words[kind]) == 0) {
            return kind;
        }
    }
    return 0;
}

// Takes in a line, and returns whether it is one of a record.
static bool take(const char *line) {
    uint64_t winner[MOST_PROCESSORS];
    struct told_event event = {0};
    unsigned uid, processors, seed;
    unsigned long long quantum, tickets;
    char word[9];
    if (sscanf(line, "start %u %llu %u", &processors, &quantum, &seed) == 3) {
        policy_start(processors, quantum, seed);
        return true;
    }
    if (sscanf(line, "fund %u %llu", &uid, &tickets) == 2) {
        policy_fund(uid, tickets);
        return true;
    }
    if (strncmp(line, "draw ", 5) == 0) {
        policy_draw(winner);
        return true;
    }
    if (sscanf(line, "%8s %llu %u %u %u", word, &event.ran, &event.id, &event.uid, &event.weight) == 5) {
        event.kind = kind_of(word);
    }
    if (event.kind != 0) {
        policy_hear(&event);
    }
    return event.kind != 0;
}

int main(void) {
    char line[512];
    policy_record(stdout);
    while (fgets(line, sizeof line, stdin) != NULL) {
        if (!take(line)) {
            fprintf(stderr, "replay: this is no line of a record: %s", line);
            return EXIT_FAILURE;
        }
    }
    return EXIT_SUCCESS;
}
