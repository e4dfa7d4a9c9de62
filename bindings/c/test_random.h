// The random numbers of the tests: splitmix64, from a seed that a test sets.

#ifndef TEST_RANDOM_H
#define TEST_RANDOM_H

#include <stdbool.h>
#include <stdint.h>

static uint64_t seed;

static inline uint64_t random_bits(void) {
    uint64_t z = (seed += UINT64_C(0x9e3779b97f4a7c15));
    z = (z ^ (z >> 30)) * UINT64_C(0xbf58476d1ce4e5b9);
    z = (z ^ (z >> 27)) * UINT64_C(0x94d049bb133111eb);
    return z ^ (z >> 31);
}

static inline uint64_t below(uint64_t bound) {
    return random_bits() % bound;
}

static inline uint32_t from_to(uint32_t least, uint32_t most) {
    return least + (uint32_t)below((uint64_t)most - least + 1);
}

static inline bool one_in(uint64_t count) {
    return below(count) == 0;
}

#endif
