// Numbers by splitmix64, from a seed in `random_state`.
#ifndef RANDOM_H
#define RANDOM_H

#include <stdint.h>

static uint64_t random_state;

static uint64_t random_word(void) {
    uint64_t x = random_state += 0x9E3779B97F4A7C15u;
    x = (x ^ x >> 30) * 0xBF58476D1CE4E5B9u;
    x = (x ^ x >> 27) * 0x94D049BB133111EBu;
    return x ^ x >> 31;
}

// A number below n.
static uint64_t below(uint64_t n) { return random_word() % n; }

#endif
