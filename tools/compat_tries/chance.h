/* Numbers at random, the same ones for the same seed: for the programs of tools/compat_tries. */
#ifndef CHANCE_H
#define CHANCE_H
#include <stdint.h>
#include <stdlib.h>

static uint64_t state;

/* Begins with a seed, a number in decimal digits. */
static void begin(const char *seed) { state = strtoull(seed, NULL, 10) * 2 + 88172645463325252ull; }

/* A number below count. */
static unsigned below(unsigned count) {
    state ^= state << 13;
    state ^= state >> 7;
    state ^= state << 17;
    return (unsigned)(state >> 20) % count;
}

#endif
