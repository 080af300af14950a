/* What the tests share: numbers at random, and what they print. */
#ifndef COMMON_H
#define COMMON_H

#include "ic.h"
#include <stdio.h>
#include <stdlib.h>

enum { STATUSES = IC_BROKEN + 1 };

static uint64_t state;

/* The next number of a sequence that the state begins (splitmix64). */
static inline uint64_t any(void) {
    uint64_t x = state += UINT64_C(0x9E3779B97F4A7C15);
    x = (x ^ x >> 30) * UINT64_C(0xBF58476D1CE4E5B9);
    x = (x ^ x >> 27) * UINT64_C(0x94D049BB133111EB);
    return x ^ x >> 31;
}

static inline uint32_t below(uint32_t bound) {
    return (uint32_t)((any() >> 32) * bound >> 32);
}

/* How many calls to make, from the words of the command line, which may also give the state. */
static inline uint64_t calls_wanted(int count, char **words) {
    state = count > 2 ? strtoull(words[2], NULL, 10) : 1;
    return count > 1 ? strtoull(words[1], NULL, 10) : 1000000;
}

/* Prints the name of a call, and how often it returned each status, in counts that take half on a small board. */
static inline void report(const char *name, const size_t *returned) {
    printf("%s", name);
    for (int status = 0; status < STATUSES; status++)
        printf(" %llu", (unsigned long long)returned[status]);
    printf("\n");
}

#endif
