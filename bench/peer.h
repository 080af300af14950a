/* What the programs in C share: the generator of random numbers, memory, and the clock. */

#include <inttypes.h>
#include <stdint.h>
#include <stdio.h>
#include <stdlib.h>
#include <string.h>
#include <time.h>

/* Functions that are timed, and whose instructions callgrind counts. */
#define TIMED static __attribute__((noinline)) uint64_t

/* The generator that all programs share. */
static uint64_t below(uint64_t *state, uint64_t bound) {
    *state = *state * 6364136223846793005u + 1442695040888963407u;
    return ((*state >> 32) * bound) >> 32;
}

static void *room_for(uint64_t count, size_t size) {
    void *memory = calloc(count, size);
    if (!memory)
        exit(1);
    return memory;
}

/* The numbers below `count`, in a random order. */
static uint64_t *shuffled(uint64_t *state, uint64_t count) {
    uint64_t *numbers = room_for(count, sizeof *numbers);
    for (uint64_t index = 0; index < count; index++)
        numbers[index] = index;
    for (uint64_t last = count - 1; last > 0; last--) {
        uint64_t other = below(state, last + 1), number = numbers[last];
        numbers[last] = numbers[other];
        numbers[other] = number;
    }
    return numbers;
}

static uint64_t now(void) {
    struct timespec time;
    clock_gettime(CLOCK_MONOTONIC, &time);
    return (uint64_t)time.tv_sec * 1000000000u + (uint64_t)time.tv_nsec;
}
