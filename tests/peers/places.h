/* A peer's tests name objects by pointers, and this library by places. Here each object whose pointer a call first takes gets a place. After each call, the
 * adapter writes what the table now says into the pointers of the peer's objects, so that the test reads it there. */
#ifndef PLACES_H
#define PLACES_H

#include "ic.h"

#include <stdbool.h>
#include <stdio.h>
#include <stdlib.h>
#include <string.h>

enum { PEER_PLACES = 1024 };

static void *peer_objects[PEER_PLACES]; /* the object of each place */
static char peer_kinds[PEER_PLACES];    /* and of what struct it is */
static uint32_t peer_count, peer_failures;

/* Returns the place of an object, or IC_NONE if it has none yet. */
static inline uint32_t peer_find(const void *object) {
    for (uint32_t place = 0; place < peer_count; place++)
        if (peer_objects[place] == object)
            return place;
    return IC_NONE;
}

static inline uint32_t peer_add(const void *object, char kind) {
    if (peer_count == PEER_PLACES) {
        printf("there are more than %d objects\n", PEER_PLACES);
        exit(1);
    }
    peer_objects[peer_count] = (void *)object;
    peer_kinds[peer_count] = kind;
    return peer_count++;
}

static inline void *peer_object(uint32_t place) {
    return place < peer_count ? peer_objects[place] : NULL;
}

/* Counts a failure, and says where in the peer's text it is. */
static inline bool peer_expect(bool is_so, const char *what, int line) {
    if (!is_so) {
        printf("line %d: %s\n", line, what);
        peer_failures++;
    }
    return is_so;
}
#define PEER_EXPECT(is_so) peer_expect(is_so, #is_so, __LINE__)

/* Numbers at random (splitmix64). */
static inline uint64_t peer_random(uint64_t *state) {
    uint64_t x = *state += UINT64_C(0x9E3779B97F4A7C15);
    x = (x ^ x >> 30) * UINT64_C(0xBF58476D1CE4E5B9);
    x = (x ^ x >> 27) * UINT64_C(0x94D049BB133111EB);
    return x ^ x >> 31;
}

#endif
