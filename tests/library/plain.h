/* A plain sequence: an array of places. The program says how many PLACES there are before it includes this. */
#ifndef PLAIN_H
#define PLAIN_H

#include "ic.h"
#include <string.h>

struct sequence {
    uint32_t count, members[PLACES];
};

static inline void insert(struct sequence *list, uint32_t at, const uint32_t *places, uint32_t count) {
    memmove(list->members + at + count, list->members + at, (list->count - at) * sizeof *places);
    memcpy(list->members + at, places, count * sizeof *places);
    list->count += count;
}

static inline void take(struct sequence *list, uint32_t at, uint32_t count) {
    list->count -= count;
    memmove(list->members + at, list->members + at + count, (list->count - at) * sizeof *list->members);
}

/* The member behind a position, or IC_NONE. */
static inline uint32_t member(const struct sequence *list, uint32_t at) {
    return at < list->count ? list->members[at] : IC_NONE;
}

/* The member in front of a position, or IC_NONE. */
static inline uint32_t before(const struct sequence *list, uint32_t at) {
    return at ? list->members[at - 1] : IC_NONE;
}

#endif
