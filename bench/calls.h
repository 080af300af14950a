/* What the programs share that count calls which the other programs of their folders have not: a row for each workload. */

#include "peer.h"

/* A workload: what one operation is, over `it`. A call that is refused adds to `failed`, so the program fails. */
#define ROW(kind, name, ...)                                   \
    TIMED timed_##name(struct kind *it, uint64_t operations) { \
        uint64_t random = 1, failed = 0;                       \
        (void)random;                                          \
        while (operations--) {                                 \
            __VA_ARGS__                                        \
        }                                                      \
        return failed;                                         \
    }

/* The same of one call over all members, which is made once. */
#define WHOLE(kind, name, ...)                \
    TIMED timed_##name(struct kind *it) {     \
        uint64_t failed = 0;                  \
        __VA_ARGS__                           \
        return failed;                        \
    }

/* Makes the operations of a workload, if it is the one that is wanted. */
#define RUN(name)                \
    if (!strcmp(workload, #name)) \
        return timed_##name(it, operations)

/* Makes a call over all members once for as many operations as there are members, each time over what `prepare` makes. */
#define RUN_WHOLE(name, prepare)                                          \
    if (!strcmp(workload, #name)) {                                       \
        uint64_t failed = 0;                                              \
        for (uint64_t rounds = operations / it->members; rounds--;) {     \
            prepare(it);                                                  \
            failed += timed_##name(it);                                   \
        }                                                                 \
        return failed;                                                    \
    }

/* Keeps the compiler from making nothing of two operations of which the second undoes the first. */
#define AND_THEN __asm__ volatile("" ::: "memory")

/* No such workload, or a call that was refused. */
#define NO_WORKLOAD 1

/* A member at random, of those at even positions of an order or of those at odd ones, so that two of them differ. */
#define EVEN(order) (order)[2 * below(&random, it->members / 2)]
#define ODD(order) (order)[2 * below(&random, it->members / 2) + 1]
