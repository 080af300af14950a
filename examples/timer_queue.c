/* A timer queue: a red-black tree by deadlines, which are in an array of their own. The program allocates nothing. */
#include "ic.h"
#include <stdio.h>

enum { TIMERS = 8 };

static struct ic_link3 links[TIMERS];
static struct ic_tree queue; /* the timer that is due first is the first member, and of those due at once the one started first */
static uint64_t deadlines[TIMERS];

/* Starts a timer. Returns IC_LINKED if the timer runs already, and IC_OUT_OF_RANGE if there is no such timer. */
static uint32_t start(uint32_t timer, uint64_t deadline) {
    if (timer >= TIMERS)
        return IC_OUT_OF_RANGE;
    if (!ic_tree_is_linked(links, TIMERS, timer))
        deadlines[timer] = deadline; /* the key of a member must not change */
    return ic_tree_insert(links, TIMERS, deadlines, TIMERS, &queue, timer);
}

/* Stops a timer. Returns IC_NOT_LINKED if the timer does not run. */
static uint32_t cancel(uint32_t timer) {
    return ic_tree_remove(links, TIMERS, &queue, timer);
}

/* Removes the first timer if it is due, or returns IC_NONE. */
static uint32_t pop_due(uint64_t now) {
    uint32_t timer;
    if (ic_tree_first(links, TIMERS, &queue, &timer) != IC_OK || deadlines[timer] > now)
        return IC_NONE;
    return cancel(timer) == IC_OK ? timer : IC_NONE;
}

int main(void) {
    static const char *const said[] = {"is set", "is no timer", "is set already", "is not set"};
    static const struct { uint32_t timer; uint64_t deadline; } starts[] = {{5, 40}, {2, 10}, {7, 30}, {0, 10}, {5, 20}, {9, 20}, {3, 90}};
    for (size_t i = 0; i < sizeof starts / sizeof *starts; i++)
        printf("timer %u %s\n", (unsigned)starts[i].timer, said[start(starts[i].timer, starts[i].deadline)]);
    printf("cancel 7: %s\n", cancel(7) == IC_OK ? "done" : "failed");
    printf("cancel 7: it %s\n", said[cancel(7)]);
    for (uint64_t now = 10; now <= 50; now += 20)
        for (uint32_t timer = pop_due(now); timer != IC_NONE; timer = pop_due(now))
            printf("at %u timer %u rings\n", (unsigned)now, (unsigned)timer);
    IC_TREE_FOREACH(timer, links, TIMERS, &queue)
        printf("timer %u runs until %u\n", (unsigned)timer, (unsigned)deadlines[timer]);
    return 0;
}
