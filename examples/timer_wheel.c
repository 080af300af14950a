/* A hierarchical timer wheel. Each level has eight slots, and a slot stands for as many ticks as the whole level below. A timer waits in the
 * ring of its slot, and leaves it without a search: no code has to know which slot that is. As its time comes nearer, it moves down with all
 * timers of its slot. No call takes memory, and only a tick goes over timers. */
#include "ic_in.h"
#include <stdio.h>

enum { TIMERS = 8, LEVELS = 3, BITS = 3, SLOTS = 1 << BITS, FIRST_HEAD = TIMERS, DUE = FIRST_HEAD + LEVELS * SLOTS, PLACES };

static struct ic_link2 links[PLACES]; /* the timers, then a head for each slot of each level, and one for those that are due */
static const struct ic_ring_in wheel = {IC_TABLE(links)};
static uint32_t now, due_at[TIMERS], periods[TIMERS];

/* The head of the slot of a level that stands for a time. */
static uint32_t slot(uint32_t level, uint32_t time) {
    return FIRST_HEAD + level * SLOTS + (time >> level * BITS) % SLOTS;
}

/* The slot in which a timer waits: on the lowest level that reaches as far as its time. */
static uint32_t slot_of(uint32_t timer) {
    uint32_t level = 0;
    while (level < LEVELS - 1 && due_at[timer] - now >= UINT32_C(1) << (level + 1) * BITS)
        level++;
    return slot(level, due_at[timer]);
}

/* Starts a timer, or starts it anew if it waits already. With a period it rings again and again. */
static uint32_t start(uint32_t timer, uint32_t delay, uint32_t period) {
    if (timer >= TIMERS)
        return IC_OUT_OF_RANGE;
    due_at[timer] = now + delay;
    periods[timer] = period;
    return ic_ring_in_is_linked(wheel, timer) ? ic_ring_in_move_before(wheel, slot_of(timer), timer)
                                              : ic_ring_in_push_back(wheel, slot_of(timer), timer);
}

/* Stops a timer. What it returns tells one that does not wait. */
static uint32_t cancel(uint32_t timer) {
    return ic_ring_in_remove(wheel, timer);
}

/* Moves all timers of a slot to those that are due, or to the slots of the levels below. */
static uint32_t empty(uint32_t level) {
    uint32_t timer, status = ic_ring_in_splice_before(wheel, DUE, slot(level, now));
    while (level > 0 && status == IC_OK && ic_ring_in_pop_front(wheel, DUE, &timer) == IC_OK)
        status = ic_ring_in_push_back(wheel, slot_of(timer), timer);
    return status;
}

/* Rings the timers of this tick. At the end of a turn of a level, a slot of the next one is emptied first. */
static uint32_t tick(void) {
    uint32_t timer, status = IC_OK, level = 0;
    now++;
    while (level < LEVELS - 1 && now % (UINT32_C(1) << (level + 1) * BITS) == 0)
        level++;
    for (; level > 0 && status == IC_OK; level--)
        status = empty(level);
    if (status == IC_OK)
        status = empty(0);
    while (status == IC_OK && ic_ring_in_pop_front(wheel, DUE, &timer) == IC_OK) {
        printf("tick %u: timer %u\n", (unsigned)now, (unsigned)timer);
        if (periods[timer] != 0)
            status = start(timer, periods[timer], periods[timer]);
    }
    return status;
}

int main(void) {
    static const struct { uint32_t timer, delay, period; } starts[] = {{0, 3, 0}, {1, 8, 0}, {2, 20, 20}, {3, 64, 0}, {4, 100, 0}, {5, 3, 0}, {6, 200, 0}};
    uint32_t status = IC_OK;
    for (uint32_t head = FIRST_HEAD; head < PLACES && status == IC_OK; head++)
        status = ic_ring_in_init(wheel, head);
    for (size_t i = 0; i < sizeof starts / sizeof *starts && status == IC_OK; i++)
        status = start(starts[i].timer, starts[i].delay, starts[i].period);
    while (now < 70 && status == IC_OK)
        status = tick();
    if (status != IC_OK)
        return 1;
    printf("stop 2: %s\n", ic_status_name(cancel(2)));
    printf("stop 3: %s\n", ic_status_name(cancel(3))); /* it has rung */
    printf("start 6 anew: %s\n", ic_status_name(start(6, 5, 0)));
    printf("start 9: %s\n", ic_status_name(start(9, 5, 0)));
    while (now < 300 && status == IC_OK)
        status = tick();
    return status != IC_OK;
}
