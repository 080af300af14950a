/* What examples/timer_wheel.c does, over Linux's list.h: a timer is an object with a link in it, and so is each head. */
#include <linux/list.h>
#include <stdint.h>
#include <stdio.h>

enum { TIMERS = 8, LEVELS = 3, BITS = 3, SLOTS = 1 << BITS };
enum status { OK, OUT_OF_RANGE, NOT_LINKED };

struct timer {
    struct list_head link;
    uint32_t due_at, period;
};

static struct timer timers[TIMERS];
static struct list_head slots[LEVELS][SLOTS];
static LIST_HEAD(due);
static uint32_t now;
static const char *const names[] = {"IC_OK", "IC_OUT_OF_RANGE", "IC_NOT_LINKED"};

/* The slot of a level that stands for a time. */
static struct list_head *slot(uint32_t level, uint32_t time) {
    return &slots[level][(time >> level * BITS) % SLOTS];
}

/* The slot in which a timer waits: on the lowest level that reaches as far as its time. */
static struct list_head *slot_of(const struct timer *timer) {
    uint32_t level = 0;
    while (level < LEVELS - 1 && timer->due_at - now >= UINT32_C(1) << (level + 1) * BITS)
        level++;
    return slot(level, timer->due_at);
}

/* Starts a timer, or starts one anew that waits already. With a period it rings again and again. */
static enum status start(uint32_t number, uint32_t delay, uint32_t period) {
    if (number >= TIMERS)
        return OUT_OF_RANGE;
    struct timer *timer = &timers[number];
    timer->due_at = now + delay;
    timer->period = period;
    list_move_tail(&timer->link, slot_of(timer));
    return OK;
}

/* Stops a timer. What it returns tells one that does not wait. */
static enum status cancel(uint32_t number) {
    if (number >= TIMERS)
        return OUT_OF_RANGE;
    if (list_empty(&timers[number].link))
        return NOT_LINKED;
    list_del_init(&timers[number].link);
    return OK;
}

/* Moves all timers of a slot to those that are due, or to the slots of the levels below. */
static void empty(uint32_t level) {
    list_splice_tail_init(slot(level, now), &due);
    while (level > 0 && !list_empty(&due)) {
        struct timer *timer = list_first_entry(&due, struct timer, link);
        list_move_tail(&timer->link, slot_of(timer));
    }
}

/* Rings the timers of this tick. At the end of a turn of a level, a slot of the next one is emptied first. */
static void tick(void) {
    uint32_t level = 0;
    now++;
    while (level < LEVELS - 1 && now % (UINT32_C(1) << (level + 1) * BITS) == 0)
        level++;
    for (; level > 0; level--)
        empty(level);
    empty(0);
    while (!list_empty(&due)) {
        struct timer *timer = list_first_entry(&due, struct timer, link);
        list_del_init(&timer->link);
        printf("tick %u: timer %u\n", (unsigned)now, (unsigned)(timer - timers));
        if (timer->period != 0)
            start((uint32_t)(timer - timers), timer->period, timer->period);
    }
}

int main(void) {
    static const struct { uint32_t timer, delay, period; } starts[] = {{0, 3, 0}, {1, 8, 0}, {2, 20, 20}, {3, 64, 0}, {4, 100, 0}, {5, 3, 0}, {6, 200, 0}};
    for (uint32_t at = 0; at < LEVELS * SLOTS; at++)
        INIT_LIST_HEAD(&slots[at / SLOTS][at % SLOTS]);
    for (uint32_t at = 0; at < TIMERS; at++)
        INIT_LIST_HEAD(&timers[at].link);
    for (size_t i = 0; i < sizeof starts / sizeof *starts; i++)
        if (start(starts[i].timer, starts[i].delay, starts[i].period) != OK)
            return 1;
    while (now < 70)
        tick();
    printf("stop 2: %s\n", names[cancel(2)]);
    printf("stop 3: %s\n", names[cancel(3)]); /* it has rung */
    printf("start 6 anew: %s\n", names[start(6, 5, 0)]);
    printf("start 9: %s\n", names[start(9, 5, 0)]);
    while (now < 300)
        tick();
    return 0;
}
