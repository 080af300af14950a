/* A run queue of three priorities over singly linked lists: eight bytes a task. A task that is woken twice is refused. */
#include "ic.h"
#include <stdio.h>

enum { TASKS = 8, PRIORITIES = 3 };

/* The tasks of a priority, of which the first has waited longest, and the last task, after which the next one is inserted. */
struct level {
    struct ic_stack tasks;
    uint32_t last;
};

static struct ic_link1 links[TASKS]; /* of all levels: a task is in one of them */
static struct level levels[PRIORITIES] = {{{0}, IC_NONE}, {{0}, IC_NONE}, {{0}, IC_NONE}};

/* Inserts a task at the end of its level. Returns IC_LINKED if the task waits already, and IC_OUT_OF_RANGE if there is no such task. */
static uint32_t wake(uint32_t task, int priority) {
    struct level *level = &levels[priority];
    uint32_t status = ic_stack_insert_after(links, TASKS, &level->tasks, level->last, task);
    if (status == IC_OK)
        level->last = task;
    return status;
}

/* Removes the task to run, or returns IC_NONE if none waits. */
static uint32_t next(void) {
    for (struct level *level = levels; level < levels + PRIORITIES; level++) {
        uint32_t task;
        if (ic_stack_pop_front(links, TASKS, &level->tasks, &task) == IC_OK) {
            if (ic_stack_is_empty(&level->tasks))
                level->last = IC_NONE;
            return task;
        }
    }
    return IC_NONE;
}

int main(void) {
    static const char *const said[] = {"waits", "is no task", "waits already"};
    static const struct { uint32_t task; int priority; } wakes[] = {{5, 2}, {1, 1}, {3, 1}, {1, 0}, {9, 0}, {0, 0}, {4, 2}};
    for (size_t i = 0; i < sizeof wakes / sizeof *wakes; i++) {
        uint32_t status = wake(wakes[i].task, wakes[i].priority);
        printf("task %u %s\n", (unsigned)wakes[i].task, status <= IC_LINKED ? said[status] : "is lost");
    }
    for (uint32_t task = next(); task != IC_NONE; task = next())
        printf("run task %u\n", (unsigned)task);
    return 0;
}
