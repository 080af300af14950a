/* The workloads on a model of Linux's list with CONFIG_LIST_HARDENED.
 *
 * `peer WORKLOAD MEMBERS OPERATIONS` prints the nanoseconds of all operations and a checksum. bench/README.md says what each workload
 * does. The functions timed_* are what is timed, and what callgrind counts. */

#include "../peer.h"
#include "list.h"

/* What a workload is called with: how much to do, and two random orders of the members. The first is the order of the values too. */
struct room {
    uint64_t members, operations, *values, *order;
};

TIMED timed_pair(struct links *list, uint64_t operations) {
    while (operations--) {
        struct links *member = list->next;
        take(member);
        push_back(list, member);
    }
    return 0;
}

TIMED timed_touch(struct links *list, struct object **order, uint64_t members, uint64_t operations) {
    uint64_t random = 1;
    while (operations--) {
        move_to_back(list, &order[below(&random, members)]->links);
    }
    return 0;
}

TIMED timed_splice(struct links *list, struct object **order, uint64_t members, uint64_t operations) {
    uint64_t random = 1;
    while (operations--) {
        struct links rest;
        split_after(list, &order[below(&random, members)]->links, &rest);
        splice_front(list, &rest);
    }
    return 0;
}

TIMED timed_step(struct links *list, uint64_t operations) {
    struct links *at = list->next;
    while (operations--)
        at = at->next;
    return at == list ? 0 : ((struct object *)at)->value;
}

TIMED timed_iter(struct links *list, uint64_t rounds) {
    uint64_t sum = 0;
    while (rounds--)
        for (struct links *at = list->next; at != list; at = at->next)
            sum += ((struct object *)at)->value;
    return sum;
}

static uint64_t work(const char *workload, const struct room *room, uint64_t *time) {
    struct links list;
    struct object *objects = room_for(room->members, sizeof *objects), **order = room_for(room->members, sizeof *order);
    for (uint64_t index = 0; index < room->members; index++)
        objects[index].value = 2 * room->values[index];
    make_empty(&list);
    for (uint64_t index = 0; index < room->members; index++) {
        order[index] = &objects[room->order[index]];
        push_back(&list, &order[index]->links);
    }
    uint64_t start = now();
    uint64_t checksum = !strcmp(workload, "pair")     ? timed_pair(&list, room->operations)
                        : !strcmp(workload, "touch")  ? timed_touch(&list, order, room->members, room->operations)
                        : !strcmp(workload, "splice") ? timed_splice(&list, order, room->members, room->operations)
                        : !strcmp(workload, "step")   ? timed_step(&list, room->operations)
                                                      : timed_iter(&list, room->operations / room->members);
    *time = now() - start;
    uint64_t hash = 0;
    for (struct links *at = list.next; at != &list; at = at->next)
        hash = hash * 31 + ((struct object *)at)->value;
    return hash + checksum;
}

int main(int count, char **words) {
    if (count != 4) {
        fputs("peer WORKLOAD MEMBERS OPERATIONS\n", stderr);
        return 2;
    }
    uint64_t random = 1, time = 0, members = strtoull(words[2], NULL, 10);
    struct room room = {.members = members, .operations = strtoull(words[3], NULL, 10)};
    room.values = shuffled(&random, members);
    room.order = shuffled(&random, members);
    uint64_t checksum = work(words[1], &room, &time);
    printf("%" PRIu64 " %" PRIu64 "\n", time, checksum);
    return 0;
}
