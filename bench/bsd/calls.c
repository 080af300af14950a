/* What sys/queue.h and sys/tree.h of BSD have that is most like calls of the library for C, by the workloads of bench/library/calls.c.
 *
 * `calls WORKLOAD MEMBERS OPERATIONS` prints the nanoseconds of all operations. MEMBERS is even. The functions timed_* are what callgrind counts. */

#include "../calls.h"
#include <bsd/sys/queue.h>
#include <bsd/sys/tree.h>

/* An object with links of each kind. */
struct object {
    TAILQ_ENTRY(object) doubly;
    SLIST_ENTRY(object) singly;
    RB_ENTRY(object) node;
    uint64_t value;
};

static int compare(const struct object *one, const struct object *other) {
    return (one->value > other->value) - (one->value < other->value);
}

TAILQ_HEAD(doubly_list, object);
SLIST_HEAD(singly_list, object);
RB_HEAD(tree, object);
RB_GENERATE(tree, object, node, compare)

struct room {
    uint64_t members;
    struct object **order;
    struct doubly_list list, other;
    struct singly_list singly;
    struct tree tree;
};
#define ANY it->order[below(&random, it->members)]

ROW(room, list_back, struct object *object = TAILQ_LAST(&it->list, doubly_list); TAILQ_REMOVE(&it->list, object, doubly);
    TAILQ_INSERT_HEAD(&it->list, object, doubly);)
ROW(room, list_after, struct object *object = EVEN(it->order); struct object *at = ODD(it->order); TAILQ_REMOVE(&it->list, object, doubly);
    TAILQ_INSERT_AFTER(&it->list, at, object, doubly);)
ROW(room, list_before, struct object *object = EVEN(it->order); struct object *at = ODD(it->order); TAILQ_REMOVE(&it->list, object, doubly);
    TAILQ_INSERT_BEFORE(at, object, doubly);)
ROW(room, list_to_front, struct object *object = ANY; TAILQ_REMOVE(&it->list, object, doubly); TAILQ_INSERT_HEAD(&it->list, object, doubly);)
ROW(room, list_transfer, struct object *object = ANY; TAILQ_REMOVE(&it->list, object, doubly); TAILQ_INSERT_HEAD(&it->other, object, doubly); AND_THEN;
    TAILQ_REMOVE(&it->other, object, doubly); TAILQ_INSERT_TAIL(&it->list, object, doubly);)
ROW(room, ring_splice, TAILQ_CONCAT(&it->other, &it->list, doubly); AND_THEN; TAILQ_CONCAT(&it->list, &it->other, doubly);)
ROW(room, stack_after, struct object *at = it->order[below(&random, it->members - 1)]; struct object *object = SLIST_NEXT(at, singly);
    SLIST_REMOVE_AFTER(at, singly); AND_THEN; SLIST_INSERT_AFTER(at, object, singly);)
ROW(room, ends_turn, struct object *object = ANY; RB_REMOVE(tree, &it->tree, object); RB_INSERT(tree, &it->tree, object);)

TIMED timed_tree_prev(struct room *it, uint64_t operations) {
    struct object *at = NULL;
    while (operations--)
        at = at ? RB_PREV(tree, &it->tree, at) : RB_MAX(tree, &it->tree);
    return at ? at->value : 0;
}

static uint64_t work(const char *workload, struct room *it, uint64_t operations) {
    RUN(list_back);
    RUN(list_after);
    RUN(list_before);
    RUN(list_to_front);
    RUN(list_transfer);
    RUN(ring_splice);
    RUN(stack_after);
    RUN(ends_turn);
    RUN(tree_prev);
    exit(2);
}

int main(int count, char **words) {
    if (count != 4)
        return 2;
    uint64_t random = 1, members = strtoull(words[2], NULL, 10), *values = shuffled(&random, members), *numbers = shuffled(&random, members);
    struct object *objects = room_for(members, sizeof *objects);
    struct room room = {members, room_for(members, sizeof *room.order), TAILQ_HEAD_INITIALIZER(room.list), TAILQ_HEAD_INITIALIZER(room.other),
                        SLIST_HEAD_INITIALIZER(room.singly), RB_INITIALIZER(&room.tree)};
    for (uint64_t index = 0; index < members; index++) {
        objects[index].value = 2 * values[index];
        room.order[index] = &objects[numbers[index]];
    }
    for (uint64_t index = 0; index < members; index++) {
        TAILQ_INSERT_TAIL(&room.list, room.order[index], doubly);
        SLIST_INSERT_HEAD(&room.singly, room.order[members - 1 - index], singly);
        RB_INSERT(tree, &room.tree, room.order[index]);
    }
    uint64_t start = now(), sum = work(words[1], &room, strtoull(words[3], NULL, 10));
    printf("%" PRIu64 " %" PRIu64 "\n", now() - start, sum);
    return 0;
}
