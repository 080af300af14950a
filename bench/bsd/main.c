/* The workloads on sys/queue.h and sys/tree.h of BSD.
 *
 * `peer WORKLOAD MEMBERS OPERATIONS` prints the nanoseconds of all operations and a checksum. bench/README.md says what each workload
 * does. The functions timed_* are what is timed, and what callgrind counts. */

#include "../peer.h"
#include <bsd/sys/queue.h>
#include <bsd/sys/tree.h>

struct doubly {
    TAILQ_ENTRY(doubly) link;
    uint64_t value;
};

struct singly {
    SLIST_ENTRY(singly) link;
    uint64_t value;
};

struct node {
    RB_ENTRY(node) link;
    uint64_t value;
};

static int compare(const struct node *one, const struct node *other) {
    return (one->value > other->value) - (one->value < other->value);
}

TAILQ_HEAD(doubly_list, doubly);
SLIST_HEAD(singly_list, singly);
RB_HEAD(tree, node);
RB_GENERATE(tree, node, link, compare)

/* What a workload is called with: how much to do, and two random orders of the members. The first is the order of the values too. */
struct room {
    uint64_t members, operations, *values, *order, *other;
};

/* Objects with the even numbers as values, in a random order, and references to them in another random order. */
#define REFER(type, refs, objects, count, numbers)                     \
    struct type **refs = room_for(count, sizeof *refs);                \
    for (uint64_t index = 0; index < (count); index++)                 \
        refs[index] = &objects[numbers[index]];

#define MAKE(type, objects, room)                                      \
    struct type *objects = room_for((room)->members, sizeof *objects); \
    for (uint64_t index = 0; index < (room)->members; index++)         \
        objects[index].value = 2 * (room)->values[index];

/* ---- The doubly linked list ---- */

TIMED timed_pair(struct doubly_list *list, uint64_t operations) {
    while (operations--) {
        struct doubly *object = TAILQ_FIRST(list);
        TAILQ_REMOVE(list, object, link);
        TAILQ_INSERT_TAIL(list, object, link);
    }
    return 0;
}

TIMED timed_fill(struct doubly_list *list, struct doubly **order, uint64_t members) {
    for (uint64_t index = 0; index < members; index++)
        TAILQ_INSERT_TAIL(list, order[index], link);
    return 0;
}

TIMED timed_touch(struct doubly_list *list, struct doubly **order, uint64_t members, uint64_t operations) {
    uint64_t random = 1;
    while (operations--) {
        struct doubly *object = order[below(&random, members)];
        TAILQ_REMOVE(list, object, link);
        TAILQ_INSERT_TAIL(list, object, link);
    }
    return 0;
}

TIMED timed_step(struct doubly_list *list, uint64_t operations) {
    struct doubly *at = TAILQ_FIRST(list);
    while (operations--)
        at = at ? TAILQ_NEXT(at, link) : TAILQ_FIRST(list);
    return at ? at->value : 0;
}

TIMED timed_iter(struct doubly_list *list, uint64_t rounds) {
    uint64_t sum = 0;
    struct doubly *object;
    while (rounds--)
        TAILQ_FOREACH (object, list, link)
            sum += object->value;
    return sum;
}

static uint64_t doubly(const char *workload, const struct room *room, uint64_t *time) {
    struct doubly_list list = TAILQ_HEAD_INITIALIZER(list);
    MAKE(doubly, objects, room)
    REFER(doubly, order, objects, room->members, room->order)
    uint64_t start = now();
    timed_fill(&list, order, room->members);
    uint64_t filled = now();
    uint64_t checksum = !strcmp(workload, "pair")    ? timed_pair(&list, room->operations)
                        : !strcmp(workload, "touch") ? timed_touch(&list, order, room->members, room->operations)
                        : !strcmp(workload, "step")  ? timed_step(&list, room->operations)
                        : !strcmp(workload, "iter")  ? timed_iter(&list, room->operations / room->members)
                                                     : 0;
    *time = strcmp(workload, "fill") ? now() - filled : filled - start;
    uint64_t hash = 0;
    struct doubly *object;
    TAILQ_FOREACH (object, &list, link)
        hash = hash * 31 + object->value;
    return hash + checksum;
}

/* ---- The singly linked list ---- */

TIMED timed_singly(struct singly_list *list, struct singly **order, uint64_t members, uint64_t rounds) {
    while (rounds--) {
        while (!SLIST_EMPTY(list))
            SLIST_REMOVE_HEAD(list, link);
        for (uint64_t index = 0; index < members; index++)
            SLIST_INSERT_HEAD(list, order[index], link);
    }
    return 0;
}

static uint64_t singly(const struct room *room, uint64_t *time) {
    struct singly_list list = SLIST_HEAD_INITIALIZER(list);
    MAKE(singly, objects, room)
    REFER(singly, order, objects, room->members, room->order)
    for (uint64_t index = 0; index < room->members; index++)
        SLIST_INSERT_HEAD(&list, order[index], link);
    uint64_t start = now();
    timed_singly(&list, order, room->members, room->operations / room->members);
    *time = now() - start;
    uint64_t hash = 0;
    struct singly *object;
    SLIST_FOREACH (object, &list, link)
        hash = hash * 31 + object->value;
    return hash;
}

/* ---- The tree ---- */

TIMED timed_insert(struct tree *tree, struct node **order, uint64_t count) {
    for (uint64_t index = 0; index < count; index++)
        RB_INSERT(tree, tree, order[index]);
    return 0;
}

TIMED timed_remove(struct tree *tree, struct node **order, uint64_t count) {
    for (uint64_t index = 0; index < count; index++)
        RB_REMOVE(tree, tree, order[index]);
    return 0;
}

TIMED timed_find(struct tree *tree, uint64_t members, uint64_t operations) {
    uint64_t random = 1, sum = 0;
    while (operations--) {
        struct node key = {.value = 2 * below(&random, members)}, *found = RB_FIND(tree, tree, &key);
        if (found)
            sum += found->value;
    }
    return sum;
}

TIMED timed_lower_bound(struct tree *tree, uint64_t members, uint64_t operations) {
    uint64_t random = 1, sum = 0;
    while (operations--) {
        struct node key = {.value = 2 * below(&random, members) + 1}, *found = RB_NFIND(tree, tree, &key);
        if (found)
            sum += found->value;
    }
    return sum;
}

TIMED timed_turn(struct tree *tree, uint64_t members, uint64_t operations) {
    uint64_t random = 1;
    while (operations--) {
        struct node key = {.value = 2 * below(&random, members)}, *found = RB_FIND(tree, tree, &key);
        if (found) {
            RB_REMOVE(tree, tree, found);
            RB_INSERT(tree, tree, found);
        }
    }
    return 0;
}

TIMED timed_queue(struct tree *tree, uint64_t members, uint64_t operations) {
    while (operations--) {
        struct node *object = RB_MIN(tree, tree);
        RB_REMOVE(tree, tree, object);
        object->value += 2 * members;
        RB_INSERT(tree, tree, object);
    }
    return 0;
}

TIMED timed_tree_step(struct tree *tree, uint64_t operations) {
    struct node *at = RB_MIN(tree, tree);
    while (operations--)
        at = at ? RB_NEXT(tree, tree, at) : RB_MIN(tree, tree);
    return at ? at->value : 0;
}

TIMED timed_tree_iter(struct tree *tree, uint64_t rounds) {
    uint64_t sum = 0;
    struct node *object;
    while (rounds--)
        RB_FOREACH (object, tree, tree)
            sum += object->value;
    return sum;
}

/* What the members are and in which order they are, as one number. */
static uint64_t hashed(struct tree *tree) {
    uint64_t hash = 0;
    struct node *object;
    RB_FOREACH (object, tree, tree)
        hash = hash * 31 + object->value;
    return hash;
}

static void fill(struct tree *tree, struct node **order, uint64_t members) {
    RB_INIT(tree);
    for (uint64_t index = 0; index < members; index++)
        RB_INSERT(tree, tree, order[index]);
}

/* Builds one tree, walks through it, and finds keys. It prints the nanoseconds of the first two steps, each before a colon, and stores those of the last one. */
static uint64_t tree_once(const struct room *room, uint64_t *time) {
    struct tree tree = RB_INITIALIZER(&tree);
    uint64_t members = room->members, checksum, start;
    MAKE(node, objects, room)
    REFER(node, order, objects, members, room->order)
    start = now();
    timed_insert(&tree, order, members);
    printf("%" PRIu64 ":", now() - start);
    start = now();
    checksum = timed_tree_iter(&tree, 1);
    printf("%" PRIu64 ":", now() - start);
    start = now();
    checksum += timed_find(&tree, members, room->operations);
    *time = now() - start;
    return checksum + hashed(&tree);
}

static uint64_t on_tree(const char *workload, const struct room *room, uint64_t *time) {
    struct tree tree = RB_INITIALIZER(&tree);
    uint64_t members = room->members, operations = room->operations, half = members / 2, checksum = 0;
    MAKE(node, objects, room)
    REFER(node, order, objects, members, room->order)
    REFER(node, other, objects, half, room->other)
    fill(&tree, order, members);
    if (!strcmp(workload, "insert")) {
        for (uint64_t rounds = operations / members; rounds--;) {
            RB_INIT(&tree);
            uint64_t start = now();
            timed_insert(&tree, order, members);
            *time += now() - start;
        }
    } else if (!strcmp(workload, "remove")) {
        for (uint64_t rounds = operations / half; rounds--;) {
            fill(&tree, order, members);
            uint64_t start = now();
            timed_remove(&tree, other, half);
            *time += now() - start;
        }
    } else {
        uint64_t start = now();
        checksum = !strcmp(workload, "find")          ? timed_find(&tree, members, operations)
                   : !strcmp(workload, "lower_bound") ? timed_lower_bound(&tree, members, operations)
                   : !strcmp(workload, "turn")        ? timed_turn(&tree, members, operations)
                   : !strcmp(workload, "queue")       ? timed_queue(&tree, members, operations)
                   : !strcmp(workload, "tree_step")   ? timed_tree_step(&tree, operations)
                                                      : timed_tree_iter(&tree, operations / members);
        *time = now() - start;
    }
    return hashed(&tree) + checksum;
}

int main(int count, char **words) {
    if (count != 4) {
        fputs("peer WORKLOAD MEMBERS OPERATIONS\n", stderr);
        return 2;
    }
    const char *workload = words[1];
    uint64_t random = 1, time = 0, members = strtoull(words[2], NULL, 10);
    struct room room = {.members = members, .operations = strtoull(words[3], NULL, 10)};
    room.values = shuffled(&random, members);
    room.order = shuffled(&random, members);
    room.other = shuffled(&random, members);
    int is_doubly = !strcmp(workload, "fill") || !strcmp(workload, "pair") || !strcmp(workload, "touch") || !strcmp(workload, "step") || !strcmp(workload, "iter");
    uint64_t checksum = is_doubly                     ? doubly(workload, &room, &time)
                        : !strcmp(workload, "singly") ? singly(&room, &time)
                        : !strcmp(workload, "tree_once") ? tree_once(&room, &time)
                                                      : on_tree(workload, &room, &time);
    printf("%" PRIu64 " %" PRIu64 "\n", time, checksum);
    return 0;
}
