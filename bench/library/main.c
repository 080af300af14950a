/* The workloads on the library for C and Rust, over a table of links.
 *
 * `peer WORKLOAD MEMBERS OPERATIONS` prints the nanoseconds of all operations and a checksum. bench/README.md says what each workload
 * does. The functions timed_* are what is timed, and what callgrind counts. */

#include "ic.h"
#include <stdio.h>
#include <stdlib.h>
#include <string.h>
#include <time.h>

/* What a workload is called with: how much to do, the values of the objects, and their places in two more random orders. */
struct room {
    uint32_t members;
    uint64_t operations, *values;
    uint32_t *order, *other;
};

/* The generator that all programs share. */
static uint64_t below(uint64_t *state, uint64_t bound) {
    *state = *state * 6364136223846793005u + 1442695040888963407u;
    return ((*state >> 32) * bound) >> 32;
}

static void *room_for(uint64_t count, size_t size) {
    void *memory = calloc((size_t)count, size);
    if (!memory)
        exit(1);
    return memory;
}

/* The numbers below `count`, in a random order. */
static uint32_t *shuffled(uint64_t *state, uint32_t count) {
    uint32_t *numbers = room_for(count, sizeof *numbers);
    for (uint32_t index = 0; index < count; index++)
        numbers[index] = index;
    for (uint32_t last = count - 1; last > 0; last--) {
        uint32_t other = (uint32_t)below(state, last + 1), number = numbers[last];
        numbers[last] = numbers[other];
        numbers[other] = number;
    }
    return numbers;
}

#if defined(__unix__) || defined(__APPLE__)
static uint64_t now(void) {
    struct timespec time;
    clock_gettime(CLOCK_MONOTONIC, &time);
    return (uint64_t)time.tv_sec * 1000000000u + (uint64_t)time.tv_nsec;
}
#else
uint64_t now(void); /* of board.c, which is for a processor with no system */
#endif

/* Stops the program if a call that prepares a workload is refused. */
static void must(uint32_t status) {
    if (status != IC_OK)
        exit(1);
}

#define TIMED static __attribute__((noinline)) uint64_t

/* ---- The doubly linked list ---- */

TIMED timed_pair(struct ic_link2 *links, uint32_t members, struct ic_list *list, uint64_t operations) {
    uint64_t failed = 0;
    while (operations--) {
        uint32_t place;
        failed += ic_list_pop_front(links, members, list, &place);
        failed += ic_list_push_back(links, members, list, place);
    }
    return failed;
}

TIMED timed_touch(struct ic_link2 *links, uint32_t members, struct ic_list *list, const uint32_t *order, uint64_t operations) {
    uint64_t random = 1, failed = 0;
    while (operations--)
        failed += ic_list_move_to_back(links, members, list, order[below(&random, members)]);
    return failed;
}

TIMED timed_splice(struct ic_link2 *links, uint32_t members, struct ic_list *list, const uint32_t *order, uint64_t operations) {
    uint64_t random = 1, failed = 0;
    while (operations--) {
        struct ic_list rest = {0, 0};
        failed += ic_list_split_after(links, members, list, order[below(&random, members)], &rest);
        failed += ic_list_splice_after(links, members, list, IC_NONE, &rest);
    }
    return failed;
}

TIMED timed_step(const struct ic_link2 *links, uint32_t members, const struct ic_list *list, const uint64_t *values, uint64_t operations) {
    uint32_t at = ic_list_first(list);
    while (operations--)
        at = at != IC_NONE ? ic_list_next(links, members, at) : ic_list_first(list);
    return at != IC_NONE ? values[at] : 0;
}

TIMED timed_iter(const struct ic_link2 *links, uint32_t members, const struct ic_list *list, const uint64_t *values, uint64_t rounds) {
    uint64_t sum = 0;
    while (rounds--)
        IC_LIST_FOREACH(at, links, members, list)
            sum += values[at];
    return sum;
}

static uint64_t doubly(const char *workload, const struct room *room, uint64_t *time) {
    uint32_t members = room->members;
    struct ic_link2 *links = room_for(members, sizeof *links);
    struct ic_list list = {0, 0};
    for (uint32_t index = 0; index < members; index++)
        must(ic_list_push_back(links, members, &list, room->order[index]));
    uint64_t start = now();
    uint64_t checksum = !strcmp(workload, "pair")     ? timed_pair(links, members, &list, room->operations)
                        : !strcmp(workload, "touch")  ? timed_touch(links, members, &list, room->order, room->operations)
                        : !strcmp(workload, "splice") ? timed_splice(links, members, &list, room->order, room->operations)
                        : !strcmp(workload, "step")   ? timed_step(links, members, &list, room->values, room->operations)
                                                      : timed_iter(links, members, &list, room->values, room->operations / members);
    *time = now() - start;
    uint64_t hash = 0;
    IC_LIST_FOREACH(at, links, members, &list)
        hash = hash * 31 + room->values[at];
    return hash + checksum;
}

/* ---- The sort of a doubly linked list ---- */

TIMED timed_sort(struct ic_link2 *links, uint32_t members, const uint64_t *values, struct ic_list *list) {
    return ic_list_sort(links, members, values, members, list);
}

static uint64_t sorted(const struct room *room, uint64_t *time) {
    uint32_t members = room->members;
    struct ic_link2 *links = room_for(members, sizeof *links);
    struct ic_list list = {0, 0};
    uint64_t failed = 0, hash = 0, *values = room_for(members, sizeof *values);
    memcpy(values, room->values, members * sizeof *values);
    *time = 0;
    for (uint64_t rounds = room->operations / members; rounds--;) {
        memset(links, 0, members * sizeof *links);
        list = (struct ic_list){0, 0};
        for (uint32_t index = 0; index < members; index++)
            must(ic_list_push_back(links, members, &list, room->order[index]));
        uint64_t start = now();
        failed += timed_sort(links, members, values, &list);
        *time += now() - start;
        for (uint32_t index = 0; index < members; index++)
            values[index] *= 6364136223846793005u;
    }
    IC_LIST_FOREACH(at, links, members, &list)
        hash = hash * 31 + room->values[at];
    return hash + failed;
}

/* ---- The singly linked list ---- */

TIMED timed_singly(struct ic_link1 *links, uint32_t members, struct ic_stack *list, const uint32_t *order, uint64_t rounds) {
    uint64_t failed = 0;
    while (rounds--) {
        uint32_t place;
        while (ic_stack_pop_front(links, members, list, &place) == IC_OK)
            ;
        for (uint32_t index = 0; index < members; index++)
            failed += ic_stack_push_front(links, members, list, order[index]);
    }
    return failed;
}

static uint64_t singly(const struct room *room, uint64_t *time) {
    uint32_t members = room->members;
    struct ic_link1 *links = room_for(members, sizeof *links);
    struct ic_stack list = {0};
    for (uint32_t index = 0; index < members; index++)
        must(ic_stack_push_front(links, members, &list, room->order[index]));
    uint64_t start = now();
    uint64_t checksum = timed_singly(links, members, &list, room->order, room->operations / members);
    *time = now() - start;
    uint64_t hash = 0;
    IC_STACK_FOREACH(at, links, members, &list)
        hash = hash * 31 + room->values[at];
    return hash + checksum;
}

/* ---- The XOR list ---- */

TIMED timed_xor(struct ic_link1 *links, uint32_t members, struct ic_xor_list *list, uint64_t operations) {
    uint64_t failed = 0;
    while (operations--) {
        uint32_t place;
        failed += ic_xor_pop_front(links, members, list, &place);
        failed += ic_xor_push_back(links, members, list, place);
    }
    return failed;
}

static uint64_t xor_list(const struct room *room, uint64_t *time) {
    uint32_t members = room->members;
    struct ic_link1 *links = room_for(members, sizeof *links);
    struct ic_xor_list list = {0, 0};
    for (uint32_t index = 0; index < members; index++)
        must(ic_xor_push_back(links, members, &list, room->order[index]));
    uint64_t start = now();
    uint64_t checksum = timed_xor(links, members, &list, room->operations);
    *time = now() - start;
    uint64_t hash = 0;
    IC_XOR_FOREACH(at, links, members, &list)
        hash = hash * 31 + room->values[at];
    return hash + checksum;
}

/* ---- The hash table: its places have the hashes of their values, in a power of two of buckets or in another number of them ---- */

TIMED timed_hash_find(const struct ic_link1 *links, const struct room *room, const struct ic_stack *buckets, uint32_t count) {
    uint64_t random = 1, sum = 0;
    for (uint64_t operations = room->operations; operations--;) {
        uint32_t found;
        uint64_t key = 2 * below(&random, room->members), hash = key * UINT64_C(0x9E3779B97F4A7C15);
        if (ic_hash_find(links, room->members, room->values, room->members, buckets, count, hash, key, &found) == IC_OK)
            sum += room->values[found];
    }
    return sum;
}

static uint64_t hash_of(uint64_t key) {
    return key * UINT64_C(0x9E3779B97F4A7C15);
}

TIMED timed_hash_turn(struct ic_link1 *links, const struct room *room, struct ic_stack *buckets, uint32_t count) {
    uint64_t random = 1, failed = 0;
    for (uint64_t operations = room->operations; operations--;) {
        uint32_t place = room->order[below(&random, room->members)];
        failed += ic_hash_remove(links, room->members, buckets, count, hash_of(room->values[place]), place);
        failed += ic_hash_insert(links, room->members, buckets, count, hash_of(room->values[place]), place);
    }
    return failed;
}

TIMED timed_hash_all(const struct ic_link1 *links, const struct room *room, const struct ic_stack *buckets, uint32_t count) {
    uint64_t sum = 0;
    for (uint64_t rounds = room->operations / room->members; rounds--;)
        IC_HASH_FOREACH_ALL(at, links, room->members, buckets, count)
            sum += room->values[at];
    return sum;
}

static uint64_t hashed(const char *workload, const struct room *room, uint32_t count, uint64_t *time) {
    struct ic_link1 *links = room_for(room->members, sizeof *links);
    struct ic_stack *buckets = room_for(count, sizeof *buckets);
    for (uint32_t place = 0; place < room->members; place++)
        must(ic_hash_insert(links, room->members, buckets, count, hash_of(room->values[place]), place));
    uint64_t start = now();
    uint64_t sum = !strcmp(workload, "hash_turn")  ? timed_hash_turn(links, room, buckets, count)
                   : !strcmp(workload, "hash_all") ? timed_hash_all(links, room, buckets, count)
                                                   : timed_hash_find(links, room, buckets, count);
    *time = now() - start;
    return sum;
}

/* ---- The tree, whose keys are the values ---- */

/* A tree over a table, as the calls take them. */
struct keyed {
    struct ic_link3 *links;
    uint64_t *keys;
    uint32_t members;
    struct ic_tree tree;
};

static uint32_t insert(struct keyed *it, uint32_t place) {
    return ic_tree_insert(it->links, it->members, it->keys, it->members, &it->tree, place);
}

static uint32_t take(struct keyed *it, uint32_t place) {
    return ic_tree_remove(it->links, it->members, &it->tree, place);
}

static uint32_t find(const struct keyed *it, uint64_t key, uint32_t *found) {
    return ic_tree_find(it->links, it->members, it->keys, it->members, &it->tree, key, found);
}

static uint32_t first(const struct keyed *it, uint32_t *found) {
    return ic_tree_first(it->links, it->members, &it->tree, found);
}

static uint32_t next(const struct keyed *it, uint32_t at, uint32_t *found) {
    return ic_tree_next(it->links, it->members, &it->tree, at, found);
}

TIMED timed_insert(struct keyed *it, const uint32_t *order, uint32_t count) {
    uint64_t failed = 0;
    for (uint32_t index = 0; index < count; index++)
        failed += insert(it, order[index]);
    return failed;
}

TIMED timed_unique_insert(struct keyed *it, const uint32_t *order, uint32_t count) {
    uint64_t failed = 0;
    for (uint32_t index = 0; index < count; index++) {
        uint32_t found;
        failed += ic_tree_insert_unique(it->links, it->members, it->keys, it->members, &it->tree, order[index], &found);
    }
    return failed;
}

/* How a key compares with that of a member. */
static int compare(const struct keyed *it, uint64_t key, uint32_t at) {
    return (key > it->keys[at]) - (key < it->keys[at]);
}

TIMED timed_compared_insert(struct keyed *it, const uint32_t *order, uint32_t count) {
    uint64_t failed = 0;
    for (uint32_t index = 0; index < count; index++) {
        uint32_t at, status;
        IC_TREE_INSERT_BY(status, at, it->links, it->members, &it->tree, order[index], compare(it, it->keys[order[index]], at));
        failed += status;
    }
    return failed;
}

TIMED timed_compared_unique_insert(struct keyed *it, const uint32_t *order, uint32_t count) {
    uint64_t failed = 0;
    for (uint32_t index = 0; index < count; index++) {
        uint32_t at, status;
        IC_TREE_INSERT_UNIQUE_BY(status, at, it->links, it->members, &it->tree, order[index], compare(it, it->keys[order[index]], at));
        failed += status;
    }
    return failed;
}

TIMED timed_compared_find(const struct keyed *it, uint64_t operations) {
    uint64_t random = 1, sum = 0;
    while (operations--) {
        uint32_t at;
        uint64_t key = 2 * below(&random, it->members);
        IC_TREE_FIND_BY(at, it->links, it->members, &it->tree, compare(it, key, at));
        if (at != IC_NONE)
            sum += it->keys[at];
    }
    return sum;
}

TIMED timed_remove(struct keyed *it, const uint32_t *order, uint32_t count) {
    uint64_t failed = 0;
    for (uint32_t index = 0; index < count; index++)
        failed += take(it, order[index]);
    return failed;
}

TIMED timed_find(const struct keyed *it, uint64_t operations) {
    uint64_t random = 1, sum = 0;
    while (operations--) {
        uint32_t found;
        if (find(it, 2 * below(&random, it->members), &found) == IC_OK)
            sum += it->keys[found];
    }
    return sum;
}

TIMED timed_lower_bound(const struct keyed *it, uint64_t operations) {
    uint64_t random = 1, sum = 0;
    while (operations--) {
        uint32_t found;
        uint64_t key = 2 * below(&random, it->members) + 1;
        if (ic_tree_lower_bound(it->links, it->members, it->keys, it->members, &it->tree, key, &found) == IC_OK)
            sum += it->keys[found];
    }
    return sum;
}

TIMED timed_turn(struct keyed *it, uint64_t operations) {
    uint64_t random = 1, failed = 0;
    while (operations--) {
        uint32_t found;
        if (find(it, 2 * below(&random, it->members), &found) == IC_OK) {
            failed += take(it, found);
            failed += insert(it, found);
        }
    }
    return failed;
}

TIMED timed_queue(struct keyed *it, uint64_t operations) {
    uint64_t failed = 0;
    while (operations--) {
        uint32_t place = 0;
        failed += first(it, &place);
        failed += take(it, place);
        it->keys[place] += 2 * (uint64_t)it->members;
        failed += insert(it, place);
    }
    return failed;
}

TIMED timed_tree_step(const struct keyed *it, uint64_t operations) {
    uint32_t at = IC_NONE;
    first(it, &at);
    while (operations--)
        if (at == IC_NONE)
            first(it, &at);
        else if (next(it, at, &at) != IC_OK)
            at = IC_NONE;
    return at != IC_NONE ? it->keys[at] : 0;
}

TIMED timed_tree_iter(const struct keyed *it, uint64_t rounds) {
    uint64_t sum = 0;
    while (rounds--)
        IC_TREE_FOREACH(at, it->links, it->members, &it->tree)
            sum += it->keys[at];
    return sum;
}

/* An empty tree over a table of unlinked places. */
static void reset(struct keyed *it) {
    memset(it->links, 0, it->members * sizeof *it->links);
    it->tree.root = 0;
}

static void fill(struct keyed *it, const uint32_t *order) {
    reset(it);
    for (uint32_t index = 0; index < it->members; index++)
        must(insert(it, order[index]));
}

/* Fills an empty tree, by one of the ways to insert. */
static uint64_t timed_fill(const char *workload, struct keyed *it, const uint32_t *order, uint32_t count) {
    return !strcmp(workload, "insert")            ? timed_insert(it, order, count)
           : !strcmp(workload, "unique_insert")   ? timed_unique_insert(it, order, count)
           : !strcmp(workload, "compared_insert") ? timed_compared_insert(it, order, count)
                                                  : timed_compared_unique_insert(it, order, count);
}

static uint64_t tree(const char *workload, const struct room *room, uint64_t *time) {
    uint32_t members = room->members, half = members / 2;
    uint64_t operations = room->operations, checksum = 0;
    struct keyed it = {.links = room_for(members, sizeof *it.links), .keys = room->values, .members = members};
    fill(&it, room->order);
    *time = 0;
    if (strstr(workload, "insert")) {
        for (uint64_t rounds = operations / members; rounds--;) {
            reset(&it);
            uint64_t start = now();
            checksum += timed_fill(workload, &it, room->order, members);
            *time += now() - start;
        }
    } else if (!strcmp(workload, "remove")) {
        for (uint64_t rounds = operations / half; rounds--;) {
            fill(&it, room->order);
            uint64_t start = now();
            checksum += timed_remove(&it, room->other, half);
            *time += now() - start;
        }
    } else {
        uint64_t start = now();
        checksum = !strcmp(workload, "find")          ? timed_find(&it, operations)
                   : !strcmp(workload, "compared_find") ? timed_compared_find(&it, operations)
                   : !strcmp(workload, "lower_bound") ? timed_lower_bound(&it, operations)
                   : !strcmp(workload, "turn")        ? timed_turn(&it, operations)
                   : !strcmp(workload, "queue")       ? timed_queue(&it, operations)
                   : !strcmp(workload, "tree_step")   ? timed_tree_step(&it, operations)
                                                      : timed_tree_iter(&it, operations / members);
        *time = now() - start;
    }
    uint64_t hash = 0;
    IC_TREE_FOREACH(at, it.links, members, &it.tree)
        hash = hash * 31 + it.keys[at];
    return hash + checksum;
}

int main(int count, char **words) {
    if (count != 4)
        return 2;
    struct room room = {.members = (uint32_t)strtoul(words[2], NULL, 10), .operations = strtoull(words[3], NULL, 10)};
    uint64_t state = 1, time;
    uint32_t *values = shuffled(&state, room.members);
    room.order = shuffled(&state, room.members);
    room.other = shuffled(&state, room.members);
    room.values = room_for(room.members, sizeof *room.values);
    for (uint32_t index = 0; index < room.members; index++)
        room.values[index] = 2 * (uint64_t)values[index];
    static const char *const of_lists[] = {"pair", "touch", "splice", "step", "iter"};
    int is_doubly = 0;
    for (size_t index = 0; index < sizeof of_lists / sizeof *of_lists; index++)
        is_doubly |= !strcmp(words[1], of_lists[index]);
    uint64_t checksum = !strcmp(words[1], "singly") ? singly(&room, &time)
                        : !strcmp(words[1], "sort") ? sorted(&room, &time)
                        : !strcmp(words[1], "xor")  ? xor_list(&room, &time)
                        : !strcmp(words[1], "hash_prime") ? hashed(words[1], &room, 1021, &time)
                        : !strncmp(words[1], "hash", 4) ? hashed(words[1], &room, 1024, &time)
                        : is_doubly                 ? doubly(words[1], &room, &time)
                                                    : tree(words[1], &room, &time);
    printf("%llu %llu\n", (unsigned long long)time, (unsigned long long)checksum);
    return 0;
}
