/* Each loop of ic.h, and loops that drain, as programs write them. No compiler warns of any, at any level of optimization.
 *
 *     loops
 *
 * It is C and C++. Prints what each loop has met.
 */
#include "ic.h"
#include <stdio.h>

enum { PLACES = 6, HEAD = PLACES, BUCKETS = 3 };

static void must(uint32_t status) {
    if (status != IC_OK)
        printf(" %s", ic_status_name(status));
}

static void meet(uint32_t place) {
    printf(" %u", (unsigned)place);
}

static void say(const char *name) {
    printf("\n%s:", name);
}

static void lists(void) {
    struct ic_link2 links[PLACES] = {{0, 0}};
    struct ic_list list = {0, 0};
    uint32_t popped;
    must(ic_list_fill(links, PLACES, &list, 0, PLACES));
    say("list");
    IC_LIST_FOREACH(place, links, PLACES, &list)
        meet(place);
    say("list back");
    IC_LIST_FOREACH_REVERSE(place, links, PLACES, &list)
        meet(place);
    say("list, from 2 on, which leaves");
    IC_LIST_FOREACH_SAFE_FROM(place, next, 2, links, PLACES)
        if (place == 2)
            must(ic_list_remove(links, PLACES, &list, place));
        else
            meet(place);
    must(ic_list_insert_after(links, PLACES, &list, 1, 2));
    say("list, even ones off");
    IC_LIST_FOREACH_SAFE(place, next, links, PLACES, &list)
        if (place % 2 == 0)
            must(ic_list_remove(links, PLACES, &list, place));
    IC_LIST_FOREACH_REVERSE_SAFE(place, prev, links, PLACES, &list) {
        meet(place);
        must(ic_list_remove(links, PLACES, &list, place));
    }
    must(ic_list_fill(links, PLACES, &list, 0, PLACES));
    say("list, drained");
    while (ic_list_pop_front(links, PLACES, &list, &popped) == IC_OK)
        meet(popped);
    must(ic_list_fill(links, PLACES, &list, 0, PLACES));
    while (ic_list_pop_back(links, PLACES, &list, &popped) == IC_OK)
        meet(popped);
}

static void rings(void) {
    struct ic_link2 links[PLACES + 1] = {{0, 0}};
    uint32_t popped, place_to_link;
    must(ic_ring_init(links, PLACES + 1, HEAD));
    for (place_to_link = 0; place_to_link < PLACES; place_to_link++)
        must(ic_ring_push_back(links, PLACES + 1, HEAD, place_to_link));
    say("ring");
    IC_RING_FOREACH(place, links, PLACES + 1, HEAD)
        meet(place);
    say("ring back");
    IC_RING_FOREACH_REVERSE(place, links, PLACES + 1, HEAD)
        meet(place);
    say("ring, even ones off");
    IC_RING_FOREACH_SAFE(place, next, links, PLACES + 1, HEAD)
        if (place % 2 == 0)
            must(ic_ring_remove(links, PLACES + 1, place));
    IC_RING_FOREACH_REVERSE_SAFE(place, prev, links, PLACES + 1, HEAD)
        if (place == 3)
            must(ic_ring_remove(links, PLACES + 1, place));
    say("ring, from a member on");
    IC_RING_FOREACH_SAFE_FROM(place, next, 5, links, PLACES + 1, HEAD)
        meet(place);
    say("ring, drained");
    while (ic_ring_pop_front(links, PLACES + 1, HEAD, &popped) == IC_OK)
        meet(popped);
    for (place_to_link = 0; place_to_link < PLACES; place_to_link++)
        must(ic_ring_push_back(links, PLACES + 1, HEAD, place_to_link));
    while (ic_ring_pop_back(links, PLACES + 1, HEAD, &popped) == IC_OK)
        meet(popped);
}

/* Runs of members that go elsewhere, and members that change their places. */
static void ranges(void) {
    struct ic_link2 links[PLACES + 2] = {{0, 0}};
    uint32_t place_to_link;
    must(ic_ring_init(links, PLACES + 2, HEAD));
    must(ic_ring_init(links, PLACES + 2, HEAD + 1));
    for (place_to_link = 0; place_to_link < PLACES; place_to_link++)
        must(ic_ring_push_back(links, PLACES + 2, HEAD, place_to_link));
    must(ic_ring_move_range_after(links, PLACES + 2, HEAD + 1, 0, 2));
    must(ic_ring_move_range_before(links, PLACES + 2, HEAD, 0, 1));
    must(ic_ring_swap(links, PLACES + 2, 2, 5));
    say("rings, ranges");
    IC_RING_FOREACH(place, links, PLACES + 2, HEAD)
        meet(place);
    must(ic_ring_move_range_after(links, PLACES + 2, 3, 3, 4));
    IC_RING_FOREACH(place, links, PLACES + 2, HEAD + 1)
        meet(place);
}

/* Why each pop is refused: the ring is empty, its head leads out of the table, or is unlinked, out of range, or none. */
static void refusals(struct ic_link2 *links, size_t places) {
    uint32_t popped = 77;
    say("refused pops");
    must(ic_ring_pop_front(links, places, 1, &popped));
    must(ic_ring_init(links, places, 1));
    must(ic_ring_pop_front(links, places, 1, &popped));
    links[1].next = ic_word(9) + 1;
    must(ic_ring_pop_front(links, places, 1, &popped));
    must(ic_ring_pop_front(links, places, (uint32_t)places, &popped));
    must(ic_ring_pop_back(links, places, IC_NONE, &popped));
    meet(popped);
}

static void stacks(void) {
    struct ic_link1 links[PLACES] = {{0}};
    struct ic_stack list = {0};
    uint32_t popped;
    must(ic_stack_fill(links, PLACES, &list, 0, PLACES));
    say("stack");
    IC_STACK_FOREACH(place, links, PLACES, &list)
        meet(place);
    say("stack, even ones off");
    IC_STACK_FOREACH_SAFE(before, place, links, PLACES, &list)
        if (place % 2 == 0)
            must(ic_stack_remove_after(links, PLACES, &list, before, &popped));
    must(ic_stack_remove(links, PLACES, &list, 3));
    must(ic_stack_remove(links, PLACES, &list, 3));
    while (ic_stack_pop_front(links, PLACES, &list, &popped) == IC_OK)
        meet(popped);
}

static void hash_tables(void) {
    struct ic_link1 links[PLACES] = {{0}};
    struct ic_stack buckets[BUCKETS] = {{0}};
    uint32_t popped, place_to_link;
    size_t bucket;
    for (place_to_link = 0; place_to_link < PLACES; place_to_link++)
        must(ic_hash_insert(links, PLACES, buckets, BUCKETS, place_to_link, place_to_link));
    say("chain");
    IC_HASH_FOREACH(place, links, PLACES, buckets, BUCKETS, 1)
        meet(place);
    say("all chains");
    IC_HASH_FOREACH_ALL(place, links, PLACES, buckets, BUCKETS)
        meet(place);
    say("all chains, up to 4");
    IC_HASH_FOREACH_ALL(place, links, PLACES, buckets, BUCKETS) {
        if (place == 0)
            continue;
        meet(place);
        if (place == 4)
            break;
    }
    say("all chains, 0 and 4 off");
    IC_HASH_FOREACH_ALL_SAFE(at, before, place, links, PLACES, buckets, BUCKETS) {
        if (place % 4 == 0)
            must(ic_stack_remove_after(links, PLACES, &buckets[at], before, &popped));
        else
            meet(place);
    }
    must(ic_hash_insert(links, PLACES, buckets, BUCKETS, 0, 0));
    must(ic_hash_insert(links, PLACES, buckets, BUCKETS, 4, 4));
    say("hash table, drained");
    for (bucket = 0; bucket < BUCKETS; bucket++)
        while (ic_stack_pop_front(links, PLACES, &buckets[bucket], &popped) == IC_OK)
            meet(popped);
}

static void xor_lists(void) {
    struct ic_link1 links[PLACES] = {{0}};
    struct ic_xor_list list = {0, 0};
    uint32_t popped;
    must(ic_xor_fill(links, PLACES, &list, 0, PLACES));
    say("XOR list");
    IC_XOR_FOREACH(place, links, PLACES, &list)
        meet(place);
    say("XOR list back");
    IC_XOR_FOREACH_REVERSE(place, links, PLACES, &list)
        meet(place);
    say("XOR list, even ones off");
    IC_XOR_FOREACH_SAFE(before, place, behind, links, PLACES, &list)
        if (place % 2 == 0)
            must(ic_xor_remove(links, PLACES, &list, before, place));
    IC_XOR_FOREACH_REVERSE_SAFE(before, place, behind, links, PLACES, &list) {
        meet(place);
        must(ic_xor_remove(links, PLACES, &list, before, place));
    }
    must(ic_xor_fill(links, PLACES, &list, 0, PLACES));
    say("XOR list, drained");
    while (ic_xor_pop_front(links, PLACES, &list, &popped) == IC_OK)
        meet(popped);
    must(ic_xor_fill(links, PLACES, &list, 0, PLACES));
    while (ic_xor_pop_back(links, PLACES, &list, &popped) == IC_OK)
        meet(popped);
}

static void trees(void) {
    struct ic_link3 links[PLACES] = {{0, 0, 0}};
    struct ic_tree tree = {0};
    const uint64_t keys[PLACES] = {30, 10, 20, 50, 40, 60};
    uint32_t first, place_to_link, at, status;
    for (place_to_link = 0; place_to_link < PLACES; place_to_link++)
        must(ic_tree_insert(links, PLACES, keys, PLACES, &tree, place_to_link));
    say("tree");
    IC_TREE_FOREACH(place, links, PLACES, &tree)
        meet(place);
    say("tree back");
    IC_TREE_FOREACH_REVERSE(place, links, PLACES, &tree)
        meet(place);
    say("tree, by comparisons");
    IC_TREE_FIND_BY(at, links, PLACES, &tree, (30 > keys[at]) - (30 < keys[at]));
    meet(at);
    IC_TREE_LOWER_BOUND_BY(at, links, PLACES, &tree, (31 > keys[at]) - (31 < keys[at]));
    meet(at);
    IC_TREE_UPPER_BOUND_BY(at, links, PLACES, &tree, (31 > keys[at]) - (31 < keys[at]));
    meet(at);
    IC_TREE_FIND_BY(at, links, PLACES, &tree, (31 > keys[at]) - (31 < keys[at]));
    say(at == IC_NONE ? "tree, 4 leaves and comes back" : "31 is found");
    must(ic_tree_remove(links, PLACES, &tree, 4));
    IC_TREE_INSERT_UNIQUE_BY(status, at, links, PLACES, &tree, 4, (keys[3] > keys[at]) - (keys[3] < keys[at]));
    must(status);
    meet(at);
    must(ic_tree_insert_unique(links, PLACES, keys, PLACES, &tree, 4, &at));
    meet(at);
    must(ic_tree_remove(links, PLACES, &tree, 4));
    IC_TREE_INSERT_BY(status, at, links, PLACES, &tree, 4, (keys[4] > keys[at]) - (keys[4] < keys[at]));
    must(status);
    meet(at);
    say("tree, from a member on");
    IC_TREE_FOREACH_SAFE_FROM(place, next, 0, links, PLACES, &tree)
        meet(place);
    say("tree, even ones off");
    IC_TREE_FOREACH_SAFE(place, next, links, PLACES, &tree)
        if (place % 2 == 0)
            must(ic_tree_remove(links, PLACES, &tree, place));
    IC_TREE_FOREACH_REVERSE_SAFE(place, prev, links, PLACES, &tree)
        if (place == 3)
            must(ic_tree_remove(links, PLACES, &tree, place));
    say("tree, drained");
    while (ic_tree_first(links, PLACES, &tree, &first) == IC_OK) {
        meet(first);
        must(ic_tree_remove(links, PLACES, &tree, first));
    }
}

/* A status that nobody needs. */
static void ignored(void) {
    struct ic_link2 links[PLACES] = {{0, 0}};
    struct ic_list list = {0, 0};
    ic_ignore(ic_list_remove(links, PLACES, &list, 3));
#ifdef DROP_BY_CAST
    (void)ic_list_remove(links, PLACES, &list, 3);
    (void)ic_ring_push_back(links, PLACES, 3, 4);
#endif
}

int main(void) {
    struct ic_link2 links[PLACES] = {{0, 0}};
    lists();
    rings();
    ranges();
    refusals(links, PLACES);
    stacks();
    hash_tables();
    xor_lists();
    trees();
    ignored();
    printf("\n");
    return 0;
}
