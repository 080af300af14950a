/* The loops and reads of ic_in.h beside those of ic.h, and the calls with two handles.
 *
 *     handles
 *
 * It is C and C++. tools/same-calls plays each call over a handle beside the call of ic.h. Here each loop has to give what that of ic.h gives, each
 * read has to return the same, and a call with two handles of other tables, or of one list, has to return IC_BROKEN and to change nothing. Prints
 * nothing if all is right, and else the line of a fault.
 */
#include "ic_in.h"
#include <stdio.h>
#include <stdlib.h>
#include <string.h>

enum { PLACES = 9, HEAD = PLACES - 1, BUCKETS = 2, HASH = 1 };

struct object {
    uint32_t own;
};

static struct object objects[PLACES];
static struct ic_link2 pairs[PLACES], other_pairs[PLACES], ringed[PLACES];
static struct ic_link1 stacked[PLACES], other_stacked[PLACES], hashed[PLACES], xored[PLACES], other_xored[PLACES];
static struct ic_link3 nodes[PLACES];
static struct ic_list a_list, second_list, other_list, empty_list;
static struct ic_stack a_stack, second_stack, other_stack, empty_stack, buckets[BUCKETS], more[2 * BUCKETS + 1];
static struct ic_xor_list an_xor, second_xor, other_xor, empty_xor;
static struct ic_tree a_tree;
static uint64_t numbers[PLACES];

static const struct ic_list_in list = {IC_TABLE(pairs), &a_list}, second = {IC_TABLE(pairs), &second_list}, other = {IC_TABLE(other_pairs), &other_list},
                               empty = {IC_TABLE(other_pairs), &empty_list};
static const struct ic_ring_in ring = {IC_TABLE(ringed)};
static const struct ic_stack_in stack = {IC_TABLE(stacked), &a_stack}, stack2 = {IC_TABLE(stacked), &second_stack},
                                stack3 = {IC_TABLE(other_stacked), &other_stack}, stack4 = {IC_TABLE(other_stacked), &empty_stack};
static const struct ic_hash_in hash = {IC_TABLE(hashed), IC_TABLE(buckets), {IC_TABLE(numbers)}}, grown = {IC_TABLE(hashed), IC_TABLE(more), {IC_TABLE(numbers)}};
static const struct ic_xor_in xor_in = {IC_TABLE(xored), &an_xor}, xor2 = {IC_TABLE(xored), &second_xor}, xor3 = {IC_TABLE(other_xored), &other_xor},
                              xor4 = {IC_TABLE(other_xored), &empty_xor};
static const struct ic_tree_in tree = {IC_TABLE(nodes), &a_tree, {IC_TABLE(numbers)}};

static void expect(int is_so, int line) {
    if (is_so)
        return;
    printf("line %d\n", line);
    exit(1);
}
#define EXPECT(is_so) expect(is_so, __LINE__)

/* Both loops give the same places, in one order. */
#define SAME(plain, over_handle, given)                                          \
    do {                                                                         \
        uint32_t seen[PLACES], count = 0, again = 0;                             \
        struct object *it = &objects[0];                                         \
        (void)it;                                                                \
        plain {                                                                  \
            EXPECT(count < PLACES);                                              \
            seen[count++] = place;                                               \
        }                                                                        \
        over_handle {                                                            \
            EXPECT(again < count && seen[again] == (given));                     \
            again++;                                                             \
        }                                                                        \
        EXPECT(again == count && count > 0);                                     \
    } while (0)

static void fill(void) {
    uint32_t place;
    EXPECT(ic_list_in_fill(list, 0, 5) == IC_OK && ic_list_in_fill(second, 5, 3) == IC_OK && ic_list_in_fill(other, 5, 3) == IC_OK);
    EXPECT(ic_stack_in_fill(stack, 0, 5) == IC_OK && ic_stack_in_fill(stack2, 5, 3) == IC_OK && ic_stack_in_fill(stack3, 5, 3) == IC_OK);
    EXPECT(ic_xor_in_fill(xor_in, 0, 5) == IC_OK && ic_xor_in_fill(xor2, 5, 3) == IC_OK && ic_xor_in_fill(xor3, 5, 3) == IC_OK);
    EXPECT(ic_ring_in_init(ring, HEAD) == IC_OK);
    for (place = 0; place < 5; place++) {
        numbers[place] = 7 * place % 5;
        EXPECT(ic_ring_in_push_back(ring, HEAD, place) == IC_OK);
        EXPECT(ic_tree_in_insert(tree, place) == IC_OK);
        EXPECT(ic_hash_in_insert(hash, numbers[place], place) == IC_OK);
    }
}

static void loops(void) {
    const uint32_t first = ic_list_in_front(list), last = ic_list_in_back(list);
    SAME(IC_LIST_FOREACH(place, pairs, PLACES, &a_list), IC_LIST_IN_FOREACH(place, list), place);
    SAME(IC_LIST_FOREACH_REVERSE(place, pairs, PLACES, &a_list), IC_LIST_IN_FOREACH_REVERSE(place, list), place);
    SAME(IC_LIST_FOREACH(place, pairs, PLACES, &a_list), IC_LIST_IN_FOREACH_SAFE(place, next, list), place);
    SAME(IC_LIST_FOREACH_REVERSE(place, pairs, PLACES, &a_list), IC_LIST_IN_FOREACH_REVERSE_SAFE(place, prev, list), place);
    SAME(IC_LIST_FOREACH(place, pairs, PLACES, &a_list), IC_LIST_IN_FOREACH_ENTRY(it, objects, list), it->own);
    SAME(IC_LIST_FOREACH_REVERSE(place, pairs, PLACES, &a_list), IC_LIST_IN_FOREACH_ENTRY_REVERSE(it, objects, list), it->own);
    SAME(IC_LIST_FOREACH(place, pairs, PLACES, &a_list), IC_LIST_IN_FOREACH_ENTRY_SAFE(it, objects, list), it->own);
    SAME(IC_LIST_FOREACH_REVERSE(place, pairs, PLACES, &a_list), IC_LIST_IN_FOREACH_ENTRY_REVERSE_SAFE(it, objects, list), it->own);
    SAME(IC_LIST_FOREACH(place, pairs, PLACES, &a_list), IC_LIST_IN_FOREACH_FROM(place, first, list), place);
    SAME(IC_LIST_FOREACH_REVERSE(place, pairs, PLACES, &a_list), IC_LIST_IN_FOREACH_REVERSE_FROM(place, last, list), place);
    SAME(IC_RING_FOREACH(place, ringed, PLACES, HEAD), IC_RING_IN_FOREACH(place, ring, HEAD), place);
    SAME(IC_RING_FOREACH_REVERSE(place, ringed, PLACES, HEAD), IC_RING_IN_FOREACH_REVERSE(place, ring, HEAD), place);
    SAME(IC_RING_FOREACH(place, ringed, PLACES, HEAD), IC_RING_IN_FOREACH_SAFE(place, next, ring, HEAD), place);
    SAME(IC_RING_FOREACH_REVERSE(place, ringed, PLACES, HEAD), IC_RING_IN_FOREACH_REVERSE_SAFE(place, prev, ring, HEAD), place);
    SAME(IC_RING_FOREACH(place, ringed, PLACES, HEAD), IC_RING_IN_FOREACH_ENTRY(it, objects, ring, HEAD), it->own);
    SAME(IC_RING_FOREACH_REVERSE(place, ringed, PLACES, HEAD), IC_RING_IN_FOREACH_ENTRY_REVERSE_SAFE(it, objects, ring, HEAD), it->own);
    SAME(IC_RING_FOREACH(place, ringed, PLACES, HEAD), IC_RING_IN_FOREACH_FROM(place, 0, ring, HEAD), place);
    SAME(IC_STACK_FOREACH(place, stacked, PLACES, &a_stack), IC_STACK_IN_FOREACH(place, stack), place);
    SAME(IC_STACK_FOREACH(place, stacked, PLACES, &a_stack), IC_STACK_IN_FOREACH_SAFE(before, place, stack), place);
    SAME(IC_STACK_FOREACH(place, stacked, PLACES, &a_stack), IC_STACK_IN_FOREACH_FROM(place, 0, stack), place);
    SAME(IC_STACK_FOREACH(place, stacked, PLACES, &a_stack), IC_STACK_IN_FOREACH_ENTRY(it, objects, stack), it->own);
    SAME(IC_STACK_FOREACH(place, stacked, PLACES, &a_stack), IC_STACK_IN_FOREACH_ENTRY_SAFE(before, it, objects, stack), it->own);
    SAME(IC_HASH_FOREACH(place, hashed, PLACES, buckets, BUCKETS, HASH), IC_HASH_IN_FOREACH(place, hash, HASH), place);
    SAME(IC_HASH_FOREACH(place, hashed, PLACES, buckets, BUCKETS, HASH), IC_HASH_IN_FOREACH_ENTRY(it, objects, hash, HASH), it->own);
    SAME(IC_HASH_FOREACH_ALL(place, hashed, PLACES, buckets, BUCKETS), IC_HASH_IN_FOREACH_ALL(place, hash), place);
    SAME(IC_HASH_FOREACH_ALL(place, hashed, PLACES, buckets, BUCKETS), IC_HASH_IN_FOREACH_ALL_SAFE(bucket, before, place, hash), place);
    SAME(IC_HASH_FOREACH_ALL(place, hashed, PLACES, buckets, BUCKETS), IC_HASH_IN_FOREACH_ALL_ENTRY(it, objects, hash), it->own);
    SAME(IC_HASH_FOREACH_ALL(place, hashed, PLACES, buckets, BUCKETS), IC_HASH_IN_FOREACH_ALL_ENTRY_SAFE(bucket, before, it, objects, hash), it->own);
    SAME(IC_LIST_FOREACH(place, pairs, PLACES, &a_list), IC_LIST_IN_FOREACH_SAFE_FROM(place, next, first, list), place);
    SAME(IC_LIST_FOREACH(place, pairs, PLACES, &a_list), IC_LIST_IN_FOREACH_ENTRY_FROM(it, objects, first, list), it->own);
    SAME(IC_RING_FOREACH(place, ringed, PLACES, HEAD), IC_RING_IN_FOREACH_ENTRY_SAFE_FROM(it, objects, 0, ring, HEAD), it->own);
    SAME(IC_TREE_FOREACH(place, nodes, PLACES, &a_tree), IC_TREE_IN_FOREACH_SAFE_FROM(place, next, 0, tree), place);
    SAME(IC_STACK_FOREACH(place, stacked, PLACES, &a_stack), IC_STACK_IN_FOREACH_ENTRY_FROM(it, objects, 0, stack), it->own);
    SAME(IC_XOR_FOREACH(place, xored, PLACES, &an_xor), IC_XOR_IN_FOREACH(place, xor_in), place);
    SAME(IC_XOR_FOREACH_REVERSE(place, xored, PLACES, &an_xor), IC_XOR_IN_FOREACH_REVERSE(place, xor_in), place);
    SAME(IC_XOR_FOREACH(place, xored, PLACES, &an_xor), IC_XOR_IN_FOREACH_SAFE(before, place, after, xor_in), place);
    SAME(IC_XOR_FOREACH_REVERSE(place, xored, PLACES, &an_xor), IC_XOR_IN_FOREACH_ENTRY_REVERSE_SAFE(before, it, objects, after, xor_in), it->own);
    SAME(IC_TREE_FOREACH(place, nodes, PLACES, &a_tree), IC_TREE_IN_FOREACH(place, tree), place);
    SAME(IC_TREE_FOREACH_REVERSE(place, nodes, PLACES, &a_tree), IC_TREE_IN_FOREACH_REVERSE(place, tree), place);
    SAME(IC_TREE_FOREACH(place, nodes, PLACES, &a_tree), IC_TREE_IN_FOREACH_ENTRY_SAFE(it, objects, tree), it->own);
    SAME(IC_TREE_FOREACH(place, nodes, PLACES, &a_tree), IC_TREE_IN_FOREACH_FROM(place, 0, tree), place);
}

static void reads(void) {
    const struct ic_keys hashes = {IC_TABLE(numbers)}, few = {numbers, PLACES - 1};
    uint32_t found = IC_NONE;
    uint64_t members = 0;
    EXPECT(ic_list_in_first(list) == 0 && ic_list_in_last(list) == 4 && ic_list_in_next(list, 1) == 2 && ic_list_in_prev(list, 1) == 0);
    EXPECT(ic_list_in_is_first(list, 0) && ic_list_in_is_last(list, 4) && !ic_list_in_is_singular(list) && !ic_list_in_is_empty(list));
    EXPECT(ic_ring_in_front(ring, HEAD) == 0 && ic_ring_in_back(ring, HEAD) == 4 && ic_ring_in_is_linked(ring, HEAD));
    EXPECT(ic_stack_in_front(stack) == 0 && ic_stack_in_is_last(stack, 4) && ic_xor_in_step(xor_in, 0, 1) == 2);
    EXPECT(ic_hash_in_find(hash, 2, 2, &found) == IC_OK && found == 1 && ic_hash_in_first(hash, 1) != IC_NONE);
    EXPECT(ic_hash_in_check(hash, hashes, &members) == IC_OK && members == 5 && ic_hash_in_check(hash, few, &members) == IC_OUT_OF_RANGE);
    EXPECT(ic_hash_in_move_chain(grown, few, &buckets[0]) == IC_OUT_OF_RANGE && ic_hash_in_move_chain(grown, hashes, &buckets[0]) == IC_OK);
    EXPECT(ic_hash_in_move_chain(grown, hashes, &buckets[1]) == IC_OK && ic_hash_in_first(hash, 0) == IC_NONE && ic_hash_in_first(hash, 1) == IC_NONE);
    EXPECT(ic_hash_in_check(grown, hashes, &members) == IC_OK && members == 5 && ic_hash_in_first(grown, 4) == 2);
    EXPECT(ic_ring_in_check(ring, HEAD, &members) == IC_OK && members == 5 && ic_ring_in_check(ring, 7, &members) == IC_NOT_LINKED);
    EXPECT(ic_tree_in_find(tree, 4, &found) == IC_OK && found == 2 && ic_tree_in_first(tree, &found) == IC_OK && found == 0);
    EXPECT(ic_tree_in_left(tree, ic_tree_in_root(tree)) == ic_tree_left(nodes, PLACES, ic_tree_root(&a_tree)));
}

static int order(uint64_t key, uint32_t at) {
    return (key > numbers[at]) - (key < numbers[at]);
}

/* The edits of several calls, and the searches and insertions by a comparison. */
static void edits(void) {
    struct ic_tree_ends ends = {ic_word(0), ic_word(2)};
    uint32_t at, status, found = IC_NONE;
    numbers[5] = 2;
    numbers[6] = 9;
    IC_TREE_IN_FIND_BY(at, tree, order(2, at));
    EXPECT(at == 1);
    IC_TREE_IN_LOWER_BOUND_BY(at, tree, order(5, at));
    EXPECT(at == IC_NONE);
    IC_TREE_IN_UPPER_BOUND_BY(at, tree, order(5, at));
    EXPECT(at == 2);
    IC_TREE_IN_INSERT_UNIQUE_BY(status, at, tree, 5, order(numbers[5], at));
    EXPECT(status == IC_OK && at == 1 && ic_tree_in_insert_unique(tree, 5, &found) == IC_OK && found == 1);
    IC_TREE_IN_INSERT_BY(status, at, tree, 6, order(numbers[6], at));
    EXPECT(status == IC_OK && at == 6 && ic_tree_in_last(tree, &found) == IC_OK && found == 6 && ic_tree_in_remove(tree, 6) == IC_OK);
    EXPECT(ic_tree_in_ends_replace(tree, &ends, 2, 6) == IC_OK && ic_tree_in_ends_last(tree, &ends) == 6 && ic_tree_in_ends_first(tree, &ends) == 0);
    EXPECT(ic_tree_in_ends_insert(tree, &ends, 2) == IC_OK && ic_tree_in_ends_remove(tree, &ends, 6) == IC_OK && ic_tree_in_ends_last(tree, &ends) == 2);
    EXPECT(ic_tree_in_ends_pop_first(tree, &ends, &found) == IC_OK && found == 0 && ic_tree_in_ends_insert(tree, &ends, 0) == IC_OK && ends.first == ic_word(0));
    EXPECT(ic_tree_in_ends_insert_left(tree, &ends, IC_NONE, 7) == IC_BROKEN && ic_tree_in_ends_insert_right(tree, &ends, 7, 6) == IC_NOT_LINKED);
    EXPECT(ic_ring_in_swap(ring, 0, 4) == IC_OK && ic_ring_in_front(ring, HEAD) == 4 && ic_ring_in_is_gap(ring, HEAD, 4) && !ic_ring_in_is_gap(ring, 4, HEAD));
    EXPECT(ic_ring_in_move_range_after(ring, 3, 4, 1) == IC_OK && ic_ring_in_front(ring, HEAD) == 2);
    EXPECT(ic_ring_in_move_range_before(ring, 2, 4, 1) == IC_OK && ic_ring_in_front(ring, HEAD) == 4 && ic_ring_in_back(ring, HEAD) == 0);
    EXPECT(ic_stack_in_remove(stack, 7) == IC_BROKEN && ic_stack_in_remove(stack2, 7) == IC_OK && ic_stack_in_remove(stack2, 7) == IC_NOT_LINKED);
    EXPECT(ic_stack_in_insert_after(stack2, 6, 7) == IC_OK);
}

/* A second handle of another table, or of the same list, is refused. */
#define REFUSED(call, words)                                        \
    do {                                                            \
        unsigned char was[sizeof(words)];                           \
        memcpy(was, words, sizeof(words));                          \
        EXPECT((call) == IC_BROKEN);                                \
        EXPECT(memcmp(was, words, sizeof(words)) == 0);             \
    } while (0)

static void pairs_of_handles(void) {
    struct ic_keys keys = {IC_TABLE(numbers)};
    REFUSED(ic_list_in_append(list, other), pairs);
    REFUSED(ic_list_in_append(list, list), pairs);
    REFUSED(ic_list_in_splice_after(list, 0, other), pairs);
    REFUSED(ic_list_in_splice_before(list, 0, list), pairs);
    REFUSED(ic_list_in_split_after(list, 0, empty), pairs);
    REFUSED(ic_list_in_split_before(list, 2, empty), pairs);
    REFUSED(ic_list_in_merge(list, keys, other), pairs);
    REFUSED(ic_list_in_transfer_after(list, 0, other, 6), pairs);
    REFUSED(ic_list_in_transfer_before(list, 0, list, 2), pairs);
    REFUSED(ic_stack_in_splice_after(stack, 0, stack3), stacked);
    REFUSED(ic_stack_in_merge(stack, keys, stack3), stacked);
    REFUSED(ic_stack_in_split_after(stack, 0, stack4), stacked);
    REFUSED(ic_xor_in_append(xor_in, xor3), xored);
    REFUSED(ic_xor_in_splice_between(xor_in, 0, xor_in, 1), xored);
    REFUSED(ic_xor_in_split_between(xor_in, 0, 1, xor4), xored);
    EXPECT(ic_list_in_is_empty(empty) && ic_stack_in_is_empty(stack4) && ic_xor_in_is_empty(xor4));
    EXPECT(ic_list_in_append(list, second) == IC_OK && ic_list_in_is_empty(second) && ic_list_in_last(list) == 7);
    EXPECT(ic_list_in_split_after(list, 4, second) == IC_OK && ic_list_in_first(second) == 5);
    EXPECT(ic_list_in_sort(list, keys) == IC_OK && ic_list_in_sort(second, keys) == IC_OK && ic_list_in_merge(list, keys, second) == IC_OK);
    EXPECT(ic_list_in_split_after(list, ic_list_in_first(list), second) == IC_OK && ic_list_in_is_singular(list));
    EXPECT(ic_list_in_transfer_after(list, IC_NONE, second, 4) == IC_OK && ic_list_in_transfer_before(list, IC_NONE, second, 2) == IC_OK);
    EXPECT(ic_list_in_is_first(list, 4) && ic_list_in_is_last(list, 2) && ic_list_in_append(list, second) == IC_OK);
    EXPECT(ic_ring_in_sort(ring, keys, HEAD) == IC_OK && ic_ring_in_front(ring, HEAD) == 0 && ic_ring_in_back(ring, HEAD) == 2);
    EXPECT(ic_ring_in_init(ring, 7) == IC_OK && ic_ring_in_merge(ring, keys, 7, HEAD) == IC_OK && ic_ring_in_is_empty(ring, HEAD));
    EXPECT(ic_ring_in_front(ring, 7) == 0 && ic_ring_in_merge(ring, keys, 7, 7) == IC_BROKEN);
    EXPECT(ic_stack_in_splice_after(stack, 4, stack2) == IC_OK && ic_stack_in_is_empty(stack2));
    EXPECT(ic_stack_in_split_after(stack, 4, stack2) == IC_OK && ic_stack_in_sort(stack2, keys) == IC_OK && ic_stack_in_sort(stack, keys) == IC_OK);
    EXPECT(ic_stack_in_merge(stack, keys, stack2) == IC_OK && ic_stack_in_is_empty(stack2));
    EXPECT(ic_xor_in_append(xor_in, xor2) == IC_OK && ic_xor_in_last(xor_in) == 7);
}

int main(void) {
    for (uint32_t i = 0; i < PLACES; i++)
        objects[i].own = i;
    fill();
    loops();
    reads();
    edits();
    pairs_of_handles();
    return 0;
}
