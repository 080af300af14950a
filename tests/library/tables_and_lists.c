/* What docs/LIBRARY.md says of tables that grow, of lists that are copied or abandoned, of a length that is too small, of hash tables from which a
 * member leaves without its hash, and of a sort by a comparison.
 *     tables_and_lists
 */
#include "ic.h"

#include <stdio.h>
#include <stdlib.h>
#include <string.h>

enum { PLACES = 8, MORE = 20 };

#define EXPECT(is_so)                                     \
    do {                                                  \
        if (!(is_so)) {                                   \
            printf("line %d: not %s\n", __LINE__, #is_so); \
            exit(1);                                      \
        }                                                 \
    } while (0)

static uint32_t sum, at;
#define SUM(loop)     \
    sum = at = 0;     \
    loop sum += ++at * place

/* A list, a ring, a stack, an XOR list and a tree in tables that become larger, elsewhere in memory. */
static void grow(void) {
    struct ic_link2 pairs[PLACES] = {{0, 0}}, more_pairs[MORE];
    struct ic_link1 singles[PLACES] = {{0}}, crossed[PLACES] = {{0}}, more_singles[MORE], more_crossed[MORE];
    struct ic_link3 triples[PLACES] = {{0, 0, 0}}, more_triples[MORE];
    struct ic_list list = {0, 0};
    struct ic_stack stack = {0};
    struct ic_xor_list both = {0, 0};
    struct ic_tree tree = {0};
    uint64_t keys[MORE] = {0}, members;
    EXPECT(ic_list_fill(pairs, PLACES, &list, 0, 4) == IC_OK && ic_ring_init(pairs, PLACES, 7) == IC_OK);
    EXPECT(ic_ring_push_back(pairs, PLACES, 7, 5) == IC_OK && ic_stack_fill(singles, PLACES, &stack, 2, 5) == IC_OK);
    EXPECT(ic_xor_fill(crossed, PLACES, &both, 1, 6) == IC_OK);
    for (uint32_t place = 0; place < PLACES; place++)
        EXPECT(ic_tree_insert(triples, PLACES, keys, MORE, &tree, place) == IC_OK);
    memset(more_pairs, 0, sizeof more_pairs);
    memset(more_singles, 0, sizeof more_singles);
    memset(more_crossed, 0, sizeof more_crossed);
    memset(more_triples, 0, sizeof more_triples);
    memcpy(more_pairs, pairs, sizeof pairs);
    memcpy(more_singles, singles, sizeof singles);
    memcpy(more_crossed, crossed, sizeof crossed);
    memcpy(more_triples, triples, sizeof triples);
    EXPECT(ic_list_push_back(more_pairs, MORE, &list, 19) == IC_OK && ic_list_check(more_pairs, MORE, &list, &members) == IC_OK && members == 5);
    SUM(IC_LIST_FOREACH(place, more_pairs, MORE, &list));
    EXPECT(sum == 2 * 1 + 3 * 2 + 4 * 3 + 5 * 19);
    EXPECT(ic_ring_push_back(more_pairs, MORE, 7, 18) == IC_OK);
    SUM(IC_RING_FOREACH(place, more_pairs, MORE, 7));
    EXPECT(sum == 5 + 2 * 18);
    EXPECT(ic_stack_push_front(more_singles, MORE, &stack, 17) == IC_OK);
    SUM(IC_STACK_FOREACH(place, more_singles, MORE, &stack));
    EXPECT(sum == 17 + 2 * 2 + 3 * 3 + 4 * 4 + 5 * 5 + 6 * 6);
    EXPECT(ic_xor_push_front(more_crossed, MORE, &both, 10) == IC_OK);
    SUM(IC_XOR_FOREACH_REVERSE(place, more_crossed, MORE, &both));
    EXPECT(sum == 6 + 2 * 5 + 3 * 4 + 4 * 3 + 5 * 2 + 6 * 1 + 7 * 10);
    EXPECT(ic_tree_insert(more_triples, MORE, keys, MORE, &tree, 12) == IC_OK && ic_tree_check(more_triples, MORE, &tree, &members) == IC_OK);
    EXPECT(members == PLACES + 1 && ic_tree_insert(more_triples, MORE, keys, PLACES, &tree, 13) == IC_OUT_OF_RANGE);
    /* Smaller again, once the places beyond the end have left. */
    EXPECT(ic_list_remove(more_pairs, MORE, &list, 19) == IC_OK && ic_list_check(more_pairs, 4, &list, &members) == IC_OK && members == 4);
}

/* A copy of a list is out of date after an edit of the other one. */
static void copy(void) {
    struct ic_link2 links[PLACES] = {{0, 0}}, before[PLACES];
    struct ic_list list = {0, 0}, other;
    uint32_t popped = IC_NONE;
    EXPECT(ic_list_fill(links, PLACES, &list, 0, 3) == IC_OK);
    other = list;
    EXPECT(ic_list_append(links, PLACES, &list, &other) == IC_BROKEN);
    EXPECT(ic_list_pop_front(links, PLACES, &list, &popped) == IC_OK && popped == 0);
    memcpy(before, links, sizeof links);
    EXPECT(ic_list_pop_front(links, PLACES, &other, &popped) == IC_BROKEN && popped == 0);
    EXPECT(ic_list_push_front(links, PLACES, &other, 5) == IC_BROKEN && memcmp(before, links, sizeof links) == 0);
}

/* The members of a list that is forgotten stay linked. An append frees them at once, and so does a table of zeros. */
static void abandon(void) {
    struct ic_link2 links[PLACES] = {{0, 0}};
    struct ic_list list = {0, 0}, vacant = {0, 0}, empty = {0, 0};
    uint64_t members;
    EXPECT(ic_list_fill(links, PLACES, &list, 0, 3) == IC_OK && ic_list_fill(links, PLACES, &vacant, 3, 5) == IC_OK);
    EXPECT(ic_list_append(links, PLACES, &vacant, &list) == IC_OK && ic_list_is_empty(&list));
    EXPECT(ic_list_check(links, PLACES, &vacant, &members) == IC_OK && members == PLACES);
    vacant = empty;
    for (uint32_t place = 0; place < PLACES; place++)
        EXPECT(ic_list_push_back(links, PLACES, &list, place) == IC_LINKED);
    memset(links, 0, sizeof links);
    EXPECT(ic_list_fill(links, PLACES, &list, 0, PLACES) == IC_OK);
}

/* With a length that is too small, the places beyond it are refused, and so are links that lead there. */
static void shorten(void) {
    struct ic_link2 links[PLACES] = {{0, 0}}, before[PLACES];
    struct ic_list list = {0, 0};
    uint32_t popped;
    uint64_t members;
    EXPECT(ic_list_fill(links, PLACES, &list, 0, PLACES) == IC_OK);
    memcpy(before, links, sizeof links);
    EXPECT(ic_list_remove(links, 5, &list, 6) == IC_OUT_OF_RANGE && ic_list_remove(links, 5, &list, 4) == IC_BROKEN);
    EXPECT(ic_list_pop_back(links, 5, &list, &popped) == IC_BROKEN && ic_list_check(links, 5, &list, &members) == IC_BROKEN);
    EXPECT(ic_list_next(links, 5, 4) == IC_NONE && memcmp(before, links, sizeof links) == 0);
}

/* A hash table whose buckets are rings, from which a member leaves without its hash. */
static void leave_bucket(void) {
    enum { BUCKETS = 3, ALL = MORE + BUCKETS };
    struct ic_link2 links[ALL] = {{0, 0}};
    const uint64_t hashes[MORE] = {7, 8, 9, 10, 11, 12, 13};
    for (uint32_t head = MORE; head < ALL; head++)
        EXPECT(ic_ring_init(links, ALL, head) == IC_OK);
    for (uint32_t place = 0; place < 7; place++)
        EXPECT(ic_ring_push_front(links, ALL, MORE + (uint32_t)(hashes[place] % BUCKETS), place) == IC_OK);
    EXPECT(ic_ring_remove(links, ALL, 3) == IC_OK && ic_ring_remove(links, ALL, 3) == IC_NOT_LINKED);
    SUM(IC_RING_FOREACH(place, links, ALL, MORE + 7 % BUCKETS));
    EXPECT(sum == 6 + 2 * 0);
    SUM(IC_RING_FOREACH(place, links, ALL, MORE + 8 % BUCKETS));
    EXPECT(sum == 4 + 2 * 1);
    SUM(IC_RING_FOREACH(place, links, ALL, MORE + 9 % BUCKETS));
    EXPECT(sum == 5 + 2 * 2);
}

/* A sort by a comparison, by ranks that a tree finds. Equal members keep their order. */
static void sort_by_ranks(void) {
    const char *const names[PLACES] = {"oak", "elm", "ash", "elm", "fir", "oak", "ash", "yew"};
    const uint32_t sorted[PLACES] = {6, 2, 3, 1, 4, 5, 0, 7};
    struct ic_link2 links[PLACES] = {{0, 0}};
    struct ic_link3 nodes[PLACES] = {{0, 0, 0}};
    struct ic_list list = {0, 0};
    struct ic_tree tree = {0};
    uint64_t ranks[PLACES] = {0}, rank = 0;
    uint32_t other, status = IC_OK, count = 0;
    for (uint32_t place = 0; place < PLACES; place++)
        EXPECT(ic_list_push_front(links, PLACES, &list, place) == IC_OK);
    IC_LIST_FOREACH(place, links, PLACES, &list) {
        IC_TREE_INSERT_BY(status, other, nodes, PLACES, &tree, place, strcmp(names[place], names[other]));
        EXPECT(status == IC_OK && other == place);
    }
    IC_TREE_FOREACH(place, nodes, PLACES, &tree)
        ranks[place] = rank++;
    EXPECT(ic_list_sort(links, PLACES, ranks, PLACES, &list) == IC_OK);
    IC_LIST_FOREACH(place, links, PLACES, &list)
        EXPECT(place == sorted[count++]);
    EXPECT(count == PLACES);
}

/* A tree is taken down while the objects of its members are freed, in any order. */
static void take_down(void) {
    struct ic_link3 nodes[PLACES] = {{0, 0, 0}};
    struct ic_tree tree = {0};
    const uint64_t keys[PLACES] = {5, 3, 8, 1, 4, 7, 9, 2};
    int *objects[PLACES];
    for (uint32_t place = 0; place < PLACES; place++) {
        objects[place] = malloc(sizeof *objects[place]);
        EXPECT(objects[place] && ic_tree_insert(nodes, PLACES, keys, PLACES, &tree, place) == IC_OK);
    }
    SUM(IC_TREE_FOREACH(place, nodes, PLACES, &tree)) + (free(objects[place]), 0u);
    EXPECT(sum == 3 + 2 * 7 + 3 * 1 + 4 * 4 + 6 * 5 + 7 * 2 + 8 * 6 && ic_tree_clear(nodes, PLACES, &tree) == IC_OK);
    for (uint32_t place = 0; place < PLACES; place++)
        EXPECT(!ic_tree_is_linked(nodes, PLACES, place));
}

int main(void) {
    grow();
    leave_bucket();
    sort_by_ranks();
    take_down();
    copy();
    abandon();
    shorten();
    return 0;
}
