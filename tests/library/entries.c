/* The loops that give objects, those that begin at a member, and the reads of ends, beside the plain loops.
 *
 *     entries [TABLES]
 *
 * It is C and C++. Each table has random members, and then other words take the place of some. Over both each loop has to give the objects of
 * the places that the plain loop gives, and its pointer has to be null then, or the object at which its body breaks. Over right words a safe
 * loop gives them also while its body removes some, and the reads tell the ends. Prints nothing if all is right, and else the line of a fault.
 */
#include "ic.h"
#include <stdio.h>
#include <stdlib.h>
#include <string.h>

enum { PLACES = 8, HEAD = PLACES, ALL = PLACES + 1, BUCKETS = 2, HASH = 1 };

struct object {
    uint32_t own;
    char text[5];
};

/* All that a table has, so that it can be copied. */
struct words {
    struct ic_link2 pairs[ALL], ringed[ALL];
    struct ic_link1 stacked[ALL], hashed[ALL], xored[ALL];
    struct ic_link3 nodes[ALL];
    struct ic_list list;
    struct ic_stack stack, buckets[BUCKETS];
    struct ic_xor_list xor_list;
    struct ic_tree tree;
};

static struct object objects[ALL];
static struct words all;

/* The places that a loop has given. */
static struct seen {
    uint32_t members[ALL + 1], count;
} plain, given;

static uint64_t state = 1;

static uint32_t below(uint32_t bound) {
    state = state * UINT64_C(6364136223846793005) + UINT64_C(1442695040888963407);
    return (uint32_t)(state >> 33) % bound;
}

static void expect(int is_so, int line) {
    if (is_so)
        return;
    printf("line %d\n", line);
    exit(1);
}

static void see(struct seen *to, uint32_t place) {
    expect(to->count < ALL, __LINE__);
    to->members[to->count++] = place;
}

static int is_rest(uint32_t from) {
    return given.count == plain.count - from && !memcmp(given.members, plain.members + from, given.count * sizeof *given.members);
}

/* A loop gives the objects of the places that the plain one gives, and with `break` its pointer stays. */
#define SAME(LOOP, ENTRY, ...)                                       \
    do {                                                             \
        struct object *it = &objects[0];                             \
        plain.count = given.count = 0;                               \
        LOOP(place, __VA_ARGS__)                                     \
            see(&plain, place);                                      \
        ENTRY(it, objects, __VA_ARGS__) {                            \
            expect(IC_PLACE_OF(it, objects) == it->own, __LINE__);   \
            see(&given, it->own);                                    \
        }                                                            \
        expect(it == NULL && is_rest(0), __LINE__);                  \
        for (uint32_t stop = 0; stop < plain.count; stop++) {        \
            uint32_t round = 0;                                      \
            ENTRY(it, objects, __VA_ARGS__) {                        \
                if (round++ < stop)                                  \
                    continue;                                        \
                break;                                               \
            }                                                        \
            expect(it == &objects[plain.members[stop]], __LINE__);   \
        }                                                            \
    } while (0)

/* A loop that begins at a member gives the rest of those that the plain one gave last. */
#define RESTS(FROM, ...)                                             \
    do {                                                             \
        for (uint32_t begin = 0; begin < plain.count; begin++) {     \
            given.count = 0;                                         \
            FROM(place, plain.members[begin], __VA_ARGS__)           \
                see(&given, place);                                  \
            expect(is_rest(begin), __LINE__);                        \
        }                                                            \
    } while (0)

/* A loop over objects that begins at a member does, too, and so does a safe one. */
#define RESTS_TOO(FROM, ENTRY_FROM, ...)                             \
    do {                                                             \
        for (uint32_t begin = 0; begin < plain.count; begin++) {     \
            struct object *it = &objects[0];                         \
            given.count = 0;                                         \
            ENTRY_FROM(it, objects, plain.members[begin], __VA_ARGS__) \
                see(&given, it->own);                                \
            expect(it == NULL && is_rest(begin), __LINE__);          \
            given.count = 0;                                         \
            FROM                                                     \
                see(&given, place);                                  \
            expect(is_rest(begin), __LINE__);                        \
        }                                                            \
    } while (0)

static void loops_begin_at_members(void) {
    SAME(IC_LIST_FOREACH, IC_LIST_FOREACH_ENTRY, all.pairs, ALL, &all.list);
    RESTS_TOO(IC_LIST_FOREACH_SAFE_FROM(place, next, plain.members[begin], all.pairs, ALL), IC_LIST_FOREACH_ENTRY_FROM, all.pairs, ALL);
    RESTS_TOO(IC_LIST_FOREACH_FROM(place, plain.members[begin], all.pairs, ALL), IC_LIST_FOREACH_ENTRY_SAFE_FROM, all.pairs, ALL);
    SAME(IC_RING_FOREACH, IC_RING_FOREACH_ENTRY, all.ringed, ALL, HEAD);
    RESTS_TOO(IC_RING_FOREACH_SAFE_FROM(place, next, plain.members[begin], all.ringed, ALL, HEAD), IC_RING_FOREACH_ENTRY_FROM, all.ringed, ALL, HEAD);
    RESTS_TOO(IC_RING_FOREACH_FROM(place, plain.members[begin], all.ringed, ALL, HEAD), IC_RING_FOREACH_ENTRY_SAFE_FROM, all.ringed, ALL, HEAD);
    SAME(IC_TREE_FOREACH, IC_TREE_FOREACH_ENTRY, all.nodes, ALL, &all.tree);
    RESTS_TOO(IC_TREE_FOREACH_SAFE_FROM(place, next, plain.members[begin], all.nodes, ALL, &all.tree), IC_TREE_FOREACH_ENTRY_FROM, all.nodes, ALL, &all.tree);
    RESTS_TOO(IC_TREE_FOREACH_FROM(place, plain.members[begin], all.nodes, ALL, &all.tree), IC_TREE_FOREACH_ENTRY_SAFE_FROM, all.nodes, ALL, &all.tree);
    SAME(IC_STACK_FOREACH, IC_STACK_FOREACH_ENTRY, all.stacked, ALL, &all.stack);
    RESTS_TOO(IC_STACK_FOREACH_FROM(place, plain.members[begin], all.stacked, ALL), IC_STACK_FOREACH_ENTRY_FROM, all.stacked, ALL);
}

/* The safe loop over the objects of all chains, with the names that the others have no use for. */
#define ALL_SAFE(it, objects, ...) IC_HASH_FOREACH_ALL_ENTRY_SAFE(bucket, before, it, objects, __VA_ARGS__)

static void loops_give_objects(int is_right) {
    SAME(IC_HASH_FOREACH_ALL, ALL_SAFE, all.hashed, ALL, all.buckets, BUCKETS);
    SAME(IC_HASH_FOREACH_ALL, IC_HASH_FOREACH_ALL_ENTRY, all.hashed, ALL, all.buckets, BUCKETS);
    SAME(IC_LIST_FOREACH, IC_LIST_FOREACH_ENTRY_SAFE, all.pairs, ALL, &all.list);
    SAME(IC_LIST_FOREACH, IC_LIST_FOREACH_ENTRY, all.pairs, ALL, &all.list);
    if (is_right)
        RESTS(IC_LIST_FOREACH_FROM, all.pairs, ALL);
    SAME(IC_LIST_FOREACH_REVERSE, IC_LIST_FOREACH_ENTRY_REVERSE_SAFE, all.pairs, ALL, &all.list);
    SAME(IC_LIST_FOREACH_REVERSE, IC_LIST_FOREACH_ENTRY_REVERSE, all.pairs, ALL, &all.list);
    if (is_right)
        RESTS(IC_LIST_FOREACH_REVERSE_FROM, all.pairs, ALL);
    SAME(IC_RING_FOREACH, IC_RING_FOREACH_ENTRY_SAFE, all.ringed, ALL, HEAD);
    SAME(IC_RING_FOREACH, IC_RING_FOREACH_ENTRY, all.ringed, ALL, HEAD);
    if (is_right)
        RESTS(IC_RING_FOREACH_FROM, all.ringed, ALL, HEAD);
    SAME(IC_RING_FOREACH_REVERSE, IC_RING_FOREACH_ENTRY_REVERSE_SAFE, all.ringed, ALL, HEAD);
    SAME(IC_RING_FOREACH_REVERSE, IC_RING_FOREACH_ENTRY_REVERSE, all.ringed, ALL, HEAD);
    if (is_right)
        RESTS(IC_RING_FOREACH_REVERSE_FROM, all.ringed, ALL, HEAD);
    SAME(IC_TREE_FOREACH, IC_TREE_FOREACH_ENTRY_SAFE, all.nodes, ALL, &all.tree);
    SAME(IC_TREE_FOREACH, IC_TREE_FOREACH_ENTRY, all.nodes, ALL, &all.tree);
    if (is_right)
        RESTS(IC_TREE_FOREACH_FROM, all.nodes, ALL, &all.tree);
    SAME(IC_TREE_FOREACH_REVERSE, IC_TREE_FOREACH_ENTRY_REVERSE_SAFE, all.nodes, ALL, &all.tree);
    SAME(IC_TREE_FOREACH_REVERSE, IC_TREE_FOREACH_ENTRY_REVERSE, all.nodes, ALL, &all.tree);
    if (is_right)
        RESTS(IC_TREE_FOREACH_REVERSE_FROM, all.nodes, ALL, &all.tree);
    SAME(IC_STACK_FOREACH, IC_STACK_FOREACH_ENTRY, all.stacked, ALL, &all.stack);
    if (is_right)
        RESTS(IC_STACK_FOREACH_FROM, all.stacked, ALL);
    SAME(IC_HASH_FOREACH, IC_HASH_FOREACH_ENTRY, all.hashed, ALL, all.buckets, BUCKETS, HASH);
    SAME(IC_XOR_FOREACH_REVERSE, IC_XOR_FOREACH_ENTRY_REVERSE, all.xored, ALL, &all.xor_list);
    SAME(IC_XOR_FOREACH, IC_XOR_FOREACH_ENTRY, all.xored, ALL, &all.xor_list);
}

/* The reads of ends, of a list whose members are those that a loop gave last. `front` and `back` are what the reads return. */
#define ENDS(family, ...)                                                                                                   \
    do {                                                                                                                    \
        for (uint32_t at = 0; at <= ALL + 1; at++) {                                                                        \
            const uint32_t place = at > ALL ? IC_NONE : at;                                                                 \
            expect(ic_##family##_is_first(__VA_ARGS__, place) == (plain.count > 0 && plain.members[0] == place), __LINE__); \
        }                                                                                                                   \
        expect(ic_##family##_front(__VA_ARGS__) == (plain.count ? plain.members[0] : IC_NONE), __LINE__);                   \
        expect(ic_##family##_is_singular(__VA_ARGS__) == (plain.count == 1), __LINE__);                                     \
        expect(IC_ENTRY(objects, ic_##family##_front(__VA_ARGS__)) == (plain.count ? &objects[plain.members[0]] : NULL), __LINE__); \
    } while (0)
#define LAST(family, ...)                                                                                                   \
    do {                                                                                                                    \
        const uint32_t last = plain.count ? plain.members[plain.count - 1] : IC_NONE;                                       \
        for (uint32_t at = 0; at <= ALL + 1; at++) {                                                                        \
            const uint32_t place = at > ALL ? IC_NONE : at;                                                                 \
            expect(ic_##family##_is_last(__VA_ARGS__, place) == (last != IC_NONE && last == place), __LINE__);              \
        }                                                                                                                   \
    } while (0)
#define NAMED(LOOP, family, ...)             \
    do {                                     \
        plain.count = 0;                     \
        LOOP(place, __VA_ARGS__)             \
            see(&plain, place);              \
        ENDS(family, __VA_ARGS__);           \
    } while (0)

static void reads_tell_ends(void) {
    NAMED(IC_LIST_FOREACH, list, all.pairs, ALL, &all.list);
    LAST(list, all.pairs, ALL, &all.list);
    expect(ic_list_back(all.pairs, ALL, &all.list) == ic_list_last(&all.list), __LINE__);
    NAMED(IC_RING_FOREACH, ring, all.ringed, ALL, HEAD);
    LAST(ring, all.ringed, ALL, HEAD);
    NAMED(IC_XOR_FOREACH, xor, all.xored, ALL, &all.xor_list);
    LAST(xor, all.xored, ALL, &all.xor_list);
    expect(ic_xor_back(all.xored, ALL, &all.xor_list) == ic_xor_last(&all.xor_list), __LINE__);
    NAMED(IC_STACK_FOREACH, stack, all.stacked, ALL, &all.stack);
    for (uint32_t at = 0; at < plain.count; at++)
        expect(ic_stack_is_last(all.stacked, ALL, plain.members[at]) == (at + 1 == plain.count), __LINE__);
    expect(!ic_stack_is_last(all.stacked, ALL, IC_NONE) && !ic_stack_is_last(all.stacked, ALL, ALL), __LINE__);
}

/* Over other words a read of an end returns a linked place of the table, or none. */
static void reads_stay_inside(void) {
    const uint32_t ends[] = {ic_list_front(all.pairs, ALL, &all.list), ic_list_back(all.pairs, ALL, &all.list)};
    const uint32_t ring_ends[] = {ic_ring_front(all.ringed, ALL, HEAD), ic_ring_back(all.ringed, ALL, HEAD)};
    const uint32_t xor_ends[] = {ic_xor_front(all.xored, ALL, &all.xor_list), ic_xor_back(all.xored, ALL, &all.xor_list)};
    const uint32_t first = ic_stack_front(all.stacked, ALL, &all.stack);
    for (int i = 0; i < 2; i++) {
        expect(ends[i] == IC_NONE || ic_list_is_linked(all.pairs, ALL, ends[i]), __LINE__);
        expect(ring_ends[i] == IC_NONE || (ring_ends[i] != HEAD && ic_ring_is_linked(all.ringed, ALL, ring_ends[i])), __LINE__);
        expect(xor_ends[i] == IC_NONE || ic_xor_is_linked(all.xored, ALL, xor_ends[i]), __LINE__);
    }
    expect(first == IC_NONE || ic_stack_is_linked(all.stacked, ALL, first), __LINE__);
}

static void must(uint32_t status, int line) {
    expect(status == IC_OK, line);
}

/* A safe loop gives all objects, of which its body removes every second one. */
#define REMOVES(LOOP, ENTRY_LOOP, remove, ...)                      \
    do {                                                            \
        struct object *it;                                          \
        plain.count = given.count = 0;                              \
        LOOP(place, __VA_ARGS__)                                    \
            see(&plain, place);                                     \
        ENTRY_LOOP {                                                \
            see(&given, it->own);                                   \
            if (it->own % 2)                                        \
                must(remove, __LINE__);                             \
        }                                                           \
        expect(it == NULL && is_rest(0), __LINE__);                 \
        LOOP(place, __VA_ARGS__)                                    \
            expect(place % 2 == 0, __LINE__);                       \
    } while (0)

static void bodies_remove(int is_backward) {
    uint32_t removed;
    if (is_backward) {
        REMOVES(IC_LIST_FOREACH_REVERSE, IC_LIST_FOREACH_ENTRY_REVERSE_SAFE(it, objects, all.pairs, ALL, &all.list),
                ic_list_remove(all.pairs, ALL, &all.list, it->own), all.pairs, ALL, &all.list);
        REMOVES(IC_RING_FOREACH_REVERSE, IC_RING_FOREACH_ENTRY_REVERSE_SAFE(it, objects, all.ringed, ALL, HEAD),
                ic_ring_remove(all.ringed, ALL, it->own), all.ringed, ALL, HEAD);
        REMOVES(IC_TREE_FOREACH_REVERSE, IC_TREE_FOREACH_ENTRY_REVERSE_SAFE(it, objects, all.nodes, ALL, &all.tree),
                ic_tree_remove(all.nodes, ALL, &all.tree, it->own), all.nodes, ALL, &all.tree);
        REMOVES(IC_XOR_FOREACH_REVERSE, IC_XOR_FOREACH_ENTRY_REVERSE_SAFE(before, it, objects, after, all.xored, ALL, &all.xor_list),
                ic_xor_remove(all.xored, ALL, &all.xor_list, before, it->own), all.xored, ALL, &all.xor_list);
        return;
    }
    REMOVES(IC_LIST_FOREACH, IC_LIST_FOREACH_ENTRY_SAFE(it, objects, all.pairs, ALL, &all.list),
            ic_list_remove(all.pairs, ALL, &all.list, it->own), all.pairs, ALL, &all.list);
    REMOVES(IC_RING_FOREACH, IC_RING_FOREACH_ENTRY_SAFE(it, objects, all.ringed, ALL, HEAD), ic_ring_remove(all.ringed, ALL, it->own),
            all.ringed, ALL, HEAD);
    REMOVES(IC_TREE_FOREACH, IC_TREE_FOREACH_ENTRY_SAFE(it, objects, all.nodes, ALL, &all.tree),
            ic_tree_remove(all.nodes, ALL, &all.tree, it->own), all.nodes, ALL, &all.tree);
    REMOVES(IC_STACK_FOREACH, IC_STACK_FOREACH_ENTRY_SAFE(before, it, objects, all.stacked, ALL, &all.stack),
            ic_stack_remove_after(all.stacked, ALL, &all.stack, before, &removed), all.stacked, ALL, &all.stack);
    REMOVES(IC_HASH_FOREACH_ALL, IC_HASH_FOREACH_ALL_ENTRY_SAFE(bucket, before, it, objects, all.hashed, ALL, all.buckets, BUCKETS),
            ic_stack_remove_after(all.hashed, ALL, &all.buckets[bucket], before, &removed), all.hashed, ALL, all.buckets, BUCKETS);
    REMOVES(IC_XOR_FOREACH, IC_XOR_FOREACH_ENTRY_SAFE(before, it, objects, after, all.xored, ALL, &all.xor_list),
            ic_xor_remove(all.xored, ALL, &all.xor_list, before, it->own), all.xored, ALL, &all.xor_list);
}

/* Makes a table of random members, in a random order. */
static void make(void) {
    uint64_t keys[ALL];
    const uint32_t count = below(PLACES + 1);
    memset(&all, 0, sizeof all);
    must(ic_ring_init(all.ringed, ALL, HEAD), __LINE__);
    for (uint32_t i = 0; i < ALL; i++)
        keys[i] = below(4);
    for (uint32_t i = 0; i < count; i++) {
        uint32_t place = below(PLACES);
        while (ic_list_is_linked(all.pairs, ALL, place))
            place = below(PLACES);
        must(ic_list_push_back(all.pairs, ALL, &all.list, place), __LINE__);
        must(ic_ring_push_front(all.ringed, ALL, HEAD, place), __LINE__);
        must(ic_stack_push_front(all.stacked, ALL, &all.stack, place), __LINE__);
        must(ic_hash_insert(all.hashed, ALL, all.buckets, BUCKETS, keys[place], place), __LINE__);
        must(ic_xor_push_back(all.xored, ALL, &all.xor_list, place), __LINE__);
        must(ic_tree_insert(all.nodes, ALL, keys, ALL, &all.tree, place), __LINE__);
    }
}

/* Other words take the place of some: of places in and out of the table, marked or not, or any. */
static void damage(void) {
    uint64_t words[sizeof all / sizeof(uint64_t)];
    memcpy(words, &all, sizeof all);
    for (uint32_t many = 1 + below(12); many > 0; many--) {
        const uint64_t number = below(4) ? below(ALL + 3) : (uint64_t)below(UINT32_MAX) << 32 | below(UINT32_MAX);
        words[below((uint32_t)(sizeof words / sizeof *words))] = 8 * number + (below(4) ? 1 : below(8));
    }
    memcpy(&all, words, sizeof all);
}

int main(int argc, char **argv) {
    const long tables = argc > 1 ? atol(argv[1]) : 20000;
    for (uint32_t i = 0; i < ALL; i++)
        objects[i].own = i;
    for (long i = 0; i < tables; i++) {
        make();
        loops_give_objects(1);
        loops_begin_at_members();
        reads_tell_ends();
        damage();
        loops_give_objects(0);
        reads_stay_inside();
        make();
        bodies_remove((int)(i % 2));
    }
    return 0;
}
