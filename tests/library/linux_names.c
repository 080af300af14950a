/* What Linux documents of its hash lists (hlist of list.h), of its trees (rbtree.h) and of its interval trees, case by case, with the calls that do it here. The
 * cases of its lists are in rings.c. They are written from the comments of the headers, and no code is Linux's.
 *     linux_names
 *
 * A hash list whose members leave without their list is a ring, and one with a word for each member is a singly linked list. A tree with no summaries
 * finds intervals that overlap by a loop over those that begin early enough, which takes as many steps. Prints nothing if all is right.
 */
#include "common.h"

#include <string.h>

enum { HEAD = 0, OTHER, A, B, C, D, PLACES, NODES = 100, SEARCHES = 200 };

#define EXPECT(is_so)                                      \
    do {                                                   \
        if (!(is_so)) {                                    \
            printf("line %d: not %s\n", __LINE__, #is_so); \
            exit(1);                                       \
        }                                                  \
    } while (0)
#define DONE(call) EXPECT((call) == IC_OK)

struct entry {
    uint32_t own;
};
static const struct entry entries[PLACES] = {{HEAD}, {OTHER}, {A}, {B}, {C}, {D}};

/* The members that a loop gives are these, which end with the place HEAD. */
#define GIVES(loop, place, ...)                                  \
    do {                                                         \
        const uint32_t wanted[] = {__VA_ARGS__, HEAD}, *at = wanted; \
        loop EXPECT((place) == *at++);                           \
        EXPECT(*at == HEAD);                                     \
    } while (0)

/* ---- hlist over rings ---- */

static struct ic_link2 ring[PLACES];
#define RING ring, PLACES

static void begin_ring(uint32_t members) {
    memset(ring, 0, sizeof ring);
    DONE(ic_ring_init(RING, HEAD)); /* INIT_HLIST_HEAD */
    DONE(ic_ring_init(RING, OTHER));
    for (uint32_t place = A; place < A + members; place++)
        DONE(ic_ring_push_back(RING, HEAD, place));
}

static void ring_edits(void) {
    begin_ring(0);
    EXPECT(!ic_ring_is_linked(RING, A) && ic_ring_is_empty(RING, HEAD)); /* hlist_unhashed, hlist_empty */
    DONE(ic_ring_push_front(RING, HEAD, A));                            /* hlist_add_head */
    EXPECT(ic_ring_is_linked(RING, A) && ic_ring_is_singular(RING, HEAD)); /* hlist_is_singular_node */
    DONE(ic_ring_insert_before(RING, A, B));                            /* hlist_add_before */
    DONE(ic_ring_insert_after(RING, A, C));                             /* hlist_add_behind */
    GIVES(IC_RING_FOREACH(place, ring, PLACES, HEAD), place, B, A, C);
    DONE(ic_ring_remove(RING, A)); /* hlist_del, hlist_del_init */
    EXPECT(!ic_ring_is_linked(RING, A) && ic_ring_remove(RING, A) == IC_NOT_LINKED);
    GIVES(IC_RING_FOREACH(place, ring, PLACES, HEAD), place, B, C);
    DONE(ic_ring_splice_after(RING, OTHER, HEAD)); /* hlist_move_list */
    EXPECT(ic_ring_is_empty(RING, HEAD));
    GIVES(IC_RING_FOREACH(place, ring, PLACES, OTHER), place, B, C);
    DONE(ic_ring_init(RING, D)); /* hlist_add_fake: D seems to be in a list, and leaves it */
    EXPECT(ic_ring_is_empty(RING, D)); /* hlist_fake */
    DONE(ic_ring_remove(RING, D));
    EXPECT(!ic_ring_is_linked(RING, D));
}

static void ring_loops(void) {
    const struct entry *it = &entries[B];
    begin_ring(4);
    GIVES(IC_RING_FOREACH_ENTRY(it, entries, ring, PLACES, HEAD), it->own, A, B, C, D);                 /* hlist_for_each_entry */
    GIVES(IC_RING_FOREACH_ENTRY_FROM(it, entries, B, ring, PLACES, HEAD), it->own, B, C, D);            /* .._from */
    GIVES(IC_RING_FOREACH_ENTRY_FROM(it, entries, ic_ring_next(RING, B), ring, PLACES, HEAD), it->own, C, D); /* .._continue */
    IC_RING_FOREACH_ENTRY_SAFE(it, entries, ring, PLACES, HEAD) /* .._safe */
        if (it->own != C)
            DONE(ic_ring_remove(RING, IC_PLACE_OF(it, entries)));
    GIVES(IC_RING_FOREACH(place, ring, PLACES, HEAD), place, C);
    EXPECT(it == NULL && IC_ENTRY(entries, ic_ring_front(RING, HEAD)) == &entries[C]); /* hlist_entry_safe, list_first_entry_or_null */
}

/* ---- hlist over singly linked lists ---- */

static void stack_edits(void) {
    struct ic_link1 links[PLACES] = {{0}};
    struct ic_stack list = {0}, other = {0}, none = {0};
    const struct entry *it;
    uint32_t removed;
    EXPECT(ic_stack_is_empty(&list) && !ic_stack_is_linked(links, PLACES, B));
    DONE(ic_stack_push_front(links, PLACES, &list, B));     /* hlist_add_head */
    DONE(ic_stack_insert_after(links, PLACES, &list, B, D)); /* hlist_add_behind */
    DONE(ic_stack_push_front(links, PLACES, &list, A));
    IC_STACK_FOREACH_SAFE(before, place, links, PLACES, &list) /* hlist_add_before, of D */
        if (place == D) {
            DONE(ic_stack_insert_after(links, PLACES, &list, before, C));
            break;
        }
    GIVES(IC_STACK_FOREACH(place, links, PLACES, &list), place, A, B, C, D);
    GIVES(IC_STACK_FOREACH_ENTRY_FROM(it, entries, C, links, PLACES), it->own, C, D);
    EXPECT(it == NULL);
    DONE(ic_stack_remove(links, PLACES, &list, C)); /* hlist_del, for which the list is named */
    IC_STACK_FOREACH_SAFE(before, place, links, PLACES, &list) /* hlist_for_each_safe */
        if (place == A)
            DONE(ic_stack_remove_after(links, PLACES, &list, before, &removed));
    GIVES(IC_STACK_FOREACH(place, links, PLACES, &list), place, B, D);
    other = list; /* hlist_move_list: a head is a word, and the old one forgets */
    list = none;
    GIVES(IC_STACK_FOREACH(place, links, PLACES, &other), place, B, D);
    EXPECT(ic_stack_is_empty(&list) && ic_stack_is_last(links, PLACES, D) && !ic_stack_is_singular(links, PLACES, &other));
}

/* ---- rbtree ---- */

static struct ic_link3 nodes[NODES];
static struct ic_tree tree;
static uint64_t keys[NODES];
#define TREE nodes, NODES, &tree

static int order(uint64_t key, uint32_t at) {
    return (key > keys[at]) - (key < keys[at]);
}

static void check_tree(uint32_t wanted) {
    uint64_t members, last = 0;
    uint32_t count = 0;
    EXPECT(ic_tree_check(TREE, &members) == IC_OK && members == wanted);
    IC_TREE_FOREACH(place, nodes, NODES, &tree) { /* rb_first, rb_next */
        EXPECT(keys[place] >= last);
        last = keys[place];
        count++;
    }
    EXPECT(count == wanted);
}

/* All nodes go in, in turn by an insertion with a comparison and by their keys, and leave in another order. The tree is right after each edit. */
static void tree_edits(void) {
    uint32_t at, status, found;
    memset(nodes, 0, sizeof nodes);
    tree.root = 0;
    for (uint32_t node = 0; node < NODES; node++) {
        keys[node] = any();
        if (node % 2)
            DONE(ic_tree_insert(nodes, NODES, keys, NODES, &tree, node));
        else {
            IC_TREE_INSERT_BY(status, at, nodes, NODES, &tree, node, order(keys[node], at)); /* rb_add */
            EXPECT(status == IC_OK && at == node);
        }
        check_tree(node + 1);
    }
    IC_TREE_INSERT_UNIQUE_BY(status, at, nodes, NODES, &tree, 7, order(keys[7], at)); /* rb_find_add, of a node that is in the tree */
    EXPECT(status == IC_LINKED && at == IC_NONE);
    DONE(ic_tree_remove(TREE, 9));
    keys[9] = keys[7];
    IC_TREE_INSERT_UNIQUE_BY(status, at, nodes, NODES, &tree, 9, order(keys[9], at)); /* rb_find_add, which finds */
    EXPECT(status == IC_OK && at == 7 && ic_tree_insert_unique(nodes, NODES, keys, NODES, &tree, 9, &found) == IC_OK && found == 7);
    DONE(ic_tree_insert(nodes, NODES, keys, NODES, &tree, 9));
    IC_TREE_FIND_BY(at, nodes, NODES, &tree, order(keys[7], at)); /* rb_find_first, rb_find */
    EXPECT(at == 7 && ic_tree_after(TREE, at) == 9);              /* rb_next_match */
    DONE(ic_tree_remove(TREE, 7));
    keys[7] = keys[9];
    DONE(ic_tree_replace(TREE, 9, 7)); /* rb_replace_node */
    for (uint32_t left = NODES - 1; left > 0; left--) {
        EXPECT(ic_tree_first(TREE, &found) == IC_OK);
        for (uint32_t steps = below(left); steps > 0; steps--)
            found = ic_tree_after(TREE, found);
        DONE(ic_tree_remove(TREE, found)); /* rb_erase */
        EXPECT(!ic_tree_is_linked(nodes, NODES, found)); /* RB_EMPTY_NODE */
        check_tree(left - 1);
    }
    EXPECT(ic_tree_is_empty(&tree)); /* RB_EMPTY_ROOT */
}

/* ---- Interval trees ---- */

/* Intervals in the order of their starts, which are the keys. Those that overlap [first, last] are among those that start by `last`: a loop over these finds them. */
static void overlaps(void) {
    uint64_t ends[NODES];
    memset(nodes, 0, sizeof nodes);
    tree.root = 0;
    for (uint32_t node = 0; node < NODES; node++) {
        keys[node] = below(1000);
        ends[node] = keys[node] + below(100);
        DONE(ic_tree_insert(nodes, NODES, keys, NODES, &tree, node)); /* interval_tree_insert */
    }
    for (uint32_t search = 0; search < SEARCHES; search++) {
        const uint64_t first = below(1000), last = first + below(100);
        uint32_t found = 0, wanted = 0;
        for (uint32_t node = 0; node < NODES; node++)
            wanted += keys[node] <= last && ends[node] >= first;
        IC_TREE_FOREACH(node, nodes, NODES, &tree) { /* interval_tree_iter_first, interval_tree_iter_next */
            if (keys[node] > last)
                break;
            found += ends[node] >= first;
        }
        EXPECT(found == wanted);
    }
}

int main(void) {
    state = 7;
    ring_edits();
    ring_loops();
    stack_edits();
    for (int times = 0; times < 10; times++) {
        tree_edits();
        overlaps();
    }
    return 0;
}
