/* Linux's names of red-black trees (rbtree.h, rbtree_augmented.h) and interval trees, by calls of trees. Each of the tests has one tree, which is here. */
#ifndef LINUX_TREES_H
#define LINUX_TREES_H

#include "linux.h"

struct rb_node {
    uintptr_t __rb_parent_color;
    struct rb_node *rb_right, *rb_left;
};
struct rb_root {
    struct rb_node *rb_node;
};
struct rb_root_cached {
    struct rb_root rb_root;
    struct rb_node *rb_leftmost;
};
#define RB_ROOT_CACHED {{NULL}, NULL}

static struct ic_link3 peer_links[PEER_PLACES];
static uint64_t peer_keys[PEER_PLACES];
static struct ic_tree peer_tree;
static struct ic_tree_ends peer_ends;
static struct ic_sum peer_sums[PEER_PLACES]; /* the values of Linux's augmented trees, and the ends of intervals */
#define TREE peer_links, PEER_PLACES, &peer_tree
#define SUMS peer_links, PEER_PLACES, peer_sums, PEER_PLACES
#define NEAR(side, node) peer_object(ic_tree_##side(peer_links, PEER_PLACES, AT(node)))

static inline uint32_t AT(const struct rb_node *node) {
    uint32_t place = peer_find(node);
    return !node ? IC_NONE : place != IC_NONE ? place : peer_add(node, 0);
}

/* Writes the children, the parent and the color of each place into the pointers of its object. Only the test of trees reads them. */
static inline void peer_done(uint32_t status, struct rb_root *root, const char *call, int line) {
    if (!peer_expect(status == IC_OK, call, line))
        return;
    root->rb_node = peer_object(ic_tree_root(&peer_tree));
    for (uint32_t place = 0; place < peer_count; place++) {
        struct rb_node *node = peer_object(place);
        node->rb_left = peer_object(ic_tree_left(peer_links, PEER_PLACES, place));
        node->rb_right = peer_object(ic_tree_right(peer_links, PEER_PLACES, place));
        node->__rb_parent_color = (uintptr_t)peer_object(ic_tree_parent(peer_links, PEER_PLACES, place)) | (peer_links[place].parent & 1);
    }
}
#define DO(call, root) peer_done(call, root, #call, __LINE__)

/* ---- rbtree.h ---- */

/* Linux links a node under its parent, and balances the tree in a second call. Here the second one does both, so the first one keeps where that is. */
static struct rb_node *peer_parent;
static bool peer_is_left;
#define rb_link_node(node, parent, link) (peer_parent = (parent), peer_is_left = (parent) && (link) == &(parent)->rb_left)
#define rb_insert_color(node, root) DO((peer_is_left ? ic_tree_insert_left : ic_tree_insert_right)(TREE, AT(peer_parent), AT(node)), root)
#define rb_erase(node, root) DO(ic_tree_remove(TREE, AT(node)), root)

/* A tree keeps its first member itself. That has to be the one of which the test says so, and the one to which the links lead. */
#define PEER_FIRST(root) PEER_EXPECT(rb_first_cached(root) == rb_first(&(root)->rb_root))
#define rb_insert_color_cached(node, root, is_first)                                                                                           \
    (DO((peer_is_left ? ic_tree_ends_insert_left : ic_tree_ends_insert_right)(TREE, &peer_ends, AT(peer_parent), AT(node)), &(root)->rb_root), \
     PEER_EXPECT((rb_first_cached(root) == (node)) == (is_first)), PEER_FIRST(root))
#define rb_erase_cached(node, root) (DO(ic_tree_ends_remove(TREE, &peer_ends, AT(node)), &(root)->rb_root), PEER_FIRST(root))
#define rb_first_cached(root) ((struct rb_node *)peer_object(ic_tree_ends_first(peer_links, PEER_PLACES, &peer_ends)))

/* ---- rbtree_augmented.h, of which Linux's test keeps the greatest value of each subtree ---- */

struct rb_augment_callbacks {
    void (*take)(uint32_t place), (*show)(void);
};
/* Takes the value of a node, and writes the greatest value of each subtree into its object, as the sums say it. */
#define RB_DECLARE_CALLBACKS_MAX(how, name, type, member, number, augmented, value_of)                  \
    static void name##_take(uint32_t place) {                                                           \
        peer_sums[place].value = value_of(container_of(peer_object(place), type, member));              \
    }                                                                                                   \
    static void name##_show(void) {                                                                     \
        for (uint32_t place = 0; place < peer_count; place++)                                           \
            container_of(peer_object(place), type, member)->augmented = (number)peer_sums[place].sum;   \
    }                                                                                                   \
    how const struct rb_augment_callbacks name = {name##_take, name##_show};
#define PEER_SUMMED SUMS, IC_GREATEST, &peer_tree
#define rb_insert_augmented(node, root, callbacks) ((callbacks)->take(AT(node)), \
    DO((peer_is_left ? ic_tree_sums_insert_left : ic_tree_sums_insert_right)(PEER_SUMMED, AT(peer_parent), AT(node)), root), (callbacks)->show())
#define rb_erase_augmented(node, root, callbacks) (DO(ic_tree_sums_remove(PEER_SUMMED, AT(node)), root), (callbacks)->show())

/* No call keeps both the ends and the sums of a tree, so after one that keeps the ends all sums are made anew. */
#define PEER_RENEW(callbacks) (PEER_EXPECT(ic_tree_sums_renew(SUMS, IC_GREATEST, IC_NONE) == IC_OK), (callbacks)->show())
#define rb_insert_augmented_cached(node, root, is_first, callbacks) \
    ((callbacks)->take(AT(node)), rb_insert_color_cached(node, root, is_first), PEER_RENEW(callbacks))
#define rb_erase_augmented_cached(node, root, callbacks) (rb_erase_cached(node, root), PEER_RENEW(callbacks))

#define rb_first(root) peer_object(ic_tree_after(TREE, IC_NONE))
#define rb_last(root) peer_object(ic_tree_before(TREE, IC_NONE))
#define rb_next(node) peer_object(ic_tree_after(TREE, AT(node)))
#define rb_parent(node) ((struct rb_node *)NEAR(parent, node))
#define rb_entry(node, type, member) container_of(node, type, member)

/* The library has no walk that visits children before their parents. These two make it of reads. */
static inline struct rb_node *peer_deepest(struct rb_node *node) {
    for (struct rb_node *child = node; child; child = NEAR(left, node) ? NEAR(left, node) : NEAR(right, node))
        node = child;
    return node;
}
static inline struct rb_node *rb_next_postorder(struct rb_node *node) {
    struct rb_node *parent = NEAR(parent, node);
    return parent && NEAR(left, parent) == node && NEAR(right, parent) ? peer_deepest(NEAR(right, parent)) : parent;
}
#define rb_first_postorder(root) peer_deepest(peer_object(ic_tree_root(&peer_tree)))
#define rbtree_postorder_for_each_entry_safe(it, other, root, member)                                                \
    for (struct rb_node *peer_at = rb_first_postorder(root), *peer_next;                                             \
         peer_at && (peer_next = rb_next_postorder(peer_at), (it) = container_of(peer_at, __typeof__(*(it)), member)); \
         peer_at = peer_next)

/* ---- interval_tree.h ---- */

struct interval_tree_node {
    struct rb_node rb;
    unsigned long start, last;
};

/* A member's key is the start of its interval, and its value the end, which the interval does not contain here. */
static inline uint32_t peer_insert(struct interval_tree_node *node) {
    const uint32_t place = AT(&node->rb);
    peer_keys[place] = node->start;
    peer_sums[place].value = node->last + 1;
    return ic_tree_sums_insert(peer_links, PEER_PLACES, peer_keys, PEER_PLACES, peer_sums, PEER_PLACES, IC_GREATEST, &peer_tree, place);
}
#define interval_tree_insert(node, root) PEER_EXPECT(peer_insert(node) == IC_OK)
#define interval_tree_remove(node, root) PEER_EXPECT(ic_tree_sums_remove(PEER_SUMMED, AT(&(node)->rb)) == IC_OK)

static inline bool peer_overlaps(uint32_t place, unsigned long start, unsigned long last) {
    const struct interval_tree_node *node = container_of(peer_object(place), struct interval_tree_node, rb);
    return node->start <= last && start <= node->last;
}

/* Counts the intervals that overlap among all members, in no order. Linux's test counts what the search finds, and compares it with nothing. */
static uint32_t peer_wanted;
static inline uint32_t peer_search(unsigned long start, unsigned long last) {
    peer_wanted = 0;
    for (uint32_t place = 0; place < peer_count; place++)
        peer_wanted += ic_tree_is_linked(peer_links, PEER_PLACES, place) && peer_overlaps(place, start, last);
    return IC_NONE;
}

/* Returns the first interval that overlaps, after the member `at`. The last search has to have found all. */
static inline struct interval_tree_node *peer_overlap(uint32_t at, unsigned long start, unsigned long last) {
    uint32_t found;
    if (ic_tree_sums_overlap(peer_links, PEER_PLACES, peer_keys, PEER_PLACES, peer_sums, PEER_PLACES, &peer_tree, at, start, last + 1, &found) == IC_OK)
        return PEER_EXPECT(peer_overlaps(found, start, last) && peer_wanted--) ? container_of(peer_object(found), struct interval_tree_node, rb) : NULL;
    PEER_EXPECT(peer_wanted == 0);
    return NULL;
}
#define interval_tree_iter_first(root, start, last) peer_overlap(peer_search(start, last), start, last)
#define interval_tree_iter_next(node, start, last) peer_overlap(AT(&(node)->rb), start, last)

#endif
