/* Calls of the library for C by hand: what its contract asks, in as few instructions as were found.
 *
 * Each makes the tests of docs/LIBRARY.md for words as a call writes them, and edits. Whatever else it meets, before it has written, it hands to the
 * call of the library of which it is a model, by the name with `proved_` in front, which says why, or reads words with other bits. So it
 * returns what that one does. bench/floors/run links it with bench/library/main.c and dist/asm, and counts. */

#include "ic.h"

/* The bits of a word that count, but for the mark. */
#define BITS ((UINT64_C(1) << 36) - 8)
#define SELDOM(condition) __builtin_expect(!!(condition), 0)

/* Tables of more places are left to the library. So a word below one of `places` words has no other bit. */
#define MOST INT32_MAX

/* The library itself, for all that is not the rule. */
#define PROVED(name, ...) uint32_t proved_##name(__VA_ARGS__);
PROVED(list_pop_front, struct ic_link2 *, ic_length, struct ic_list *, uint32_t *)
PROVED(list_push_back, struct ic_link2 *, ic_length, struct ic_list *, uint32_t)
PROVED(tree_find, const struct ic_link3 *, ic_length, const uint64_t *, ic_length, const struct ic_tree *, uint64_t, uint32_t *)
PROVED(tree_insert, struct ic_link3 *, ic_length, const uint64_t *, ic_length, struct ic_tree *, uint32_t)
PROVED(tree_remove, struct ic_link3 *, ic_length, struct ic_tree *, uint32_t)

/* Whether a word is that of a place of the table, as a call writes it: it is none, has a mark, or names no place if its index is too great. */
static inline int is_word(uint64_t word, ic_length places) {
    uint64_t less = word - 8;
    return (less >> 3 | less << 61) < places;
}

/* The place of a word, and the word of a place. */
#define PLACE(word) ((uint32_t)((word) / 8 - 1))
#define WORD(place) (8 * (uint64_t)(place) + 8)

/* ---- Doubly linked lists ---- */

/* The link of a word, which is twice the word behind the table, less one link. */
#define LINK(word) ((struct ic_link2 *)((char *)table + 2 * (word)) - 1)

uint32_t ic_list_pop_front(struct ic_link2 *table, ic_length places, struct ic_list *list, uint32_t *place) {
    uint64_t head = list->head, next;
    if (SELDOM(places > MOST || !is_word(head, places)))
        goto seldom;
    next = LINK(head)->next;
    if (SELDOM(!is_word(next - 1, places) || LINK(head)->prev || LINK(next - 1)->prev != head || !(LINK(next - 1)->next & 1)))
        goto seldom;
    LINK(next - 1)->prev = 0;
    LINK(head)->next = 0;
    list->head = next - 1;
    *place = PLACE(head);
    return IC_OK;
seldom:
    return proved_list_pop_front(table, places, list, place);
}

uint32_t ic_list_push_back(struct ic_link2 *table, ic_length places, struct ic_list *list, uint32_t place) {
    uint64_t tail = list->tail;
    if (SELDOM(places > MOST || !is_word(tail, places) || LINK(tail)->next != 1 || place >= places || table[place].next & 1))
        return proved_list_push_back(table, places, list, place);
    LINK(tail)->next = WORD(place) + 1;
    table[place] = (struct ic_link2){1, tail};
    list->tail = WORD(place);
    return IC_OK;
}

/* ---- Trees ---- */

struct link {
    uint64_t child[2], parent;
};

/* A table and its tree: the links are at `links` less the number of the first place, so that a number leads to its link by one product. */
struct table {
    char *links;
    uint64_t end, root;
};

#define NODE(number) ((struct link *)(in->links + 3 * (number)) - 1)
#define NUMBER(word) ((word) & BITS)
#define CHILD(word) NUMBER(word)
#define PARENT(word) NUMBER(word)
#define IS_PLACE(number) ((number) - 1 < in->end)
#define BROKEN(condition) (condition)
#define WITH_CHILD(word, number) ((number) | ((word) & 1))
#define BELOW(number, color) ((number) | (uint64_t)(color))
#define HANGS(number, above)
#define RISES(high, low)
#define LOSES(number)
#include "nodes.h"

/* The calls of the library make no more looks than this many turns of a loop with this many, since no way down a tree is longer. */
enum { WAYS = 22, LOOKS = 3 };

/* Has both children loaded, so that one is picked without a branch. */
#define BOTH(left, right) __asm__("" : "+r"(left), "+r"(right))

/* The key of a place. */
#define KEY(number) (*(const uint64_t *)((const char *)keys + (number) - 8))

/* Goes down from the number `at` to a place with no child on the side of the key, where `less` tells the sides apart, and does `then` at each place.
 * If the way is longer than any, it goes to `broken`. */
#define DESCEND(less, then)                                                 \
    for (int ways = WAYS; ways; ways--) {                                   \
        _Pragma("GCC unroll 3") for (int looks = LOOKS; looks; looks--) {   \
            uint64_t left = NODE(at)->child[0], right = NODE(at)->child[1]; \
            int is_less = KEY(at) less key;                                 \
            BOTH(left, right);                                              \
            then;                                                           \
            at = NUMBER(is_less ? right : left);                            \
            if (!IS_PLACE(at))                                              \
                goto end;                                                   \
        }                                                                   \
    }                                                                       \
    goto broken;

static inline int is_linked(const struct table *in, uint64_t number) {
    return NODE(number)->child[0] & 1;
}

uint32_t ic_tree_find(const struct ic_link3 *table, ic_length places, const uint64_t *keys, ic_length key_count, const struct ic_tree *tree,
                      uint64_t key, uint32_t *found) {
    const struct table here = {(char *)table, 8 * places, 0}, *in = &here;
    uint64_t at = NUMBER(tree->root), last = 0;
    if (SELDOM(key_count < places || !IS_PLACE(at) || !is_linked(in, at)))
        return proved_tree_find(table, places, keys, key_count, tree, key, found);
    DESCEND(<, last = is_less ? last : at)
end:
    if (!last || KEY(last) != key)
        return IC_NULL;
    if (SELDOM(!is_linked(in, last)))
        goto broken;
    *found = PLACE(last);
    return IC_OK;
broken:
    return IC_BROKEN;
}

uint32_t ic_tree_insert(struct ic_link3 *table, ic_length places, const uint64_t *keys, ic_length key_count, struct ic_tree *tree,
                        uint32_t place) {
    struct table here = {(char *)table, 8 * places, NUMBER(tree->root)}, *in = &here;
    uint64_t at = here.root, own = WORD(place), above, key;
    int side;
    if (SELDOM(places > MOST || key_count < places || place >= places || !IS_PLACE(at) || !is_linked(in, at) || is_linked(in, own)))
        return proved_tree_insert(table, places, keys, key_count, tree, place);
    key = keys[place];
    DESCEND(<=, (above = at, side = is_less))
end:
    if (SELDOM(!is_linked(in, above)))
        goto broken;
    *NODE(own) = (struct link){{1, 0}, above};
    attach(in, own, above, side);
    tree->root = in->root;
    return IC_OK;
broken:
    return IC_BROKEN;
}

uint32_t ic_tree_remove(struct ic_link3 *table, ic_length places, struct ic_tree *tree, uint32_t place) {
    struct table here = {(char *)table, 8 * places, NUMBER(tree->root)}, *in = &here;
    uint64_t root = here.root, own = WORD(place);
    if (SELDOM(places > MOST || place >= places || !is_linked(in, own) || !IS_PLACE(root) || !is_linked(in, root) ||
               (!NUMBER(NODE(own)->parent) && root != own)))
        return proved_tree_remove(table, places, tree, place);
    detach(in, own);
    NODE(own)->child[0] = 0;
    tree->root = in->root;
    return IC_OK;
}
