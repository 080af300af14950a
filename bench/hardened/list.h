/* A doubly linked list that tests as Linux's does where it is built with CONFIG_LIST_HARDENED.
 *
 * It is a model of that list: a ring of addresses with its head in it, of which an insert and a removal test the neighbors' words, and a
 * removal leaves addresses that no object has. The tests are those of Linux 6.6, include/linux/list.h: `__list_add_valid` and
 * `__list_del_entry_valid`. Linux tests nothing in a cut, a splice or a replacement, nor do its list_bulk_move_tail and the half of its list_swap
 * that replaces. */

#include <stdbool.h>
#include <stdlib.h>

struct links {
    struct links *next, *prev;
};

/* An object: its links stand in front, so both have one address. */
struct object {
    struct links links;
    uint64_t value;
};

/* What a removal leaves in the links of what it has removed. */
#define POISON_NEXT ((struct links *)0x100)
#define POISON_PREV ((struct links *)0x122)

/* The program ends where links are found damaged. The kernel warns and leaves the list as it is, or stops. */
static __attribute__((cold, noinline)) void damaged(void) { exit(1); }

static inline bool may_add(const struct links *added, const struct links *prev, const struct links *next) {
    return next->prev == prev && prev->next == next && added != prev && added != next;
}

static inline bool may_remove(const struct links *member) {
    return member->prev->next == member && member->next->prev == member;
}

static inline void add_between(struct links *added, struct links *prev, struct links *next) {
    if (!may_add(added, prev, next)) {
        damaged();
        return;
    }
    next->prev = added;
    added->next = next;
    added->prev = prev;
    prev->next = added;
}

static inline void push_back(struct links *list, struct links *added) { add_between(added, list->prev, list); }

static inline void push_front(struct links *list, struct links *added) { add_between(added, list, list->next); }

/* Links the neighbors of a member with each other. */
static inline void unlink(struct links *member) {
    if (!may_remove(member)) {
        damaged();
        return;
    }
    member->next->prev = member->prev;
    member->prev->next = member->next;
}

static inline void take(struct links *member) {
    unlink(member);
    member->next = POISON_NEXT;
    member->prev = POISON_PREV;
}

static inline void move_to_back(struct links *list, struct links *member) {
    unlink(member);
    push_back(list, member);
}

/* Replaces a member, as list_replace does. */
static inline void replace(const struct links *old, struct links *added) {
    added->next = old->next;
    added->next->prev = added;
    added->prev = old->prev;
    added->prev->next = added;
}

/* Lets two members change their places, as list_swap does. */
static inline void swap(struct links *one, struct links *other) {
    struct links *before = other->prev;
    unlink(other);
    replace(one, other);
    if (before == one)
        before = other;
    add_between(one, before, before->next);
}

/* Moves the members from `first` to `last` to the back, as list_bulk_move_tail does. */
static inline void move_range_to_back(struct links *list, struct links *first, struct links *last) {
    first->prev->next = last->next;
    last->next->prev = first->prev;
    list->prev->next = first;
    first->prev = list->prev;
    last->next = list;
    list->prev = last;
}

static inline bool is_empty(const struct links *list) { return list->next == list; }

static inline void make_empty(struct links *list) { list->next = list->prev = list; }

/* Moves all members between two neighbors, as list_splice_init and list_splice_tail_init do. */
static inline void splice_between(struct links *given, struct links *prev, struct links *next) {
    if (is_empty(given))
        return;
    struct links *first = given->next, *last = given->prev;
    first->prev = prev;
    prev->next = first;
    last->next = next;
    next->prev = last;
    make_empty(given);
}

/* Puts all members in front of those of the list. */
static inline void splice_front(struct links *list, struct links *given) { splice_between(given, list, list->next); }

static inline void splice_back(struct links *list, struct links *given) { splice_between(given, list->prev, list); }

/* Moves the members behind `at` to `rest`, which is overwritten. */
static inline void split_after(struct links *list, struct links *at, struct links *rest) {
    if (at->next == list) {
        make_empty(rest);
        return;
    }
    rest->next = at->next;
    rest->next->prev = rest;
    rest->prev = list->prev;
    rest->prev->next = rest;
    at->next = list;
    list->prev = at;
}
