/* This header has each call, read and loop of ic.h in a form that takes a handle. A handle is a struct with pointers to a table and to a list,
 * buckets or a tree, and with the length of the table.
 *
 * A call of ic.h takes a table, the length of the table, and places. A length and a place are both numbers, so the compiler gives no warning if you
 * swap them. A call of this header has `in_` in its name. It takes a handle instead of the table, the length and the list, so you name the length
 * only once, in the handle. You own the arrays and lists, and can copy a handle as you copy a pointer. The functions of this header are inline, and
 * take as many instructions as the calls of ic.h.
 *
 *     static struct ic_link2 links[100];
 *     static struct ic_list list;
 *     static const struct ic_list_in jobs = {IC_TABLE(links), &list};
 *     uint32_t status, oldest;
 *     status = ic_list_in_push_back(jobs, 7);             // IC_OK
 *     status = ic_list_in_push_back(jobs, 7);             // IC_LINKED, and nothing is changed
 *     IC_LIST_IN_FOREACH(place, jobs)
 *         printf("%u\n", (unsigned)place);
 *     status = ic_list_in_pop_front(jobs, &oldest);
 *
 * For each call, ic.h has a call whose name has no `in_`, and whose comment says what both calls do. If a call takes a second list or tree, `given`
 * or `rest`, you pass a second handle. If the second handle is for another table than the first, or for the same list or tree, the call returns
 * IC_BROKEN and changes nothing.
 */
#ifndef IC_IN_H
#define IC_IN_H

#include "ic.h"

#ifdef __cplusplus
extern "C" {
#endif

/* If `links` is an array, IC_TABLE(links) expands to the first two values of a handle, the table and its length. Compilers warn if `links` is a
 * pointer. */
#define IC_TABLE(links) (links), sizeof(links) / sizeof *(links)

/* A struct ic_keys has a pointer to an array with a key for each place, and the number of keys. */
struct ic_keys {
    const uint64_t *keys;
    ic_length count;
};

/* ---- Doubly linked lists ---- */

/* A struct ic_list_in is a handle for a doubly linked list and its table. */
struct ic_list_in {
    struct ic_link2 *table;
    ic_length places;
    struct ic_list *list;
};

/* Made by tools/c-calls --write: list */

static inline int ic_list_in_is_linked(struct ic_list_in in, uint32_t place) {
    return ic_list_is_linked(in.table, in.places, place);
}

static inline int ic_list_in_is_empty(struct ic_list_in in) {
    return ic_list_is_empty(in.list);
}

static inline uint32_t ic_list_in_first(struct ic_list_in in) {
    return ic_list_first(in.list);
}

static inline uint32_t ic_list_in_last(struct ic_list_in in) {
    return ic_list_last(in.list);
}

static inline uint32_t ic_list_in_next(struct ic_list_in in, uint32_t at) {
    return ic_list_next(in.table, in.places, at);
}

static inline uint32_t ic_list_in_prev(struct ic_list_in in, uint32_t at) {
    return ic_list_prev(in.table, in.places, at);
}

static inline uint32_t ic_list_in_front(struct ic_list_in in) {
    return ic_list_front(in.table, in.places, in.list);
}

static inline uint32_t ic_list_in_back(struct ic_list_in in) {
    return ic_list_back(in.table, in.places, in.list);
}

static inline int ic_list_in_is_first(struct ic_list_in in, uint32_t at) {
    return ic_list_is_first(in.table, in.places, in.list, at);
}

static inline int ic_list_in_is_last(struct ic_list_in in, uint32_t at) {
    return ic_list_is_last(in.table, in.places, in.list, at);
}

static inline int ic_list_in_is_singular(struct ic_list_in in) {
    return ic_list_is_singular(in.table, in.places, in.list);
}

IC_NODISCARD
static inline uint32_t ic_list_in_push_front(struct ic_list_in in, uint32_t place) {
    return ic_list_push_front(in.table, in.places, in.list, place);
}

IC_NODISCARD
static inline uint32_t ic_list_in_push_back(struct ic_list_in in, uint32_t place) {
    return ic_list_push_back(in.table, in.places, in.list, place);
}

IC_NODISCARD
static inline uint32_t ic_list_in_pop_front(struct ic_list_in in, uint32_t *popped) {
    return ic_list_pop_front(in.table, in.places, in.list, popped);
}

IC_NODISCARD
static inline uint32_t ic_list_in_pop_back(struct ic_list_in in, uint32_t *popped) {
    return ic_list_pop_back(in.table, in.places, in.list, popped);
}

IC_NODISCARD
static inline uint32_t ic_list_in_insert_after(struct ic_list_in in, uint32_t at, uint32_t place) {
    return ic_list_insert_after(in.table, in.places, in.list, at, place);
}

IC_NODISCARD
static inline uint32_t ic_list_in_insert_before(struct ic_list_in in, uint32_t at, uint32_t place) {
    return ic_list_insert_before(in.table, in.places, in.list, at, place);
}

IC_NODISCARD
static inline uint32_t ic_list_in_remove(struct ic_list_in in, uint32_t at) {
    return ic_list_remove(in.table, in.places, in.list, at);
}

IC_NODISCARD
static inline uint32_t ic_list_in_replace(struct ic_list_in in, uint32_t at, uint32_t place) {
    return ic_list_replace(in.table, in.places, in.list, at, place);
}

IC_NODISCARD
static inline uint32_t ic_list_in_move_after(struct ic_list_in in, uint32_t at, uint32_t place) {
    return ic_list_move_after(in.table, in.places, in.list, at, place);
}

IC_NODISCARD
static inline uint32_t ic_list_in_move_before(struct ic_list_in in, uint32_t at, uint32_t place) {
    return ic_list_move_before(in.table, in.places, in.list, at, place);
}

IC_NODISCARD
static inline uint32_t ic_list_in_move_to_front(struct ic_list_in in, uint32_t place) {
    return ic_list_move_to_front(in.table, in.places, in.list, place);
}

IC_NODISCARD
static inline uint32_t ic_list_in_move_to_back(struct ic_list_in in, uint32_t place) {
    return ic_list_move_to_back(in.table, in.places, in.list, place);
}

IC_NODISCARD
static inline uint32_t ic_list_in_splice_after(struct ic_list_in in, uint32_t at, struct ic_list_in given) {
    if (given.table != in.table || given.list == in.list)
        return IC_BROKEN;
    return ic_list_splice_after(in.table, in.places, in.list, at, given.list);
}

IC_NODISCARD
static inline uint32_t ic_list_in_splice_before(struct ic_list_in in, uint32_t at, struct ic_list_in given) {
    if (given.table != in.table || given.list == in.list)
        return IC_BROKEN;
    return ic_list_splice_before(in.table, in.places, in.list, at, given.list);
}

IC_NODISCARD
static inline uint32_t ic_list_in_append(struct ic_list_in in, struct ic_list_in given) {
    if (given.table != in.table || given.list == in.list)
        return IC_BROKEN;
    return ic_list_append(in.table, in.places, in.list, given.list);
}

IC_NODISCARD
static inline uint32_t ic_list_in_fill(struct ic_list_in in, uint32_t first, uint32_t count) {
    return ic_list_fill(in.table, in.places, in.list, first, count);
}

IC_NODISCARD
static inline uint32_t ic_list_in_clear(struct ic_list_in in) {
    return ic_list_clear(in.table, in.places, in.list);
}

IC_NODISCARD
static inline uint32_t ic_list_in_split_after(struct ic_list_in in, uint32_t at, struct ic_list_in rest) {
    if (rest.table != in.table || rest.list == in.list)
        return IC_BROKEN;
    return ic_list_split_after(in.table, in.places, in.list, at, rest.list);
}

IC_NODISCARD
static inline uint32_t ic_list_in_split_before(struct ic_list_in in, uint32_t at, struct ic_list_in rest) {
    if (rest.table != in.table || rest.list == in.list)
        return IC_BROKEN;
    return ic_list_split_before(in.table, in.places, in.list, at, rest.list);
}

IC_NODISCARD
static inline uint32_t ic_list_in_check(struct ic_list_in in, uint64_t *members) {
    return ic_list_check(in.table, in.places, in.list, members);
}

IC_NODISCARD
static inline uint32_t ic_list_in_sort(struct ic_list_in in, struct ic_keys keys) {
    return ic_list_sort(in.table, in.places, keys.keys, keys.count, in.list);
}

IC_NODISCARD
static inline uint32_t ic_list_in_merge(struct ic_list_in in, struct ic_keys keys, struct ic_list_in given) {
    if (given.table != in.table || given.list == in.list)
        return IC_BROKEN;
    return ic_list_merge(in.table, in.places, keys.keys, keys.count, in.list, given.list);
}

IC_NODISCARD
static inline uint32_t ic_list_in_transfer_after(struct ic_list_in in, uint32_t at, struct ic_list_in given, uint32_t place) {
    if (given.table != in.table || given.list == in.list)
        return IC_BROKEN;
    return ic_list_transfer_after(in.table, in.places, in.list, at, given.list, place);
}

IC_NODISCARD
static inline uint32_t ic_list_in_transfer_before(struct ic_list_in in, uint32_t at, struct ic_list_in given, uint32_t place) {
    if (given.table != in.table || given.list == in.list)
        return IC_BROKEN;
    return ic_list_transfer_before(in.table, in.places, in.list, at, given.list, place);
}

#define IC_LIST_IN_FOREACH(place, in) IC_LIST_FOREACH(place, (in).table, (in).places, (in).list)
#define IC_LIST_IN_FOREACH_REVERSE(place, in) IC_LIST_FOREACH_REVERSE(place, (in).table, (in).places, (in).list)
#define IC_LIST_IN_FOREACH_SAFE(place, next, in) IC_LIST_FOREACH_SAFE(place, next, (in).table, (in).places, (in).list)
#define IC_LIST_IN_FOREACH_REVERSE_SAFE(place, prev, in) IC_LIST_FOREACH_REVERSE_SAFE(place, prev, (in).table, (in).places, (in).list)
#define IC_LIST_IN_FOREACH_ENTRY(object, objects, in) IC_LIST_FOREACH_ENTRY(object, objects, (in).table, (in).places, (in).list)
#define IC_LIST_IN_FOREACH_ENTRY_REVERSE(object, objects, in) \
    IC_LIST_FOREACH_ENTRY_REVERSE(object, objects, (in).table, (in).places, (in).list)
#define IC_LIST_IN_FOREACH_ENTRY_SAFE(object, objects, in) IC_LIST_FOREACH_ENTRY_SAFE(object, objects, (in).table, (in).places, (in).list)
#define IC_LIST_IN_FOREACH_ENTRY_REVERSE_SAFE(object, objects, in) \
    IC_LIST_FOREACH_ENTRY_REVERSE_SAFE(object, objects, (in).table, (in).places, (in).list)
#define IC_LIST_IN_FOREACH_FROM(place, at, in) IC_LIST_FOREACH_FROM(place, at, (in).table, (in).places)
#define IC_LIST_IN_FOREACH_REVERSE_FROM(place, at, in) IC_LIST_FOREACH_REVERSE_FROM(place, at, (in).table, (in).places)
#define IC_LIST_IN_FOREACH_SAFE_FROM(place, next, at, in) IC_LIST_FOREACH_SAFE_FROM(place, next, at, (in).table, (in).places)
#define IC_LIST_IN_FOREACH_ENTRY_FROM(object, objects, at, in) IC_LIST_FOREACH_ENTRY_FROM(object, objects, at, (in).table, (in).places)
#define IC_LIST_IN_FOREACH_ENTRY_SAFE_FROM(object, objects, at, in) \
    IC_LIST_FOREACH_ENTRY_SAFE_FROM(object, objects, at, (in).table, (in).places)

/* to here */

/* ---- Doubly linked lists with words of 4 bytes ---- */

/* A struct ic_list32_in is a handle for a doubly linked list and its table, whose links have words of 4 bytes. */
struct ic_list32_in {
    struct ic_link2_32 *table;
    ic_length places;
    struct ic_list *list;
};

/* Made by tools/c-calls --write: list32 */

IC_NODISCARD
static inline uint32_t ic_list32_in_push_front(struct ic_list32_in in, uint32_t place) {
    return ic_list32_push_front(in.table, in.places, in.list, place);
}

IC_NODISCARD
static inline uint32_t ic_list32_in_push_back(struct ic_list32_in in, uint32_t place) {
    return ic_list32_push_back(in.table, in.places, in.list, place);
}

IC_NODISCARD
static inline uint32_t ic_list32_in_pop_front(struct ic_list32_in in, uint32_t *popped) {
    return ic_list32_pop_front(in.table, in.places, in.list, popped);
}

IC_NODISCARD
static inline uint32_t ic_list32_in_pop_back(struct ic_list32_in in, uint32_t *popped) {
    return ic_list32_pop_back(in.table, in.places, in.list, popped);
}

IC_NODISCARD
static inline uint32_t ic_list32_in_insert_after(struct ic_list32_in in, uint32_t at, uint32_t place) {
    return ic_list32_insert_after(in.table, in.places, in.list, at, place);
}

IC_NODISCARD
static inline uint32_t ic_list32_in_insert_before(struct ic_list32_in in, uint32_t at, uint32_t place) {
    return ic_list32_insert_before(in.table, in.places, in.list, at, place);
}

IC_NODISCARD
static inline uint32_t ic_list32_in_remove(struct ic_list32_in in, uint32_t at) {
    return ic_list32_remove(in.table, in.places, in.list, at);
}

IC_NODISCARD
static inline uint32_t ic_list32_in_replace(struct ic_list32_in in, uint32_t at, uint32_t place) {
    return ic_list32_replace(in.table, in.places, in.list, at, place);
}

IC_NODISCARD
static inline uint32_t ic_list32_in_move_after(struct ic_list32_in in, uint32_t at, uint32_t place) {
    return ic_list32_move_after(in.table, in.places, in.list, at, place);
}

IC_NODISCARD
static inline uint32_t ic_list32_in_move_before(struct ic_list32_in in, uint32_t at, uint32_t place) {
    return ic_list32_move_before(in.table, in.places, in.list, at, place);
}

IC_NODISCARD
static inline uint32_t ic_list32_in_move_to_front(struct ic_list32_in in, uint32_t place) {
    return ic_list32_move_to_front(in.table, in.places, in.list, place);
}

IC_NODISCARD
static inline uint32_t ic_list32_in_move_to_back(struct ic_list32_in in, uint32_t place) {
    return ic_list32_move_to_back(in.table, in.places, in.list, place);
}

IC_NODISCARD
static inline uint32_t ic_list32_in_splice_after(struct ic_list32_in in, uint32_t at, struct ic_list32_in given) {
    if (given.table != in.table || given.list == in.list)
        return IC_BROKEN;
    return ic_list32_splice_after(in.table, in.places, in.list, at, given.list);
}

IC_NODISCARD
static inline uint32_t ic_list32_in_splice_before(struct ic_list32_in in, uint32_t at, struct ic_list32_in given) {
    if (given.table != in.table || given.list == in.list)
        return IC_BROKEN;
    return ic_list32_splice_before(in.table, in.places, in.list, at, given.list);
}

IC_NODISCARD
static inline uint32_t ic_list32_in_append(struct ic_list32_in in, struct ic_list32_in given) {
    if (given.table != in.table || given.list == in.list)
        return IC_BROKEN;
    return ic_list32_append(in.table, in.places, in.list, given.list);
}

IC_NODISCARD
static inline uint32_t ic_list32_in_clear(struct ic_list32_in in) {
    return ic_list32_clear(in.table, in.places, in.list);
}

IC_NODISCARD
static inline uint32_t ic_list32_in_split_after(struct ic_list32_in in, uint32_t at, struct ic_list32_in rest) {
    if (rest.table != in.table || rest.list == in.list)
        return IC_BROKEN;
    return ic_list32_split_after(in.table, in.places, in.list, at, rest.list);
}

IC_NODISCARD
static inline uint32_t ic_list32_in_split_before(struct ic_list32_in in, uint32_t at, struct ic_list32_in rest) {
    if (rest.table != in.table || rest.list == in.list)
        return IC_BROKEN;
    return ic_list32_split_before(in.table, in.places, in.list, at, rest.list);
}

IC_NODISCARD
static inline uint32_t ic_list32_in_check(struct ic_list32_in in, uint64_t *members) {
    return ic_list32_check(in.table, in.places, in.list, members);
}

IC_NODISCARD
static inline uint32_t ic_list32_in_transfer_after(struct ic_list32_in in, uint32_t at, struct ic_list32_in given, uint32_t place) {
    if (given.table != in.table || given.list == in.list)
        return IC_BROKEN;
    return ic_list32_transfer_after(in.table, in.places, in.list, at, given.list, place);
}

IC_NODISCARD
static inline uint32_t ic_list32_in_transfer_before(struct ic_list32_in in, uint32_t at, struct ic_list32_in given, uint32_t place) {
    if (given.table != in.table || given.list == in.list)
        return IC_BROKEN;
    return ic_list32_transfer_before(in.table, in.places, in.list, at, given.list, place);
}

static inline int ic_list32_in_is_linked(struct ic_list32_in in, uint32_t place) {
    return ic_list32_is_linked(in.table, in.places, place);
}

static inline int ic_list32_in_is_empty(struct ic_list32_in in) {
    return ic_list32_is_empty(in.list);
}

static inline uint32_t ic_list32_in_first(struct ic_list32_in in) {
    return ic_list32_first(in.list);
}

static inline uint32_t ic_list32_in_last(struct ic_list32_in in) {
    return ic_list32_last(in.list);
}

static inline uint32_t ic_list32_in_next(struct ic_list32_in in, uint32_t at) {
    return ic_list32_next(in.table, in.places, at);
}

static inline uint32_t ic_list32_in_prev(struct ic_list32_in in, uint32_t at) {
    return ic_list32_prev(in.table, in.places, at);
}

static inline uint32_t ic_list32_in_front(struct ic_list32_in in) {
    return ic_list32_front(in.table, in.places, in.list);
}

static inline uint32_t ic_list32_in_back(struct ic_list32_in in) {
    return ic_list32_back(in.table, in.places, in.list);
}

static inline int ic_list32_in_is_first(struct ic_list32_in in, uint32_t at) {
    return ic_list32_is_first(in.table, in.places, in.list, at);
}

static inline int ic_list32_in_is_last(struct ic_list32_in in, uint32_t at) {
    return ic_list32_is_last(in.table, in.places, in.list, at);
}

static inline int ic_list32_in_is_singular(struct ic_list32_in in) {
    return ic_list32_is_singular(in.table, in.places, in.list);
}

#define IC_LIST32_IN_FOREACH(place, in) IC_LIST32_FOREACH(place, (in).table, (in).places, (in).list)
#define IC_LIST32_IN_FOREACH_REVERSE(place, in) IC_LIST32_FOREACH_REVERSE(place, (in).table, (in).places, (in).list)
#define IC_LIST32_IN_FOREACH_SAFE(place, next, in) IC_LIST32_FOREACH_SAFE(place, next, (in).table, (in).places, (in).list)
#define IC_LIST32_IN_FOREACH_REVERSE_SAFE(place, prev, in) IC_LIST32_FOREACH_REVERSE_SAFE(place, prev, (in).table, (in).places, (in).list)
#define IC_LIST32_IN_FOREACH_ENTRY(object, objects, in) IC_LIST32_FOREACH_ENTRY(object, objects, (in).table, (in).places, (in).list)
#define IC_LIST32_IN_FOREACH_ENTRY_REVERSE(object, objects, in) \
    IC_LIST32_FOREACH_ENTRY_REVERSE(object, objects, (in).table, (in).places, (in).list)
#define IC_LIST32_IN_FOREACH_ENTRY_SAFE(object, objects, in) IC_LIST32_FOREACH_ENTRY_SAFE(object, objects, (in).table, (in).places, (in).list)
#define IC_LIST32_IN_FOREACH_ENTRY_REVERSE_SAFE(object, objects, in) \
    IC_LIST32_FOREACH_ENTRY_REVERSE_SAFE(object, objects, (in).table, (in).places, (in).list)
#define IC_LIST32_IN_FOREACH_FROM(place, at, in) IC_LIST32_FOREACH_FROM(place, at, (in).table, (in).places)
#define IC_LIST32_IN_FOREACH_REVERSE_FROM(place, at, in) IC_LIST32_FOREACH_REVERSE_FROM(place, at, (in).table, (in).places)
#define IC_LIST32_IN_FOREACH_SAFE_FROM(place, next, at, in) IC_LIST32_FOREACH_SAFE_FROM(place, next, at, (in).table, (in).places)
#define IC_LIST32_IN_FOREACH_ENTRY_FROM(object, objects, at, in) IC_LIST32_FOREACH_ENTRY_FROM(object, objects, at, (in).table, (in).places)
#define IC_LIST32_IN_FOREACH_ENTRY_SAFE_FROM(object, objects, at, in) \
    IC_LIST32_FOREACH_ENTRY_SAFE_FROM(object, objects, at, (in).table, (in).places)

/* to here */

/* ---- Rings ---- */

/* A struct ic_ring_in is a handle for a table of rings. The heads of the rings are places of this table. */
struct ic_ring_in {
    struct ic_link2 *table;
    ic_length places;
};

/* Made by tools/c-calls --write: ring */

static inline int ic_ring_in_is_linked(struct ic_ring_in in, uint32_t place) {
    return ic_ring_is_linked(in.table, in.places, place);
}

static inline uint32_t ic_ring_in_next(struct ic_ring_in in, uint32_t at) {
    return ic_ring_next(in.table, in.places, at);
}

static inline uint32_t ic_ring_in_prev(struct ic_ring_in in, uint32_t at) {
    return ic_ring_prev(in.table, in.places, at);
}

static inline int ic_ring_in_is_empty(struct ic_ring_in in, uint32_t head) {
    return ic_ring_is_empty(in.table, in.places, head);
}

static inline uint32_t ic_ring_in_front(struct ic_ring_in in, uint32_t head) {
    return ic_ring_front(in.table, in.places, head);
}

static inline uint32_t ic_ring_in_back(struct ic_ring_in in, uint32_t head) {
    return ic_ring_back(in.table, in.places, head);
}

static inline int ic_ring_in_is_first(struct ic_ring_in in, uint32_t head, uint32_t at) {
    return ic_ring_is_first(in.table, in.places, head, at);
}

static inline int ic_ring_in_is_last(struct ic_ring_in in, uint32_t head, uint32_t at) {
    return ic_ring_is_last(in.table, in.places, head, at);
}

static inline int ic_ring_in_is_singular(struct ic_ring_in in, uint32_t head) {
    return ic_ring_is_singular(in.table, in.places, head);
}

IC_NODISCARD
static inline uint32_t ic_ring_in_init(struct ic_ring_in in, uint32_t head) {
    return ic_ring_init(in.table, in.places, head);
}

IC_NODISCARD
static inline uint32_t ic_ring_in_insert_after(struct ic_ring_in in, uint32_t at, uint32_t place) {
    return ic_ring_insert_after(in.table, in.places, at, place);
}

IC_NODISCARD
static inline uint32_t ic_ring_in_insert_before(struct ic_ring_in in, uint32_t at, uint32_t place) {
    return ic_ring_insert_before(in.table, in.places, at, place);
}

IC_NODISCARD
static inline uint32_t ic_ring_in_remove(struct ic_ring_in in, uint32_t place) {
    return ic_ring_remove(in.table, in.places, place);
}

IC_NODISCARD
static inline uint32_t ic_ring_in_exchange(struct ic_ring_in in, uint32_t one, uint32_t other) {
    return ic_ring_exchange(in.table, in.places, one, other);
}

IC_NODISCARD
static inline uint32_t ic_ring_in_pop_front(struct ic_ring_in in, uint32_t head, uint32_t *popped) {
    return ic_ring_pop_front(in.table, in.places, head, popped);
}

IC_NODISCARD
static inline uint32_t ic_ring_in_pop_back(struct ic_ring_in in, uint32_t head, uint32_t *popped) {
    return ic_ring_pop_back(in.table, in.places, head, popped);
}

IC_NODISCARD
static inline uint32_t ic_ring_in_replace(struct ic_ring_in in, uint32_t at, uint32_t place) {
    return ic_ring_replace(in.table, in.places, at, place);
}

IC_NODISCARD
static inline uint32_t ic_ring_in_move_after(struct ic_ring_in in, uint32_t at, uint32_t place) {
    return ic_ring_move_after(in.table, in.places, at, place);
}

IC_NODISCARD
static inline uint32_t ic_ring_in_move_before(struct ic_ring_in in, uint32_t at, uint32_t place) {
    return ic_ring_move_before(in.table, in.places, at, place);
}

IC_NODISCARD
static inline uint32_t ic_ring_in_splice_after(struct ic_ring_in in, uint32_t at, uint32_t head) {
    return ic_ring_splice_after(in.table, in.places, at, head);
}

IC_NODISCARD
static inline uint32_t ic_ring_in_splice_before(struct ic_ring_in in, uint32_t at, uint32_t head) {
    return ic_ring_splice_before(in.table, in.places, at, head);
}

IC_NODISCARD
static inline uint32_t ic_ring_in_check(struct ic_ring_in in, uint32_t head, uint64_t *members) {
    return ic_ring_check(in.table, in.places, head, members);
}

IC_NODISCARD
static inline uint32_t ic_ring_in_push_front(struct ic_ring_in in, uint32_t head, uint32_t place) {
    return ic_ring_push_front(in.table, in.places, head, place);
}

IC_NODISCARD
static inline uint32_t ic_ring_in_push_back(struct ic_ring_in in, uint32_t head, uint32_t place) {
    return ic_ring_push_back(in.table, in.places, head, place);
}

static inline int ic_ring_in_is_gap(struct ic_ring_in in, uint32_t before, uint32_t after) {
    return ic_ring_is_gap(in.table, in.places, before, after);
}

IC_NODISCARD
static inline uint32_t ic_ring_in_swap(struct ic_ring_in in, uint32_t one, uint32_t other) {
    return ic_ring_swap(in.table, in.places, one, other);
}

IC_NODISCARD
static inline uint32_t ic_ring_in_move_range_after(struct ic_ring_in in, uint32_t at, uint32_t first, uint32_t last) {
    return ic_ring_move_range_after(in.table, in.places, at, first, last);
}

IC_NODISCARD
static inline uint32_t ic_ring_in_move_range_before(struct ic_ring_in in, uint32_t at, uint32_t first, uint32_t last) {
    return ic_ring_move_range_before(in.table, in.places, at, first, last);
}

IC_NODISCARD
static inline uint32_t ic_ring_in_sort(struct ic_ring_in in, struct ic_keys keys, uint32_t head) {
    return ic_ring_sort(in.table, in.places, keys.keys, keys.count, head);
}

IC_NODISCARD
static inline uint32_t ic_ring_in_merge(struct ic_ring_in in, struct ic_keys keys, uint32_t head, uint32_t given) {
    return ic_ring_merge(in.table, in.places, keys.keys, keys.count, head, given);
}

#define IC_RING_IN_FOREACH(place, in, head) IC_RING_FOREACH(place, (in).table, (in).places, head)
#define IC_RING_IN_FOREACH_REVERSE(place, in, head) IC_RING_FOREACH_REVERSE(place, (in).table, (in).places, head)
#define IC_RING_IN_FOREACH_SAFE(place, next, in, head) IC_RING_FOREACH_SAFE(place, next, (in).table, (in).places, head)
#define IC_RING_IN_FOREACH_REVERSE_SAFE(place, prev, in, head) IC_RING_FOREACH_REVERSE_SAFE(place, prev, (in).table, (in).places, head)
#define IC_RING_IN_FOREACH_ENTRY(object, objects, in, head) IC_RING_FOREACH_ENTRY(object, objects, (in).table, (in).places, head)
#define IC_RING_IN_FOREACH_ENTRY_REVERSE(object, objects, in, head) \
    IC_RING_FOREACH_ENTRY_REVERSE(object, objects, (in).table, (in).places, head)
#define IC_RING_IN_FOREACH_ENTRY_SAFE(object, objects, in, head) IC_RING_FOREACH_ENTRY_SAFE(object, objects, (in).table, (in).places, head)
#define IC_RING_IN_FOREACH_ENTRY_REVERSE_SAFE(object, objects, in, head) \
    IC_RING_FOREACH_ENTRY_REVERSE_SAFE(object, objects, (in).table, (in).places, head)
#define IC_RING_IN_FOREACH_FROM(place, at, in, head) IC_RING_FOREACH_FROM(place, at, (in).table, (in).places, head)
#define IC_RING_IN_FOREACH_REVERSE_FROM(place, at, in, head) IC_RING_FOREACH_REVERSE_FROM(place, at, (in).table, (in).places, head)
#define IC_RING_IN_FOREACH_SAFE_FROM(place, next, at, in, head) IC_RING_FOREACH_SAFE_FROM(place, next, at, (in).table, (in).places, head)
#define IC_RING_IN_FOREACH_ENTRY_FROM(object, objects, at, in, head) \
    IC_RING_FOREACH_ENTRY_FROM(object, objects, at, (in).table, (in).places, head)
#define IC_RING_IN_FOREACH_ENTRY_SAFE_FROM(object, objects, at, in, head) \
    IC_RING_FOREACH_ENTRY_SAFE_FROM(object, objects, at, (in).table, (in).places, head)

/* to here */

/* ---- Rings with words of 4 bytes ---- */

/* A struct ic_ring32_in is a handle for a table of rings, whose links have words of 4 bytes. The heads of the rings are places of this table. */
struct ic_ring32_in {
    struct ic_link2_32 *table;
    ic_length places;
};

/* Made by tools/c-calls --write: ring32 */

IC_NODISCARD
static inline uint32_t ic_ring32_in_init(struct ic_ring32_in in, uint32_t head) {
    return ic_ring32_init(in.table, in.places, head);
}

IC_NODISCARD
static inline uint32_t ic_ring32_in_insert_after(struct ic_ring32_in in, uint32_t at, uint32_t place) {
    return ic_ring32_insert_after(in.table, in.places, at, place);
}

IC_NODISCARD
static inline uint32_t ic_ring32_in_insert_before(struct ic_ring32_in in, uint32_t at, uint32_t place) {
    return ic_ring32_insert_before(in.table, in.places, at, place);
}

IC_NODISCARD
static inline uint32_t ic_ring32_in_remove(struct ic_ring32_in in, uint32_t place) {
    return ic_ring32_remove(in.table, in.places, place);
}

IC_NODISCARD
static inline uint32_t ic_ring32_in_exchange(struct ic_ring32_in in, uint32_t one, uint32_t other) {
    return ic_ring32_exchange(in.table, in.places, one, other);
}

IC_NODISCARD
static inline uint32_t ic_ring32_in_pop_front(struct ic_ring32_in in, uint32_t head, uint32_t *popped) {
    return ic_ring32_pop_front(in.table, in.places, head, popped);
}

IC_NODISCARD
static inline uint32_t ic_ring32_in_pop_back(struct ic_ring32_in in, uint32_t head, uint32_t *popped) {
    return ic_ring32_pop_back(in.table, in.places, head, popped);
}

IC_NODISCARD
static inline uint32_t ic_ring32_in_replace(struct ic_ring32_in in, uint32_t at, uint32_t place) {
    return ic_ring32_replace(in.table, in.places, at, place);
}

IC_NODISCARD
static inline uint32_t ic_ring32_in_move_after(struct ic_ring32_in in, uint32_t at, uint32_t place) {
    return ic_ring32_move_after(in.table, in.places, at, place);
}

IC_NODISCARD
static inline uint32_t ic_ring32_in_move_before(struct ic_ring32_in in, uint32_t at, uint32_t place) {
    return ic_ring32_move_before(in.table, in.places, at, place);
}

IC_NODISCARD
static inline uint32_t ic_ring32_in_splice_after(struct ic_ring32_in in, uint32_t at, uint32_t head) {
    return ic_ring32_splice_after(in.table, in.places, at, head);
}

IC_NODISCARD
static inline uint32_t ic_ring32_in_splice_before(struct ic_ring32_in in, uint32_t at, uint32_t head) {
    return ic_ring32_splice_before(in.table, in.places, at, head);
}

static inline int ic_ring32_in_is_linked(struct ic_ring32_in in, uint32_t place) {
    return ic_ring32_is_linked(in.table, in.places, place);
}

static inline uint32_t ic_ring32_in_next(struct ic_ring32_in in, uint32_t at) {
    return ic_ring32_next(in.table, in.places, at);
}

static inline uint32_t ic_ring32_in_prev(struct ic_ring32_in in, uint32_t at) {
    return ic_ring32_prev(in.table, in.places, at);
}

static inline int ic_ring32_in_is_empty(struct ic_ring32_in in, uint32_t head) {
    return ic_ring32_is_empty(in.table, in.places, head);
}

static inline uint32_t ic_ring32_in_front(struct ic_ring32_in in, uint32_t head) {
    return ic_ring32_front(in.table, in.places, head);
}

static inline uint32_t ic_ring32_in_back(struct ic_ring32_in in, uint32_t head) {
    return ic_ring32_back(in.table, in.places, head);
}

static inline int ic_ring32_in_is_first(struct ic_ring32_in in, uint32_t head, uint32_t at) {
    return ic_ring32_is_first(in.table, in.places, head, at);
}

static inline int ic_ring32_in_is_last(struct ic_ring32_in in, uint32_t head, uint32_t at) {
    return ic_ring32_is_last(in.table, in.places, head, at);
}

static inline int ic_ring32_in_is_singular(struct ic_ring32_in in, uint32_t head) {
    return ic_ring32_is_singular(in.table, in.places, head);
}

IC_NODISCARD
static inline uint32_t ic_ring32_in_push_front(struct ic_ring32_in in, uint32_t head, uint32_t place) {
    return ic_ring32_push_front(in.table, in.places, head, place);
}

IC_NODISCARD
static inline uint32_t ic_ring32_in_push_back(struct ic_ring32_in in, uint32_t head, uint32_t place) {
    return ic_ring32_push_back(in.table, in.places, head, place);
}

static inline int ic_ring32_in_is_gap(struct ic_ring32_in in, uint32_t before, uint32_t after) {
    return ic_ring32_is_gap(in.table, in.places, before, after);
}

IC_NODISCARD
static inline uint32_t ic_ring32_in_swap(struct ic_ring32_in in, uint32_t one, uint32_t other) {
    return ic_ring32_swap(in.table, in.places, one, other);
}

IC_NODISCARD
static inline uint32_t ic_ring32_in_move_range_after(struct ic_ring32_in in, uint32_t at, uint32_t first, uint32_t last) {
    return ic_ring32_move_range_after(in.table, in.places, at, first, last);
}

IC_NODISCARD
static inline uint32_t ic_ring32_in_move_range_before(struct ic_ring32_in in, uint32_t at, uint32_t first, uint32_t last) {
    return ic_ring32_move_range_before(in.table, in.places, at, first, last);
}

#define IC_RING32_IN_FOREACH(place, in, head) IC_RING32_FOREACH(place, (in).table, (in).places, head)
#define IC_RING32_IN_FOREACH_REVERSE(place, in, head) IC_RING32_FOREACH_REVERSE(place, (in).table, (in).places, head)
#define IC_RING32_IN_FOREACH_SAFE(place, next, in, head) IC_RING32_FOREACH_SAFE(place, next, (in).table, (in).places, head)
#define IC_RING32_IN_FOREACH_REVERSE_SAFE(place, prev, in, head) IC_RING32_FOREACH_REVERSE_SAFE(place, prev, (in).table, (in).places, head)
#define IC_RING32_IN_FOREACH_ENTRY(object, objects, in, head) IC_RING32_FOREACH_ENTRY(object, objects, (in).table, (in).places, head)
#define IC_RING32_IN_FOREACH_ENTRY_REVERSE(object, objects, in, head) \
    IC_RING32_FOREACH_ENTRY_REVERSE(object, objects, (in).table, (in).places, head)
#define IC_RING32_IN_FOREACH_ENTRY_SAFE(object, objects, in, head) \
    IC_RING32_FOREACH_ENTRY_SAFE(object, objects, (in).table, (in).places, head)
#define IC_RING32_IN_FOREACH_ENTRY_REVERSE_SAFE(object, objects, in, head) \
    IC_RING32_FOREACH_ENTRY_REVERSE_SAFE(object, objects, (in).table, (in).places, head)
#define IC_RING32_IN_FOREACH_FROM(place, at, in, head) IC_RING32_FOREACH_FROM(place, at, (in).table, (in).places, head)
#define IC_RING32_IN_FOREACH_REVERSE_FROM(place, at, in, head) IC_RING32_FOREACH_REVERSE_FROM(place, at, (in).table, (in).places, head)
#define IC_RING32_IN_FOREACH_SAFE_FROM(place, next, at, in, head) IC_RING32_FOREACH_SAFE_FROM(place, next, at, (in).table, (in).places, head)
#define IC_RING32_IN_FOREACH_ENTRY_FROM(object, objects, at, in, head) \
    IC_RING32_FOREACH_ENTRY_FROM(object, objects, at, (in).table, (in).places, head)
#define IC_RING32_IN_FOREACH_ENTRY_SAFE_FROM(object, objects, at, in, head) \
    IC_RING32_FOREACH_ENTRY_SAFE_FROM(object, objects, at, (in).table, (in).places, head)

/* to here */

/* ---- Singly linked lists ---- */

/* A struct ic_stack_in is a handle for a singly linked list and its table. */
struct ic_stack_in {
    struct ic_link1 *table;
    ic_length places;
    struct ic_stack *list;
};

/* Made by tools/c-calls --write: stack */

static inline int ic_stack_in_is_linked(struct ic_stack_in in, uint32_t place) {
    return ic_stack_is_linked(in.table, in.places, place);
}

static inline int ic_stack_in_is_empty(struct ic_stack_in in) {
    return ic_stack_is_empty(in.list);
}

static inline uint32_t ic_stack_in_first(struct ic_stack_in in) {
    return ic_stack_first(in.list);
}

static inline uint32_t ic_stack_in_next(struct ic_stack_in in, uint32_t at) {
    return ic_stack_next(in.table, in.places, at);
}

static inline uint32_t ic_stack_in_front(struct ic_stack_in in) {
    return ic_stack_front(in.table, in.places, in.list);
}

static inline int ic_stack_in_is_first(struct ic_stack_in in, uint32_t at) {
    return ic_stack_is_first(in.table, in.places, in.list, at);
}

static inline int ic_stack_in_is_last(struct ic_stack_in in, uint32_t at) {
    return ic_stack_is_last(in.table, in.places, at);
}

static inline int ic_stack_in_is_singular(struct ic_stack_in in) {
    return ic_stack_is_singular(in.table, in.places, in.list);
}

IC_NODISCARD
static inline uint32_t ic_stack_in_push_front(struct ic_stack_in in, uint32_t place) {
    return ic_stack_push_front(in.table, in.places, in.list, place);
}

IC_NODISCARD
static inline uint32_t ic_stack_in_pop_front(struct ic_stack_in in, uint32_t *popped) {
    return ic_stack_pop_front(in.table, in.places, in.list, popped);
}

IC_NODISCARD
static inline uint32_t ic_stack_in_insert_after(struct ic_stack_in in, uint32_t at, uint32_t place) {
    return ic_stack_insert_after(in.table, in.places, in.list, at, place);
}

IC_NODISCARD
static inline uint32_t ic_stack_in_remove_after(struct ic_stack_in in, uint32_t at, uint32_t *removed) {
    return ic_stack_remove_after(in.table, in.places, in.list, at, removed);
}

IC_NODISCARD
static inline uint32_t ic_stack_in_replace_after(struct ic_stack_in in, uint32_t at, uint32_t place, uint32_t *replaced) {
    return ic_stack_replace_after(in.table, in.places, in.list, at, place, replaced);
}

IC_NODISCARD
static inline uint32_t ic_stack_in_splice_after(struct ic_stack_in in, uint32_t at, struct ic_stack_in given) {
    if (given.table != in.table || given.list == in.list)
        return IC_BROKEN;
    return ic_stack_splice_after(in.table, in.places, in.list, at, given.list);
}

IC_NODISCARD
static inline uint32_t ic_stack_in_split_after(struct ic_stack_in in, uint32_t at, struct ic_stack_in rest) {
    if (rest.table != in.table || rest.list == in.list)
        return IC_BROKEN;
    return ic_stack_split_after(in.table, in.places, in.list, at, rest.list);
}

IC_NODISCARD
static inline uint32_t ic_stack_in_fill(struct ic_stack_in in, uint32_t first, uint32_t count) {
    return ic_stack_fill(in.table, in.places, in.list, first, count);
}

IC_NODISCARD
static inline uint32_t ic_stack_in_clear(struct ic_stack_in in) {
    return ic_stack_clear(in.table, in.places, in.list);
}

IC_NODISCARD
static inline uint32_t ic_stack_in_check(struct ic_stack_in in, uint64_t *members) {
    return ic_stack_check(in.table, in.places, in.list, members);
}

IC_NODISCARD
static inline uint32_t ic_stack_in_sort(struct ic_stack_in in, struct ic_keys keys) {
    return ic_stack_sort(in.table, in.places, keys.keys, keys.count, in.list);
}

IC_NODISCARD
static inline uint32_t ic_stack_in_merge(struct ic_stack_in in, struct ic_keys keys, struct ic_stack_in given) {
    if (given.table != in.table || given.list == in.list)
        return IC_BROKEN;
    return ic_stack_merge(in.table, in.places, keys.keys, keys.count, in.list, given.list);
}

IC_NODISCARD
static inline uint32_t ic_stack_in_remove(struct ic_stack_in in, uint32_t place) {
    return ic_stack_remove(in.table, in.places, in.list, place);
}

#define IC_STACK_IN_FOREACH(place, in) IC_STACK_FOREACH(place, (in).table, (in).places, (in).list)
#define IC_STACK_IN_FOREACH_SAFE(before, place, in) IC_STACK_FOREACH_SAFE(before, place, (in).table, (in).places, (in).list)
#define IC_STACK_IN_FOREACH_FROM(place, at, in) IC_STACK_FOREACH_FROM(place, at, (in).table, (in).places)
#define IC_STACK_IN_FOREACH_ENTRY(object, objects, in) IC_STACK_FOREACH_ENTRY(object, objects, (in).table, (in).places, (in).list)
#define IC_STACK_IN_FOREACH_ENTRY_FROM(object, objects, at, in) IC_STACK_FOREACH_ENTRY_FROM(object, objects, at, (in).table, (in).places)
#define IC_STACK_IN_FOREACH_ENTRY_SAFE(before, object, objects, in) \
    IC_STACK_FOREACH_ENTRY_SAFE(before, object, objects, (in).table, (in).places, (in).list)

/* to here */

/* ---- Hash tables ---- */

/* A struct ic_hash_in is a handle for the buckets of a hash table, the table of its links, and the keys of all places. If you never call
 * ic_hash_in_find or ic_hash_in_next_equal, you may leave the keys out. */
struct ic_hash_in {
    struct ic_link1 *table;
    ic_length places;
    struct ic_stack *buckets;
    ic_length bucket_count;
    struct ic_keys keys;
};

/* Made by tools/c-calls --write: hash */

static inline uint32_t ic_hash_in_first(struct ic_hash_in in, uint64_t hash) {
    return ic_hash_first(in.buckets, in.bucket_count, hash);
}

IC_NODISCARD
static inline uint32_t ic_hash_in_insert(struct ic_hash_in in, uint64_t hash, uint32_t place) {
    return ic_hash_insert(in.table, in.places, in.buckets, in.bucket_count, hash, place);
}

IC_NODISCARD
static inline uint32_t ic_hash_in_remove(struct ic_hash_in in, uint64_t hash, uint32_t place) {
    return ic_hash_remove(in.table, in.places, in.buckets, in.bucket_count, hash, place);
}

IC_NODISCARD
static inline uint32_t ic_hash_in_find(struct ic_hash_in in, uint64_t hash, uint64_t key, uint32_t *found) {
    return ic_hash_find(in.table, in.places, in.keys.keys, in.keys.count, in.buckets, in.bucket_count, hash, key, found);
}

IC_NODISCARD
static inline uint32_t ic_hash_in_next_equal(struct ic_hash_in in, uint32_t at, uint32_t *found) {
    return ic_hash_next_equal(in.table, in.places, in.keys.keys, in.keys.count, at, found);
}

IC_NODISCARD
static inline uint32_t ic_hash_in_check(struct ic_hash_in in, struct ic_keys hashes, uint64_t *members) {
    return ic_hash_check(in.table, in.places, hashes.keys, hashes.count, in.buckets, in.bucket_count, members);
}

IC_NODISCARD
static inline uint32_t ic_hash_in_move_chain(struct ic_hash_in in, struct ic_keys hashes, struct ic_stack *chain) {
    return ic_hash_move_chain(in.table, in.places, hashes.keys, hashes.count, chain, in.buckets, in.bucket_count);
}

#define IC_HASH_IN_FOREACH(place, in, hash) IC_HASH_FOREACH(place, (in).table, (in).places, (in).buckets, (in).bucket_count, hash)
#define IC_HASH_IN_FOREACH_ENTRY(object, objects, in, hash) \
    IC_HASH_FOREACH_ENTRY(object, objects, (in).table, (in).places, (in).buckets, (in).bucket_count, hash)
#define IC_HASH_IN_FOREACH_ALL(place, in) IC_HASH_FOREACH_ALL(place, (in).table, (in).places, (in).buckets, (in).bucket_count)
#define IC_HASH_IN_FOREACH_ALL_SAFE(bucket, before, place, in) \
    IC_HASH_FOREACH_ALL_SAFE(bucket, before, place, (in).table, (in).places, (in).buckets, (in).bucket_count)
#define IC_HASH_IN_FOREACH_ALL_ENTRY(object, objects, in) \
    IC_HASH_FOREACH_ALL_ENTRY(object, objects, (in).table, (in).places, (in).buckets, (in).bucket_count)
#define IC_HASH_IN_FOREACH_ALL_ENTRY_SAFE(bucket, before, object, objects, in) \
    IC_HASH_FOREACH_ALL_ENTRY_SAFE(bucket, before, object, objects, (in).table, (in).places, (in).buckets, (in).bucket_count)

/* to here */

/* ---- XOR lists ---- */

/* A struct ic_xor_in is a handle for an XOR list and its table. */
struct ic_xor_in {
    struct ic_link1 *table;
    ic_length places;
    struct ic_xor_list *list;
};

/* Made by tools/c-calls --write: xor */

static inline int ic_xor_in_is_linked(struct ic_xor_in in, uint32_t place) {
    return ic_xor_is_linked(in.table, in.places, place);
}

static inline int ic_xor_in_is_empty(struct ic_xor_in in) {
    return ic_xor_is_empty(in.list);
}

static inline uint32_t ic_xor_in_first(struct ic_xor_in in) {
    return ic_xor_first(in.list);
}

static inline uint32_t ic_xor_in_last(struct ic_xor_in in) {
    return ic_xor_last(in.list);
}

static inline uint32_t ic_xor_in_step(struct ic_xor_in in, uint32_t from, uint32_t at) {
    return ic_xor_step(in.table, in.places, from, at);
}

static inline uint32_t ic_xor_in_front(struct ic_xor_in in) {
    return ic_xor_front(in.table, in.places, in.list);
}

static inline uint32_t ic_xor_in_back(struct ic_xor_in in) {
    return ic_xor_back(in.table, in.places, in.list);
}

static inline int ic_xor_in_is_first(struct ic_xor_in in, uint32_t at) {
    return ic_xor_is_first(in.table, in.places, in.list, at);
}

static inline int ic_xor_in_is_last(struct ic_xor_in in, uint32_t at) {
    return ic_xor_is_last(in.table, in.places, in.list, at);
}

static inline int ic_xor_in_is_singular(struct ic_xor_in in) {
    return ic_xor_is_singular(in.table, in.places, in.list);
}

IC_NODISCARD
static inline uint32_t ic_xor_in_push_front(struct ic_xor_in in, uint32_t place) {
    return ic_xor_push_front(in.table, in.places, in.list, place);
}

IC_NODISCARD
static inline uint32_t ic_xor_in_push_back(struct ic_xor_in in, uint32_t place) {
    return ic_xor_push_back(in.table, in.places, in.list, place);
}

IC_NODISCARD
static inline uint32_t ic_xor_in_pop_front(struct ic_xor_in in, uint32_t *popped) {
    return ic_xor_pop_front(in.table, in.places, in.list, popped);
}

IC_NODISCARD
static inline uint32_t ic_xor_in_pop_back(struct ic_xor_in in, uint32_t *popped) {
    return ic_xor_pop_back(in.table, in.places, in.list, popped);
}

IC_NODISCARD
static inline uint32_t ic_xor_in_insert_between(struct ic_xor_in in, uint32_t before, uint32_t place, uint32_t after) {
    return ic_xor_insert_between(in.table, in.places, in.list, before, place, after);
}

IC_NODISCARD
static inline uint32_t ic_xor_in_remove(struct ic_xor_in in, uint32_t before, uint32_t at) {
    return ic_xor_remove(in.table, in.places, in.list, before, at);
}

IC_NODISCARD
static inline uint32_t ic_xor_in_replace(struct ic_xor_in in, uint32_t before, uint32_t at, uint32_t place) {
    return ic_xor_replace(in.table, in.places, in.list, before, at, place);
}

IC_NODISCARD
static inline uint32_t ic_xor_in_splice_between(struct ic_xor_in in, uint32_t before, struct ic_xor_in given, uint32_t after) {
    if (given.table != in.table || given.list == in.list)
        return IC_BROKEN;
    return ic_xor_splice_between(in.table, in.places, in.list, before, given.list, after);
}

IC_NODISCARD
static inline uint32_t ic_xor_in_append(struct ic_xor_in in, struct ic_xor_in given) {
    if (given.table != in.table || given.list == in.list)
        return IC_BROKEN;
    return ic_xor_append(in.table, in.places, in.list, given.list);
}

IC_NODISCARD
static inline uint32_t ic_xor_in_fill(struct ic_xor_in in, uint32_t first, uint32_t count) {
    return ic_xor_fill(in.table, in.places, in.list, first, count);
}

IC_NODISCARD
static inline uint32_t ic_xor_in_clear(struct ic_xor_in in) {
    return ic_xor_clear(in.table, in.places, in.list);
}

IC_NODISCARD
static inline uint32_t ic_xor_in_split_between(struct ic_xor_in in, uint32_t before, uint32_t after, struct ic_xor_in rest) {
    if (rest.table != in.table || rest.list == in.list)
        return IC_BROKEN;
    return ic_xor_split_between(in.table, in.places, in.list, before, after, rest.list);
}

static inline uint32_t ic_xor_in_reverse(struct ic_xor_in in) {
    return ic_xor_reverse(in.list);
}

#define IC_XOR_IN_FOREACH(place, in) IC_XOR_FOREACH(place, (in).table, (in).places, (in).list)
#define IC_XOR_IN_FOREACH_REVERSE(place, in) IC_XOR_FOREACH_REVERSE(place, (in).table, (in).places, (in).list)
#define IC_XOR_IN_FOREACH_SAFE(before, place, after, in) IC_XOR_FOREACH_SAFE(before, place, after, (in).table, (in).places, (in).list)
#define IC_XOR_IN_FOREACH_REVERSE_SAFE(before, place, after, in) \
    IC_XOR_FOREACH_REVERSE_SAFE(before, place, after, (in).table, (in).places, (in).list)
#define IC_XOR_IN_FOREACH_ENTRY(object, objects, in) IC_XOR_FOREACH_ENTRY(object, objects, (in).table, (in).places, (in).list)
#define IC_XOR_IN_FOREACH_ENTRY_REVERSE(object, objects, in) IC_XOR_FOREACH_ENTRY_REVERSE(object, objects, (in).table, (in).places, (in).list)
#define IC_XOR_IN_FOREACH_ENTRY_SAFE(before, object, objects, after, in) \
    IC_XOR_FOREACH_ENTRY_SAFE(before, object, objects, after, (in).table, (in).places, (in).list)
#define IC_XOR_IN_FOREACH_ENTRY_REVERSE_SAFE(before, object, objects, after, in) \
    IC_XOR_FOREACH_ENTRY_REVERSE_SAFE(before, object, objects, after, (in).table, (in).places, (in).list)

/* to here */

/* ---- Red-black trees ---- */

/* A struct ic_tree_in is a handle for a tree, its table, and the keys of all places. If you order the tree by a comparison of yours, you may leave
 * the keys out. */
struct ic_tree_in {
    struct ic_link3 *table;
    ic_length places;
    struct ic_tree *tree;
    struct ic_keys keys;
};

/* Made by tools/c-calls --write: tree */

static inline int ic_tree_in_is_linked(struct ic_tree_in in, uint32_t place) {
    return ic_tree_is_linked(in.table, in.places, place);
}

static inline int ic_tree_in_is_empty(struct ic_tree_in in) {
    return ic_tree_is_empty(in.tree);
}

static inline uint32_t ic_tree_in_root(struct ic_tree_in in) {
    return ic_tree_root(in.tree);
}

static inline uint32_t ic_tree_in_left(struct ic_tree_in in, uint32_t at) {
    return ic_tree_left(in.table, in.places, at);
}

static inline uint32_t ic_tree_in_right(struct ic_tree_in in, uint32_t at) {
    return ic_tree_right(in.table, in.places, at);
}

static inline uint32_t ic_tree_in_parent(struct ic_tree_in in, uint32_t at) {
    return ic_tree_parent(in.table, in.places, at);
}

IC_NODISCARD
static inline uint32_t ic_tree_in_insert_left(struct ic_tree_in in, uint32_t at, uint32_t place) {
    return ic_tree_insert_left(in.table, in.places, in.tree, at, place);
}

IC_NODISCARD
static inline uint32_t ic_tree_in_insert_right(struct ic_tree_in in, uint32_t at, uint32_t place) {
    return ic_tree_insert_right(in.table, in.places, in.tree, at, place);
}

IC_NODISCARD
static inline uint32_t ic_tree_in_remove(struct ic_tree_in in, uint32_t at) {
    return ic_tree_remove(in.table, in.places, in.tree, at);
}

IC_NODISCARD
static inline uint32_t ic_tree_in_replace(struct ic_tree_in in, uint32_t at, uint32_t place) {
    return ic_tree_replace(in.table, in.places, in.tree, at, place);
}

IC_NODISCARD
static inline uint32_t ic_tree_in_append(struct ic_tree_in in, struct ic_tree_in given) {
    if (given.table != in.table || given.tree == in.tree)
        return IC_BROKEN;
    return ic_tree_append(in.table, in.places, in.tree, given.tree);
}

IC_NODISCARD
static inline uint32_t ic_tree_in_join(struct ic_tree_in in, uint32_t place, struct ic_tree_in given) {
    if (given.table != in.table || given.tree == in.tree)
        return IC_BROKEN;
    return ic_tree_join(in.table, in.places, in.tree, place, given.tree);
}

IC_NODISCARD
static inline uint32_t ic_tree_in_clear(struct ic_tree_in in) {
    return ic_tree_clear(in.table, in.places, in.tree);
}

IC_NODISCARD
static inline uint32_t ic_tree_in_split(struct ic_tree_in in, uint32_t at, struct ic_tree_in rest) {
    if (rest.table != in.table || rest.tree == in.tree)
        return IC_BROKEN;
    return ic_tree_split(in.table, in.places, in.tree, at, rest.tree);
}

IC_NODISCARD
static inline uint32_t ic_tree_in_check(struct ic_tree_in in, uint64_t *members) {
    return ic_tree_check(in.table, in.places, in.tree, members);
}

IC_NODISCARD
static inline uint32_t ic_tree_in_insert(struct ic_tree_in in, uint32_t place) {
    return ic_tree_insert(in.table, in.places, in.keys.keys, in.keys.count, in.tree, place);
}

IC_NODISCARD
static inline uint32_t ic_tree_in_find(struct ic_tree_in in, uint64_t key, uint32_t *found) {
    return ic_tree_find(in.table, in.places, in.keys.keys, in.keys.count, in.tree, key, found);
}

IC_NODISCARD
static inline uint32_t ic_tree_in_lower_bound(struct ic_tree_in in, uint64_t key, uint32_t *found) {
    return ic_tree_lower_bound(in.table, in.places, in.keys.keys, in.keys.count, in.tree, key, found);
}

IC_NODISCARD
static inline uint32_t ic_tree_in_upper_bound(struct ic_tree_in in, uint64_t key, uint32_t *found) {
    return ic_tree_upper_bound(in.table, in.places, in.keys.keys, in.keys.count, in.tree, key, found);
}

IC_NODISCARD
static inline uint32_t ic_tree_in_insert_unique(struct ic_tree_in in, uint32_t place, uint32_t *found) {
    return ic_tree_insert_unique(in.table, in.places, in.keys.keys, in.keys.count, in.tree, place, found);
}

static inline uint32_t ic_tree_in_child(struct ic_tree_in in, uint32_t at, int is_left) {
    return ic_tree_child(in.table, in.places, at, is_left);
}

IC_NODISCARD
static inline uint32_t ic_tree_in_next(struct ic_tree_in in, uint32_t at, uint32_t *found) {
    return ic_tree_next(in.table, in.places, in.tree, at, found);
}

IC_NODISCARD
static inline uint32_t ic_tree_in_prev(struct ic_tree_in in, uint32_t at, uint32_t *found) {
    return ic_tree_prev(in.table, in.places, in.tree, at, found);
}

IC_NODISCARD
static inline uint32_t ic_tree_in_first(struct ic_tree_in in, uint32_t *found) {
    return ic_tree_first(in.table, in.places, in.tree, found);
}

IC_NODISCARD
static inline uint32_t ic_tree_in_last(struct ic_tree_in in, uint32_t *found) {
    return ic_tree_last(in.table, in.places, in.tree, found);
}

static inline uint32_t ic_tree_in_after(struct ic_tree_in in, uint32_t at) {
    return ic_tree_after(in.table, in.places, in.tree, at);
}

static inline uint32_t ic_tree_in_before(struct ic_tree_in in, uint32_t at) {
    return ic_tree_before(in.table, in.places, in.tree, at);
}

static inline uint32_t ic_tree_in_ends_first(struct ic_tree_in in, const struct ic_tree_ends *ends) {
    return ic_tree_ends_first(in.table, in.places, ends);
}

static inline uint32_t ic_tree_in_ends_last(struct ic_tree_in in, const struct ic_tree_ends *ends) {
    return ic_tree_ends_last(in.table, in.places, ends);
}

IC_NODISCARD
static inline uint32_t ic_tree_in_ends_insert(struct ic_tree_in in, struct ic_tree_ends *ends, uint32_t place) {
    return ic_tree_ends_insert(in.table, in.places, in.keys.keys, in.keys.count, in.tree, ends, place);
}

IC_NODISCARD
static inline uint32_t ic_tree_in_ends_insert_left(struct ic_tree_in in, struct ic_tree_ends *ends, uint32_t at, uint32_t place) {
    return ic_tree_ends_insert_left(in.table, in.places, in.tree, ends, at, place);
}

IC_NODISCARD
static inline uint32_t ic_tree_in_ends_insert_right(struct ic_tree_in in, struct ic_tree_ends *ends, uint32_t at, uint32_t place) {
    return ic_tree_ends_insert_right(in.table, in.places, in.tree, ends, at, place);
}

IC_NODISCARD
static inline uint32_t ic_tree_in_ends_remove(struct ic_tree_in in, struct ic_tree_ends *ends, uint32_t at) {
    return ic_tree_ends_remove(in.table, in.places, in.tree, ends, at);
}

IC_NODISCARD
static inline uint32_t ic_tree_in_ends_replace(struct ic_tree_in in, struct ic_tree_ends *ends, uint32_t at, uint32_t place) {
    return ic_tree_ends_replace(in.table, in.places, in.tree, ends, at, place);
}

IC_NODISCARD
static inline uint32_t ic_tree_in_ends_pop_first(struct ic_tree_in in, struct ic_tree_ends *ends, uint32_t *popped) {
    return ic_tree_ends_pop_first(in.table, in.places, in.tree, ends, popped);
}

static inline uint64_t ic_tree_in_sums_total(struct ic_tree_in in, const struct ic_sum *sums, ic_length sum_count) {
    return ic_tree_sums_total(sums, sum_count, in.tree);
}

IC_NODISCARD
static inline uint32_t ic_tree_in_sums_insert(struct ic_tree_in in, struct ic_sum *sums, ic_length sum_count, uint32_t kind, uint32_t place) {
    return ic_tree_sums_insert(in.table, in.places, in.keys.keys, in.keys.count, sums, sum_count, kind, in.tree, place);
}

IC_NODISCARD
static inline uint32_t ic_tree_in_sums_insert_left(struct ic_tree_in in, struct ic_sum *sums, ic_length sum_count, uint32_t kind, uint32_t
                                                   at, uint32_t place) {
    return ic_tree_sums_insert_left(in.table, in.places, sums, sum_count, kind, in.tree, at, place);
}

IC_NODISCARD
static inline uint32_t ic_tree_in_sums_insert_right(struct ic_tree_in in, struct ic_sum *sums, ic_length sum_count, uint32_t kind, uint32_t
                                                    at, uint32_t place) {
    return ic_tree_sums_insert_right(in.table, in.places, sums, sum_count, kind, in.tree, at, place);
}

IC_NODISCARD
static inline uint32_t ic_tree_in_sums_remove(struct ic_tree_in in, struct ic_sum *sums, ic_length sum_count, uint32_t kind, uint32_t at) {
    return ic_tree_sums_remove(in.table, in.places, sums, sum_count, kind, in.tree, at);
}

IC_NODISCARD
static inline uint32_t ic_tree_in_sums_renew(struct ic_tree_in in, struct ic_sum *sums, ic_length sum_count, uint32_t kind, uint32_t at) {
    return ic_tree_sums_renew(in.table, in.places, sums, sum_count, kind, at);
}

IC_NODISCARD
static inline uint32_t ic_tree_in_sums_find(struct ic_tree_in in, const struct ic_sum *sums, ic_length sum_count, uint32_t kind, uint32_t
                                            at, uint64_t bound, uint32_t *found) {
    return ic_tree_sums_find(in.table, in.places, sums, sum_count, kind, in.tree, at, bound, found);
}

IC_NODISCARD
static inline uint32_t ic_tree_in_sums_before(struct ic_tree_in in, const struct ic_sum *sums, ic_length sum_count, uint32_t kind, uint32_t
                                              at, uint64_t *sum) {
    return ic_tree_sums_before(in.table, in.places, sums, sum_count, kind, at, sum);
}

IC_NODISCARD
static inline uint32_t ic_tree_in_sums_overlap(struct ic_tree_in in, const struct ic_sum *sums, ic_length sum_count, uint32_t at, uint64_t
                                               from, uint64_t to, uint32_t *found) {
    return ic_tree_sums_overlap(in.table, in.places, in.keys.keys, in.keys.count, sums, sum_count, in.tree, at, from, to, found);
}

#define IC_TREE_IN_FIND_BY(at, in, comparison) IC_TREE_FIND_BY(at, (in).table, (in).places, (in).tree, comparison)
#define IC_TREE_IN_LOWER_BOUND_BY(at, in, comparison) IC_TREE_LOWER_BOUND_BY(at, (in).table, (in).places, (in).tree, comparison)
#define IC_TREE_IN_UPPER_BOUND_BY(at, in, comparison) IC_TREE_UPPER_BOUND_BY(at, (in).table, (in).places, (in).tree, comparison)
#define IC_TREE_IN_INSERT_BY(status, at, in, place, comparison) \
    IC_TREE_INSERT_BY(status, at, (in).table, (in).places, (in).tree, place, comparison)
#define IC_TREE_IN_INSERT_UNIQUE_BY(status, at, in, place, comparison) \
    IC_TREE_INSERT_UNIQUE_BY(status, at, (in).table, (in).places, (in).tree, place, comparison)
#define IC_TREE_IN_FOREACH(place, in) IC_TREE_FOREACH(place, (in).table, (in).places, (in).tree)
#define IC_TREE_IN_FOREACH_REVERSE(place, in) IC_TREE_FOREACH_REVERSE(place, (in).table, (in).places, (in).tree)
#define IC_TREE_IN_FOREACH_SAFE(place, next, in) IC_TREE_FOREACH_SAFE(place, next, (in).table, (in).places, (in).tree)
#define IC_TREE_IN_FOREACH_REVERSE_SAFE(place, prev, in) IC_TREE_FOREACH_REVERSE_SAFE(place, prev, (in).table, (in).places, (in).tree)
#define IC_TREE_IN_FOREACH_ENTRY(object, objects, in) IC_TREE_FOREACH_ENTRY(object, objects, (in).table, (in).places, (in).tree)
#define IC_TREE_IN_FOREACH_ENTRY_REVERSE(object, objects, in) \
    IC_TREE_FOREACH_ENTRY_REVERSE(object, objects, (in).table, (in).places, (in).tree)
#define IC_TREE_IN_FOREACH_ENTRY_SAFE(object, objects, in) IC_TREE_FOREACH_ENTRY_SAFE(object, objects, (in).table, (in).places, (in).tree)
#define IC_TREE_IN_FOREACH_ENTRY_REVERSE_SAFE(object, objects, in) \
    IC_TREE_FOREACH_ENTRY_REVERSE_SAFE(object, objects, (in).table, (in).places, (in).tree)
#define IC_TREE_IN_FOREACH_FROM(place, at, in) IC_TREE_FOREACH_FROM(place, at, (in).table, (in).places, (in).tree)
#define IC_TREE_IN_FOREACH_REVERSE_FROM(place, at, in) IC_TREE_FOREACH_REVERSE_FROM(place, at, (in).table, (in).places, (in).tree)
#define IC_TREE_IN_FOREACH_SAFE_FROM(place, next, at, in) IC_TREE_FOREACH_SAFE_FROM(place, next, at, (in).table, (in).places, (in).tree)
#define IC_TREE_IN_FOREACH_ENTRY_FROM(object, objects, at, in) \
    IC_TREE_FOREACH_ENTRY_FROM(object, objects, at, (in).table, (in).places, (in).tree)
#define IC_TREE_IN_FOREACH_ENTRY_SAFE_FROM(object, objects, at, in) \
    IC_TREE_FOREACH_ENTRY_SAFE_FROM(object, objects, at, (in).table, (in).places, (in).tree)

/* to here */

#ifdef __cplusplus
}
#endif

#endif
