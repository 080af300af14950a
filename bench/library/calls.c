/* The calls of the library for C that the workloads of main.c have not, over tables of links.
 *
 * `calls WORKLOAD MEMBERS OPERATIONS` prints the nanoseconds of all operations and how many calls were refused, which are none. MEMBERS is even.
 * bench/run says what one operation of each workload is. With -DWORDS_32 the links have words of 4 bytes. The functions timed_* are what callgrind
 * counts. */

#include "../calls.h"
#include "ic.h"

/* The numbers below `count`, in a random order, as places. */
static uint32_t *places_of(uint64_t *state, uint32_t count) {
    uint64_t *numbers = shuffled(state, count);
    uint32_t *places = room_for(count, sizeof *places);
    for (uint32_t index = 0; index < count; index++)
        places[index] = (uint32_t)numbers[index];
    return places;
}

/* What both widths have. */
#ifdef WORDS_32
#define RING(call) ic_ring32_##call
#define LIST(call) ic_list32_##call
typedef struct ic_link2_32 link_of_two;
#else
#define RING(call) ic_ring_##call
#define LIST(call) ic_list_##call
typedef struct ic_link2 link_of_two;
#endif

/* Stops the program if a call that prepares a workload is refused. */
static void must(uint32_t status) {
    if (status != IC_OK)
        exit(1);
}

/* What each kind of room has: the members in a random order, their keys, which are even numbers in another one, and a place that is in no list. */
#define ROOM_FOR_ALL                   \
    uint32_t members, places, spare;   \
    const uint32_t *order;             \
    uint64_t *keys
struct common {
    ROOM_FOR_ALL;
};

/* ---- Rings. The heads are the places after those of the members ---- */


struct rings {
    ROOM_FOR_ALL;
    link_of_two *links;
    uint32_t head, second;
};
#define RINGS it->links, it->places

ROW(rings, ring_pair, uint32_t place; failed += RING(pop_front)(RINGS, it->head, &place); failed += RING(push_back)(RINGS, it->head, place);)
ROW(rings, ring_back, uint32_t place; failed += RING(pop_back)(RINGS, it->head, &place); failed += RING(push_front)(RINGS, it->head, place);)
ROW(rings, ring_touch, failed += RING(move_before)(RINGS, it->head, it->order[below(&random, it->members)]);)
ROW(rings, ring_move_after, failed += RING(move_after)(RINGS, it->head, it->order[below(&random, it->members)]);)
ROW(rings, ring_leave, uint32_t place = it->order[below(&random, it->members)]; failed += RING(remove)(RINGS, place);
    failed += RING(push_back)(RINGS, it->head, place);)
ROW(rings, ring_after, uint32_t place = EVEN(it->order); failed += RING(remove)(RINGS, place);
    failed += RING(insert_after)(RINGS, ODD(it->order), place);)
ROW(rings, ring_before, uint32_t place = EVEN(it->order); failed += RING(remove)(RINGS, place);
    failed += RING(insert_before)(RINGS, ODD(it->order), place);)
ROW(rings, ring_replace, uint32_t place = it->order[below(&random, it->members)]; failed += RING(replace)(RINGS, place, it->spare);
    failed += RING(replace)(RINGS, it->spare, place);)
ROW(rings, ring_exchange, uint32_t one = EVEN(it->order); uint32_t other = ODD(it->order); failed += RING(exchange)(RINGS, one, other);
    failed += RING(exchange)(RINGS, one, other);)
ROW(rings, ring_splice, failed += RING(splice_after)(RINGS, it->second, it->head); failed += RING(splice_before)(RINGS, it->head, it->second);)
ROW(rings, ring_init, failed += RING(init)(RINGS, it->spare); failed += RING(remove)(RINGS, it->spare);)
ROW(rings, ring_swap, uint32_t one = it->order[below(&random, it->members)];
    failed += RING(swap)(RINGS, one, it->order[below(&random, it->members)]);)
ROW(rings, ring_range, uint32_t first = RING(next)(RINGS, it->head);
    failed += RING(move_range_before)(RINGS, it->head, first, it->order[below(&random, it->members)]);)

/* A ring with all members, and one with none. */
static void fill_rings(struct rings *it) {
    memset(it->links, 0, it->places * sizeof *it->links);
    must(RING(init)(RINGS, it->head));
    must(RING(init)(RINGS, it->second));
    for (uint32_t index = 0; index < it->members; index++)
        must(RING(push_back)(RINGS, it->head, it->order[index]));
}

#ifndef WORDS_32
WHOLE(rings, ring_check, uint64_t members; failed += ic_ring_check(RINGS, it->head, &members); failed += members != it->members;)
WHOLE(rings, ring_sort, failed += ic_ring_sort(RINGS, it->keys, it->places, it->head);)
WHOLE(rings, ring_merge, failed += ic_ring_merge(RINGS, it->keys, it->places, it->head, it->second);)

/* Two sorted rings, each with half of the members. */
static void halve_rings(struct rings *it) {
    fill_rings(it);
    for (uint32_t index = 0; index < it->members; index += 2)
        must(ic_ring_move_before(RINGS, it->second, it->order[index]));
    must(ic_ring_sort(RINGS, it->keys, it->places, it->head));
    must(ic_ring_sort(RINGS, it->keys, it->places, it->second));
}
#endif

static uint64_t rings(const char *workload, const struct common *room, uint64_t operations) {
    struct rings rings = {room->members, room->places, room->spare, room->order, room->keys, NULL, room->spare + 1, room->spare + 2}, *it = &rings;
    it->links = room_for(it->places, sizeof *it->links);
    fill_rings(it);
    RUN(ring_pair);
    RUN(ring_back);
    RUN(ring_touch);
    RUN(ring_move_after);
    RUN(ring_leave);
    RUN(ring_after);
    RUN(ring_before);
    RUN(ring_replace);
    RUN(ring_exchange);
    RUN(ring_splice);
    RUN(ring_init);
    RUN(ring_swap);
    RUN(ring_range);
#ifndef WORDS_32
    RUN_WHOLE(ring_check, fill_rings);
    RUN_WHOLE(ring_sort, fill_rings);
    RUN_WHOLE(ring_merge, halve_rings);
#endif
    return NO_WORKLOAD;
}

/* ---- Doubly linked lists ---- */

struct lists {
    ROOM_FOR_ALL;
    link_of_two *links;
    struct ic_list list, other;
};
#define LISTS it->links, it->places, &it->list

ROW(lists, list_pair, uint32_t place; failed += LIST(pop_front)(LISTS, &place); failed += LIST(push_back)(LISTS, place);)
ROW(lists, list_touch, failed += LIST(move_to_back)(LISTS, it->order[below(&random, it->members)]);)
ROW(lists, list_splice, struct ic_list rest = {0, 0}; failed += LIST(split_after)(LISTS, it->order[below(&random, it->members)], &rest);
    failed += LIST(splice_after)(LISTS, IC_NONE, &rest);)
ROW(lists, list_back, uint32_t place; failed += LIST(pop_back)(LISTS, &place); failed += LIST(push_front)(LISTS, place);)
ROW(lists, list_after, uint32_t place = EVEN(it->order); failed += LIST(remove)(LISTS, place); failed += LIST(insert_after)(LISTS, ODD(it->order), place);)
ROW(lists, list_before, uint32_t place = EVEN(it->order); failed += LIST(remove)(LISTS, place);
    failed += LIST(insert_before)(LISTS, ODD(it->order), place);)
ROW(lists, list_replace, uint32_t place = it->order[below(&random, it->members)]; failed += LIST(replace)(LISTS, place, it->spare);
    failed += LIST(replace)(LISTS, it->spare, place);)
ROW(lists, list_move_after, uint32_t place = EVEN(it->order); failed += LIST(move_after)(LISTS, ODD(it->order), place);)
ROW(lists, list_move_before, uint32_t place = EVEN(it->order); failed += LIST(move_before)(LISTS, ODD(it->order), place);)
ROW(lists, list_to_front, failed += LIST(move_to_front)(LISTS, it->order[below(&random, it->members)]);)
ROW(lists, list_append, struct ic_list rest = {0, 0}; failed += LIST(split_before)(LISTS, it->order[below(&random, it->members)], &rest);
    failed += LIST(append)(LISTS, &rest);)
ROW(lists, list_splice_before, struct ic_list rest = {0, 0};
    failed += LIST(split_before)(LISTS, it->order[below(&random, it->members)], &rest); failed += LIST(splice_before)(LISTS, IC_NONE, &rest);)
ROW(lists, list_transfer, uint32_t place = it->order[below(&random, it->members)];
    failed += LIST(transfer_after)(it->links, it->places, &it->other, IC_NONE, &it->list, place);
    failed += LIST(transfer_before)(LISTS, IC_NONE, &it->other, place);)
WHOLE(lists, list_clear, failed += LIST(clear)(LISTS);)
WHOLE(lists, list_check, uint64_t members; failed += LIST(check)(LISTS, &members); failed += members != it->members;)

static void empty_lists(struct lists *it) {
    memset(it->links, 0, it->places * sizeof *it->links);
    it->list = it->other = (struct ic_list){0, 0};
}

static void fill_lists(struct lists *it) {
    empty_lists(it);
    for (uint32_t index = 0; index < it->members; index++)
        must(LIST(push_back)(LISTS, it->order[index]));
}

#ifndef WORDS_32
WHOLE(lists, list_fill, failed += ic_list_fill(LISTS, 0, it->members);)
WHOLE(lists, list_merge, failed += LIST(merge)(it->links, it->places, it->keys, it->places, &it->list, &it->other);)

static void halve_lists(struct lists *it) {
    empty_lists(it);
    for (uint32_t index = 0; index < it->members; index++)
        must(LIST(push_back)(it->links, it->places, index % 2 ? &it->list : &it->other, it->order[index]));
    must(LIST(sort)(it->links, it->places, it->keys, it->places, &it->list));
    must(LIST(sort)(it->links, it->places, it->keys, it->places, &it->other));
}
#endif

static uint64_t lists(const char *workload, const struct common *room, uint64_t operations) {
    struct lists lists = {room->members, room->places, room->spare, room->order, room->keys, NULL, {0, 0}, {0, 0}}, *it = &lists;
    it->links = room_for(it->places, sizeof *it->links);
    fill_lists(it);
    RUN(list_pair);
    RUN(list_touch);
    RUN(list_splice);
    RUN(list_back);
    RUN(list_after);
    RUN(list_before);
    RUN(list_replace);
    RUN(list_move_after);
    RUN(list_move_before);
    RUN(list_to_front);
    RUN(list_append);
    RUN(list_splice_before);
    RUN(list_transfer);
    RUN_WHOLE(list_clear, fill_lists);
    RUN_WHOLE(list_check, fill_lists);
#ifndef WORDS_32
    RUN_WHOLE(list_fill, empty_lists);
    RUN_WHOLE(list_merge, halve_lists);
#endif
    return NO_WORKLOAD;
}

#ifndef WORDS_32

/* ---- Singly linked lists ---- */

struct stacks {
    ROOM_FOR_ALL;
    struct ic_link1 *links;
    struct ic_stack list, other;
};
#define STACKS it->links, it->places, &it->list

/* Any member but the last of the order, which has none after it. */
#define FOLLOWED it->order[below(&random, it->members - 1)]

ROW(stacks, stack_after, uint32_t at = FOLLOWED; uint32_t place; failed += ic_stack_remove_after(STACKS, at, &place);
    failed += ic_stack_insert_after(STACKS, at, place);)
ROW(stacks, stack_replace, uint32_t at = FOLLOWED; uint32_t place; failed += ic_stack_replace_after(STACKS, at, it->spare, &place);
    failed += ic_stack_replace_after(STACKS, at, place, &it->spare);)
ROW(stacks, stack_split, uint32_t at = it->order[it->members - 2]; struct ic_stack rest = {0}; failed += ic_stack_split_after(STACKS, at, &rest);
    failed += ic_stack_splice_after(STACKS, at, &rest);)
WHOLE(stacks, stack_splice, failed += ic_stack_splice_after(STACKS, IC_NONE, &it->other);)
WHOLE(stacks, stack_fill, failed += ic_stack_fill(STACKS, 0, it->members);)
WHOLE(stacks, stack_clear, failed += ic_stack_clear(STACKS);)
WHOLE(stacks, stack_check, uint64_t members; failed += ic_stack_check(STACKS, &members); failed += members != it->members;)
WHOLE(stacks, stack_sort, failed += ic_stack_sort(it->links, it->places, it->keys, it->places, &it->list);)
WHOLE(stacks, stack_merge, failed += ic_stack_merge(it->links, it->places, it->keys, it->places, &it->list, &it->other);)

/* A list that ends with the last member of the order. */
static void fill_stacks(struct stacks *it) {
    memset(it->links, 0, it->places * sizeof *it->links);
    it->list = it->other = (struct ic_stack){0};
    for (uint32_t index = it->members; index--;)
        must(ic_stack_push_front(STACKS, it->order[index]));
}

static void empty_stacks(struct stacks *it) {
    memset(it->links, 0, it->places * sizeof *it->links);
    it->list = it->other = (struct ic_stack){0};
}

/* All members in the other list. */
static void give_stacks(struct stacks *it) {
    fill_stacks(it);
    it->other = it->list;
    it->list = (struct ic_stack){0};
}

static void halve_stacks(struct stacks *it) {
    empty_stacks(it);
    for (uint32_t index = 0; index < it->members; index++)
        must(ic_stack_push_front(it->links, it->places, index % 2 ? &it->list : &it->other, it->order[index]));
    must(ic_stack_sort(it->links, it->places, it->keys, it->places, &it->list));
    must(ic_stack_sort(it->links, it->places, it->keys, it->places, &it->other));
}

static uint64_t stacks(const char *workload, const struct common *room, uint64_t operations) {
    struct stacks stacks = {room->members, room->places, room->spare, room->order, room->keys, NULL, {0}, {0}}, *it = &stacks;
    it->links = room_for(it->places, sizeof *it->links);
    fill_stacks(it);
    RUN(stack_after);
    RUN(stack_replace);
    RUN(stack_split);
    RUN_WHOLE(stack_splice, give_stacks);
    RUN_WHOLE(stack_fill, empty_stacks);
    RUN_WHOLE(stack_clear, fill_stacks);
    RUN_WHOLE(stack_check, fill_stacks);
    RUN_WHOLE(stack_sort, fill_stacks);
    RUN_WHOLE(stack_merge, halve_stacks);
    return NO_WORKLOAD;
}

/* ---- XOR lists: the member of the order at `index` is between those beside it ---- */

struct xors {
    ROOM_FOR_ALL;
    struct ic_link1 *links;
    struct ic_xor_list list;
};
#define XORS it->links, it->places, &it->list

/* The position of a member with neighbors on both sides. */
#define INNER 1 + below(&random, it->members - 2)

ROW(xors, xor_back, uint32_t place; failed += ic_xor_pop_back(XORS, &place); failed += ic_xor_push_front(XORS, place);)
ROW(xors, xor_between, const uint32_t *at = it->order + INNER; failed += ic_xor_remove(XORS, at[-1], *at);
    failed += ic_xor_insert_between(XORS, at[-1], *at, at[1]);)
ROW(xors, xor_replace, const uint32_t *at = it->order + INNER; failed += ic_xor_replace(XORS, at[-1], *at, it->spare);
    failed += ic_xor_replace(XORS, at[-1], it->spare, *at);)
ROW(xors, xor_append, const uint32_t *at = it->order + INNER; struct ic_xor_list rest = {0, 0};
    failed += ic_xor_split_between(XORS, at[-1], *at, &rest); failed += ic_xor_append(XORS, &rest);)
ROW(xors, xor_splice, const uint32_t *at = it->order + INNER; struct ic_xor_list rest = {0, 0};
    failed += ic_xor_split_between(XORS, at[-1], *at, &rest); failed += ic_xor_splice_between(XORS, at[-1], &rest, IC_NONE);)
ROW(xors, xor_reverse, failed += ic_xor_reverse(&it->list);)
WHOLE(xors, xor_fill, failed += ic_xor_fill(XORS, 0, it->members);)
WHOLE(xors, xor_clear, failed += ic_xor_clear(XORS);)

static void empty_xors(struct xors *it) {
    memset(it->links, 0, it->places * sizeof *it->links);
    it->list = (struct ic_xor_list){0, 0};
}

static void fill_xors(struct xors *it) {
    empty_xors(it);
    for (uint32_t index = 0; index < it->members; index++)
        must(ic_xor_push_back(XORS, it->order[index]));
}

static uint64_t xors(const char *workload, const struct common *room, uint64_t operations) {
    struct xors xors = {room->members, room->places, room->spare, room->order, room->keys, NULL, {0, 0}}, *it = &xors;
    it->links = room_for(it->places, sizeof *it->links);
    fill_xors(it);
    RUN(xor_back);
    RUN(xor_between);
    RUN(xor_replace);
    RUN(xor_append);
    RUN(xor_splice);
    RUN(xor_reverse);
    RUN_WHOLE(xor_fill, empty_xors);
    RUN_WHOLE(xor_clear, fill_xors);
    return NO_WORKLOAD;
}

/* ---- Hash tables, in which each key is that of two members ---- */

struct tables {
    ROOM_FOR_ALL;
    struct ic_link1 *links;
    uint64_t *hashes;
    struct ic_stack few[512], many[1024];
};

static uint64_t hash_of(uint64_t key) {
    uint64_t product = key * UINT64_C(0x9E3779B97F4A7C15);
    return product ^ product >> 29;
}

ROW(tables, hash_equal, uint64_t key = it->keys[it->order[below(&random, it->members)]]; uint32_t place; uint32_t next;
    failed += ic_hash_find(it->links, it->places, it->keys, it->places, it->few, 512, hash_of(key), key, &place);
    failed += ic_hash_next_equal(it->links, it->places, it->keys, it->places, place, &next);)
WHOLE(tables, hash_check, uint64_t members; failed += ic_hash_check(it->links, it->places, it->hashes, it->places, it->few, 512, &members);
    failed += members != it->members;)
WHOLE(tables, hash_grow, for (uint32_t bucket = 0; bucket < 512; bucket++)
    failed += ic_hash_move_chain(it->links, it->places, it->hashes, it->places, &it->few[bucket], it->many, 1024);)

static void fill_tables(struct tables *it) {
    memset(it->links, 0, it->places * sizeof *it->links);
    memset(it->few, 0, sizeof it->few);
    memset(it->many, 0, sizeof it->many);
    for (uint32_t index = 0; index < it->members; index++)
        must(ic_hash_insert(it->links, it->places, it->few, 512, it->hashes[it->order[index]], it->order[index]));
}

static uint64_t tables(const char *workload, const struct common *room, uint64_t operations) {
    static struct tables tables;
    struct tables *it = &tables;
    *it = (struct tables){.members = room->members, .places = room->places, .spare = room->spare, .order = room->order, .keys = room->keys};
    it->links = room_for(it->places, sizeof *it->links);
    it->hashes = room_for(it->places, sizeof *it->hashes);
    for (uint32_t place = 0; place < it->places; place++)
        it->hashes[place] = hash_of(it->keys[place] /= 4);
    fill_tables(it);
    RUN(hash_equal);
    RUN_WHOLE(hash_check, fill_tables);
    RUN_WHOLE(hash_grow, fill_tables);
    return NO_WORKLOAD;
}

/* ---- Trees by keys, with their ends and with sums ---- */

struct trees {
    ROOM_FOR_ALL;
    struct ic_link3 *links;
    struct ic_sum *sums;
    struct ic_tree tree, other;
    struct ic_tree_ends ends;
    uint32_t at;
};
#define TREES it->links, it->places, &it->tree
#define KEYED it->links, it->places, it->keys, it->places, &it->tree
#define SUMS it->links, it->places, it->sums, it->places

/* Inserts a place before the member `next`, or last if there is none, where the tree has room. */
#define INSERT_BEFORE(left, right, ...)                                                             \
    if (status == IC_OK && ic_tree_left(it->links, it->places, next) == IC_NONE) {                   \
        failed += left(TREES, __VA_ARGS__ next, place);                                             \
    } else {                                                                                        \
        uint32_t before = IC_NONE;                                                                  \
        failed += ic_tree_prev(TREES, status == IC_OK ? next : IC_NONE, &before);                   \
        failed += right(TREES, __VA_ARGS__ before, place);                                          \
    }
#define ENDS &it->ends,

ROW(trees, tree_beside, uint32_t place = it->order[below(&random, it->members)]; uint32_t next; uint32_t status = ic_tree_next(TREES, place, &next);
    failed += ic_tree_remove(TREES, place); INSERT_BEFORE(ic_tree_insert_left, ic_tree_insert_right,))
ROW(trees, tree_replace, uint32_t place = it->order[below(&random, it->members)]; failed += ic_tree_replace(TREES, place, it->spare);
    failed += ic_tree_replace(TREES, it->spare, place);)
ROW(trees, tree_upper_bound, uint32_t found; failed += ic_tree_upper_bound(KEYED, 2 * below(&random, it->members) + 1, &found);)
ROW(trees, tree_prev, if (ic_tree_prev(TREES, it->at, &it->at) != IC_OK) it->at = IC_NONE;)
ROW(trees, ends_queue, uint32_t place; failed += ic_tree_ends_pop_first(TREES, &it->ends, &place); it->keys[place] += 2 * (uint64_t)it->members;
    failed += ic_tree_ends_insert(KEYED, &it->ends, place);)
ROW(trees, ends_turn, uint32_t place = it->order[below(&random, it->members)]; failed += ic_tree_ends_remove(TREES, &it->ends, place);
    failed += ic_tree_ends_insert(KEYED, &it->ends, place);)
ROW(trees, ends_beside, uint32_t place = it->order[below(&random, it->members)]; uint32_t next; uint32_t status = ic_tree_next(TREES, place, &next);
    failed += ic_tree_ends_remove(TREES, &it->ends, place); INSERT_BEFORE(ic_tree_ends_insert_left, ic_tree_ends_insert_right, ENDS))
ROW(trees, ends_replace, uint32_t place = it->order[below(&random, it->members)]; failed += ic_tree_ends_replace(TREES, &it->ends, place, it->spare);
    failed += ic_tree_ends_replace(TREES, &it->ends, it->spare, place);)
ROW(trees, sums_turn, uint32_t place = it->order[below(&random, it->members)]; failed += ic_tree_sums_remove(SUMS, IC_SUM, &it->tree, place);
    failed += ic_tree_sums_insert(it->links, it->places, it->keys, it->places, it->sums, it->places, IC_SUM, &it->tree, place);)
ROW(trees, sums_beside, uint32_t place = it->order[below(&random, it->members)]; uint32_t next; uint32_t status = ic_tree_next(TREES, place, &next);
    failed += ic_tree_sums_remove(SUMS, IC_SUM, &it->tree, place);
    if (status == IC_OK && ic_tree_left(it->links, it->places, next) == IC_NONE) {
        failed += ic_tree_sums_insert_left(SUMS, IC_SUM, &it->tree, next, place);
    } else {
        uint32_t before = IC_NONE;
        failed += ic_tree_prev(TREES, status == IC_OK ? next : IC_NONE, &before);
        failed += ic_tree_sums_insert_right(SUMS, IC_SUM, &it->tree, before, place);
    })
ROW(trees, sums_renew, uint32_t place = it->order[below(&random, it->members)]; it->sums[place].value ^= 3;
    failed += ic_tree_sums_renew(SUMS, IC_SUM, place);)
ROW(trees, sums_find, uint32_t found; failed += ic_tree_sums_find(SUMS, IC_SUM, &it->tree, IC_NONE, below(&random, it->members), &found);)
ROW(trees, sums_before, uint64_t sum; failed += ic_tree_sums_before(SUMS, IC_SUM, it->order[below(&random, it->members)], &sum);)
ROW(trees, sums_overlap, uint32_t found; uint64_t from = 2 * below(&random, it->members);
    failed += ic_tree_sums_overlap(it->links, it->places, it->keys, it->places, it->sums, it->places, &it->tree, IC_NONE, from, from + 1, &found);)
WHOLE(trees, sums_all, failed += ic_tree_sums_renew(SUMS, IC_SUM, IC_NONE);)
WHOLE(trees, tree_check, uint64_t members; failed += ic_tree_check(TREES, &members); failed += members != it->members;)
WHOLE(trees, tree_clear, failed += ic_tree_clear(TREES);)
WHOLE(trees, tree_split, failed += ic_tree_split(TREES, it->order[0], &it->other);)
WHOLE(trees, tree_append, failed += ic_tree_append(TREES, &it->other);)
WHOLE(trees, tree_join, failed += ic_tree_join(TREES, it->spare, &it->other);)

static void fill_trees(struct trees *it) {
    memset(it->links, 0, it->places * sizeof *it->links);
    it->tree = it->other = (struct ic_tree){0};
    it->ends = (struct ic_tree_ends){0, 0};
    it->at = IC_NONE;
    for (uint32_t index = 0; index < it->members; index++)
        must(ic_tree_ends_insert(KEYED, &it->ends, it->order[index]));
}

/* Two trees, the second of which has the members from one on. */
static void part_trees(struct trees *it) {
    fill_trees(it);
    must(ic_tree_split(TREES, it->order[0], &it->other));
}

/* Sums of ones, or the greatest ends of intervals that begin at the keys, each as long as two. */
static void sum_up(struct trees *it, uint32_t kind) {
    for (uint32_t place = 0; place < it->places; place++)
        it->sums[place].value = kind == IC_SUM ? 1 : it->keys[place] + 4;
    must(ic_tree_sums_renew(SUMS, kind, IC_NONE));
}

static uint64_t trees(const char *workload, const struct common *room, uint64_t operations) {
    struct trees trees = {.members = room->members, .places = room->places, .spare = room->spare, .order = room->order, .keys = room->keys}, *it = &trees;
    it->links = room_for(it->places, sizeof *it->links);
    it->sums = room_for(it->places, sizeof *it->sums);
    fill_trees(it);
    sum_up(it, !strcmp(workload, "sums_overlap") ? IC_GREATEST : IC_SUM);
    RUN(tree_beside);
    RUN(tree_replace);
    RUN(tree_upper_bound);
    RUN(tree_prev);
    RUN(ends_queue);
    RUN(ends_turn);
    RUN(ends_beside);
    RUN(ends_replace);
    RUN(sums_turn);
    RUN(sums_beside);
    RUN(sums_renew);
    RUN(sums_find);
    RUN(sums_before);
    RUN(sums_overlap);
    RUN_WHOLE(sums_all, fill_trees);
    RUN_WHOLE(tree_check, fill_trees);
    RUN_WHOLE(tree_clear, fill_trees);
    RUN_WHOLE(tree_split, fill_trees);
    RUN_WHOLE(tree_append, part_trees);
    RUN_WHOLE(tree_join, part_trees);
    return NO_WORKLOAD;
}

#endif

int main(int count, char **words) {
    if (count != 4)
        return 2;
    uint64_t state = 1, operations = strtoull(words[3], NULL, 10), start, failed;
    struct common room = {.members = (uint32_t)strtoul(words[2], NULL, 10)};
    uint32_t *values = places_of(&state, room.members);
    room.places = room.members + 3;
    room.spare = room.members;
    room.order = places_of(&state, room.members);
    room.keys = room_for(room.places, sizeof *room.keys);
    for (uint32_t index = 0; index < room.members; index++)
        room.keys[index] = 2 * (uint64_t)values[index];
    start = now();
#ifndef WORDS_32
    failed = !strncmp(words[1], "list_", 5)    ? lists(words[1], &room, operations)
             : !strncmp(words[1], "stack_", 6) ? stacks(words[1], &room, operations)
             : !strncmp(words[1], "xor_", 4)   ? xors(words[1], &room, operations)
             : !strncmp(words[1], "hash_", 5)  ? tables(words[1], &room, operations)
             : !strncmp(words[1], "ring_", 5)  ? rings(words[1], &room, operations)
                                               : trees(words[1], &room, operations);
#else
    failed = !strncmp(words[1], "list_", 5) ? lists(words[1], &room, operations) : rings(words[1], &room, operations);
#endif
    printf("%" PRIu64 " %" PRIu64 "\n", now() - start, failed);
    return failed != 0;
}
