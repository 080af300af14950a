/* Runs the inline functions and the loops of ic.h over every small table of links, beside a plain reading of what the header says of words.
 *     small_tables [JOB JOBS [MOST]]
 *
 * The words of a table of N places are any of these: none, each place, the place N, which the table does not have, a place that is marked as no
 * member, and two odd ones. The one leads to place 0, with bits set that count for nothing, and the other has a number beyond all places. So a
 * table of links with one word has N + 5 words for each place, and further words of a link, and those of lists, are N + 4. Tables with one and two
 * words have up to four places, and those of trees up to three. The plain reading knows each word by how it was made, and takes none apart.
 *
 * The loops begin at each word, but of the 26,873,856 doubly linked tables of four places at each place. Those over trees make calls, so they are
 * compared with these calls, over every table of up to two places, and of three over those whose words are none, a place, or that of no member.
 * Loops whose body removes members run over each list of up to four members, in each order, and each set of them leaves.
 *
 * With JOBS it takes one part in JOBS of the tables, and with MOST those of so many places at most. It prints for each kind how many tables there
 * were, and how many comparisons.
 */
#define _DEFAULT_SOURCE
#include "tables.h"

#include <inttypes.h>

enum { PLACES = 4, LETTERS = PLACES + 5, OUTSIDE = 4, GUARDED = 64 };

/* A word, and what it says: the number that it keeps, the place that it names, and whether it marks a member. */
struct letter {
    uint64_t word, number;
    uint32_t place;
    int is_marked;
};

/* The words that begin a link, and all others. */
static struct letter firsts[LETTERS], others[LETTERS];
static uint32_t first_count, other_count, places, asked[PLACES + OUTSIDE];

static const char *kind;
static uint64_t tables, comparisons;

static void expect(int is_so, const char *what) {
    comparisons++;
    if (!is_so) {
        printf("%s, %" PRIu32 " places: %s\n", kind, places, what);
        exit(1);
    }
}

static struct letter letter(uint64_t word, uint64_t number, uint32_t place, int is_marked) {
    const struct letter made = {word, number, place, is_marked};
    return made;
}

/* Makes the words for tables of so many places. */
static void begin(const char *name, uint32_t count, int is_odd) {
    kind = name;
    places = count;
    first_count = other_count = 0;
    others[other_count++] = letter(0, 0, IC_NONE, 0);
    for (uint32_t place = 0; place < count; place++)
        others[other_count++] = letter(UINT64_C(8) * (place + 1), place + 1, place, 0);
    if (is_odd) {
        others[other_count++] = letter(UINT64_C(8) * (count + 1), count + 1, count, 0);
        others[other_count++] = letter(UINT64_C(0xFFFFFFF00000000E), 1, 0, 0);
        others[other_count++] = letter(UINT64_C(0x800000000), UINT64_C(0x100000000), IC_NONE, 0);
    }
    for (; first_count < other_count; first_count++) {
        firsts[first_count] = others[first_count];
        firsts[first_count].word |= 1;
        firsts[first_count].is_marked = 1;
    }
    firsts[first_count++] = letter(8, 1, 0, 0);
    for (uint32_t place = 0; place < count + 2; place++)
        asked[place] = place;
    asked[count + 2] = UINT32_C(0x80000000);
    asked[count + 3] = IC_NONE;
}

/* The place that a number names in the table, or none. */
static uint32_t in_table(uint64_t number) {
    return number >= 1 && number <= places ? (uint32_t)number - 1 : IC_NONE;
}

/* ---- Tables ---- */

/* The words of a table as letters, `width` for each place. Its memory ends where a page begins that can't be touched. */
static const struct letter *letters[3 * PLACES];
static uint64_t *memory_end, *words;
static uint32_t width, job, jobs = 1;

static int is_member(uint32_t place) {
    return place < places && letters[width * place]->is_marked;
}

/* The place of the table that a word of a member names. */
static uint32_t beside(uint32_t place, uint32_t which) {
    return is_member(place) ? in_table(letters[width * place + which]->number) : IC_NONE;
}

static void put(uint32_t at, uint32_t choice) {
    letters[at] = at % width ? &others[choice] : &firsts[choice];
    words[at] = letters[at]->word;
}

/* Calls `check` for every table. The word that changes least often says whose part of the tables it is. */
static void each_table(uint32_t link, void (*check)(void)) {
    uint32_t choices[3 * PLACES] = {0}, count = link * places, number = 0;
    width = link;
    words = memory_end - count;
    for (uint32_t at = 0; at < count; at++)
        put(at, 0);
    for (;;) {
        if (number % jobs == job) {
            tables++;
            check();
        }
        uint32_t at = count;
        while (at > 0) {
            at--;
            uint32_t wanted = at % width ? other_count : first_count;
            number += at < 2 && at < count;
            choices[at] = choices[at] + 1 == wanted ? 0 : choices[at] + 1;
            put(at, choices[at]);
            if (choices[at])
                break;
            if (at == 0)
                return;
        }
        if (count == 0)
            return;
    }
}

/* ---- Walks ---- */

static uint32_t wanted[PLACES], wanted_count;

/* Where a walk leads that begins at a place, and goes on by the word `which` of each member, at most to as many as there are places. */
static void walk(uint32_t at, uint32_t which, uint32_t head) {
    for (wanted_count = 0; wanted_count < places && at != head && is_member(at); at = beside(at, which))
        wanted[wanted_count++] = at;
}

/* Runs a loop, which has to give the members of the walk. `here` is what else holds in each round, of which `round` is the number. */
#define GIVES(loop, place, here)                                                   \
    do {                                                                           \
        uint32_t round = 0;                                                        \
        int is_so = 1;                                                             \
        loop {                                                                     \
            is_so = is_so && round < wanted_count && wanted[round] == place && (here); \
            round++;                                                               \
        }                                                                          \
        expect(is_so && round == wanted_count, #loop);                             \
    } while (0)

static uint32_t before(uint32_t round) {
    return round ? wanted[round - 1] : IC_NONE;
}

/* ---- Doubly linked lists and rings ---- */

/* Of the many tables of four places the loops begin at a place of the table alone. */
static int begins_within(void) {
    return places == PLACES;
}

static void check_rings(const struct ic_link2 *table) {
    for (uint32_t i = 0; i < (begins_within() ? places : places + OUTSIDE); i++) {
        const uint32_t head = asked[i];
        expect(!ic_ring_is_empty(table, places, head) == !(is_member(head) && beside(head, 0) == head), "ic_ring_is_empty");
        walk(beside(head, 0), 0, head);
        GIVES(IC_RING_FOREACH(place, table, places, head), place, 1);
        GIVES(IC_RING_FOREACH_SAFE(place, next, table, places, head), place, next == beside(place, 0));
        walk(beside(head, 1), 1, head);
        GIVES(IC_RING_FOREACH_REVERSE(place, table, places, head), place, 1);
        GIVES(IC_RING_FOREACH_REVERSE_SAFE(place, prev, table, places, head), place, prev == beside(place, 1));
    }
}

static void check_list(void) {
    const struct ic_link2 *table = (const struct ic_link2 *)words;
    for (uint32_t i = 0; i < places + OUTSIDE; i++) {
        const uint32_t at = asked[i];
        expect(!ic_list_is_linked(table, places, at) == !is_member(at), "ic_list_is_linked");
        expect(ic_list_next(table, places, at) == beside(at, 0), "ic_list_next");
        expect(ic_list_prev(table, places, at) == beside(at, 1), "ic_list_prev");
        expect(!ic_ring_is_linked(table, places, at) == !is_member(at), "ic_ring_is_linked");
        expect(ic_ring_next(table, places, at) == beside(at, 0), "ic_ring_next");
        expect(ic_ring_prev(table, places, at) == beside(at, 1), "ic_ring_prev");
    }
    for (uint32_t i = begins_within() ? 1 : 0; i < (begins_within() ? places + 1 : other_count); i++) {
        const struct letter *first = &others[i], *last = &others[begins_within() ? 1 + i % places : (i + 2) % other_count];
        const struct ic_list list = {first->word, last->word};
        expect(!ic_list_is_empty(&list) == (first->number != 0), "ic_list_is_empty");
        expect(ic_list_first(&list) == first->place && ic_list_last(&list) == last->place, "ic_list_first and ic_list_last");
        walk(first->place, 0, IC_NONE);
        GIVES(IC_LIST_FOREACH(place, table, places, &list), place, 1);
        GIVES(IC_LIST_FOREACH_SAFE(place, next, table, places, &list), place, next == beside(place, 0));
        walk(last->place, 1, IC_NONE);
        GIVES(IC_LIST_FOREACH_REVERSE(place, table, places, &list), place, 1);
        GIVES(IC_LIST_FOREACH_REVERSE_SAFE(place, prev, table, places, &list), place, prev == beside(place, 1));
    }
    check_rings(table);
}

/* Both other names of calls do what the calls do. */
static void check_pushes(void) {
    struct ic_link2 one[PLACES], other[PLACES];
    for (uint32_t i = 0; i < (places + OUTSIDE) * (places + OUTSIDE); i++) {
        const uint32_t head = asked[i % (places + OUTSIDE)], place = asked[i / (places + OUTSIDE)];
        for (int is_back = 0; is_back < 2; is_back++) {
            memcpy(one, words, places * sizeof *one);
            memcpy(other, words, places * sizeof *other);
            const uint32_t status = (is_back ? ic_ring_insert_before : ic_ring_insert_after)(one, places, head, place);
            expect((is_back ? ic_ring_push_back : ic_ring_push_front)(other, places, head, place) == status, "the status of a push");
            expect(memcmp(one, other, places * sizeof *one) == 0, "the words of a push");
        }
    }
}

/* Whether a place leads to one that leads back, by the word `which`. */
static int is_beside(uint32_t place, uint32_t which) {
    return is_member(place) && beside(beside(place, which), 1 - which) == place;
}

/* Which status tells that a place is no place of a ring, and OK of one of which `is_so` is true. */
static uint32_t fault_of(uint32_t place, int is_so) {
    if (place == IC_NONE)
        return IC_NULL;
    return place >= places ? IC_OUT_OF_RANGE : !is_member(place) ? IC_NOT_LINKED : is_so ? IC_OK : IC_BROKEN;
}

/* Why a run does not go after a place: the first fault that is told. */
static uint32_t fault_of_range(uint32_t at, uint32_t first, uint32_t last) {
    if (!is_beside(at, 0))
        return fault_of(at, 0);
    if (!is_beside(first, 1))
        return fault_of(first, 0);
    return at == last ? IC_OK : at == first ? (uint32_t)IC_BROKEN : fault_of(last, is_beside(last, 0));
}

/* The same before a place. */
static uint32_t fault_of_range_before(uint32_t at, uint32_t first, uint32_t last) {
    if (!is_beside(at, 1))
        return fault_of(at, 0);
    if (at == last && at != first)
        return IC_BROKEN;
    return at == first ? fault_of(last, is_beside(last, 0)) : fault_of_range(beside(at, 1), first, last);
}

/* An edit of several calls tells the first fault, and has changed nothing then. */
static void expect_edit(const struct ic_link2 *table, uint32_t is, uint32_t fault, const char *what) {
    expect(is == fault && (fault == IC_OK || memcmp(table, words, places * sizeof *table) == 0), what);
}

static void check_ring_edits(void) {
    const uint32_t names = places + OUTSIDE;
    struct ic_link2 table[PLACES];
    for (uint32_t i = 0; i < names * names * names; i++) {
        const uint32_t at = asked[i % names], first = asked[i / names % names], last = asked[i / names / names];
        const uint32_t fault = fault_of(at, is_beside(at, 0) && is_beside(at, 1));
        memcpy(table, words, places * sizeof *table);
        if (at == last)
            expect_edit(table, ic_ring_swap(table, places, at, first), fault ? fault : fault_of(first, is_beside(first, 0) && is_beside(first, 1)),
                        "ic_ring_swap");
        memcpy(table, words, places * sizeof *table);
        expect_edit(table, ic_ring_move_range_after(table, places, at, first, last), fault_of_range(at, first, last), "ic_ring_move_range_after");
        memcpy(table, words, places * sizeof *table);
        expect_edit(table, ic_ring_move_range_before(table, places, at, first, last), fault_of_range_before(at, first, last), "ic_ring_move_range_before");
    }
}

/* ---- Singly linked lists and hash tables ---- */

static void check_go_on(const struct ic_link1 *table, const struct ic_stack *list, uint32_t first) {
    for (uint32_t i = 0; i < (places + OUTSIDE) * (places + OUTSIDE); i++) {
        const uint32_t from = asked[i % (places + OUTSIDE)], place = asked[i / (places + OUTSIDE)];
        const uint32_t after = from == IC_NONE ? first : beside(from, 0);
        uint32_t moved = from;
        const uint32_t next = ic_stack_go_on(table, places, list, &moved, place);
        expect(after == place ? moved == place && next == beside(place, 0) : moved == from && next == after, "ic_stack_go_on");
    }
}

/* Where the walks along several chains lead, one after the other, to as many members as there are places at most. */
static void walk_chains(const struct letter *const *heads, uint32_t count) {
    uint32_t all[PLACES], all_count = 0;
    for (uint32_t i = 0; i < count; i++) {
        walk(heads[i]->place, 0, IC_NONE);
        for (uint32_t j = 0; j < wanted_count && all_count < places; j++)
            all[all_count++] = wanted[j];
    }
    memcpy(wanted, all, sizeof all);
    wanted_count = all_count;
}

/* The loops over all members of three buckets, of which an inner one `break`s. */
static void check_all_chains(const struct ic_link1 *table, const struct letter *const *heads) {
    const struct ic_stack buckets[3] = {{heads[0]->word}, {heads[1]->word}, {heads[2]->word}};
    uint32_t last = IC_NONE, rounds = 0;
    for (uint32_t count = 0; count <= 3; count++) {
        walk_chains(heads, count);
        GIVES(IC_HASH_FOREACH_ALL(place, table, places, buckets, count), place, 1);
        GIVES(IC_HASH_FOREACH_ALL_SAFE(bucket, from, place, table, places, buckets, count), place,
              bucket < count && (from == IC_NONE ? ic_stack_first(&buckets[bucket]) : beside(from, 0)) == place);
    }
    IC_HASH_FOREACH_ALL(place, table, places, buckets, 3) {
        last = place;
        if (++rounds == wanted_count)
            break;
    }
    expect(rounds == wanted_count && last == (wanted_count ? wanted[wanted_count - 1] : IC_NONE), "IC_HASH_FOREACH_ALL with a break");
}

static void check_stack(void) {
    const struct ic_link1 *table = (const struct ic_link1 *)words;
    for (uint32_t i = 0; i < places + OUTSIDE; i++) {
        expect(!ic_stack_is_linked(table, places, asked[i]) == !is_member(asked[i]), "ic_stack_is_linked");
        expect(ic_stack_next(table, places, asked[i]) == beside(asked[i], 0), "ic_stack_next");
    }
    for (uint32_t i = 0; i < other_count; i++) {
        const struct letter *first = &others[i];
        const struct ic_stack list = {first->word}, buckets[3] = {{others[(i + 1) % other_count].word}, {first->word}, {1}};
        expect(!ic_stack_is_empty(&list) == (first->number != 0), "ic_stack_is_empty");
        expect(ic_stack_first(&list) == first->place, "ic_stack_first");
        check_go_on(table, &list, first->place);
        walk(first->place, 0, IC_NONE);
        GIVES(IC_STACK_FOREACH(place, table, places, &list), place, 1);
        GIVES(IC_STACK_FOREACH_SAFE(from, place, table, places, &list), place, from == before(round));
        expect(ic_hash_first(buckets, 3, 7) == first->place && ic_hash_first(buckets, 2, UINT64_MAX) == first->place, "ic_hash_first");
        expect(ic_hash_first(buckets, 0, 7) == IC_NONE, "ic_hash_first without buckets");
        GIVES(IC_HASH_FOREACH(place, table, places, buckets, 3, 7), place, 1);
        wanted_count = 0;
        GIVES(IC_HASH_FOREACH(place, table, places, buckets, 0, 7), place, 1);
        for (uint32_t j = 0; j < other_count; j++) {
            const struct letter *const heads[3] = {first, &others[j], &others[(i + 2 * j) % other_count]};
            check_all_chains(table, heads);
        }
    }
}

/* ---- XOR lists ---- */

/* The place on the other side of a member than `from`. */
static uint32_t across(uint32_t from, uint32_t at) {
    return is_member(at) ? in_table(letters[at]->number ^ (from == IC_NONE ? 0 : (uint64_t)from + 1)) : IC_NONE;
}

static void walk_across(uint32_t at) {
    uint32_t from = IC_NONE;
    for (wanted_count = 0; wanted_count < places && is_member(at);) {
        const uint32_t next = across(from, at);
        wanted[wanted_count++] = from = at;
        at = next;
    }
}

static void check_xor(void) {
    const struct ic_link1 *table = (const struct ic_link1 *)words;
    for (uint32_t i = 0; i < (places + OUTSIDE) * (places + OUTSIDE); i++) {
        const uint32_t from = asked[i % (places + OUTSIDE)], at = asked[i / (places + OUTSIDE)];
        uint32_t moved = from;
        expect(!ic_xor_is_linked(table, places, at) == !is_member(at), "ic_xor_is_linked");
        expect(ic_xor_step(table, places, from, at) == across(from, at), "ic_xor_step");
        expect(ic_xor_go_on(table, places, &moved, at) == across(from, at) && moved == at, "ic_xor_go_on");
    }
    for (uint32_t i = 0; i < other_count * other_count; i++) {
        const struct letter *first = &others[i % other_count], *last = &others[i / other_count];
        const struct ic_xor_list list = {first->word, last->word};
        expect(!ic_xor_is_empty(&list) == (first->number != 0), "ic_xor_is_empty");
        expect(ic_xor_first(&list) == first->place && ic_xor_last(&list) == last->place, "ic_xor_first and ic_xor_last");
        walk_across(first->place);
        GIVES(IC_XOR_FOREACH(place, table, places, &list), place, 1);
        GIVES(IC_XOR_FOREACH_SAFE(from, place, after, table, places, &list), place, 1);
        walk_across(last->place);
        GIVES(IC_XOR_FOREACH_REVERSE(place, table, places, &list), place, 1);
        GIVES(IC_XOR_FOREACH_REVERSE_SAFE(from, place, after, table, places, &list), place, 1);
    }
}

/* ---- Trees ---- */

static void check_tree(void) {
    const struct ic_link3 *table = (const struct ic_link3 *)words;
    for (uint32_t i = 0; i < places + OUTSIDE; i++) {
        const uint32_t at = asked[i];
        expect(!ic_tree_is_linked(table, places, at) == !is_member(at), "ic_tree_is_linked");
        expect(ic_tree_left(table, places, at) == beside(at, 0), "ic_tree_left");
        expect(ic_tree_right(table, places, at) == beside(at, 1), "ic_tree_right");
        expect(ic_tree_parent(table, places, at) == beside(at, 2), "ic_tree_parent");
    }
}

typedef uint32_t (*step_call)(const struct ic_link3 *, ic_length, const struct ic_tree *, uint32_t, uint32_t *);

/* The members to which the steps lead, until one is refused, and at most as many as there are places. */
static void walk_steps(const struct ic_tree *tree, step_call step) {
    uint32_t at = IC_NONE;
    for (wanted_count = 0; wanted_count < places && step((const struct ic_link3 *)words, places, tree, at, &at) == IC_OK;)
        wanted[wanted_count++] = at;
}

static void check_steps(void) {
    const struct ic_link3 *table = (const struct ic_link3 *)words;
    for (uint32_t i = 0; i < other_count; i++) {
        const struct ic_tree tree = {others[i].word};
        uint32_t end = IC_NONE, same = IC_NONE;
        expect(!ic_tree_is_empty(&tree) == (others[i].number != 0), "ic_tree_is_empty");
        expect(ic_tree_root(&tree) == others[i].place, "ic_tree_root");
        expect(ic_tree_first(table, places, &tree, &end) == ic_tree_next(table, places, &tree, IC_NONE, &same) && end == same, "ic_tree_first");
        end = same = IC_NONE;
        expect(ic_tree_last(table, places, &tree, &end) == ic_tree_prev(table, places, &tree, IC_NONE, &same) && end == same, "ic_tree_last");
        for (uint32_t j = 0; j < places + OUTSIDE; j++) {
            const int is_next = ic_tree_next(table, places, &tree, asked[j], &end) == IC_OK;
            expect(ic_tree_after(table, places, &tree, asked[j]) == (is_next ? end : IC_NONE), "ic_tree_after");
            const int is_prev = ic_tree_prev(table, places, &tree, asked[j], &end) == IC_OK;
            expect(ic_tree_before(table, places, &tree, asked[j]) == (is_prev ? end : IC_NONE), "ic_tree_before");
        }
        walk_steps(&tree, ic_tree_next);
        GIVES(IC_TREE_FOREACH(place, table, places, &tree), place, is_member(place));
        GIVES(IC_TREE_FOREACH_SAFE(place, next, table, places, &tree), place, round + 1 >= wanted_count || next == wanted[round + 1]);
        walk_steps(&tree, ic_tree_prev);
        GIVES(IC_TREE_FOREACH_REVERSE(place, table, places, &tree), place, is_member(place));
        GIVES(IC_TREE_FOREACH_REVERSE_SAFE(place, prev, table, places, &tree), place, round + 1 >= wanted_count || prev == wanted[round + 1]);
    }
}

/* ---- Members that leave ---- */

/* The bits of the places that leave. */
static uint32_t leaving;
static uint64_t memory[3 * (PLACES + 1)];

static int leaves(uint32_t place) {
    return (int)(leaving >> place & 1);
}

static void turn(void) {
    for (uint32_t i = 0; i < wanted_count / 2; i++) {
        const uint32_t place = wanted[i];
        wanted[i] = wanted[wanted_count - 1 - i];
        wanted[wanted_count - 1 - i] = place;
    }
}

static void leave(void) {
    uint32_t left = 0;
    for (uint32_t i = 0; i < wanted_count; i++)
        if (!leaves(wanted[i]))
            wanted[left++] = wanted[i];
    wanted_count = left;
}

/* Links all members, each of which the call has to accept. */
#define LINK(call)                                \
    for (uint32_t i = 0; i < wanted_count; i++) { \
        const uint32_t place = wanted[i];         \
        expect((call) == IC_OK, #call);           \
    }

/* Makes a list of the members, of which some leave during a loop, and goes over the rest. */
#define LEAVE(link, loop, is_back, remove, plain)                      \
    do {                                                               \
        uint32_t order[PLACES];                                        \
        const uint32_t count = wanted_count;                           \
        memcpy(order, wanted, sizeof order);                           \
        memset(memory, 0, sizeof memory);                              \
        LINK(link)                                                     \
        if (is_back)                                                   \
            turn();                                                    \
        GIVES(loop, place, !leaves(place) || (remove) == IC_OK);       \
        if (is_back)                                                   \
            turn();                                                    \
        leave();                                                       \
        GIVES(plain, place, 1);                                        \
        memcpy(wanted, order, sizeof order);                           \
        wanted_count = count;                                          \
    } while (0)

static void leave_list(void) {
    struct ic_link2 *table = (struct ic_link2 *)memory;
    struct ic_list list = {0, 0};
    LEAVE(ic_list_push_back(table, PLACES, &list, place), IC_LIST_FOREACH_SAFE(place, next, table, PLACES, &list), 0,
          ic_list_remove(table, PLACES, &list, place), IC_LIST_FOREACH(place, table, PLACES, &list));
    list.head = list.tail = 0;
    LEAVE(ic_list_push_back(table, PLACES, &list, place), IC_LIST_FOREACH_REVERSE_SAFE(place, prev, table, PLACES, &list), 1,
          ic_list_remove(table, PLACES, &list, place), IC_LIST_FOREACH(place, table, PLACES, &list));
}

/* The first member makes the ring of its head, too. */
static uint32_t push_to_ring(struct ic_link2 *table, uint32_t place) {
    const uint32_t status = ic_ring_is_linked(table, PLACES + 1, PLACES) ? (uint32_t)IC_OK : ic_ring_init(table, PLACES + 1, PLACES);
    return status == IC_OK ? ic_ring_push_back(table, PLACES + 1, PLACES, place) : status;
}

static void leave_ring(void) {
    struct ic_link2 *table = (struct ic_link2 *)memory;
    LEAVE(push_to_ring(table, place), IC_RING_FOREACH_SAFE(place, next, table, PLACES + 1, PLACES), 0,
          ic_ring_remove(table, PLACES + 1, place), IC_RING_FOREACH(place, table, PLACES + 1, PLACES));
    LEAVE(push_to_ring(table, place), IC_RING_FOREACH_REVERSE_SAFE(place, prev, table, PLACES + 1, PLACES), 1,
          ic_ring_remove(table, PLACES + 1, place), IC_RING_FOREACH(place, table, PLACES + 1, PLACES));
}

static void leave_stack(void) {
    struct ic_link1 *table = (struct ic_link1 *)memory;
    struct ic_stack list = {0};
    uint32_t removed = IC_NONE;
    LEAVE(ic_stack_insert_after(table, PLACES, &list, before(i), place), IC_STACK_FOREACH_SAFE(from, place, table, PLACES, &list), 0,
          ic_stack_remove_after(table, PLACES, &list, from, &removed) + (removed != place), IC_STACK_FOREACH(place, table, PLACES, &list));
}

static void leave_xor(void) {
    struct ic_link1 *table = (struct ic_link1 *)memory;
    struct ic_xor_list list = {0, 0};
    LEAVE(ic_xor_push_back(table, PLACES, &list, place), IC_XOR_FOREACH_SAFE(from, place, after, table, PLACES, &list), 0,
          ic_xor_remove(table, PLACES, &list, from, place), IC_XOR_FOREACH(place, table, PLACES, &list));
    list.head = list.tail = 0;
    LEAVE(ic_xor_push_back(table, PLACES, &list, place), IC_XOR_FOREACH_REVERSE_SAFE(from, place, after, table, PLACES, &list), 1,
          ic_xor_remove(table, PLACES, &list, from, place), IC_XOR_FOREACH(place, table, PLACES, &list));
}

static uint32_t push_to_tree(struct ic_link3 *table, struct ic_tree *tree, uint32_t place) {
    return ic_tree_insert_right(table, PLACES, tree, ic_tree_before(table, PLACES, tree, IC_NONE), place);
}

static void leave_tree(void) {
    struct ic_link3 *table = (struct ic_link3 *)memory;
    struct ic_tree tree = {0};
    LEAVE(push_to_tree(table, &tree, place), IC_TREE_FOREACH_SAFE(place, next, table, PLACES, &tree), 0,
          ic_tree_remove(table, PLACES, &tree, place), IC_TREE_FOREACH(place, table, PLACES, &tree));
    tree.root = 0;
    LEAVE(push_to_tree(table, &tree, place), IC_TREE_FOREACH_REVERSE_SAFE(place, prev, table, PLACES, &tree), 1,
          ic_tree_remove(table, PLACES, &tree, place), IC_TREE_FOREACH(place, table, PLACES, &tree));
}

/* Takes each order of `left` places more as the members, and each set of them that may leave. */
static void each_order(uint32_t used) {
    for (leaving = 0; leaving < 1u << PLACES; leaving++) {
        if (leaving & ~used)
            continue;
        tables++;
        leave_list();
        leave_ring();
        leave_stack();
        leave_xor();
        leave_tree();
    }
    for (uint32_t place = 0; place < PLACES; place++)
        if (!(used >> place & 1)) {
            wanted[wanted_count++] = place;
            each_order(used | 1u << place);
            wanted_count--;
        }
}

/* ---- Words and lengths ---- */

static void check_words(void) {
    static const uint64_t lengths[] = {0, 1, 2, 3, 4, 5, 6, UINT32_MAX - 1, UINT32_MAX, UINT64_C(0x100000000), UINT64_C(0x100000001), UINT64_MAX};
    for (uint32_t i = 0; i < first_count + other_count; i++) {
        const struct letter *it = i < first_count ? &firsts[i] : &others[i - first_count];
        expect(ic_number(it->word) == it->number, "ic_number");
        expect(ic_place(it->word) == it->place, "ic_place");
        for (size_t j = 0; j < sizeof lengths / sizeof *lengths; j++)
            expect(ic_place_within((ic_length)lengths[j], it->word) == (it->place != IC_NONE && it->place < lengths[j] ? it->place : IC_NONE), "ic_place_within");
    }
    for (uint32_t place = 0; place < 6; place++)
        expect(ic_word(place) == UINT64_C(8) * (place + 1), "ic_word");
    expect(ic_word(IC_NONE) == 0 && ic_word(IC_NONE - 1) == UINT64_C(8) * UINT32_MAX, "ic_word");
    for (size_t j = 0; j < sizeof lengths / sizeof *lengths; j++)
        expect(ic_bound((ic_length)lengths[j]) == (lengths[j] > UINT32_MAX ? UINT32_MAX : lengths[j]), "ic_bound");
}

static void report_part(void) {
    printf("%s-of-%" PRIu32 " %" PRIu64 " %" PRIu64 "\n", kind, places, tables, comparisons);
    tables = comparisons = 0;
}

static void try_tables(const char *name, uint32_t most, int is_odd, uint32_t link, void (*check)(void)) {
    for (uint32_t count = 0; count <= most; count++) {
        begin(name, count, is_odd);
        each_table(link, check);
        report_part();
    }
}

/* Tables of three places with no odd words, and none that leads out of the table. */
static void try_plain(const char *name, uint32_t link, void (*check)(void)) {
    begin(name, 3, 0);
    each_table(link, check);
    report_part();
}

int main(int count, char **arguments) {
    uint32_t most = PLACES;
    memory_end = end_between_guards(GUARDED);
    if (count > 2) {
        job = (uint32_t)strtoul(arguments[1], NULL, 10);
        jobs = (uint32_t)strtoul(arguments[2], NULL, 10);
    }
    if (count > 3 && strtoul(arguments[3], NULL, 10) < most)
        most = (uint32_t)strtoul(arguments[3], NULL, 10);
    try_tables("words", most, 1, 0, check_words);
    try_tables("stack", most, 1, 1, check_stack);
    try_tables("xor", most, 1, 1, check_xor);
    try_tables("list", most, 1, 2, check_list);
    try_tables("pushes", 2, 1, 2, check_pushes);
    try_tables("ring-edits", most < PLACES ? 2 : 3, 1, 2, check_ring_edits);
    try_tables("tree", most < PLACES ? 2 : 3, 1, 3, check_tree);
    try_tables("steps", 2, 1, 3, check_steps);
    try_plain("plain-pushes", 2, check_pushes);
    try_plain("plain-steps", 3, check_steps);
    begin("members-that-leave", PLACES, 0);
    if (job == 0)
        each_order(0);
    report_part();
    return 0;
}
