/* The loops and reads of the header over random tables, between pages that can't be touched.
 *
 *     walks [TABLES [SEED]]
 *
 * A table has right words at first. Each loop has to give the members in their order, and a SAFE one also while its body takes some members
 * off, which it links in a second list or tree of some tables. Then other words take the place of some: numbers out of range, ways in
 * circles, any bits. Now each loop has to end within `places` rounds and to give linked places, and over a list those to which the words
 * lead. The reads have to return what the words say, and a list has to be empty exactly if a pop returns IC_NULL. Each table begins or
 * ends where its page does. Prints for each loop how many rounds it made over right words, and over others.
 */
#define _DEFAULT_SOURCE /* for mmap of no file */
#include "tables.h"

enum { PLACES = MOST, WORDS = 3 * MOST };

#include "plain.h"

/* A table with two lists or trees, and what the body of a SAFE loop does. */
struct walk {
    enum kind kind;
    int is_right, is_moving;
    void *table;
    size_t places;
    void *list, *other;
    uint32_t leaving; /* a bit for each place that is to be taken off */
};

static const char *now = "lead_through";
static struct sequence seen;

static void expect(int is_so, const char *wrong) {
    if (is_so)
        return;
    printf("%s %s\n", now, wrong);
    exit(1);
}

static void expect_same(const struct sequence *is, const struct sequence *expected, const char *wrong) {
    expect(is->count == expected->count && !memcmp(is->members, expected->members, is->count * sizeof *is->members), wrong);
}

/* ---- What the words say ------------------------------------------------------------------------------------------------------- */

/* The place of the table whose number is in bits 3 to 35 of a word. */
static uint32_t named(const struct walk *x, uint64_t word) {
    uint64_t number = word << 28 >> 31;
    return number && number <= x->places ? (uint32_t)(number - 1) : IC_NONE;
}

static uint64_t word_of(const struct walk *x, uint32_t place, size_t field) {
    return ((const uint64_t *)x->table)[place * sizes[x->kind].link + field];
}

static int is_marked(const struct walk *x, uint32_t place) {
    return place < x->places && word_of(x, place, 0) % 2 == 1;
}

/* The place that a word of a link names. */
static uint32_t read_at(const struct walk *x, uint32_t place, size_t field) {
    return is_marked(x, place) ? named(x, word_of(x, place, field)) : IC_NONE;
}

/* The place that the word of a link of an XOR list names together with that of a neighbor. */
static uint32_t read_beyond(const struct walk *x, uint32_t from, uint32_t place) {
    return is_marked(x, place) ? named(x, word_of(x, place, 0) ^ (from == IC_NONE ? 0 : ((uint64_t)from + 1) << 3)) : IC_NONE;
}

/* The places to which the words of a list lead, as many as the table has at most. */
static struct sequence way(const struct walk *x, int is_backward) {
    struct sequence places = {0};
    uint32_t from = IC_NONE, at = named(x, ((const uint64_t *)x->list)[is_backward]);
    while (places.count < x->places && is_marked(x, at)) {
        uint32_t next = x->kind == KIND_XOR ? read_beyond(x, from, at) : read_at(x, at, (size_t)is_backward);
        places.members[places.count++] = at;
        from = at;
        at = next;
    }
    return places;
}

/* ---- The loops ---------------------------------------------------------------------------------------------------------------- */

static void see(const struct walk *x, uint32_t place) {
    expect(seen.count < x->places, "makes more rounds than there are places");
    expect(is_marked(x, place), "gives a place that is not linked");
    seen.members[seen.count++] = place;
}

static int leaves(const struct walk *x, uint32_t place) {
    return (int)(x->leaving >> place & 1);
}

/* Whether a call in the body of a loop has succeeded. */
static int did(const struct walk *x, uint32_t status) {
    expect(status == IC_OK || !x->is_right, ic_status_name(status));
    return status == IC_OK;
}

#define WALKED x->table, x->places, x->list
#define OTHER x->table, x->places, x->other

/* Whether the member is taken off by this call, and is to be linked in the second list or tree. */
#define MOVES(remove) (leaves(x, place) && did(x, remove) && x->is_moving)

static void list_round(const struct walk *x, uint32_t place) {
    see(x, place);
    if (MOVES(ic_list_remove(WALKED, place)))
        did(x, ic_list_push_back(OTHER, place));
}

static void stack_round(const struct walk *x, uint32_t before, uint32_t place) {
    uint32_t removed = place;
    see(x, place);
    if (MOVES(ic_stack_remove_after(WALKED, before, &removed)))
        did(x, ic_stack_push_front(OTHER, place));
    expect(removed == place || !x->is_right, "gives another member in front");
}

static void xor_round(const struct walk *x, uint32_t before, uint32_t place) {
    see(x, place);
    if (MOVES(ic_xor_remove(WALKED, before, place)))
        did(x, ic_xor_push_back(OTHER, place));
}

static void tree_round(const struct walk *x, uint32_t place) {
    see(x, place);
    if (MOVES(ic_tree_remove(WALKED, place)))
        did(x, ic_tree_insert_right(OTHER, ic_tree_before(OTHER, IC_NONE), place));
}

/* A loop with this body. */
#define RUNS(name, loop, body)               \
    static void name(const struct walk *x) { \
        loop body;                           \
    }

/* How many members are in front of those with an even place. */
#define PAIRS(name, LOOP)                                      \
    static uint32_t name(const struct walk *x) {               \
        uint32_t count = 0;                                    \
        LOOP(place, x->table, x->places, x->list) {            \
            if (place % 2 == 1)                                \
                continue;                                      \
            LOOP(other, x->table, x->places, x->list) {        \
                if (other == place)                            \
                    break;                                     \
                count++;                                       \
            }                                                  \
        }                                                      \
        return count;                                          \
    }

RUNS(list, IC_LIST_FOREACH(place, x->table, x->places, x->list), see(x, place))
RUNS(list_back, IC_LIST_FOREACH_REVERSE(place, x->table, x->places, x->list), see(x, place))
RUNS(list_safe, IC_LIST_FOREACH_SAFE(place, next, x->table, x->places, x->list), list_round(x, place))
RUNS(list_back_safe, IC_LIST_FOREACH_REVERSE_SAFE(place, prev, x->table, x->places, x->list), list_round(x, place))
PAIRS(list_pairs, IC_LIST_FOREACH)
RUNS(stack, IC_STACK_FOREACH(place, x->table, x->places, x->list), see(x, place))
RUNS(stack_safe, IC_STACK_FOREACH_SAFE(before, place, x->table, x->places, x->list), stack_round(x, before, place))
PAIRS(stack_pairs, IC_STACK_FOREACH)
RUNS(xor_list, IC_XOR_FOREACH(place, x->table, x->places, x->list), see(x, place))
RUNS(xor_back, IC_XOR_FOREACH_REVERSE(place, x->table, x->places, x->list), see(x, place))
RUNS(xor_safe, IC_XOR_FOREACH_SAFE(before, place, behind, x->table, x->places, x->list), xor_round(x, before, place))
RUNS(xor_back_safe, IC_XOR_FOREACH_REVERSE_SAFE(before, place, behind, x->table, x->places, x->list), xor_round(x, before, place))
PAIRS(xor_pairs, IC_XOR_FOREACH)
RUNS(tree, IC_TREE_FOREACH(place, x->table, x->places, x->list), see(x, place))
RUNS(tree_back, IC_TREE_FOREACH_REVERSE(place, x->table, x->places, x->list), see(x, place))
RUNS(tree_safe, IC_TREE_FOREACH_SAFE(place, next, x->table, x->places, x->list), tree_round(x, place))
RUNS(tree_back_safe, IC_TREE_FOREACH_REVERSE_SAFE(place, prev, x->table, x->places, x->list), tree_round(x, place))
PAIRS(tree_pairs, IC_TREE_FOREACH)

/* The loops, those of a kind in a row, forwards first. */
static const struct loop {
    enum kind kind;
    int is_backward, is_safe;
    void (*run)(const struct walk *);
    const char *name;
} loops[] = {
    {KIND_LIST, 0, 0, list, "IC_LIST_FOREACH"},
    {KIND_LIST, 1, 0, list_back, "IC_LIST_FOREACH_REVERSE"},
    {KIND_LIST, 0, 1, list_safe, "IC_LIST_FOREACH_SAFE"},
    {KIND_LIST, 1, 1, list_back_safe, "IC_LIST_FOREACH_REVERSE_SAFE"},
    {KIND_STACK, 0, 0, stack, "IC_STACK_FOREACH"},
    {KIND_STACK, 0, 1, stack_safe, "IC_STACK_FOREACH_SAFE"},
    {KIND_XOR, 0, 0, xor_list, "IC_XOR_FOREACH"},
    {KIND_XOR, 1, 0, xor_back, "IC_XOR_FOREACH_REVERSE"},
    {KIND_XOR, 0, 1, xor_safe, "IC_XOR_FOREACH_SAFE"},
    {KIND_XOR, 1, 1, xor_back_safe, "IC_XOR_FOREACH_REVERSE_SAFE"},
    {KIND_TREE, 0, 0, tree, "IC_TREE_FOREACH"},
    {KIND_TREE, 1, 0, tree_back, "IC_TREE_FOREACH_REVERSE"},
    {KIND_TREE, 0, 1, tree_safe, "IC_TREE_FOREACH_SAFE"},
    {KIND_TREE, 1, 1, tree_back_safe, "IC_TREE_FOREACH_REVERSE_SAFE"},
};
enum { LOOPS = sizeof loops / sizeof *loops };
static uint64_t rounds[LOOPS][2]; /* over other words, and over right ones */

static uint32_t (*const pairs[KINDS])(const struct walk *) = {list_pairs, stack_pairs, xor_pairs, tree_pairs};

/* Runs a loop, and returns the places that it gave. */
static const struct sequence *run(int loop, const struct walk *x) {
    now = loops[loop].name;
    seen.count = 0;
    loops[loop].run(x);
    rounds[loop][x->is_right] += seen.count;
    return &seen;
}

/* The next loop of a kind behind another one. */
static int loop_behind(int loop, enum kind kind, int is_safe) {
    do
        loop++;
    while (loop < LOOPS && (loops[loop].kind != kind || loops[loop].is_safe != is_safe));
    return loop;
}

static int safe_loop(enum kind kind) {
    int loop = loop_behind(-1, kind, 1), other = loop_behind(loop, kind, 1);
    return other < LOOPS && below(2) ? other : loop;
}

/* ---- Right words -------------------------------------------------------------------------------------------------------------- */

static struct sequence backward(const struct sequence *members) {
    struct sequence turned = {.count = members->count};
    for (uint32_t i = 0; i < members->count; i++)
        turned.members[i] = members->members[members->count - 1 - i];
    return turned;
}

/* The members that leave, or those that stay. */
static struct sequence part(const struct walk *x, const struct sequence *members, int is_leaving) {
    struct sequence places = {0};
    for (uint32_t i = 0; i < members->count; i++)
        if (leaves(x, members->members[i]) == is_leaving)
            places.members[places.count++] = members->members[i];
    return places;
}

static void check_pairs(const struct walk *x, const struct sequence *members) {
    uint32_t expected = 0;
    for (uint32_t i = 0; i < members->count; i++)
        expected += members->members[i] % 2 ? 0 : i;
    now = "a loop in a loop";
    expect(pairs[x->kind](x) == expected, "makes other rounds");
}

/* Each loop gives the members in order, and a SAFE one while some leave. */
static void check_right(struct walk *x, const struct sequence *members) {
    const struct sequence turned = backward(members);
    for (int loop = loop_behind(-1, x->kind, 0); loop < LOOPS; loop = loop_behind(loop, x->kind, 0))
        expect_same(run(loop, x), loops[loop].is_backward ? &turned : members, "gives other members");
    check_pairs(x, members);
    int plain = loop_behind(-1, x->kind, 0), safe = safe_loop(x->kind);
    const struct sequence *in_turn = loops[safe].is_backward ? &turned : members;
    expect_same(run(safe, x), in_turn, "gives other members while some leave");
    struct sequence left = part(x, members, 0), gone = part(x, in_turn, 1), none = {0};
    expect_same(run(plain, x), &left, "finds other members left");
    struct walk second = *x;
    second.list = x->other;
    gone = x->kind == KIND_STACK ? backward(&gone) : gone;
    expect_same(run(plain, &second), x->is_moving ? &gone : &none, "finds other members that have left");
}

/* ---- Other words -------------------------------------------------------------------------------------------------------------- */

/* A read of a link returns what its words say, for any place. */
static void check_reads(const struct walk *x, uint32_t at, uint32_t from) {
    int is_linked = is_marked(x, at);
    now = "a read";
    switch (x->kind) {
    case KIND_LIST:
        expect(ic_list_is_linked(x->table, x->places, at) == is_linked, "of the mark is wrong");
        expect(ic_list_next(x->table, x->places, at) == read_at(x, at, 0), "of the next member is wrong");
        expect(ic_list_prev(x->table, x->places, at) == read_at(x, at, 1), "of the previous member is wrong");
        break;
    case KIND_STACK:
        expect(ic_stack_is_linked(x->table, x->places, at) == is_linked, "of the mark is wrong");
        expect(ic_stack_next(x->table, x->places, at) == read_at(x, at, 0), "of the next member is wrong");
        break;
    case KIND_XOR:
        expect(ic_xor_is_linked(x->table, x->places, at) == is_linked, "of the mark is wrong");
        expect(ic_xor_step(x->table, x->places, from, at) == read_beyond(x, from, at), "of a step is wrong");
        break;
    default:
        expect(ic_tree_is_linked(x->table, x->places, at) == is_linked, "of the mark is wrong");
        expect(ic_tree_left(x->table, x->places, at) == read_at(x, at, 0), "of the left child is wrong");
        expect(ic_tree_right(x->table, x->places, at) == read_at(x, at, 1), "of the right child is wrong");
        expect(ic_tree_parent(x->table, x->places, at) == read_at(x, at, 2), "of the parent is wrong");
    }
}

/* A list is empty exactly if a pop says so, and else its first member is the one that is popped. */
static void check_pop(const struct walk *x) {
    uint32_t status, first, popped = IC_NONE;
    int is_empty;
    switch (x->kind) {
    case KIND_LIST:
        is_empty = ic_list_is_empty(x->list);
        first = ic_list_first(x->list);
        status = ic_list_pop_front(WALKED, &popped);
        break;
    case KIND_STACK:
        is_empty = ic_stack_is_empty(x->list);
        first = ic_stack_first(x->list);
        status = ic_stack_pop_front(WALKED, &popped);
        break;
    case KIND_XOR:
        is_empty = ic_xor_is_empty(x->list);
        first = ic_xor_first(x->list);
        status = ic_xor_pop_front(WALKED, &popped);
        break;
    default:
        is_empty = ic_tree_is_empty(x->list);
        status = ic_tree_first(WALKED, &popped);
        first = popped;
        expect(status != IC_OK || is_marked(x, ic_tree_root(x->list)), "has found a member under no root");
    }
    now = "a pop";
    expect((status == IC_NULL) == is_empty, "says otherwise whether the list is empty");
    expect(popped == (status == IC_OK ? first : IC_NONE), "gives another member than the first");
}

/* Each loop ends, and each read returns what the words say. */
static void check_others(const struct walk *x) {
    for (int loop = loop_behind(-1, x->kind, 0); loop < LOOPS; loop = loop_behind(loop, x->kind, 0)) {
        const struct sequence *places = run(loop, x);
        if (x->kind != KIND_TREE) {
            struct sequence expected = way(x, loops[loop].is_backward);
            expect_same(places, &expected, "gives other places than the words say");
        }
    }
    for (int times = 4; times; times--)
        check_reads(x, place(x->places), place(x->places));
    if (below(2))
        check_pop(x);
    run(safe_loop(x->kind), x);
}

/* ------------------------------------------------------------------------------------------------------------------------------- */

static void spoil(struct walk *x) {
    uint32_t count = (uint32_t)(x->places * sizes[x->kind].link), times = below(4) ? below(4) : 2 * MOST;
    uint64_t *table = x->table, *list = x->list, *other = x->other;
    for (; times; times--)
        switch (below(8)) {
        case 0: list[below((uint32_t)sizes[x->kind].list)] = word(x->places); break;
        case 1: other[below((uint32_t)sizes[x->kind].list)] = word(x->places); break;
        default: if (count) table[below(count)] = word(x->places);
        }
}

/* A table at one end of the page, and loops over it. */
static void try_one(uint64_t *page, uint64_t *end) {
    struct ic_list list, other = {0, 0};
    struct walk x = {.is_right = 1, .list = &list, .other = &other};
    struct sequence members;
    x.kind = (enum kind)below(KINDS);
    x.is_moving = (int)below(2);
    x.places = below(3) ? below(7) : below(MOST + 1);
    x.leaving = (uint32_t)any();
    size_t count = x.places * sizes[x.kind].link;
    uint64_t *table = below(2) ? page : end - count;
    x.table = table;
    for (size_t i = 0; i < count; i++)
        table[i] = below(4) ? 0 : any() << 1;
    shuffle(members.members, (uint32_t)x.places);
    members.count = below((uint32_t)x.places + 1);
    list = lead_through(x.kind, table, members.members, members.count);
    check_right(&x, &members);
    x.is_right = 0;
    spoil(&x);
    check_others(&x);
}

#define IS_NAMED(status) expect(!strcmp(ic_status_name(status), #status), "says another name")

static void check_names(void) {
    now = "ic_status_name";
    IS_NAMED(IC_OK);
    IS_NAMED(IC_OUT_OF_RANGE);
    IS_NAMED(IC_LINKED);
    IS_NAMED(IC_NOT_LINKED);
    IS_NAMED(IC_NULL);
    IS_NAMED(IC_BROKEN);
    expect(!strcmp(ic_status_name(STATUSES), "unknown"), "says a name of no status");
}

int main(int count, char **words) {
    uint64_t *end = end_between_guards(WORDS), *page = end - (size_t)sysconf(_SC_PAGESIZE) / sizeof *end;
    check_names();
    for (uint64_t wanted = calls_wanted(count, words); wanted; wanted--)
        try_one(page, end);
    for (int loop = 0; loop < LOOPS; loop++)
        printf("%s %llu %llu\n", loops[loop].name, (unsigned long long)rounds[loop][1], (unsigned long long)rounds[loop][0]);
    return 0;
}
