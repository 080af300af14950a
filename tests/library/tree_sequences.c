/* Random calls on trees beside plain sequences, which are arrays of places in order by their keys.
 *
 *     tree_sequences [CALLS [SEED]]
 *
 * Two trees are in one table. After each call the words of the tree have to be those of a red-black tree in the sequence's order, which the
 * reads of the header walk through, and all other words have to be as they were. One of some calls has a fault, and must be refused for it.
 * Prints for each call how often it returned each status.
 */
#define CALLS(X)                                                                           \
    X(tree_ends_insert_left) X(tree_ends_insert_right) X(tree_ends_insert)                 \
    X(tree_ends_remove) X(tree_ends_replace) X(tree_ends_pop_first)                        \
    X(tree_insert_left) X(tree_insert_right) X(tree_remove) X(tree_replace) X(tree_clear)  \
    X(tree_append) X(tree_join) X(tree_split)                                              \
    X(tree_insert) X(tree_insert_unique) X(tree_insert_by) X(tree_insert_unique_by)        \
    X(tree_find) X(tree_lower_bound) X(tree_upper_bound)                                   \
    X(tree_find_by) X(tree_lower_bound_by) X(tree_upper_bound_by)                          \
    X(tree_next) X(tree_prev) X(tree_check)

enum { PLACES = 64, TREES = 2, NOBODY = TREES, MORE_KEYS = 3, TALLEST = 12, UNSET = 123456789 };

#include "expected.h"
#include "plain.h"

static struct ic_link3 table[PLACES], table_was[PLACES];
static struct ic_tree trees[TREES], trees_were[TREES];
static struct ic_tree_ends ends; /* of the tree of a call that keeps them */
static uint64_t keys[PLACES + MORE_KEYS];
static struct sequence sequences[TREES];
static int owner[PLACES], is_growing;

/* ---- What the words have to be ------------------------------------------------------------------------------------------------ */

/* The members under a place are those of the sequence from `next` on. Returns how many black ones are on each way down. */
static int check_under(const struct sequence *plain, uint32_t *next, uint32_t at, uint32_t parent, int parent_is_black, int height) {
    if (at == IC_NONE)
        return 0;
    expect(at < PLACES && owner[at] != NOBODY && height <= TALLEST, "left a child that is no member, or a tree that is too high");
    uint32_t left = ic_tree_left(table, PLACES, at), right = ic_tree_right(table, PLACES, at);
    int is_black = (int)(table[at].parent & 1);
    expect(ic_tree_parent(table, PLACES, at) == parent, "left another parent");
    expect(table[at].left == ic_word(left) + 1 && table[at].right == ic_word(right), "left other words of children");
    expect(table[at].parent == ic_word(parent) + (uint64_t)is_black, "left another word of the parent");
    expect(is_black || parent_is_black, "left a red member under a red one, or a red root");
    int black = check_under(plain, next, left, at, is_black, height + 1);
    expect(at == member(plain, (*next)++), "left another order");
    expect(black == check_under(plain, next, right, at, is_black, height + 1), "left more black members on one side");
    return black + is_black;
}

static void check(int tree) {
    const struct sequence *plain = &sequences[tree];
    uint32_t next = 0;
    expect(trees[tree].root == ic_word(ic_tree_root(&trees[tree])), "left another root");
    expect(ic_tree_is_empty(&trees[tree]) == !plain->count, "has an emptiness that reads wrong");
    check_under(plain, &next, ic_tree_root(&trees[tree]), IC_NONE, 0, 1);
    expect(next == plain->count, "left out some members");
    for (uint32_t i = 1; i < plain->count; i++)
        expect(keys[plain->members[i - 1]] <= keys[plain->members[i]], "is not tested in order");
}

/* The words of all but one tree, and of all places but its members and those that were unlinked or linked, are as they were. */
static void check_others(int tree, uint32_t in, uint32_t out) {
    for (uint32_t at = 0; at < PLACES; at++) {
        expect(ic_tree_is_linked(table, PLACES, at) == (owner[at] != NOBODY), "has marks that read wrong");
        if (owner[at] != tree && at != in && at != out)
            expect(!memcmp(&table[at], &table_was[at], sizeof *table), "has changed another link");
    }
    for (int other = 0; other < TREES; other++)
        expect(other == tree || trees[other].root == trees_were[other].root, "has changed another tree");
}

static void check_same(void) {
    expect(!memcmp(table, table_was, sizeof table) && !memcmp(trees, trees_were, sizeof trees), "has changed something");
}

/* ---- What is handed in -------------------------------------------------------------------------------------------------------- */

/* A place to link: mostly one that is unlinked. */
static uint32_t to_link(void) {
    uint32_t place = below(PLACES);
    for (uint32_t tries = below(64); tries && owner[place] != NOBODY; tries--)
        place = (place + 1) % PLACES;
    if (below(16) == 0)
        place = below(2) ? PLACES : below(IC_NONE - PLACES) + PLACES;
    fault(place >= PLACES, IC_OUT_OF_RANGE);
    fault(place < PLACES && owner[place] != NOBODY, IC_LINKED);
    return place;
}

/* The member, or now and then a place that is none. */
static uint32_t or_none(uint32_t at) {
    uint32_t other = below(PLACES + 1);
    if (below(16) || (other < PLACES && owner[other] != NOBODY))
        return at;
    fault(1, other == PLACES ? IC_OUT_OF_RANGE : IC_NOT_LINKED);
    return other;
}

/* How many keys there are: now and then fewer than places. */
static size_t key_count(void) {
    size_t count = below(16) ? PLACES + below(MORE_KEYS + 1) : below(PLACES);
    fault(count < PLACES, IC_OUT_OF_RANGE);
    return count;
}

static uint64_t any_key(void) {
    switch (below(8)) {
    case 0: return any();
    case 1: return below(2) ? 0 : UINT64_MAX;
    case 2: return keys[below(PLACES)];
    default: return below(24);
    }
}

/* Gives an unlinked place a key that is not below that of one member, nor above that of another. */
static void give_key(uint32_t place, uint32_t low, uint32_t high) {
    uint64_t least = low == IC_NONE ? 0 : keys[low], range = (high == IC_NONE ? UINT64_MAX : keys[high]) - least;
    uint64_t most = below(2) && range > 8 ? 8 : range < UINT64_MAX ? range + 1 : range;
    if (place < PLACES && owner[place] == NOBODY)
        keys[place] = least + (below(4) ? any() % most : 0);
}

/* How many members have a smaller key, or one that is not greater. */
static uint32_t count_below(const struct sequence *plain, uint64_t key, int or_equal) {
    uint32_t count = 0;
    while (count < plain->count && (keys[plain->members[count]] < key || (or_equal && keys[plain->members[count]] == key)))
        count++;
    return count;
}

/* ---- Calls -------------------------------------------------------------------------------------------------------------------- */

static void link_at(int t, uint32_t i, uint32_t place) {
    insert(&sequences[t], i, &place, 1);
    owner[place] = t;
    check_others(t, place, place);
}

static int keeps_ends(void) {
    return now <= CALL_tree_ends_pop_first;
}

static uint32_t insert_at(int t, int is_left, uint32_t at, uint32_t place) {
    if (keeps_ends())
        return (is_left ? ic_tree_ends_insert_left : ic_tree_ends_insert_right)(table, PLACES, &trees[t], &ends, at, place);
    return (is_left ? ic_tree_insert_left : ic_tree_insert_right)(table, PLACES, &trees[t], at, place);
}

/* Under the member on the one side of the gap, if there is room: in front of the one behind, or behind the one in front. */
static void step_insert_at(int t, uint32_t i) {
    struct sequence *plain = &sequences[t];
    int is_left = now == CALL_tree_insert_left || now == CALL_tree_ends_insert_left;
    uint32_t place = to_link(), at = is_left ? member(plain, i) : before(plain, i), named = or_none(at);
    give_key(place, before(plain, i), member(plain, i));
    fault(named == at && at == IC_NONE && plain->count, IC_BROKEN);
    fault(named == at && at != IC_NONE && (is_left ? ic_tree_left : ic_tree_right)(table, PLACES, at) != IC_NONE, IC_BROKEN);
    if (made(insert_at(t, is_left, named, place)))
        link_at(t, i, place);
}

static void step_insert(int t) {
    uint32_t place = to_link();
    size_t count = key_count();
    if (place < PLACES && owner[place] == NOBODY)
        keys[place] = any_key();
    if (made(keeps_ends() ? ic_tree_ends_insert(table, PLACES, keys, count, &trees[t], &ends, place)
                          : ic_tree_insert(table, PLACES, keys, count, &trees[t], place)))
        link_at(t, count_below(&sequences[t], keys[place], 1), place);
}

/* How a key compares with that of a member. */
static int order(uint64_t key, uint32_t at) {
    return (key > keys[at]) - (key < keys[at]);
}

/* An insertion by a comparison, or of a key that no other member has. What it hands out is the member with the key. */
static void step_insert_otherwise(int t) {
    const int is_by = now != CALL_tree_insert_unique, is_unique = now != CALL_tree_insert_by;
    uint32_t place = to_link(), status, found = UNSET;
    size_t count = is_by ? PLACES : key_count();
    if (place < PLACES && owner[place] == NOBODY)
        keys[place] = any_key();
    const uint64_t key = place < PLACES ? keys[place] : 0;
    const uint32_t lower = member(&sequences[t], count_below(&sequences[t], key, 0));
    const int is_there = is_unique && !faults && lower != IC_NONE && keys[lower] == key;
    if (!is_by)
        status = ic_tree_insert_unique(table, PLACES, keys, count, &trees[t], place, &found);
    else if (is_unique)
        IC_TREE_INSERT_UNIQUE_BY(status, found, table, PLACES, &trees[t], place, order(key, found));
    else
        IC_TREE_INSERT_BY(status, found, table, PLACES, &trees[t], place, order(key, found));
    const int is_made = made(status);
    if (is_there)
        expect(is_by ? owner[found] == t && keys[found] == key : found == lower, "gave another member than the one with the key");
    else
        expect(found == (is_made ? place : is_by ? (uint32_t)IC_NONE : (uint32_t)UNSET), "gave another member than the place");
    if (is_made && !is_there)
        link_at(t, count_below(&sequences[t], key, 1), place);
}

/* Now and then the root of another tree, which is no member of this one. */
static uint32_t or_root(int t, uint32_t named) {
    int other = (int)below(TREES);
    uint32_t root = ic_tree_root(&trees[other]);
    if (other == t || root == IC_NONE || below(8))
        return named;
    fault(1, IC_BROKEN);
    return root;
}

static void step_remove(int t, uint32_t i) {
    uint32_t at = member(&sequences[t], i), named = at == IC_NONE ? at : or_root(t, or_none(at));
    fault(at == IC_NONE, IC_NULL);
    if (made(keeps_ends() ? ic_tree_ends_remove(table, PLACES, &trees[t], &ends, named) : ic_tree_remove(table, PLACES, &trees[t], named))) {
        take(&sequences[t], i, 1);
        owner[at] = NOBODY;
        check_others(t, at, at);
    }
}

/* The first member, unless it is none of the table. */
static void step_pop_first(int t) {
    const uint32_t first = member(&sequences[t], 0);
    uint32_t out = UNSET;
    const int is_short = first != IC_NONE && below(8) == 0;
    fault(first == IC_NONE, IC_NULL);
    fault(is_short, IC_BROKEN);
    const int is_made = made(ic_tree_ends_pop_first(table, is_short ? first : PLACES, &trees[t], &ends, &out));
    expect(out == (is_made ? first : UNSET), "gave another member");
    if (is_made) {
        take(&sequences[t], 0, 1);
        owner[first] = NOBODY;
        check_others(t, first, first);
    }
}

static void step_replace(int t, uint32_t i) {
    struct sequence *plain = &sequences[t];
    uint32_t place = to_link(), at = member(plain, i), named = at == IC_NONE ? at : or_root(t, or_none(at));
    fault(at == IC_NONE, IC_NULL);
    give_key(place, before(plain, i), i < plain->count ? member(plain, i + 1) : IC_NONE);
    if (made(keeps_ends() ? ic_tree_ends_replace(table, PLACES, &trees[t], &ends, named, place)
                          : ic_tree_replace(table, PLACES, &trees[t], named, place))) {
        plain->members[i] = place;
        owner[at] = NOBODY;
        owner[place] = t;
        check_others(t, place, at);
    }
}

/* All members, unless the root is none of the table. */
static void step_clear(int t) {
    struct sequence *plain = &sequences[t];
    int is_short = plain->count && below(2);
    fault(is_short, IC_BROKEN);
    if (!made(ic_tree_clear(table, is_short ? ic_tree_root(&trees[t]) : PLACES, &trees[t])))
        return;
    for (uint32_t i = 0; i < plain->count; i++) {
        owner[plain->members[i]] = NOBODY;
        table_was[plain->members[i]] = table[plain->members[i]];
    }
    plain->count = 0;
    check_others(t, IC_NONE, IC_NONE);
}

/* Two trees are tested after a call, of which one place may have come in. All else is as it was. */
static void check_both(int t, int other, uint32_t in) {
    for (uint32_t at = 0; at < PLACES; at++)
        if (owner[at] == t || owner[at] == other)
            table_was[at] = table[at];
    trees_were[other] = trees[other];
    check(other);
    check_others(t, in, in);
}

/* The members of one tree from `from` on come after those of the other one. */
static void move_members(int to, int from_tree, uint32_t from) {
    struct sequence *plain = &sequences[to], *given = &sequences[from_tree];
    const uint32_t count = given->count - from;
    for (uint32_t i = from; i < given->count; i++)
        owner[given->members[i]] = to;
    insert(plain, plain->count, &given->members[from], count);
    take(given, from, count);
}

/* The keys of a tree's members rise to the last key of the other one, so that both in turn are in order. */
static void raise_keys(int to, int given) {
    const uint32_t last = before(&sequences[to], sequences[to].count);
    for (uint32_t i = 0; last != IC_NONE && i < sequences[given].count; i++)
        if (keys[sequences[given].members[i]] < keys[last])
            keys[sequences[given].members[i]] = keys[last];
}

/* Now and then one member of a tree has another color, so that the tree is none. Returns the member, or IC_NONE. */
static uint32_t color_another(int t) {
    const uint32_t at = below(8) ? IC_NONE : member(&sequences[t], below(sequences[t].count + 1));
    if (at != IC_NONE)
        table[at].parent ^= 1;
    fault(at != IC_NONE, IC_BROKEN);
    return at;
}

static void color_back(uint32_t at) {
    if (at != IC_NONE)
        table[at].parent ^= 1;
}

/* All of the other tree goes after this one, or a place and then all of it. Now and then the other tree is this one by another name. */
static void step_append(int t) {
    const int given = (t + 1) % TREES, is_join = now == CALL_tree_join, is_twin = below(16) == 0;
    struct ic_tree twin = trees[t], *named = is_twin ? &twin : &trees[given];
    const uint32_t place = is_join ? to_link() : IC_NONE;
    raise_keys(t, given);
    if (is_join)
        give_key(place, before(&sequences[t], sequences[t].count), member(&sequences[given], 0));
    fault(is_twin && sequences[t].count, IC_BROKEN);
    const uint32_t colored = color_another(below(2) || is_twin ? t : given);
    const int is_made = made(is_join ? ic_tree_join(table, PLACES, &trees[t], place, named) : ic_tree_append(table, PLACES, &trees[t], named));
    color_back(colored);
    if (!is_made)
        return;
    expect(ic_tree_is_empty(named), "left members in the tree that was given");
    if (is_join) {
        insert(&sequences[t], sequences[t].count, &place, 1);
        owner[place] = t;
    }
    if (!is_twin)
        move_members(t, given, 0);
    check_both(t, given, place);
}

/* A member and all after it go to the other tree, which has to be empty. Mostly it is emptied first. */
static void step_split(int t, uint32_t i) {
    const int rest = (t + 1) % TREES;
    uint32_t at = member(&sequences[t], i), named = at == IC_NONE ? at : or_root(t, or_none(at));
    if (below(4) && !faults && sequences[rest].count) {
        raise_keys(t, rest);
        expect(ic_tree_append(table, PLACES, &trees[t], &trees[rest]) == IC_OK, "is not tested, since two trees were not appended");
        move_members(t, rest, 0);
        check(t);
        memcpy(table_was, table, sizeof table);
        memcpy(trees_were, trees, sizeof trees);
        named = at = member(&sequences[t], i = below(sequences[t].count + 1));
    }
    fault(at == IC_NONE, IC_NULL);
    fault(at != IC_NONE && sequences[rest].count, IC_BROKEN);
    const uint32_t colored = color_another(t);
    if (named == IC_NONE)
        faults = 1u << IC_NULL;
    const int is_made = made(ic_tree_split(table, PLACES, &trees[t], named, &trees[rest]));
    color_back(colored);
    if (is_made) {
        move_members(rest, t, i);
        check_both(t, rest, IC_NONE);
    }
}

/* What a call that reads gave is a member, and nothing if it refused. */
static void check_found(uint32_t status, uint32_t found, uint32_t expected) {
    expect(found == (made(status) ? expected : UNSET), "gave another member");
}

static void step_search(int t) {
    const struct sequence *plain = &sequences[t];
    uint64_t key = any_key();
    uint32_t lower = member(plain, count_below(plain, key, 0)), upper = before(plain, count_below(plain, key, 1)), found = UNSET;
    uint32_t expected = now == CALL_tree_lower_bound ? lower : now == CALL_tree_upper_bound ? upper : IC_NONE;
    if (now == CALL_tree_find && lower != IC_NONE && keys[lower] == key)
        expected = lower;
    size_t count = key_count();
    fault(expected == IC_NONE, IC_NULL);
    uint32_t status = now == CALL_tree_find          ? ic_tree_find(table, PLACES, keys, count, &trees[t], key, &found)
                      : now == CALL_tree_lower_bound ? ic_tree_lower_bound(table, PLACES, keys, count, &trees[t], key, &found)
                                                     : ic_tree_upper_bound(table, PLACES, keys, count, &trees[t], key, &found);
    check_found(status, found, expected);
}

/* A search by a comparison gives what one by keys gives. */
static void step_search_by(int t) {
    const struct sequence *plain = &sequences[t];
    uint64_t key = any_key();
    uint32_t lower = member(plain, count_below(plain, key, 0)), upper = before(plain, count_below(plain, key, 1)), found;
    if (now == CALL_tree_find_by) {
        IC_TREE_FIND_BY(found, table, PLACES, &trees[t], order(key, found));
        lower = lower != IC_NONE && keys[lower] == key ? lower : IC_NONE;
    } else if (now == CALL_tree_lower_bound_by)
        IC_TREE_LOWER_BOUND_BY(found, table, PLACES, &trees[t], order(key, found));
    else
        IC_TREE_UPPER_BOUND_BY(found, table, PLACES, &trees[t], order(key, found));
    made(IC_OK);
    expect(found == (now == CALL_tree_upper_bound_by ? upper : lower), "gave another member");
}

static void step_on(int t, uint32_t i) {
    const struct sequence *plain = &sequences[t];
    int is_next = now == CALL_tree_next;
    uint32_t at = member(plain, i), named = or_none(at), found = UNSET;
    uint32_t expected = at == IC_NONE && is_next ? member(plain, 0) : is_next ? member(plain, i + 1) : before(plain, i);
    fault(expected == IC_NONE && named == at, IC_NULL);
    uint32_t status = (is_next ? ic_tree_next : ic_tree_prev)(table, PLACES, &trees[t], named, &found);
    check_found(status, found, expected);
}

/* A tree is checked, which tells how many members it has. Now and then one word is turned for it, or the table is too short. */
static void step_check(int t) {
    const struct sequence *plain = &sequences[t];
    uint32_t at = member(plain, below(plain->count + 1));
    size_t places = at != IC_NONE && below(4) == 0 ? at : PLACES;
    uint64_t members = UNSET, turned = at == IC_NONE || below(2) ? 0 : 1 + below(2), other = 8 * (1 + any() % (UINT64_C(1) << 32));
    uint64_t *word = at == IC_NONE ? NULL : below(2) ? &table[at].left : below(2) ? &table[at].right : &table[at].parent;
    if (word)
        *word ^= turned == 2 ? other : turned && word != &table[at].right;
    fault(places < PLACES || (word && *word != (&table_was[at].left)[word - &table[at].left]), IC_BROKEN);
    uint32_t status = ic_tree_check(table, places, &trees[t], &members);
    memcpy(table, table_was, sizeof table);
    expect(members == (made(status) ? plain->count : UNSET), "counted other members");
}

/* The ends of a tree, as its sequence has them. */
static struct ic_tree_ends ends_of(int t) {
    const struct sequence *plain = &sequences[t];
    return (struct ic_tree_ends){ic_word(member(plain, 0)), ic_word(before(plain, plain->count))};
}

static void check_ends(int t) {
    const struct sequence *plain = &sequences[t];
    const struct ic_tree_ends wanted = ends_of(t);
    expect(ends.first == wanted.first && ends.last == wanted.last, "left other ends");
    expect(ic_tree_ends_first(table, PLACES, &ends) == member(plain, 0), "has a first member that reads wrong");
    expect(ic_tree_ends_last(table, PLACES, &ends) == before(plain, plain->count), "has a last member that reads wrong");
}

static void step(void) {
    int t = (int)below(TREES);
    uint32_t i = below(sequences[t].count + 1);
    memcpy(table_was, table, sizeof table);
    memcpy(trees_were, trees, sizeof trees);
    ends = ends_of(t);
    switch (now) {
    case CALL_tree_ends_insert_left:
    case CALL_tree_ends_insert_right:
    case CALL_tree_insert_left:
    case CALL_tree_insert_right: step_insert_at(t, i); break;
    case CALL_tree_ends_remove:
    case CALL_tree_remove: step_remove(t, i); break;
    case CALL_tree_ends_pop_first: step_pop_first(t); break;
    case CALL_tree_ends_replace:
    case CALL_tree_replace: step_replace(t, i); break;
    case CALL_tree_clear: step_clear(t); break;
    case CALL_tree_append:
    case CALL_tree_join: step_append(t); break;
    case CALL_tree_split: step_split(t, i); break;
    case CALL_tree_ends_insert:
    case CALL_tree_insert: step_insert(t); break;
    case CALL_tree_insert_unique:
    case CALL_tree_insert_by:
    case CALL_tree_insert_unique_by: step_insert_otherwise(t); break;
    case CALL_tree_check: step_check(t); break;
    case CALL_tree_find:
    case CALL_tree_lower_bound:
    case CALL_tree_upper_bound: step_search(t); break;
    case CALL_tree_find_by:
    case CALL_tree_lower_bound_by:
    case CALL_tree_upper_bound_by: step_search_by(t); break;
    default: step_on(t, i);
    }
    if (keeps_ends())
        check_ends(t);
    if (faults || now > CALL_tree_insert_unique_by)
        check_same();
    else
        check(t);
}

/* Any call, by turns with more inserts and more removals, so that trees of all sizes come up. */
static enum call choose(void) {
    enum call call = (enum call)below(COUNT);
    int inserts = call <= CALL_tree_ends_insert || call == CALL_tree_insert_left || call == CALL_tree_insert_right
                  || (call >= CALL_tree_insert && call <= CALL_tree_insert_unique_by);
    int removes = call == CALL_tree_remove || call == CALL_tree_ends_remove || call == CALL_tree_ends_pop_first;
    if (!below(512))
        is_growing = !is_growing;
    int is_rare = (call == CALL_tree_clear && below(64)) || (call >= CALL_tree_append && call <= CALL_tree_split && below(8));
    return is_rare || ((is_growing ? removes : inserts) && below(8)) ? choose() : call;
}

int main(int count, char **words) {
    uint64_t wanted = calls_wanted(count, words);
    for (int place = 0; place < PLACES; place++) {
        table[place].left = any() << 1;
        table[place].right = any();
        table[place].parent = any();
        owner[place] = NOBODY;
    }
    while (done < wanted) {
        now = choose();
        faults = 0;
        step();
    }
    for (int call = 0; call < COUNT; call++)
        report(names[call], returned[call]);
    return 0;
}
