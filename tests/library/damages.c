/* Damages of one word, and whether the checks tell.
 *
 *     damages [DAMAGES [SEED]]
 *
 * Random calls make two lists, rings, trees or hash tables of a table, and the check of each has to accept what they made, and count its members.
 * Then one word of a member, or of the list, head, tree or bucket, or a hash is overwritten, and the check has to say whether the words show a
 * sequence still. What they show is read here from the definition alone: over the numbers and marks that the header speaks of, with a note of each
 * place that has been met. There are 10,000 damages of each kind, or more, that leave no sequence. Prints for each check how often it accepted
 * what calls made, how many damages left a sequence, and how many left none.
 */
#include "common.h"
#include <string.h>

enum kind { LIST, STACK, TREE, HASH, RING, KINDS };
enum { PLACES = 20, HEADS = PLACES - 2, BUCKETS = 5, AT_LEAST = 10000, NO_PLACE = -1, OUTSIDE = -2 };

static const char *const names[KINDS] = {"ic_list_check", "ic_stack_check", "ic_tree_check", "ic_hash_check", "ic_ring_check"};
static struct ic_link2 doubly[PLACES]; /* of doubly linked lists, and of rings */
static struct ic_link1 singly[PLACES]; /* of a singly linked list, and of a hash table */
static struct ic_link3 nodes[PLACES];
static struct ic_list lists[2];
static struct ic_stack stacks[2], buckets[2][BUCKETS];
static struct ic_tree trees[2];
static uint64_t keys[PLACES], hashes[PLACES], accepted[KINDS], left_one[KINDS], left_none[KINDS];
static int owner[PLACES]; /* 0 or 1: in which it is; 2: in none; 3: it is the head of a ring */

static void stop(enum kind kind, const char *wrong) {
    printf("%s %s\n", names[kind], wrong);
    exit(1);
}

/* ---- What words show, by the definition ------------------------------------------------------------------------------------------- */

/* The place whose number a word has, NO_PLACE of the number 0, and OUTSIDE of one that is no place of the table. */
static int named(uint64_t word) {
    uint64_t number = word >> 3 & ((UINT64_C(1) << 33) - 1);
    return number == 0 ? NO_PLACE : number > PLACES ? OUTSIDE : (int)number - 1;
}

/* Each gives the number of members, or -1 where no sequence is shown: a place that is met is one of the table, linked, and met once. */
static int count_list(const struct ic_list *list) {
    int is_met[PLACES] = {0}, before = NO_PLACE, count = 0;
    for (int at = named(list->head); at != NO_PLACE; at = named(doubly[at].next)) {
        if (at == OUTSIDE || is_met[at]++ || !(doubly[at].next & 1) || named(doubly[at].prev) != before)
            return -1;
        before = at;
        count++;
    }
    return named(list->tail) == before ? count : -1;
}

/* The members between a head and itself. Each place leads to the next one and back. */
static int count_ring(int head) {
    int is_met[PLACES] = {0}, before = head, count = 0;
    for (int at = named(doubly[head].next); doubly[head].next & 1; at = named(doubly[at].next)) {
        if (at == NO_PLACE || at == OUTSIDE || is_met[at]++ || !(doubly[at].next & 1) || named(doubly[at].prev) != before)
            return -1;
        if (at == head)
            return count;
        before = at;
        count++;
    }
    return -1;
}

static int count_stack(const struct ic_stack *list) {
    int is_met[PLACES] = {0}, count = 0;
    for (int at = named(list->head); at != NO_PLACE; at = named(singly[at].next)) {
        if (at == OUTSIDE || is_met[at]++ || !(singly[at].next & 1))
            return -1;
        count++;
    }
    return count;
}

/* Each member has a hash that leads to its bucket, and is met in that one alone. */
static int count_hash(const struct ic_stack *of) {
    int is_met[PLACES] = {0}, count = 0;
    for (int i = 0; i < BUCKETS; i++)
        for (int at = named(of[i].head); at != NO_PLACE; at = named(singly[at].next)) {
            if (at == OUTSIDE || is_met[at]++ || !(singly[at].next & 1) || hashes[at] % BUCKETS != (uint64_t)i)
                return -1;
            count++;
        }
    return count;
}

/* How many black members are on each way down from a word, or -1 where that is no tree: with a child whose parent is another, a red member under
 * a red one, or more black ones on one side. The root has no parent and is black. */
static int blacks_under(uint64_t word, int parent, int is_under_red, int *is_met, int *count) {
    int at = named(word);
    if (at == NO_PLACE)
        return 0;
    if (at == OUTSIDE || is_met[at]++ || !(nodes[at].left & 1) || named(nodes[at].parent) != parent)
        return -1;
    int is_red = !(nodes[at].parent & 1);
    if (is_red && is_under_red)
        return -1;
    ++*count;
    int left = blacks_under(nodes[at].left, at, is_red, is_met, count), right = blacks_under(nodes[at].right, at, is_red, is_met, count);
    return left < 0 || left != right ? -1 : left + !is_red;
}

static int count_tree(const struct ic_tree *tree) {
    int is_met[PLACES] = {0}, count = 0;
    return blacks_under(tree->root, NO_PLACE, 1, is_met, &count) < 0 ? -1 : count;
}

static int count_shown(enum kind kind, int which) {
    switch (kind) {
    case LIST: return count_list(&lists[which]);
    case STACK: return count_stack(&stacks[which]);
    case HASH: return count_hash(buckets[which]);
    case RING: return count_ring(HEADS + which);
    default: return count_tree(&trees[which]);
    }
}

/* ---- What calls make -------------------------------------------------------------------------------------------------------------- */

static uint32_t link_list(int which, uint32_t place) {
    switch (below(3)) {
    case 0: return ic_list_push_front(doubly, PLACES, &lists[which], place);
    case 1: return ic_list_push_back(doubly, PLACES, &lists[which], place);
    default: return ic_list_insert_after(doubly, PLACES, &lists[which], ic_list_first(&lists[which]), place);
    }
}

static uint32_t link_stack(int which, uint32_t place) {
    uint32_t first = ic_stack_first(&stacks[which]);
    return below(2) ? ic_stack_push_front(singly, PLACES, &stacks[which], place)
                    : ic_stack_insert_after(singly, PLACES, &stacks[which], first, place);
}

static uint32_t link_ring(int which, uint32_t place) {
    const uint32_t head = HEADS + (uint32_t)which;
    switch (below(3)) {
    case 0: return ic_ring_push_front(doubly, PLACES, head, place);
    case 1: return ic_ring_push_back(doubly, PLACES, head, place);
    default: return ic_ring_insert_after(doubly, PLACES, ic_ring_next(doubly, PLACES, head), place);
    }
}

/* Takes a member off, and returns it, or IC_NONE. */
static uint32_t unlink_some(enum kind kind, int which) {
    uint32_t place = below(PLACES), status;
    if (kind == STACK)
        return ic_stack_pop_front(singly, PLACES, &stacks[which], &place) == IC_OK ? place : IC_NONE;
    if (owner[place] != which)
        return IC_NONE;
    status = kind == LIST ? ic_list_remove(doubly, PLACES, &lists[which], place)
             : kind == HASH ? ic_hash_remove(singly, PLACES, buckets[which], BUCKETS, hashes[place], place)
             : kind == RING ? ic_ring_remove(doubly, PLACES, place)
                            : ic_tree_remove(nodes, PLACES, &trees[which], place);
    return status == IC_OK ? place : IC_NONE;
}

/* A call that links a place or takes one off. */
static void edit(enum kind kind, int which) {
    uint32_t place = below(PLACES), status;
    if (below(4) == 0) {
        place = unlink_some(kind, which);
        if (place != IC_NONE)
            owner[place] = 2;
        return;
    }
    if (owner[place] != 2)
        return;
    keys[place] = below(PLACES);
    hashes[place] = any();
    status = kind == LIST ? link_list(which, place)
             : kind == STACK ? link_stack(which, place)
             : kind == HASH ? ic_hash_insert(singly, PLACES, buckets[which], BUCKETS, hashes[place], place)
             : kind == RING ? link_ring(which, place)
                             : ic_tree_insert(nodes, PLACES, keys, PLACES, &trees[which], place);
    if (status != IC_OK)
        stop(kind, "is tried after an edit that is refused");
    owner[place] = which;
}

/* ---- Checks and damages ----------------------------------------------------------------------------------------------------------- */

static uint32_t checked(enum kind kind, int which, uint64_t *members) {
    switch (kind) {
    case LIST: return ic_list_check(doubly, PLACES, &lists[which], members);
    case STACK: return ic_stack_check(singly, PLACES, &stacks[which], members);
    case HASH: return ic_hash_check(singly, PLACES, hashes, PLACES, buckets[which], BUCKETS, members);
    case RING: return ic_ring_check(doubly, PLACES, HEADS + (uint32_t)which, members);
    default: return ic_tree_check(nodes, PLACES, &trees[which], members);
    }
}

/* The check says that there are so many members, or for -1 that there is no sequence. Of a head that is not linked it says that. */
static void expect_check(enum kind kind, int which, int count) {
    const uint32_t refusal = kind == RING && !(doubly[HEADS + which].next & 1) ? IC_NOT_LINKED : IC_BROKEN;
    uint64_t members = UINT64_MAX;
    uint32_t status = checked(kind, which, &members);
    if (count < 0 ? status != refusal || members != UINT64_MAX : status != IC_OK || members != (uint64_t)count)
        stop(kind, count < 0 ? "accepts words that show no sequence" : "refuses words that show a sequence, or counts others");
}

/* A word at random, often one that names another place, or has another mark. */
static uint64_t overwritten(uint64_t word) {
    switch (below(5)) {
    case 0: return word ^ UINT64_C(1) << below(64);
    case 1: return any();
    case 2: return below(2);
    default: return ic_word(below(PLACES + 2)) + below(2);
    }
}

/* A word of a member, or of the list, head, tree or bucket itself, or a hash. */
static uint64_t *some_word(enum kind kind, int which, uint32_t place) {
    int of_itself = owner[place] != which || below(8) == 0;
    if (kind == LIST)
        return of_itself ? below(2) ? &lists[which].head : &lists[which].tail : below(2) ? &doubly[place].next : &doubly[place].prev;
    if (kind == STACK)
        return of_itself ? &stacks[which].head : &singly[place].next;
    if (kind == HASH)
        return of_itself ? &buckets[which][below(BUCKETS)].head : below(4) ? &singly[place].next : &hashes[place];
    if (kind == RING) {
        struct ic_link2 *link = &doubly[of_itself ? HEADS + (uint32_t)which : place];
        return below(2) ? &link->next : &link->prev;
    }
    uint64_t *const of_node[] = {&nodes[place].left, &nodes[place].right, &nodes[place].parent};
    return of_itself ? &trees[which].root : of_node[below(3)];
}

/* The bits that count: a number, and of the first word of a link a mark. */
static int says_the_same(const uint64_t *word, uint64_t was, int which) {
    int is_marked = word != &lists[which].head && word != &lists[which].tail && (size_t)(word - &doubly[0].next) % 2 == 0;
    return *word >> 3 << 31 == was >> 3 << 31 && (!is_marked || (*word & 1) == (was & 1));
}

static void damage(enum kind kind, int which) {
    uint64_t *word = some_word(kind, which, below(PLACES)), was = *word;
    *word = overwritten(was);
    int count = count_shown(kind, which);
    if ((kind == LIST || kind == RING) && (count < 0) == says_the_same(word, was, which))
        stop(kind, "is tried on a damage that is none, or on none that is one");
    expect_check(kind, which, count);
    ++*(count < 0 ? &left_none[kind] : &left_one[kind]);
    *word = was;
}

static int is_done(uint64_t wanted) {
    uint64_t damages = 0;
    int lacks = 0;
    for (int kind = 0; kind < KINDS; kind++) {
        damages += left_one[kind] + left_none[kind];
        lacks |= left_none[kind] < AT_LEAST;
    }
    return damages >= wanted && !lacks;
}

int main(int count, char **words) {
    uint64_t wanted = calls_wanted(count, words);
    while (!is_done(wanted)) {
        enum kind kind = (enum kind)below(KINDS);
        memset(doubly, 0, sizeof doubly);
        memset(singly, 0, sizeof singly);
        memset(nodes, 0, sizeof nodes);
        memset(lists, 0, sizeof lists);
        memset(stacks, 0, sizeof stacks);
        memset(buckets, 0, sizeof buckets);
        memset(trees, 0, sizeof trees);
        for (int place = 0; place < PLACES; place++)
            owner[place] = 2;
        for (uint32_t which = 0; which < 2 && kind == RING; which++) {
            if (ic_ring_init(doubly, PLACES, HEADS + which) != IC_OK)
                stop(kind, "is tried without a head");
            owner[HEADS + which] = 3;
        }
        for (uint32_t edits = below(3 * PLACES); edits; edits--)
            edit(kind, (int)below(2));
        for (int which = 0; which < 2; which++) {
            int members = 0;
            for (int place = 0; place < PLACES; place++)
                members += owner[place] == which;
            if (count_shown(kind, which) != members)
                stop(kind, "is tried on a table in which calls left other members");
            expect_check(kind, which, members);
            accepted[kind]++;
            for (int i = 0; i < 12; i++)
                damage(kind, which);
        }
    }
    for (int kind = 0; kind < KINDS; kind++)
        printf("%s %llu %llu %llu\n", names[kind], (unsigned long long)accepted[kind], (unsigned long long)left_one[kind],
               (unsigned long long)left_none[kind]);
    return 0;
}
