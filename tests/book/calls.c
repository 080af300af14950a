/* The calls of a play page, made by the library for C: each line of the input is a call on one of the collections.
 *
 *     printf 'list push_back 3\ntree insert 0 50\n' | ./calls
 *
 * Prints a line for each call with its status. Then it prints, for each collection, the members and the rows of its table, as the page draws
 * them. Each circle of the table of rings has a line, and so has each bucket of the hash table.
 */
#include "ic.h"
#include <stdio.h>
#include <string.h>

enum { PLACES = 16, BUCKETS = 4 };

static struct ic_link2 links[PLACES], pairs[PLACES];
static struct ic_link1 ones[PLACES], nexts[PLACES], chains[PLACES];
static struct ic_link3 nodes[PLACES];
static uint64_t keys[PLACES], hash_keys[PLACES];
static struct ic_list list;
static struct ic_xor_list xor_list;
static struct ic_stack stack, buckets[BUCKETS];
static struct ic_tree tree;
static int is_head[PLACES];

/* A call with its numbers, and the member that it hands out. */
struct call {
    const char *name;
    uint32_t a, b, c, member;
};

static int is(const struct call *call, const char *name)
{
    return !strcmp(call->name, name);
}

static uint32_t on_list(struct call *it)
{
    if (is(it, "push_front")) return ic_list_push_front(links, PLACES, &list, it->a);
    if (is(it, "push_back")) return ic_list_push_back(links, PLACES, &list, it->a);
    if (is(it, "pop_front")) return ic_list_pop_front(links, PLACES, &list, &it->member);
    if (is(it, "pop_back")) return ic_list_pop_back(links, PLACES, &list, &it->member);
    if (is(it, "insert_after")) return ic_list_insert_after(links, PLACES, &list, it->a, it->b);
    if (is(it, "insert_before")) return ic_list_insert_before(links, PLACES, &list, it->a, it->b);
    if (is(it, "remove")) return ic_list_remove(links, PLACES, &list, it->a);
    if (is(it, "replace")) return ic_list_replace(links, PLACES, &list, it->a, it->b);
    if (is(it, "move_to_front")) return ic_list_move_to_front(links, PLACES, &list, it->a);
    return IC_BROKEN;
}

static uint32_t on_xor(struct call *it)
{
    if (is(it, "push_front")) return ic_xor_push_front(ones, PLACES, &xor_list, it->a);
    if (is(it, "push_back")) return ic_xor_push_back(ones, PLACES, &xor_list, it->a);
    if (is(it, "pop_front")) return ic_xor_pop_front(ones, PLACES, &xor_list, &it->member);
    if (is(it, "insert_between")) return ic_xor_insert_between(ones, PLACES, &xor_list, it->a, it->b, it->c);
    if (is(it, "remove")) return ic_xor_remove(ones, PLACES, &xor_list, it->a, it->b);
    if (is(it, "replace")) return ic_xor_replace(ones, PLACES, &xor_list, it->a, it->b, it->c);
    if (is(it, "reverse")) return ic_xor_reverse(&xor_list);
    return IC_BROKEN;
}

static uint32_t on_stack(struct call *it)
{
    if (is(it, "push_front")) return ic_stack_push_front(nexts, PLACES, &stack, it->a);
    if (is(it, "pop_front")) return ic_stack_pop_front(nexts, PLACES, &stack, &it->member);
    if (is(it, "insert_after")) return ic_stack_insert_after(nexts, PLACES, &stack, it->a, it->b);
    if (is(it, "remove_after")) return ic_stack_remove_after(nexts, PLACES, &stack, it->a, &it->member);
    if (is(it, "fill")) return ic_stack_fill(nexts, PLACES, &stack, it->a, it->b);
    return IC_BROKEN;
}

static uint32_t on_ring(struct call *it)
{
    if (is(it, "init")) return ic_ring_init(pairs, PLACES, it->a);
    if (is(it, "insert_after")) return ic_ring_insert_after(pairs, PLACES, it->a, it->b);
    if (is(it, "insert_before")) return ic_ring_insert_before(pairs, PLACES, it->a, it->b);
    if (is(it, "push_front")) return ic_ring_push_front(pairs, PLACES, it->a, it->b);
    if (is(it, "push_back")) return ic_ring_push_back(pairs, PLACES, it->a, it->b);
    if (is(it, "pop_front")) return ic_ring_pop_front(pairs, PLACES, it->a, &it->member);
    if (is(it, "pop_back")) return ic_ring_pop_back(pairs, PLACES, it->a, &it->member);
    if (is(it, "remove")) return ic_ring_remove(pairs, PLACES, it->a);
    if (is(it, "exchange")) return ic_ring_exchange(pairs, PLACES, it->a, it->b);
    return IC_BROKEN;
}

/* The hash of a key is the key. */
static uint32_t on_hash(struct call *it)
{
    if (is(it, "insert")) {
        if (it->a < PLACES && !ic_stack_is_linked(chains, PLACES, it->a)) hash_keys[it->a] = it->b; /* a member keeps its key */
        return ic_hash_insert(chains, PLACES, buckets, BUCKETS, it->b, it->a);
    }
    if (is(it, "remove")) return ic_hash_remove(chains, PLACES, buckets, BUCKETS, it->a < PLACES ? hash_keys[it->a] : 0, it->a);
    if (is(it, "find")) return ic_hash_find(chains, PLACES, hash_keys, PLACES, buckets, BUCKETS, it->a, it->a, &it->member);
    if (is(it, "next_equal")) return ic_hash_next_equal(chains, PLACES, hash_keys, PLACES, it->a, &it->member);
    return IC_BROKEN;
}

static uint32_t on_tree(struct call *it)
{
    if (is(it, "insert")) {
        if (it->a < PLACES && !ic_tree_is_linked(nodes, PLACES, it->a)) keys[it->a] = it->b; /* a member keeps its key */
        return ic_tree_insert(nodes, PLACES, keys, PLACES, &tree, it->a);
    }
    if (is(it, "remove")) return ic_tree_remove(nodes, PLACES, &tree, it->a);
    if (is(it, "find")) return ic_tree_find(nodes, PLACES, keys, PLACES, &tree, it->a, &it->member);
    if (is(it, "lower_bound")) return ic_tree_lower_bound(nodes, PLACES, keys, PLACES, &tree, it->a, &it->member);
    if (is(it, "next")) return ic_tree_next(nodes, PLACES, &tree, it->a, &it->member);
    return IC_BROKEN;
}

/* A place is a head once a call has made it one, for as long as it is linked. */
static void note_heads(const struct call *call)
{
    uint32_t place;
    if (is(call, "init") && call->a < PLACES) is_head[call->a] = 1;
    for (place = 0; place < PLACES; place++)
        is_head[place] = is_head[place] && ic_ring_is_linked(pairs, PLACES, place);
}

static uint32_t number_of(const char *word)
{
    unsigned number;
    return sscanf(word, "%u", &number) == 1 ? number : IC_NONE;
}

static void row(const char *of, const char *name, const void *words, unsigned step)
{
    unsigned place;
    printf("%s %s", of, name);
    for (place = 0; place < PLACES; place++) {
        uint64_t number = ((const uint64_t *)words)[place * step] >> 3 & 0xffffffff;
        number ? printf(" %u", (unsigned)number - 1) : printf(" -");
    }
    printf("\n");
}

/* The word of an XOR list's member names no place. */
static void xor_row(void)
{
    unsigned place;
    printf("xor word");
    for (place = 0; place < PLACES; place++)
        printf(" %u", (unsigned)(((const uint64_t *)ones)[place] >> 3));
    printf("\n");
}

static void keys_row(const char *of, const uint64_t *words)
{
    unsigned place;
    printf("%s key", of);
    for (place = 0; place < PLACES; place++)
        printf(" %u", (unsigned)words[place]);
    printf("\n");
}

static void rows_of_tree(void)
{
    unsigned place;
    row("tree", "left", nodes, 3);
    row("tree", "right", (const uint64_t *)nodes + 1, 3);
    row("tree", "parent", (const uint64_t *)nodes + 2, 3);
    keys_row("tree", keys);
    printf("tree color");
    for (place = 0; place < PLACES; place++)
        printf(" %s", !ic_tree_is_linked(nodes, PLACES, place) ? "-" : ((const uint64_t *)nodes)[3 * place + 2] & 1 ? "B" : "R");
    printf("\n");
}

/* Each bucket with the keys of its chain. */
static void rows_of_hash(void)
{
    unsigned bucket;
    for (bucket = 0; bucket < BUCKETS; bucket++) {
        printf("hash members %u", bucket);
        IC_HASH_FOREACH(place, chains, PLACES, buckets, BUCKETS, bucket) printf(" %u", (unsigned)hash_keys[place]);
        printf("\n");
    }
    keys_row("hash", hash_keys);
    row("hash", "next", chains, 1);
}

/* Each circle, from its first head on: those that have a head, and then the others. */
static void circles(void)
{
    int seen[PLACES] = {0}, wants_head;
    uint32_t first, at;
    for (wants_head = 1; wants_head >= 0; wants_head--) {
        for (first = 0; first < PLACES; first++) {
            if (seen[first] || is_head[first] != wants_head || !ic_ring_is_linked(pairs, PLACES, first)) continue;
            printf("ring members");
            for (at = first; at < PLACES && !seen[at]; at = ic_ring_next(pairs, PLACES, at)) {
                seen[at] = 1;
                printf(" %u%s", (unsigned)at, is_head[at] ? "*" : "");
            }
            printf("\n");
        }
    }
}

static void collections(void)
{
    printf("list members");
    IC_LIST_FOREACH(place, links, PLACES, &list) printf(" %u", (unsigned)place);
    printf("\n");
    row("list", "next", links, 2);
    row("list", "prev", (const uint64_t *)links + 1, 2);
    printf("xor members");
    IC_XOR_FOREACH(place, ones, PLACES, &xor_list) printf(" %u", (unsigned)place);
    printf("\n");
    xor_row();
    printf("stack members");
    IC_STACK_FOREACH(place, nexts, PLACES, &stack) printf(" %u", (unsigned)place);
    printf("\n");
    row("stack", "next", nexts, 1);
    circles();
    row("ring", "next", pairs, 2);
    row("ring", "prev", (const uint64_t *)pairs + 1, 2);
    rows_of_hash();
    printf("tree members");
    IC_TREE_FOREACH(place, nodes, PLACES, &tree) printf(" %u", (unsigned)keys[place]);
    printf("\n");
    rows_of_tree();
}

static const struct {
    const char *of;
    uint32_t (*call)(struct call *);
} KINDS[] = {{"list", on_list}, {"xor", on_xor}, {"stack", on_stack}, {"ring", on_ring}, {"hash", on_hash}, {"tree", on_tree}};

static uint32_t made(const char *of, struct call *call)
{
    unsigned kind;
    for (kind = 0; kind < sizeof KINDS / sizeof *KINDS; kind++)
        if (!strcmp(of, KINDS[kind].of)) return KINDS[kind].call(call);
    return IC_BROKEN;
}

int main(void)
{
    char line[80], of[16], name[32], words[3][16];
    while (fgets(line, sizeof line, stdin)) {
        struct call call;
        uint32_t status;
        memset(words, 0, sizeof words);
        if (sscanf(line, "%15s %31s %15s %15s %15s", of, name, words[0], words[1], words[2]) < 2) continue;
        call.name = name, call.a = number_of(words[0]), call.b = number_of(words[1]), call.c = number_of(words[2]), call.member = IC_NONE;
        status = made(of, &call);
        if (status == IC_OK && !strcmp(of, "ring")) note_heads(&call);
        printf("%s %s", of, ic_status_name(status));
        status == IC_OK && call.member != IC_NONE ? printf(" %u\n", (unsigned)call.member) : printf("\n");
    }
    collections();
    return 0;
}
