/* Compares the calls of library.c with those of the library, of which they are models: over lists and trees that calls have made, and over such
 * whose words have been overwritten. A status that differs is a mistake, and so is a word, unless the words form no tree: then a model may
 * edit otherwise, but links and unlinks the same places, and writes to none beyond the table. */

#include "ic.h"
#include "../peer.h"

#define PROVED(name, ...) uint32_t proved_##name(__VA_ARGS__);
PROVED(list_pop_front, struct ic_link2 *, ic_length, struct ic_list *, uint32_t *)
PROVED(list_push_back, struct ic_link2 *, ic_length, struct ic_list *, uint32_t)
PROVED(tree_find, const struct ic_link3 *, ic_length, const uint64_t *, ic_length, const struct ic_tree *, uint64_t, uint32_t *)
PROVED(tree_insert, struct ic_link3 *, ic_length, const uint64_t *, ic_length, struct ic_tree *, uint32_t)
PROVED(tree_remove, struct ic_link3 *, ic_length, struct ic_tree *, uint32_t)

enum { MOST = 12, ROUNDS = 200000, STEPS = 6, CALLS = 5 };

struct state {
    struct ic_link2 links[MOST];
    struct ic_link3 nodes[MOST];
    uint64_t keys[MOST];
    struct ic_list list;
    struct ic_tree tree;
    uint32_t found;
};

/* What a call is handed beside the state. */
struct words {
    uint32_t call, places, key_count, place;
    uint64_t key;
};

static uint64_t random_state = 1;

static uint32_t under(uint32_t bound) {
    return (uint32_t)below(&random_state, bound);
}

/* A word as a call writes it, or with bits that none writes, or any number. */
static uint64_t any_word(void) {
    uint64_t word = 8 * (uint64_t)under(MOST + 2) + under(2);
    return under(3) ? word : under(2) ? word + (UINT64_C(1) << (36 + under(28))) : random_state;
}

#define EITHER(name, ...) (is_model ? ic_##name(__VA_ARGS__) : proved_##name(__VA_ARGS__))

static uint32_t made(struct state *it, struct words w, int is_model) {
    switch (w.call) {
    case 0: return EITHER(list_pop_front, it->links, w.places, &it->list, &it->found);
    case 1: return EITHER(list_push_back, it->links, w.places, &it->list, w.place);
    case 2: return EITHER(tree_find, it->nodes, w.places, it->keys, w.key_count, &it->tree, w.key, &it->found);
    case 3: return EITHER(tree_insert, it->nodes, w.places, it->keys, w.key_count, &it->tree, w.place);
    default: return EITHER(tree_remove, it->nodes, w.places, &it->tree, w.place);
    }
}

/* A list and a tree of some places, and then some words of these are others. */
static void prepare(struct state *it, uint32_t places, uint32_t overwritten) {
    uint64_t *words[] = {&it->links[0].next, &it->nodes[0].left, &it->list.head, &it->tree.root};
    const uint32_t counts[] = {2 * MOST, 3 * MOST, 2, 1};
    *it = (struct state){0};
    for (uint32_t place = 0; place < MOST; place++)
        it->keys[place] = under(20);
    for (uint32_t member = 0; member < places; member++) {
        made(it, (struct words){.call = 1, .places = places, .place = under(MOST)}, 0);
        made(it, (struct words){.call = 3, .places = places, .key_count = MOST, .place = under(MOST)}, 0);
    }
    while (overwritten--) {
        uint32_t part = under(4);
        words[part][under(counts[part])] = any_word();
    }
}

/* What an unlinked place keeps besides counts for nothing. */
static void forget(struct state *it) {
    for (uint32_t place = 0; place < MOST; place++) {
        if (!(it->links[place].next & 1))
            it->links[place] = (struct ic_link2){0};
        if (!(it->nodes[place].left & 1))
            it->nodes[place] = (struct ic_link3){0};
    }
}

/* Whether two states are the same: all of them, or, if a tree was edited whose words form none, which of its places are linked, and what is beyond the table. */
static int are_same(struct state one, struct state other, uint32_t places, int is_whole) {
    for (uint32_t place = 0; place < MOST; place++)
        if ((one.nodes[place].left ^ other.nodes[place].left) & 1 || (place >= places && memcmp(&one.nodes[place], &other.nodes[place], sizeof *one.nodes)))
            return 0;
    if (!is_whole) {
        memcpy(other.nodes, one.nodes, sizeof one.nodes);
        other.tree = one.tree;
    }
    forget(&one);
    forget(&other);
    return !memcmp(&one, &other, sizeof one);
}

int main(void) {
    uint64_t calls = 0, statuses[IC_BROKEN + 1] = {0};
    for (uint32_t round = 0; round < ROUNDS; round++) {
        struct state one, other;
        uint32_t places = under(MOST + 1), overwritten = under(3) ? under(5) : 0;
        prepare(&one, places, overwritten);
        for (uint32_t step = 0; step < STEPS; step++, calls++) {
            struct words w = {under(CALLS), places, under(8) ? MOST : under(MOST), under(10) ? under(MOST + 1) : IC_NONE, under(20)};
            int is_whole = !overwritten || w.call < 3;
            other = one;
            uint32_t status = made(&one, w, 0), model = made(&other, w, 1);
            if (status != model || !are_same(one, other, places, is_whole || status != IC_OK)) {
                printf("call %u differs after %" PRIu64 ": %s, and the model %s\n", w.call, calls, ic_status_name(status), ic_status_name(model));
                return 1;
            }
            statuses[status]++;
        }
    }
    printf("%" PRIu64 " calls are as their models, of which", calls);
    for (uint32_t status = IC_OK; status <= IC_BROKEN; status++)
        printf(" %" PRIu64 " return %s", statuses[status], ic_status_name(status));
    puts("");
    return 0;
}
