/* Plays the cases of reads.txt by the inline functions and the loops of ic.h.
 *     reads tests/library/reads.txt
 */
#include "reads.h"

static void add_is(char *said, int is) {
    strcat(said, is ? " yes" : " no");
}

static int is_read(const struct reads_case *it, const char *kind, const char *read) {
    return strcmp(it->kind, kind) == 0 && strcmp(it->read, read) == 0;
}

static int play_doubly(const struct reads_case *it, char *said) {
    struct ic_link2 links[MOST];
    const struct ic_list list = {it->head[0], it->head[1]};
    const size_t places = it->count / 2;
    const uint32_t at = it->arguments[0], head = (uint32_t)it->head[0];
    for (size_t i = 0; i < places; i++)
        links[i] = (struct ic_link2){it->words[2 * i], it->words[2 * i + 1]};
    if (is_read(it, "list", "next")) reads_add(said, ic_list_next(links, places, at));
    else if (is_read(it, "list", "prev")) reads_add(said, ic_list_prev(links, places, at));
    else if (is_read(it, "list", "is_linked")) add_is(said, ic_list_is_linked(links, places, at));
    else if (is_read(it, "list", "first")) reads_add(said, ic_list_first(&list));
    else if (is_read(it, "list", "last")) reads_add(said, ic_list_last(&list));
    else if (is_read(it, "list", "is_empty")) add_is(said, ic_list_is_empty(&list));
    else if (is_read(it, "list", "walk")) { IC_LIST_FOREACH(place, links, places, &list) reads_add(said, place); }
    else if (is_read(it, "ring", "next")) reads_add(said, ic_ring_next(links, places, at));
    else if (is_read(it, "ring", "prev")) reads_add(said, ic_ring_prev(links, places, at));
    else if (is_read(it, "ring", "is_linked")) add_is(said, ic_ring_is_linked(links, places, at));
    else if (is_read(it, "ring", "is_empty")) add_is(said, ic_ring_is_empty(links, places, at));
    else if (is_read(it, "ring", "walk")) { IC_RING_FOREACH(place, links, places, head) reads_add(said, place); }
    else return 0;
    return 1;
}

static int play_singly(const struct reads_case *it, char *said) {
    struct ic_link1 links[MOST];
    const struct ic_stack list = {it->head[0]};
    const struct ic_xor_list both = {it->head[0], it->head[1]};
    const size_t places = it->count;
    const uint32_t at = it->arguments[0];
    for (size_t i = 0; i < places; i++)
        links[i] = (struct ic_link1){it->words[i]};
    if (is_read(it, "stack", "next")) reads_add(said, ic_stack_next(links, places, at));
    else if (is_read(it, "stack", "is_linked")) add_is(said, ic_stack_is_linked(links, places, at));
    else if (is_read(it, "stack", "first")) reads_add(said, ic_stack_first(&list));
    else if (is_read(it, "stack", "is_empty")) add_is(said, ic_stack_is_empty(&list));
    else if (is_read(it, "stack", "walk")) { IC_STACK_FOREACH(place, links, places, &list) reads_add(said, place); }
    else if (is_read(it, "xor", "step")) reads_add(said, ic_xor_step(links, places, at, it->arguments[1]));
    else if (is_read(it, "xor", "is_linked")) add_is(said, ic_xor_is_linked(links, places, at));
    else if (is_read(it, "xor", "first")) reads_add(said, ic_xor_first(&both));
    else if (is_read(it, "xor", "last")) reads_add(said, ic_xor_last(&both));
    else if (is_read(it, "xor", "is_empty")) add_is(said, ic_xor_is_empty(&both));
    else if (is_read(it, "xor", "walk")) { IC_XOR_FOREACH(place, links, places, &both) reads_add(said, place); }
    else return 0;
    return 1;
}

static int play_tree(const struct reads_case *it, char *said) {
    struct ic_link3 links[MOST];
    const struct ic_tree tree = {it->head[0]};
    const size_t places = it->count / 3;
    const uint32_t at = it->arguments[0];
    for (size_t i = 0; i < places; i++)
        links[i] = (struct ic_link3){it->words[3 * i], it->words[3 * i + 1], it->words[3 * i + 2]};
    if (is_read(it, "tree", "left")) reads_add(said, ic_tree_left(links, places, at));
    else if (is_read(it, "tree", "right")) reads_add(said, ic_tree_right(links, places, at));
    else if (is_read(it, "tree", "parent")) reads_add(said, ic_tree_parent(links, places, at));
    else if (is_read(it, "tree", "is_linked")) add_is(said, ic_tree_is_linked(links, places, at));
    else if (is_read(it, "tree", "root")) reads_add(said, ic_tree_root(&tree));
    else if (is_read(it, "tree", "is_empty")) add_is(said, ic_tree_is_empty(&tree));
    else if (is_read(it, "tree", "next")) reads_add(said, ic_tree_after(links, places, &tree, at));
    else if (is_read(it, "tree", "prev")) reads_add(said, ic_tree_before(links, places, &tree, at));
    else if (is_read(it, "tree", "walk")) { IC_TREE_FOREACH(place, links, places, &tree) reads_add(said, place); }
    else return 0;
    return 1;
}

static int play(const struct reads_case *it, char *said) {
    if (play_doubly(it, said) || play_singly(it, said) || play_tree(it, said))
        return 1;
    strcat(said, " no such read");
    return 1;
}

int main(int count, char **words) {
    return count == 2 ? reads_play(words[1], play) : 2;
}
