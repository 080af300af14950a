/* A least recently used cache of four pages over one doubly linked list. The program allocates nothing. */
#include "ic.h"
#include <stdio.h>

enum { SLOTS = 4, PAGES = 32 };

static struct ic_link2 links[SLOTS]; /* of both lists: a slot is in one of them */
static struct ic_list order, vacant; /* the page used last is the first of `order` */
static int page_of[SLOTS];
static uint32_t slot_of[PAGES];

/* Uses a page. Returns 1 if the page was in the cache, 0 if it has been loaded, and -1 if loading failed. */
static int use(int page) {
    uint32_t slot = slot_of[page];
    if (slot != IC_NONE)
        return ic_list_move_to_front(links, SLOTS, &order, slot) ? -1 : 1;
    if (ic_list_pop_front(links, SLOTS, &vacant, &slot) != IC_OK) {
        if (ic_list_pop_back(links, SLOTS, &order, &slot) != IC_OK)
            return -1;
        slot_of[page_of[slot]] = IC_NONE;
    }
    page_of[slot] = page;
    slot_of[page] = slot;
    return ic_list_push_front(links, SLOTS, &order, slot) ? -1 : 0;
}

int main(void) {
    static const int uses[] = {1, 2, 3, 4, 1, 5, 2, 1, 6};
    static const char *const said[] = {"failed", "loaded", "hit"};
    for (int page = 0; page < PAGES; page++)
        slot_of[page] = IC_NONE;
    for (uint32_t slot = 0; slot < SLOTS; slot++)
        if (ic_list_push_back(links, SLOTS, &vacant, slot) != IC_OK)
            return 1;
    for (size_t i = 0; i < sizeof uses / sizeof *uses; i++)
        printf("page %d: %s\n", uses[i], said[use(uses[i]) + 1]);
    IC_LIST_FOREACH(slot, links, SLOTS, &order)
        printf("slot %u has page %d\n", (unsigned)slot, page_of[slot]);
    return 0;
}
