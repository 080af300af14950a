/* A cache of the pages that were used last, found by a key of 64 bits: a hash table is its index. A page is in a chain of one table of
 * links, and in the order of use of the other table. The free places are a list in the table of the chains. The program allocates nothing. */
#include "ic_in.h"
#include <stdio.h>

enum { PLACES = 4, BUCKETS = 4 };

static struct ic_link1 index_links[PLACES];
static struct ic_link2 order_links[PLACES];
static struct ic_stack buckets[BUCKETS], free_places;
static struct ic_list used; /* the page that was used last is the first */
static uint64_t keys[PLACES];
static const char *values[PLACES];

static const struct ic_hash_in pages = {IC_TABLE(index_links), IC_TABLE(buckets), {IC_TABLE(keys)}};
static const struct ic_stack_in vacant = {IC_TABLE(index_links), &free_places};
static const struct ic_list_in order = {IC_TABLE(order_links), &used};

static uint64_t hash_of(uint64_t key) {
    return key * UINT64_C(0x9E3779B97F4A7C15) >> 32;
}

/* Returns the value of a key, or a null pointer. The page of the key becomes the one that was used last. */
static const char *get(uint64_t key) {
    uint32_t page;
    if (ic_hash_in_find(pages, hash_of(key), key, &page) != IC_OK || ic_list_in_move_to_front(order, page) != IC_OK)
        return NULL;
    return values[page];
}

/* Removes the page of a key. IC_NULL: there is none. */
static uint32_t drop(uint64_t key) {
    uint32_t page, status = ic_hash_in_find(pages, hash_of(key), key, &page);
    if (status == IC_OK)
        status = ic_hash_in_remove(pages, hash_of(key), page);
    if (status == IC_OK)
        status = ic_list_in_remove(order, page);
    return status == IC_OK ? ic_stack_in_push_front(vacant, page) : status;
}

/* Gives a key a value. If no place is free, the page that was not used for longest leaves the cache. */
static uint32_t put(uint64_t key, const char *value) {
    uint32_t page, status;
    if (get(key)) {
        values[ic_list_in_front(order)] = value;
        return IC_OK;
    }
    if (ic_stack_in_is_empty(vacant)) {
        printf("  %llu leaves\n", (unsigned long long)keys[ic_list_in_back(order)]);
        status = drop(keys[ic_list_in_back(order)]);
        if (status != IC_OK)
            return status;
    }
    status = ic_stack_in_pop_front(vacant, &page);
    if (status != IC_OK)
        return status;
    keys[page] = key;
    values[page] = value;
    status = ic_hash_in_insert(pages, hash_of(key), page);
    return status == IC_OK ? ic_list_in_push_front(order, page) : status;
}

int main(void) {
    static const struct { uint64_t key; const char *value; } uses[] = {{7, "a"}, {8, "b"}, {9, "c"}, {7, NULL},     {10, "d"}, {11, "e"},
                                                                       {8, NULL}, {9, "f"}, {12, "g"}, {7, NULL}, {10, NULL}, {9, NULL}};
    if (ic_stack_in_fill(vacant, 0, PLACES) != IC_OK)
        return 1;
    for (size_t i = 0; i < sizeof uses / sizeof *uses; i++) {
        const unsigned long long key = uses[i].key;
        if (uses[i].value) {
            printf("%llu gets %s\n", key, uses[i].value);
            if (put(key, uses[i].value) != IC_OK)
                return 1;
        } else {
            const char *value = get(key);
            printf("%llu has %s\n", key, value ? value : "no page");
        }
    }
    printf("drop 12: %s\n", drop(12) == IC_OK ? "done" : "it has no page");
    printf("drop 12: %s\n", drop(12) == IC_OK ? "done" : "it has no page");
    IC_LIST_IN_FOREACH(page, order)
        printf("%llu: %s\n", (unsigned long long)keys[page], values[page]);
    return 0;
}
