/* What examples/lru_by_key.c does, over sys/queue.h: a page is an object with a link in its chain, or among the free ones, and one in the order of use. */
#include <bsd/sys/queue.h>
#include <stdbool.h>
#include <stdint.h>
#include <stdio.h>

enum { PLACES = 4, BUCKETS = 4 };

struct page {
    LIST_ENTRY(page) chain;
    SLIST_ENTRY(page) vacant;
    TAILQ_ENTRY(page) order;
    uint64_t key;
    const char *value;
};
LIST_HEAD(chain, page);
SLIST_HEAD(vacant, page);
TAILQ_HEAD(order, page);

static struct page pages[PLACES];
static struct chain buckets[BUCKETS];
static struct vacant vacant = SLIST_HEAD_INITIALIZER(vacant);
static struct order used = TAILQ_HEAD_INITIALIZER(used); /* the page that was used last is the first */

static uint64_t hash_of(uint64_t key) {
    return key * UINT64_C(0x9E3779B97F4A7C15) >> 32;
}

/* The page of a key, or a null pointer. */
static struct page *find(uint64_t key) {
    struct page *page;
    LIST_FOREACH (page, &buckets[hash_of(key) % BUCKETS], chain)
        if (page->key == key)
            return page;
    return NULL;
}

/* The value of a key, whose page becomes the one used last, or a null pointer. */
static const char *get(uint64_t key) {
    struct page *page = find(key);
    if (!page)
        return NULL;
    TAILQ_REMOVE(&used, page, order);
    TAILQ_INSERT_HEAD(&used, page, order);
    return page->value;
}

/* Removes the page of a key, and returns whether there is one. */
static bool drop(uint64_t key) {
    struct page *page = find(key);
    if (!page)
        return false;
    LIST_REMOVE(page, chain);
    TAILQ_REMOVE(&used, page, order);
    SLIST_INSERT_HEAD(&vacant, page, vacant);
    return true;
}

/* Gives a key a value. If no page is free, the one that was not used for longest leaves. */
static void put(uint64_t key, const char *value) {
    if (get(key)) {
        TAILQ_FIRST(&used)->value = value;
        return;
    }
    if (SLIST_EMPTY(&vacant)) {
        printf("  %llu leaves\n", (unsigned long long)TAILQ_LAST(&used, order)->key);
        drop(TAILQ_LAST(&used, order)->key);
    }
    struct page *page = SLIST_FIRST(&vacant);
    SLIST_REMOVE_HEAD(&vacant, vacant);
    page->key = key;
    page->value = value;
    LIST_INSERT_HEAD(&buckets[hash_of(key) % BUCKETS], page, chain);
    TAILQ_INSERT_HEAD(&used, page, order);
}

int main(void) {
    static const struct { uint64_t key; const char *value; } uses[] = {{7, "a"}, {8, "b"}, {9, "c"}, {7, NULL},     {10, "d"}, {11, "e"},
                                                                       {8, NULL}, {9, "f"}, {12, "g"}, {7, NULL}, {10, NULL}, {9, NULL}};
    for (int place = PLACES; place--;)
        SLIST_INSERT_HEAD(&vacant, &pages[place], vacant);
    for (size_t i = 0; i < sizeof uses / sizeof *uses; i++) {
        const unsigned long long key = uses[i].key;
        if (uses[i].value) {
            printf("%llu gets %s\n", key, uses[i].value);
            put(key, uses[i].value);
        } else {
            const char *value = get(key);
            printf("%llu has %s\n", key, value ? value : "no page");
        }
    }
    printf("drop 12: %s\n", drop(12) ? "done" : "it has no page");
    printf("drop 12: %s\n", drop(12) ? "done" : "it has no page");
    struct page *page;
    TAILQ_FOREACH (page, &used, order)
        printf("%llu: %s\n", (unsigned long long)page->key, page->value);
    return 0;
}
