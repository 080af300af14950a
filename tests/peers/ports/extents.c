/* What examples/extents.c does, over sys/queue.h and sys/tree.h: an extent is an object with a link in the tree, or among the spare ones. */
#include <bsd/sys/queue.h>
#include <bsd/sys/tree.h>
#include <stdbool.h>
#include <stdint.h>
#include <stdio.h>

enum { EXTENTS = 16 };

struct extent {
    RB_ENTRY(extent) node;
    SLIST_ENTRY(extent) spare;
    uint64_t start, end; /* the first byte, and the one after the last */
    char owner;
};

static int compare(const struct extent *one, const struct extent *other) {
    return (one->start > other->start) - (one->start < other->start);
}

RB_HEAD(map, extent);
RB_GENERATE(map, extent, node, compare)
SLIST_HEAD(spare, extent);

static struct extent extents[EXTENTS];
static struct map map = RB_INITIALIZER(&map);
static struct spare spare = SLIST_HEAD_INITIALIZER(spare); /* those that are in no tree */

/* The first extent that ends after a byte, or a null pointer. */
static struct extent *first_after(uint64_t byte) {
    struct extent key = {.start = byte}, *next = RB_NFIND(map, &map, &key);
    struct extent *before = next && next->start == byte ? next : next ? RB_PREV(map, &map, next) : RB_MAX(map, &map);
    return before && before->end > byte ? before : next;
}

/* Adds an extent where none is, and returns whether there is a spare one. */
static bool add(uint64_t start, uint64_t end, char owner) {
    struct extent *extent = SLIST_FIRST(&spare);
    if (!extent)
        return false;
    SLIST_REMOVE_HEAD(&spare, spare);
    extent->start = start;
    extent->end = end;
    extent->owner = owner;
    RB_INSERT(map, &map, extent);
    return true;
}

static void drop(struct extent *extent) {
    RB_REMOVE(map, &map, extent);
    SLIST_INSERT_HEAD(&spare, extent, spare);
}

/* Takes the bytes from `start` on, before `end`, out of all extents. What is before and after these bytes stays. */
static bool cut(uint64_t start, uint64_t end) {
    bool is_done = true;
    struct extent *next, *extent = first_after(start);
    for (; is_done && extent && extent->start < end; extent = next) {
        const uint64_t first = extent->start, last = extent->end;
        const char owner = extent->owner;
        next = RB_NEXT(map, &map, extent);
        if (first < start)
            extent->end = start;
        else
            drop(extent);
        if (last > end)
            is_done = add(end, last, owner);
    }
    return is_done;
}

/* Makes the extents on both sides of a byte one, if they are neighbors with one owner. */
static void merge(uint64_t byte) {
    struct extent key = {.start = byte}, *after = RB_FIND(map, &map, &key), *before = after ? RB_PREV(map, &map, after) : NULL;
    if (!before || before->end != byte || before->owner != after->owner)
        return;
    before->end = after->end;
    drop(after);
}

/* Gives the bytes from `start` on, before `end`, to an owner, or with a space to none. */
static bool give(uint64_t start, uint64_t end, char owner) {
    if (!cut(start, end) || (owner != ' ' && !add(start, end, owner)))
        return false;
    merge(start);
    merge(end);
    return true;
}

static void print(uint64_t start, uint64_t end) {
    for (struct extent *extent = first_after(start); extent && extent->start < end; extent = RB_NEXT(map, &map, extent))
        printf(" %llu-%llu:%c", (unsigned long long)extent->start, (unsigned long long)extent->end, extent->owner);
    printf("\n");
}

int main(void) {
    static const struct { uint64_t start, end; char owner; } gifts[] = {{0, 100, 'a'}, {200, 300, 'b'}, {100, 150, 'a'}, {40, 60, 'c'},
                                                                        {50, 250, 'd'}, {60, 80, ' '}, {40, 50, 'd'}, {45, 55, 'a'}, {0, 300, ' '}};
    for (int place = EXTENTS; place--;)
        SLIST_INSERT_HEAD(&spare, &extents[place], spare);
    for (size_t i = 0; i < sizeof gifts / sizeof *gifts; i++) {
        if (i == 6) {
            printf("from 55 to 85:");
            print(55, 85);
        }
        if (!give(gifts[i].start, gifts[i].end, gifts[i].owner))
            return 1;
        printf("%llu-%llu:%c", (unsigned long long)gifts[i].start, (unsigned long long)gifts[i].end, gifts[i].owner);
        printf(" ->");
        print(0, UINT64_MAX);
    }
    return 0;
}
