/* The extents of a file, which say which bytes have which owner. They are in a tree by their first bytes, and none overlaps another. Bytes
 * that get an owner leave the extents that they were in, and neighbors of one owner become one extent. The program allocates nothing. */
#include "ic_in.h"
#include <stdio.h>

enum { EXTENTS = 16 };

static struct ic_link3 links[EXTENTS];
static struct ic_link1 spare_links[EXTENTS];
static struct ic_tree map;
static struct ic_stack spare; /* the places that are no extents */
static uint64_t starts[EXTENTS], ends[EXTENTS]; /* the first byte, and the one after the last */
static char owners[EXTENTS];

static const struct ic_tree_in extents = {IC_TABLE(links), &map, {IC_TABLE(starts)}};
static const struct ic_stack_in vacant = {IC_TABLE(spare_links), &spare};

/* The first extent that ends after a byte, or IC_NONE. */
static uint32_t first_after(uint64_t byte) {
    uint32_t extent;
    if (ic_tree_in_upper_bound(extents, byte, &extent) == IC_OK && ends[extent] > byte)
        return extent;
    return ic_tree_in_lower_bound(extents, byte, &extent) == IC_OK ? extent : IC_NONE;
}

/* Adds an extent where none is. IC_NULL: there are too many. */
static uint32_t add(uint64_t start, uint64_t end, char owner) {
    uint32_t extent, status = ic_stack_in_pop_front(vacant, &extent);
    if (status != IC_OK)
        return status;
    starts[extent] = start;
    ends[extent] = end;
    owners[extent] = owner;
    return ic_tree_in_insert(extents, extent);
}

static uint32_t drop(uint32_t extent) {
    uint32_t status = ic_tree_in_remove(extents, extent);
    return status == IC_OK ? ic_stack_in_push_front(vacant, extent) : status;
}

/* Takes the bytes from `start` on, before `end`, out of all extents. What is before and after these bytes stays. */
static uint32_t cut(uint64_t start, uint64_t end) {
    uint32_t status = IC_OK, next, extent = first_after(start);
    for (; status == IC_OK && extent != IC_NONE && starts[extent] < end; extent = next) {
        const uint64_t first = starts[extent], last = ends[extent];
        next = ic_tree_in_after(extents, extent);
        if (first < start)
            ends[extent] = start;
        else
            status = drop(extent);
        if (last > end && status == IC_OK)
            status = add(end, last, owners[extent]);
    }
    return status;
}

/* Joins the extents on both sides of a byte into one, if they are neighbors with the same owner. */
static uint32_t merge(uint64_t byte) {
    uint32_t before, after;
    if (ic_tree_in_find(extents, byte, &after) != IC_OK || (before = ic_tree_in_before(extents, after)) == IC_NONE)
        return IC_OK;
    if (ends[before] != byte || owners[before] != owners[after])
        return IC_OK;
    ends[before] = ends[after];
    return drop(after);
}

/* Gives the bytes from `start` on, before `end`, to an owner, or to nobody if `owner` is a space. */
static uint32_t give(uint64_t start, uint64_t end, char owner) {
    uint32_t status = cut(start, end);
    if (status == IC_OK && owner != ' ')
        status = add(start, end, owner);
    if (status == IC_OK)
        status = merge(start);
    return status == IC_OK ? merge(end) : status;
}

static void print(uint64_t start, uint64_t end) {
    for (uint32_t extent = first_after(start); extent != IC_NONE && starts[extent] < end; extent = ic_tree_in_after(extents, extent))
        printf(" %llu-%llu:%c", (unsigned long long)starts[extent], (unsigned long long)ends[extent], owners[extent]);
    printf("\n");
}

int main(void) {
    static const struct { uint64_t start, end; char owner; } gifts[] = {{0, 100, 'a'}, {200, 300, 'b'}, {100, 150, 'a'}, {40, 60, 'c'},
                                                                        {50, 250, 'd'}, {60, 80, ' '}, {40, 50, 'd'}, {45, 55, 'a'}, {0, 300, ' '}};
    if (ic_stack_in_fill(vacant, 0, EXTENTS) != IC_OK)
        return 1;
    for (size_t i = 0; i < sizeof gifts / sizeof *gifts; i++) {
        if (i == 6) {
            printf("from 55 to 85:");
            print(55, 85);
        }
        if (give(gifts[i].start, gifts[i].end, gifts[i].owner) != IC_OK)
            return 1;
        printf("%llu-%llu:%c", (unsigned long long)gifts[i].start, (unsigned long long)gifts[i].end, gifts[i].owner);
        printf(" ->");
        print(0, UINT64_MAX);
    }
    return 0;
}
