/* Writes that wait on a disk, in batches. A batch comes from a file, so its list is checked before it is used. It is sorted by sector, so
 * that the disk's head goes one way, and merged into the writes that already wait. No call takes memory. */
#include "ic.h"
#include <stdio.h>
#include <string.h>

enum { WRITES = 8 };

/* What the file has: the links of all writes, and the list of a batch. */
struct file {
    struct ic_link2 links[WRITES];
    struct ic_list batch;
};

static const uint64_t sectors[WRITES] = {70, 20, 50, 20, 60, 10, 50, 30};

/* Makes a file with the writes `first` to `last` as its batch, in this order. */
static uint32_t make(struct file *file, uint32_t first, uint32_t last) {
    memset(file, 0, sizeof *file);
    return ic_list_fill(file->links, WRITES, &file->batch, first, last - first + 1);
}

/* Takes the batch of a file into the writes that wait, in the order of their sectors, and says whether the file has one. */
static int take(struct ic_link2 *links, struct ic_list *waiting, const struct file *file) {
    struct ic_list batch = file->batch;
    uint64_t members;
    if (ic_list_check(file->links, WRITES, &batch, &members) != IC_OK)
        return 0;
    IC_LIST_FOREACH(write, file->links, WRITES, &file->batch)
        links[write] = file->links[write];
    return ic_list_sort(links, WRITES, sectors, WRITES, &batch) == IC_OK
           && ic_list_merge(links, WRITES, sectors, WRITES, waiting, &batch) == IC_OK;
}

static void print(const struct ic_link2 *links, const struct ic_list *list) {
    IC_LIST_FOREACH(write, links, WRITES, list)
        printf(" %u@%u", (unsigned)write, (unsigned)sectors[write]);
    printf("\n");
}

int main(void) {
    struct ic_link2 links[WRITES] = {0};
    struct ic_list waiting = {0};
    struct file early, late;
    if (make(&early, 0, 3) != IC_OK || make(&late, 4, 7) != IC_OK)
        return 1;
    printf("early is %s\n", take(links, &waiting, &early) ? "taken" : "damaged");
    print(links, &waiting);
    late.links[6].next ^= 8; /* one bit of the file has changed */
    printf("late is %s\n", take(links, &waiting, &late) ? "taken" : "damaged");
    late.links[6].next ^= 8;
    printf("late is %s\n", take(links, &waiting, &late) ? "taken" : "damaged");
    print(links, &waiting); /* of two writes to a sector, the early one goes first */
    return 0;
}
