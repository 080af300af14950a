/* Meetings of a day, in a tree by when they begin. Some overlap each other. The program finds the meetings that overlap an interval, each in O(log n), by the
 * greatest ends that are kept beside the tree, and the meeting at a position. The program allocates nothing. */
#include "ic.h"
#include <stdio.h>

enum { MEETINGS = 8 };

static const char *const titles[MEETINGS] = {"planning", "interview", "lunch", "review", "call", "stand-up", "training", "release"};
static uint64_t begins[MEETINGS] = {900, 1000, 1200, 1330, 1100, 930, 800, 1600}; /* in hours and minutes */
static const uint64_t finishes[MEETINGS] = {1130, 1045, 1300, 1500, 1130, 945, 1700, 1630};

static struct ic_link3 links[MEETINGS];
static struct ic_tree day;
static struct ic_sum ends[MEETINGS], counts[MEETINGS];

/* Prints the meetings that overlap an interval, in the order in which they begin. */
static uint32_t print(uint64_t from, uint64_t to) {
    uint32_t at = IC_NONE, status;
    printf("from %04u to %04u:", (unsigned)from, (unsigned)to);
    while ((status = ic_tree_sums_overlap(links, MEETINGS, begins, MEETINGS, ends, MEETINGS, &day, at, from, to, &at)) == IC_OK)
        printf(" %s", titles[at]);
    printf("\n");
    return status == IC_NULL ? (uint32_t)IC_OK : status;
}

/* Makes the sums right, as after each edit of the tree. */
static uint32_t renew(void) {
    uint32_t status = ic_tree_sums_renew(links, MEETINGS, ends, MEETINGS, IC_GREATEST, IC_NONE);
    return status == IC_OK ? ic_tree_sums_renew(links, MEETINGS, counts, MEETINGS, IC_SUM, IC_NONE) : status;
}

static uint32_t run(void) {
    uint32_t status = IC_OK, middle;
    uint64_t position;
    for (uint32_t place = 0; place < MEETINGS && status == IC_OK; place++) {
        ends[place].value = finishes[place];
        counts[place].value = 1;
        status = ic_tree_insert(links, MEETINGS, begins, MEETINGS, &day, place);
    }
    if (status != IC_OK || (status = renew()) != IC_OK || (status = print(930, 1000)) != IC_OK || (status = print(1130, 1200)) != IC_OK)
        return status;
    ends[6].value = 900; /* the training ends early */
    if ((status = ic_tree_sums_renew(links, MEETINGS, ends, MEETINGS, IC_GREATEST, 6)) != IC_OK || (status = print(1130, 1200)) != IC_OK)
        return status;
    if ((status = ic_tree_sums_find(links, MEETINGS, counts, MEETINGS, IC_SUM, &day, IC_NONE, MEETINGS / 2, &middle)) != IC_OK)
        return status;
    status = ic_tree_sums_before(links, MEETINGS, counts, MEETINGS, IC_SUM, middle, &position);
    printf("%u meetings of %u are before the %s\n", (unsigned)position, (unsigned)ic_tree_sums_total(counts, MEETINGS, &day), titles[middle]);
    return status;
}

int main(void) {
    uint32_t status = run();
    if (status != IC_OK)
        printf("%s\n", ic_status_name(status));
    return status != IC_OK;
}
