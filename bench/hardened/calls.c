/* What Linux's list has, if it is built with CONFIG_LIST_HARDENED, that is most like calls of the library for C, by the workloads of
 * bench/library/calls.c.
 *
 * `calls WORKLOAD MEMBERS OPERATIONS` prints the nanoseconds of all operations. MEMBERS is even. The functions timed_* are what callgrind counts. */

#include "../calls.h"
#include "list.h"

struct room {
    uint64_t members;
    struct object **order;
    struct links list, other, spare;
};
#define ANY &it->order[below(&random, it->members)]->links

ROW(room, list_back, struct links *member = it->list.prev; take(member); push_front(&it->list, member);)
ROW(room, list_after, struct links *member = &EVEN(it->order)->links; take(member); push_front(&ODD(it->order)->links, member);)
ROW(room, list_before, struct links *member = &EVEN(it->order)->links; take(member); push_back(&ODD(it->order)->links, member);)
ROW(room, list_replace, struct links *member = ANY; replace(member, &it->spare); AND_THEN; replace(&it->spare, member);)
ROW(room, list_move_after, struct links *member = &EVEN(it->order)->links; unlink(member); push_front(&ODD(it->order)->links, member);)
ROW(room, list_move_before, move_to_back(&ODD(it->order)->links, &EVEN(it->order)->links);)
ROW(room, list_to_front, struct links *member = ANY; unlink(member); push_front(&it->list, member);)
ROW(room, list_leave, struct links *member = ANY; take(member); push_back(&it->list, member);)
ROW(room, list_transfer, struct links *member = ANY; unlink(member); push_front(&it->other, member); AND_THEN; move_to_back(&it->list, member);)
ROW(room, ring_splice, splice_front(&it->other, &it->list); AND_THEN; splice_back(&it->list, &it->other);)
ROW(room, ring_init, make_empty(&it->spare); AND_THEN; take(&it->spare);)
ROW(room, ring_swap, struct links *one = ANY; struct links *other = ANY; if (one != other) swap(one, other);)
ROW(room, ring_range, move_range_to_back(&it->list, it->list.next, ANY);)

static uint64_t work(const char *workload, struct room *it, uint64_t operations) {
    RUN(list_back);
    RUN(list_after);
    RUN(list_before);
    RUN(list_replace);
    RUN(list_move_after);
    RUN(list_move_before);
    RUN(list_to_front);
    RUN(list_leave);
    RUN(list_transfer);
    RUN(ring_splice);
    RUN(ring_init);
    RUN(ring_swap);
    RUN(ring_range);
    exit(2);
}

int main(int count, char **words) {
    if (count != 4)
        return 2;
    uint64_t random = 1, members = strtoull(words[2], NULL, 10), *numbers = shuffled(&random, members);
    struct object *objects = room_for(members, sizeof *objects);
    struct room room = {.members = members, .order = room_for(members, sizeof *room.order)};
    make_empty(&room.list);
    make_empty(&room.other);
    for (uint64_t index = 0; index < members; index++) {
        room.order[index] = &objects[numbers[index]];
        push_back(&room.list, &room.order[index]->links);
    }
    uint64_t start = now(), sum = work(words[1], &room, strtoull(words[3], NULL, 10));
    printf("%" PRIu64 " %" PRIu64 "\n", now() - start, sum);
    return 0;
}
