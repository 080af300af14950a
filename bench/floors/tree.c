/* Workloads of the tree by hand, over tables of links as our crates have them: the floors of our forms.
 *
 * A link has the words of its children, and a third one with the parent, 2 if the place is linked, and 1 if it is black. The key stands beside it, or
 * with -DOBJECTS in an array of objects. With -DCOUNTS or -DENDS the table has summaries, too, which each insert leaves right: counts of members, or
 * the greatest ends of intervals that begin at the keys.
 *
 * `floor WORKLOAD MEMBERS OPERATIONS` prints the nanoseconds of all operations and a checksum. bench/README.md says what each workload does. */

#include "../peer.h"

#if defined COUNTS || defined ENDS
#define SUMS
#endif

struct link {
    uint64_t child[2], parent;
#ifndef OBJECTS
    uint64_t key;
#endif
};

struct object {
    uint64_t is_there, value;
};

/* A summary, the parent below which it was written, and the value that it counts in. */
struct cell {
#ifdef ENDS
    uint64_t end;
#endif
    uint64_t is_fresh, sum, upper;
};

struct table {
    struct link *links;
    struct object *objects;
    struct cell *cells;
    uint64_t root;
};

#define ENTRY(base, number) ((__typeof__(base))((char *)(base) + (number) * (sizeof *(base) / 8)) - 1)
#define NODE(number) ENTRY(in->links, number)
#define CELL(number) ENTRY(in->cells, number)
#define CHILD(word) (word)
#define PARENT(word) ((word) & ~(uint64_t)7)
#define IS_PLACE(number) ((number) != 0)
#define BROKEN(condition) 0
#define WITH_CHILD(word, number) (number)
#define LINKED 2
#define BELOW(number, color) ((number) | LINKED | (uint64_t)(color))
#ifdef OBJECTS
#define KEY(number) (ENTRY(in->objects, number)->value)
#else
#define KEY(number) (NODE(number)->key)
#endif

#ifdef SUMS
static void renew(const struct table *in, uint64_t number);
#define HANGS(number, above) CELL(number)->upper = (above)
#define RISES(high, low) CELL(high)->sum = CELL(low)->sum
#define LOSES(number) renew(in, number)
#else
#define HANGS(number, above)
#define RISES(high, low)
#define LOSES(number)
#endif
#include "nodes.h"

#ifdef SUMS

/* ---- Summaries ---- */

INLINE uint64_t join(const struct table *in, uint64_t number, uint64_t left, uint64_t right) {
#ifdef ENDS
    uint64_t end = CELL(number)->end, greater = left < right ? right : left;
    return end < greater ? greater : end;
#else
    uint64_t sum = left + right;
    (void)in, (void)number;
    sum = sum < left ? UINT64_MAX : sum;
    return sum + (sum != UINT64_MAX);
#endif
}

/* The summary of a place, from those of its children. */
static inline void renew(const struct table *in, uint64_t number) {
    uint64_t left = NODE(number)->child[0], right = NODE(number)->child[1];
    CELL(number)->sum = join(in, number, left ? CELL(left)->sum : 0, right ? CELL(right)->sum : 0);
}

/* A new place has come in below `above`: the summaries from there up change, as far as they do. */
INLINE void climb(const struct table *in, uint64_t place, uint64_t above) {
    *CELL(place) = (struct cell){.is_fresh = 1, .upper = above,
#ifdef ENDS
                                 .end = CELL(place)->end, .sum = CELL(place)->end
#else
                                 .sum = 1
#endif
    };
    for (uint64_t at = above; at; at = PARENT(NODE(at)->parent)) {
#ifdef ENDS
        if (CELL(at)->sum >= CELL(place)->end)
            return;
        CELL(at)->sum = CELL(place)->end;
#else
        CELL(at)->sum += CELL(at)->sum != UINT64_MAX;
#endif
    }
}

/* A summary below is stale, so all are made anew. No workload comes here. */
static __attribute__((cold, noinline)) void renew_all(const struct table *in, uint64_t number, uint64_t above) {
    if (!number)
        return;
    renew_all(in, NODE(number)->child[0], number);
    renew_all(in, NODE(number)->child[1], number);
    CELL(number)->is_fresh = 1;
    CELL(number)->upper = above;
    renew(in, number);
}
#endif

/* ---- The edits, and the ways ---- */

/* Has both children loaded, so that one is picked without a branch. */
#define BOTH(left, right) __asm__("" : "+r"(left), "+r"(right))

INLINE void insert(struct table *in, uint64_t place) {
    uint64_t at = in->root, above = 0, key = KEY(place);
    int side = 0;
    if (NODE(place)->parent & LINKED)
        return;
    while (at) {
        uint64_t left = NODE(at)->child[0], right = NODE(at)->child[1];
        above = at;
        side = KEY(at) <= key;
        BOTH(left, right);
        at = side ? right : left;
    }
    NODE(place)->child[0] = NODE(place)->child[1] = 0;
    NODE(place)->parent = BELOW(above, above ? RED : BLACK);
#ifdef SUMS
    if (in->root && !CELL(in->root)->is_fresh)
        renew_all(in, in->root, 0);
    climb(in, place, above);
#endif
    if (above)
        attach(in, place, above, side);
    else
        in->root = place;
}

INLINE void take(struct table *in, uint64_t place) {
    detach(in, place);
    NODE(place)->parent = 0;
}

/* The first member whose key is not less. */
INLINE uint64_t lower_bound(const struct table *in, uint64_t key) {
    uint64_t at = in->root, last = 0;
    while (at) {
        uint64_t left = NODE(at)->child[0], right = NODE(at)->child[1];
        int is_less = KEY(at) < key;
        BOTH(left, right);
        last = is_less ? last : at;
        at = is_less ? right : left;
    }
    return last;
}

INLINE uint64_t find(const struct table *in, uint64_t key) {
    uint64_t at = lower_bound(in, key);
    return at && KEY(at) == key ? at : 0;
}

INLINE uint64_t outermost(const struct table *in, uint64_t at) {
    for (uint64_t below = at; below; below = NODE(at)->child[0])
        at = below;
    return at;
}

INLINE uint64_t next(const struct table *in, uint64_t at) {
    uint64_t right = NODE(at)->child[1], above;
    if (right)
        return outermost(in, right);
    while ((above = PARENT(NODE(at)->parent)) && NODE(above)->child[1] == at)
        at = above;
    return above;
}

/* ---- The workloads ---- */

/* In this order or in another, the places are numbers. */
struct room {
    uint64_t members, operations, *order, *other;
};

TIMED timed_insert(struct table *whole, const uint64_t *order, uint64_t count) {
    struct table here = *whole, *in = &here;
    for (uint64_t index = 0; index < count; index++)
        insert(in, order[index]);
    whole->root = here.root;
    return 0;
}

TIMED timed_remove(struct table *whole, const uint64_t *order, uint64_t count) {
    struct table here = *whole, *in = &here;
    for (uint64_t index = 0; index < count; index++)
        take(in, order[index]);
    whole->root = here.root;
    return 0;
}

TIMED timed_find(const struct table *whole, uint64_t members, uint64_t operations) {
    const struct table here = *whole, *in = &here;
    uint64_t random = 1, sum = 0;
    while (operations--) {
        uint64_t at = find(in, 2 * below(&random, members));
        if (at)
            sum += KEY(at);
    }
    return sum;
}

TIMED timed_turn(struct table *whole, uint64_t members, uint64_t operations) {
    struct table here = *whole, *in = &here;
    uint64_t random = 1;
    while (operations--) {
        uint64_t at = find(in, 2 * below(&random, members));
        if (at) {
            take(in, at);
            insert(in, at);
        }
    }
    whole->root = here.root;
    return 0;
}

TIMED timed_queue(struct table *whole, uint64_t members, uint64_t operations) {
    struct table here = *whole, *in = &here;
    while (operations--) {
        uint64_t least = outermost(in, in->root);
        if (least) {
            take(in, least);
            KEY(least) += 2 * members;
            insert(in, least);
        }
    }
    whole->root = here.root;
    return 0;
}

TIMED timed_tree_step(const struct table *whole, uint64_t operations) {
    const struct table here = *whole, *in = &here;
    uint64_t at = outermost(in, in->root);
    while (operations--)
        at = at ? next(in, at) : outermost(in, in->root);
    return at ? KEY(at) : 0;
}

TIMED timed_tree_iter(const struct table *whole, uint64_t rounds) {
    const struct table here = *whole, *in = &here;
    uint64_t sum = 0;
    while (rounds--)
        for (uint64_t at = outermost(in, in->root); at; at = next(in, at))
            sum += KEY(at);
    return sum;
}

static void clear(struct table *in, uint64_t members) {
    in->root = 0;
    for (uint64_t number = 8; number <= 8 * members; number += 8)
        NODE(number)->parent = 0;
}

/* How many black members are on each way down from a place, below that parent, or a negative number if something there is not as it has to be. */
static int blacks(const struct table *in, uint64_t number, uint64_t above) {
    if (!number)
        return 0;
    int is_black = NODE(number)->parent & BLACK;
    int left = blacks(in, NODE(number)->child[0], number), right = blacks(in, NODE(number)->child[1], number);
    int is_pair = !is_black && (is_red(in, NODE(number)->child[0]) || is_red(in, NODE(number)->child[1]));
    if (left != right || is_pair || NODE(number)->parent != BELOW(above, is_black))
        return -1000;
#ifdef SUMS
    uint64_t sum = CELL(number)->sum;
    renew(in, number);
    if (sum != CELL(number)->sum || CELL(number)->upper != above || !CELL(number)->is_fresh)
        return -1000;
#endif
    return left + is_black;
}

static uint64_t on_tree(const char *workload, const struct room *room, struct table *in, uint64_t *time) {
    uint64_t members = room->members, operations = room->operations, half = members / 2, checksum = 0, start;
    if (!strcmp(workload, "insert")) {
        for (uint64_t rounds = operations / members; rounds--;) {
            clear(in, members);
            start = now();
            timed_insert(in, room->order, members);
            *time += now() - start;
        }
        return 0;
    }
    if (!strcmp(workload, "remove")) {
        for (uint64_t rounds = operations / half; rounds--;) {
            clear(in, members);
            timed_insert(in, room->order, members);
            start = now();
            timed_remove(in, room->other, half);
            *time += now() - start;
        }
        return 0;
    }
    timed_insert(in, room->order, members);
    start = now();
    checksum = !strcmp(workload, "find")        ? timed_find(in, members, operations)
               : !strcmp(workload, "turn")      ? timed_turn(in, members, operations)
               : !strcmp(workload, "queue")     ? timed_queue(in, members, operations)
               : !strcmp(workload, "tree_step") ? timed_tree_step(in, operations)
                                                : timed_tree_iter(in, operations / members);
    *time = now() - start;
    return checksum;
}

int main(int count, char **words) {
    if (count != 4)
        return 2;
    uint64_t random = 1, time = 0, hash = 0, members = strtoull(words[2], NULL, 10);
    struct table table = {room_for(members, sizeof *table.links), room_for(members, sizeof *table.objects), room_for(members, sizeof *table.cells), 0}, *in = &table;
    uint64_t *values = shuffled(&random, members);
    struct room room = {members, strtoull(words[3], NULL, 10), shuffled(&random, members), shuffled(&random, members)};
    for (uint64_t index = 0; index < members; index++) {
        KEY(8 * (index + 1)) = 2 * values[index];
#ifdef ENDS
        table.cells[index].end = 2 * values[index] + (2 * values[index] * 6364136223846793005u >> 54);
#endif
        room.order[index] = 8 * (room.order[index] + 1);
        room.other[index] = 8 * (room.other[index] + 1);
    }
    uint64_t checksum = on_tree(words[1], &room, in, &time);
    for (uint64_t at = outermost(in, table.root); at; at = next(in, at))
        hash = hash * 31 + KEY(at);
    if (blacks(in, table.root, 0) < 0)
        return 1;
    printf("%" PRIu64 " %" PRIu64 "\n", time, hash + checksum);
    return 0;
}
