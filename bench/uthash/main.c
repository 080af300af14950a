/* Finds, removals with insertions, and loops over all members in a hash table of uthash (Debian: uthash-dev).
 *
 * The table begins with as many buckets as members, rounded up to a power of two, and hashes a key as all programs do: the macros of
 * uthash say so. It has links from each member to the next one in the order of insertion, too.
 *
 * `peer WORKLOAD MEMBERS OPERATIONS` prints the nanoseconds of all operations and a checksum. bench/README.md says what each workload
 * does. */

#include "../peer.h"

static unsigned bucket_bits;

static unsigned hash_of(uint64_t key) {
    uint64_t product = key * 11400714819323198485u;
    return (unsigned)(product ^ product >> 29);
}

#define HASH_INITIAL_NUM_BUCKETS_LOG2 bucket_bits
#define HASH_INITIAL_NUM_BUCKETS (1u << bucket_bits)
#define HASH_FUNCTION(key, length, hash) (hash) = hash_of(*(const uint64_t *)(key))
#define HASH_KEYCMP(a, b, length) (*(const uint64_t *)(a) != *(const uint64_t *)(b))
#include <uthash.h>

struct object {
    uint64_t value;
    UT_hash_handle links;
};

TIMED timed_hash_find(struct object *table, uint64_t members, uint64_t operations) {
    uint64_t random = 1, sum = 0;
    while (operations--) {
        uint64_t key = 2 * below(&random, members);
        struct object *found;
        HASH_FIND(links, table, &key, sizeof key, found);
        if (found)
            sum += found->value;
    }
    return sum;
}

TIMED timed_hash_turn(struct object **table, struct object *objects, const uint64_t *order, uint64_t members, uint64_t operations) {
    uint64_t random = 1;
    while (operations--) {
        struct object *object = &objects[order[below(&random, members)]];
        HASH_DELETE(links, *table, object);
        HASH_ADD(links, *table, value, sizeof object->value, object);
    }
    return 0;
}

TIMED timed_hash_all(const struct object *table, uint64_t rounds) {
    uint64_t sum = 0;
    while (rounds--)
        for (const struct object *at = table; at; at = at->links.next)
            sum += at->value;
    return sum;
}

/* Doubles the buckets, as the table does by itself when its chains are long. */
TIMED timed_hash_grow(struct object *table) {
    HASH_EXPAND_BUCKETS(links, table->links.tbl, (void)0);
    return 0;
}

/* A table of all objects. */
static __attribute__((noinline)) struct object *timed_hash_fill(struct object *objects, const uint64_t *order, uint64_t members) {
    struct object *table = NULL;
    for (uint64_t index = 0; index < members; index++) {
        struct object *object = &objects[order[index]];
        HASH_ADD(links, table, value, sizeof object->value, object);
    }
    return table;
}

/* Grows a table with half the buckets, again and again. */
static uint64_t grow(struct object *objects, const uint64_t *order, uint64_t members, uint64_t rounds) {
    bucket_bits--;
    while (rounds--) {
        struct object *table = timed_hash_fill(objects, order, members);
        timed_hash_grow(table);
        HASH_CLEAR(links, table);
    }
    return 0;
}

int main(int count, char **words) {
    if (count != 4)
        return 2;
    uint64_t random = 1, members = strtoull(words[2], NULL, 10);
    uint64_t *values = shuffled(&random, members), *order = shuffled(&random, members);
    struct object *objects = room_for(members, sizeof *objects), *table;
    while (1u << bucket_bits < members)
        bucket_bits++;
    for (uint64_t index = 0; index < members; index++)
        objects[index].value = 2 * values[index];
    uint64_t before = now();
    table = timed_hash_fill(objects, order, members);
    uint64_t operations = strtoull(words[3], NULL, 10), start = now();
    uint64_t sum = !strcmp(words[1], "hash_grow")  ? grow(room_for(members, sizeof *objects), order, members, operations / members)
                   : !strcmp(words[1], "hash_turn") ? timed_hash_turn(&table, objects, order, members, operations)
                   : !strcmp(words[1], "hash_all") ? timed_hash_all(table, operations / members)
                                                   : timed_hash_find(table, members, operations);
    uint64_t time = strcmp(words[1], "hash_fill") ? now() - start : start - before;
    printf("%" PRIu64 " %" PRIu64 "\n", time, sum);
    return 0;
}
