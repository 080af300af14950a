/* Hashes of all kinds and numbers of buckets of all kinds: each insertion has to come to the bucket of the remainder.
 *
 *     remainders [CALLS [SEED]]
 *
 * Prints how often each call succeeded.
 */
#include "common.h"

#ifdef __ARM_ARCH_6M__
enum { MOST = 600 }; /* the board has a memory of 16,384 bytes */
#else
enum { MOST = 70000 };
#endif

static struct ic_stack buckets[MOST];
static struct ic_link1 link;

static void expect(int is_so, const char *wrong) {
    if (!is_so) {
        printf("%s\n", wrong);
        exit(1);
    }
}

static void try_one(uint64_t hash, uint32_t count) {
    expect(ic_hash_insert(&link, 1, buckets, count, hash, 0) == IC_OK, "an insertion is refused");
    expect(buckets[hash % count].head == ic_word(0), "an insertion came to another bucket");
    expect(ic_hash_remove(&link, 1, buckets, count, hash, 0) == IC_OK, "a removal is refused");
    expect(buckets[hash % count].head == 0, "a removal left a member");
}

int main(int argument_count, char **words) {
    uint64_t wanted = calls_wanted(argument_count, words);
    for (uint64_t done = 0; done < wanted; done += 2) {
        uint32_t bits = below(64), count = 1 + below(below(2) ? MOST : 1u << below(10));
        uint64_t hash = any() >> bits;
        if (below(4) == 0)
            hash = count * (hash / count) - below(2); /* at the border of a multiple */
        try_one(hash, count);
    }
    printf("ic_hash_insert %llu\nic_hash_remove %llu\n", (unsigned long long)(wanted + 1) / 2, (unsigned long long)(wanted + 1) / 2);
    return 0;
}
