/* Random calls on a hash table beside plain sequences, which are arrays of places, one for each bucket.
 *
 *     hashes [CALLS [SEED]]
 *
 * The members of the buckets are in one table with those of a singly linked list beside them. After each call every word has to be that of the
 * sequences, and the reads of the header have to walk them. One of some calls has a fault, and must be refused for it; in some a chain leads
 * to no end. Prints for each call how often it returned each status.
 */
#define CALLS(X) X(hash_insert) X(hash_remove) X(hash_find) X(hash_next_equal) X(hash_move_chain) X(hash_check)

enum { PLACES = 24, BUCKETS = 6, BESIDE = BUCKETS, NOBODY, KEYS = 7, MORE_KEYS = 3, UNSET = 123456789 };

#include "expected.h"
#include "plain.h"

static struct ic_link1 table[PLACES], table_was[PLACES];
static struct ic_stack buckets[BUCKETS], beside;
static size_t bucket_count = BUCKETS;
static struct sequence chains[BUCKETS + 1]; /* the last is the list beside the buckets */
static uint64_t keys[PLACES + MORE_KEYS];
static int owner[PLACES];

static uint64_t hash_of(uint64_t key) {
    return (key + 1) * UINT64_C(0x9E3779B97F4A7C15);
}

static struct sequence *chain_of(uint64_t hash) {
    return &chains[hash % bucket_count];
}

static uint32_t position(const struct sequence *plain, uint32_t place) {
    uint32_t at = 0;
    while (at < plain->count && plain->members[at] != place)
        at++;
    return at;
}

/* The first member from a position on that has this key, or IC_NONE. */
static uint32_t first_with(const struct sequence *plain, uint32_t at, uint64_t key) {
    while (at < plain->count && keys[plain->members[at]] != key)
        at++;
    return member(plain, at);
}

/* The words of a list are those of a sequence. */
static void check_list(int which, const struct ic_stack *list) {
    const struct sequence *plain = &chains[which];
    uint32_t i = 0;
    expect(list->head == ic_word(member(plain, 0)), "left another first member");
    for (uint32_t k = 0; k < plain->count; k++) {
        owner[plain->members[k]] = which;
        expect(table[plain->members[k]].next == ic_word(member(plain, k + 1)) + 1, "left other words");
    }
    IC_STACK_FOREACH(place, table, PLACES, list)
        expect(place == member(plain, i++), "has another member in a loop");
    expect(i == plain->count, "has other members in a loop");
}

/* A loop over all goes over the chains in turn. */
static void check_loop_over_all(void) {
    uint32_t chain = 0, i = 0;
    IC_HASH_FOREACH_ALL(place, table, PLACES, buckets, bucket_count) {
        while (i == chains[chain].count) {
            chain++;
            i = 0;
        }
        expect(place == member(&chains[chain], i++), "has another member in a loop over all");
    }
    for (; chain < bucket_count && i == chains[chain].count; chain++)
        i = 0;
    expect(chain == bucket_count, "has other members in a loop over all");
}

/* All words are those of the sequences. But for members, no link is another than before the call. */
static void check(uint32_t edited) {
    for (int place = 0; place < PLACES; place++)
        owner[place] = NOBODY;
    for (int i = 0; i < BUCKETS; i++)
        check_list(i, &buckets[i]);
    check_list(BESIDE, &beside);
    for (uint32_t place = 0; place < PLACES; place++) {
        expect((table[place].next & 1) == (owner[place] != NOBODY), "has marks that read wrong");
        expect(owner[place] != NOBODY || place == edited || table[place].next == table_was[place].next, "has changed a link of no member");
    }
    uint64_t hash = any();
    uint32_t i = 0;
    IC_HASH_FOREACH(place, table, PLACES, buckets, bucket_count, hash)
        expect(place == member(chain_of(hash), i++), "has another member in a loop over a chain");
    expect(i == chain_of(hash)->count, "has other members in a loop over a chain");
    check_loop_over_all();
    memcpy(table_was, table, sizeof table);
}

/* ---- What is handed in -------------------------------------------------------------------------------------------------------- */

/* How many buckets a call gets: now and then none, which is said before anything of the place. */
static size_t some_buckets(void) {
    if (below(32))
        return bucket_count;
    faults = 1u << IC_OUT_OF_RANGE;
    return 0;
}

/* How many keys a call gets: now and then too few. */
static size_t some_keys(void) {
    if (below(32))
        return PLACES + below(MORE_KEYS);
    faults = 1u << IC_OUT_OF_RANGE;
    return below(PLACES);
}

static uint32_t to_link(void) {
    uint32_t place = below(PLACES);
    for (uint32_t tries = below(16); tries && owner[place] != NOBODY; tries--)
        place = (place + 1) % PLACES;
    if (below(16) == 0)
        place = below(2) ? PLACES : below(IC_NONE - PLACES) + PLACES;
    fault(place >= PLACES, IC_OUT_OF_RANGE);
    fault(place < PLACES && owner[place] != NOBODY, IC_LINKED);
    return place;
}

/* A place that is mostly a member of a bucket. */
static uint32_t to_find(void) {
    uint32_t place = below(PLACES);
    for (uint32_t tries = below(16); tries && owner[place] >= BESIDE; tries--)
        place = (place + 1) % PLACES;
    if (below(16) == 0)
        place = below(2) ? IC_NONE : PLACES;
    fault(place == IC_NONE, IC_NULL);
    fault(place == PLACES, IC_OUT_OF_RANGE);
    fault(place < PLACES && owner[place] == NOBODY, IC_NOT_LINKED);
    return place;
}

/* ---- Calls -------------------------------------------------------------------------------------------------------------------- */

static void step_insert(void) {
    uint32_t place = to_link();
    size_t count = some_buckets();
    uint64_t hash = any();
    if (!faults) {
        keys[place] = below(KEYS);
        hash = hash_of(keys[place]);
    }
    if (made(ic_hash_insert(table, PLACES, buckets, count, hash, place)))
        insert(chain_of(hash), 0, &place, 1);
    check(place);
}

static void step_remove(void) {
    uint32_t place = to_find(), at = 0;
    uint64_t hash = place < PLACES ? hash_of(keys[place]) : any();
    if (below(8) == 0)
        hash = any();
    if (!faults)
        fault(owner[place] != (int)(hash % bucket_count), IC_BROKEN);
    size_t count = place == IC_NONE ? bucket_count : some_buckets();
    if (made(ic_hash_remove(table, PLACES, buckets, count, hash, place))) {
        struct sequence *plain = chain_of(hash);
        while (plain->members[at] != place)
            at++;
        take(plain, at, 1);
    }
    check(place);
}

static void step_find(void) {
    uint64_t key = below(KEYS + 1);
    uint32_t found = UNSET, wanted = first_with(chain_of(hash_of(key)), 0, key);
    fault(wanted == IC_NONE, IC_NULL);
    size_t key_count = some_keys(), count = some_buckets();
    if (!made(ic_hash_find(table, PLACES, keys, key_count, buckets, count, hash_of(key), key, &found)))
        wanted = UNSET;
    expect(found == wanted, "found another member");
    check(IC_NONE);
}

static void step_next_equal(void) {
    uint32_t at = to_find(), found = UNSET, wanted = UNSET, i = 0;
    if (!faults) {
        const struct sequence *plain = &chains[owner[at]];
        while (plain->members[i] != at)
            i++;
        wanted = first_with(plain, i + 1, keys[at]);
        fault(wanted == IC_NONE, IC_NULL);
    }
    size_t key_count = at == IC_NONE ? PLACES : some_keys();
    if (!made(ic_hash_next_equal(table, PLACES, keys, key_count, at, &found)))
        wanted = UNSET;
    expect(found == wanted, "found another member");
    check(IC_NONE);
}

/* The hash of each place, by which its member belongs in a bucket. */
static void hash_all(uint64_t *hashes) {
    for (int place = 0; place < PLACES + MORE_KEYS; place++)
        hashes[place] = hash_of(keys[place]);
}

/* Now and then one place has another hash. If it is a member, it may be in the wrong bucket then. */
static void step_check(void) {
    uint64_t hashes[PLACES + MORE_KEYS], members = UNSET, wanted = 0;
    uint32_t other = below(PLACES);
    hash_all(hashes);
    if (below(4) == 0) {
        hashes[other] = any();
        fault(owner[other] < BESIDE && hashes[other] % bucket_count != (uint64_t)owner[other], IC_BROKEN);
    }
    for (size_t i = 0; i < bucket_count; i++)
        wanted += chains[i].count;
    size_t hash_count = some_keys(), count = some_buckets();
    if (!made(ic_hash_check(table, PLACES, hashes, hash_count, buckets, count, &members)))
        wanted = UNSET;
    expect(members == wanted, "counts other members");
    check(IC_NONE);
}

/* The members of a list come to the front of their chains, and those that come into one chain are in the order that they had. */
static void move_all(struct sequence *from, struct sequence *to, size_t count) {
    uint32_t moved[BUCKETS] = {0};
    for (uint32_t i = 0; i < from->count; i++) {
        const size_t bucket = (size_t)(hash_of(keys[from->members[i]]) % count);
        insert(&to[bucket], moved[bucket]++, &from->members[i], 1);
    }
    from->count = 0;
}

/* The list beside the buckets moves into them. */
static void step_move(void) {
    uint64_t hashes[PLACES + MORE_KEYS];
    hash_all(hashes);
    const size_t hash_count = some_keys(), count = some_buckets();
    if (made(ic_hash_move_chain(table, PLACES, hashes, hash_count, &beside, buckets, count)))
        move_all(&chains[BESIDE], chains, bucket_count);
    check(IC_NONE);
}

/* A list that leads to no end, or a member whose bucket begins with a place that is not linked, or is none of the table: nothing moves. */
static void step_unmovable(void) {
    const struct sequence *plain = &chains[BESIDE];
    uint64_t hashes[PLACES + MORE_KEYS];
    if (!plain->count)
        return;
    const uint32_t other = below(PLACES), i = below(plain->count);
    uint64_t *word = below(2) ? &table[before(plain, plain->count)].next : &buckets[hash_of(keys[plain->members[i]]) % bucket_count].head;
    uint32_t to = below(8) ? other : PLACES;
    if (*word & 1)
        to = below(2) ? plain->members[i] : to;
    if (to < PLACES && owner[to] != NOBODY && !(*word & 1 && owner[to] == BESIDE))
        return;
    const uint64_t was = *word;
    struct ic_link1 spoiled[PLACES];
    struct ic_stack buckets_were[BUCKETS], beside_was = beside;
    *word = ic_word(to) + (was & 1);
    memcpy(spoiled, table, sizeof table);
    memcpy(buckets_were, buckets, sizeof buckets);
    hash_all(hashes);
    faults = 1u << IC_BROKEN;
    made(ic_hash_move_chain(table, PLACES, hashes, PLACES, &beside, buckets, bucket_count));
    expect(!memcmp(spoiled, table, sizeof table) && !memcmp(buckets_were, buckets, sizeof buckets) && beside.head == beside_was.head,
           "has changed something, and refused");
    *word = was;
}

/* A bucket that begins with a member of another one is refused. */
static void step_shared(void) {
    uint32_t which = below((uint32_t)bucket_count), place = below(PLACES);
    uint64_t was = buckets[which].head, hashes[PLACES + MORE_KEYS], members = UNSET;
    if (owner[place] == (int)which || owner[place] >= BESIDE)
        return;
    hash_all(hashes);
    buckets[which].head = ic_word(place);
    now = CALL_hash_check;
    faults = 1u << IC_BROKEN;
    made(ic_hash_check(table, PLACES, hashes, PLACES, buckets, bucket_count, &members));
    expect(members == UNSET, "has counted, and refused");
    buckets[which].head = was;
}

/* A chain whose last member leads to its first, or a place that is not linked: each walk is refused, and changes nothing. */
static void step_endless(void) {
    uint32_t which = below((uint32_t)bucket_count), found = UNSET, other = below(PLACES);
    struct sequence *plain = &chains[which];
    if (!plain->count)
        return;
    uint32_t last = before(plain, plain->count), to = below(2) ? plain->members[below(plain->count)] : other;
    if (owner[to] != (int)which && owner[to] != NOBODY)
        return;
    uint64_t was = table[last].next, hash = which; /* which is the remainder of itself */
    uint64_t hashes[PLACES + MORE_KEYS], members = UNSET;
    struct ic_link1 spoiled[PLACES];
    table[last].next = ic_word(to) + 1;
    memcpy(spoiled, table, sizeof table);
    now = CALL_hash_find;
    faults = 1u << IC_BROKEN;
    made(ic_hash_find(table, PLACES, keys, PLACES, buckets, bucket_count, hash, KEYS, &found));
    if (owner[other] != (int)which) {
        now = CALL_hash_remove;
        faults = owner[other] == NOBODY ? 1u << IC_NOT_LINKED : 1u << IC_BROKEN;
        made(ic_hash_remove(table, PLACES, buckets, bucket_count, hash, other));
    }
    hash_all(hashes);
    now = CALL_hash_check;
    faults = 1u << IC_BROKEN;
    made(ic_hash_check(table, PLACES, hashes, PLACES, buckets, bucket_count, &members));
    expect(found == UNSET && members == UNSET && !memcmp(spoiled, table, sizeof table), "has changed something, and refused");
    table[last].next = was;
}

/* All members move to another number of buckets, as a hash table grows and shrinks. */
static void step_rebuild(void) {
    struct ic_stack made_anew[BUCKETS] = {{0}};
    struct sequence gathered[BUCKETS] = {{0, {0}}};
    uint64_t hashes[PLACES + MORE_KEYS];
    size_t count = 1 + below(BUCKETS);
    hash_all(hashes);
    for (size_t i = 0; i < bucket_count; i++) {
        made(ic_hash_move_chain(table, PLACES, hashes, PLACES, &buckets[i], made_anew, count));
        expect(!buckets[i].head, "has not emptied the chain");
        move_all(&chains[i], gathered, count);
    }
    bucket_count = count;
    memcpy(buckets, made_anew, sizeof buckets);
    memcpy(chains, gathered, sizeof gathered);
    memcpy(table_was, table, sizeof table);
    check(IC_NONE);
}

/* Of all chains some members go to the front of the list beside the buckets, each as the loop comes to it. */
static void step_leave(void) {
    uint64_t leaving = any() & any();
    uint32_t removed;
    IC_HASH_FOREACH_ALL_SAFE(bucket, from, place, table, PLACES, buckets, bucket_count) {
        const uint32_t i = from == IC_NONE ? 0 : 1 + position(&chains[bucket], from);
        expect(place == member(&chains[bucket], i), "has another member in a loop that removes");
        if (!(leaving >> place & 1))
            continue;
        expect(ic_stack_remove_after(table, PLACES, &buckets[bucket], from, &removed) == IC_OK && removed == place, "is not removed");
        expect(ic_stack_push_front(table, PLACES, &beside, place) == IC_OK, "is not pushed");
        take(&chains[bucket], i, 1);
        insert(&chains[BESIDE], 0, &place, 1);
    }
    for (size_t bucket = 0; bucket < bucket_count; bucket++)
        for (uint32_t i = 0; i < chains[bucket].count; i++)
            expect(!(leaving >> chains[bucket].members[i] & 1), "has missed a member in a loop that removes");
    memcpy(table_was, table, sizeof table);
    check(IC_NONE);
}

/* The list beside the buckets takes a place, or gives its first one up. */
static void step_beside(void) {
    uint32_t place = below(PLACES);
    if (owner[place] == NOBODY && chains[BESIDE].count < 4) {
        expect(ic_stack_push_front(table, PLACES, &beside, place) == IC_OK, "is not pushed");
        keys[place] = below(KEYS);
        insert(&chains[BESIDE], 0, &place, 1);
    } else if (ic_stack_pop_front(table, PLACES, &beside, &place) == IC_OK) {
        take(&chains[BESIDE], 0, 1);
    }
    memcpy(table_was, table, sizeof table);
    check(IC_NONE);
}

int main(int count, char **words) {
    uint64_t wanted = calls_wanted(count, words);
    for (int place = 0; place < PLACES; place++)
        table_was[place].next = table[place].next = any() << 1;
    for (int place = 0; place < PLACES + MORE_KEYS; place++)
        keys[place] = below(KEYS);
    check(IC_NONE);
    while (done < wanted) {
        now = (enum call)below(COUNT);
        faults = 0;
        switch (below(32)) {
        case 0: now = CALL_hash_move_chain; step_rebuild(); break;
        case 1: step_beside(); break;
        case 2: step_endless(); break;
        case 3: step_shared(); break;
        case 4: step_leave(); break;
        case 5: now = CALL_hash_move_chain; step_unmovable(); break;
        default:
            switch (now) {
            case CALL_hash_insert: step_insert(); break;
            case CALL_hash_remove: step_remove(); break;
            case CALL_hash_find: step_find(); break;
            case CALL_hash_next_equal: step_next_equal(); break;
            case CALL_hash_move_chain: step_move(); break;
            default: step_check();
            }
        }
    }
    for (int call = 0; call < COUNT; call++)
        report(names[call], returned[call]);
    return 0;
}
