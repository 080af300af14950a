/* uthash's names of hash tables (uthash.h), by calls of hash tables and lists. A table there also keeps its elements in the order in which they came, so here
 * each has a doubly linked list besides. */
#ifndef UTHASH_H
#define UTHASH_H

#include "../places.h"

#include <stddef.h>

enum { TABLE_PLACES = 2048, TABLE_BUCKETS = 64 };

typedef struct UT_hash_handle {
    struct UT_hash_table *tbl;
    void *prev, *next;
    const void *key;
    unsigned keylen, hashv;
    uint32_t place;
} UT_hash_handle;

typedef struct UT_hash_table {
    unsigned num_items;
    struct ic_link1 chain_links[TABLE_PLACES];
    struct ic_stack buckets[TABLE_BUCKETS];
    struct ic_link2 order_links[TABLE_PLACES];
    struct ic_list order;
    uint64_t hashes[TABLE_PLACES], ranks[TABLE_PLACES];
    UT_hash_handle *handles[TABLE_PLACES];
} UT_hash_table;
#define CHAINS(table) (table)->chain_links, TABLE_PLACES
#define BUCKETS(table) (table)->buckets, TABLE_BUCKETS
#define ORDER(table) (table)->order_links, TABLE_PLACES, &(table)->order

/* A program of uthash tells that it is right by what it prints, so it ends where a call is refused. */
static inline void table_done(uint32_t status, const char *call, int line) {
    if (!peer_expect(status == IC_OK, call, line))
        exit(1);
}
#define TABLE_DO(call) table_done(call, #call, __LINE__)

static inline void *table_element(const UT_hash_table *table, uint32_t place, size_t offset) {
    return place == IC_NONE ? NULL : (char *)table->handles[place] - offset;
}

/* Writes the order of the elements into their handles, and returns the first one. A table without elements is gone. */
static inline void *table_show(UT_hash_table *table, size_t offset) {
    uint64_t members, chained;
    TABLE_DO(ic_list_check(ORDER(table), &members));
    TABLE_DO(ic_hash_check(CHAINS(table), table->hashes, TABLE_PLACES, BUCKETS(table), &chained));
    PEER_EXPECT(members == chained);
    table->num_items = (unsigned)members;
    IC_LIST_FOREACH(place, table->order_links, TABLE_PLACES, &table->order) {
        table->handles[place]->next = table_element(table, ic_list_next(table->order_links, TABLE_PLACES, place), offset);
        table->handles[place]->prev = table_element(table, ic_list_prev(table->order_links, TABLE_PLACES, place), offset);
    }
    void *first = table_element(table, ic_list_first(&table->order), offset);
    if (!first)
        free(table);
    return first;
}

/* Gives the handle a place in the table of the handle of the head, or in a new one if there is none. */
static inline UT_hash_table *table_take(const UT_hash_handle *head, UT_hash_handle *add, const void *key, size_t length, unsigned hash) {
    UT_hash_table *table = head ? head->tbl : calloc(1, sizeof *table);
    uint32_t place = 0;
    while (ic_stack_is_linked(CHAINS(table), place))
        place++;
    if (place == TABLE_PLACES) {
        printf("there are more than %d elements\n", TABLE_PLACES);
        exit(1);
    }
    table->handles[place] = add;
    table->hashes[place] = hash;
    *add = (UT_hash_handle){table, NULL, NULL, key, (unsigned)length, hash, place};
    return table;
}

static inline void *table_remove(UT_hash_handle *handle, size_t offset) {
    TABLE_DO(ic_hash_remove(CHAINS(handle->tbl), BUCKETS(handle->tbl), handle->hashv, handle->place));
    TABLE_DO(ic_list_remove(ORDER(handle->tbl), handle->place));
    return table_show(handle->tbl, offset);
}

/* A program may have another hash function or comparison of keys, which it defines before or after this. */
#ifndef HASH_FUNCTION
#define HASH_FUNCTION(key, length, hash) ((hash) = table_hash(key, length))
#endif
#ifndef HASH_KEYCMP
#define HASH_KEYCMP(one, other, length) memcmp(one, other, length)
#endif
#ifndef uthash_strlen
#define uthash_strlen(text) strlen(text)
#endif

/* FNV-1a. */
static inline unsigned table_hash(const void *key, size_t length) {
    unsigned hash = 2166136261u;
    for (const unsigned char *byte = key; length--; byte++)
        hash = (hash ^ *byte) * 16777619u;
    return hash;
}

#define OFFSET_OF(hh, head) offsetof(__typeof__(*(head)), hh)
#define HANDLE(hh, element) ((element) ? &(element)->hh : NULL)
#define PEER_BY_HASH(key, length, call)               \
    do {                                              \
        const unsigned peer_length = (length);        \
        unsigned peer_hash;                           \
        HASH_VALUE(key, peer_length, peer_hash);      \
        call;                                         \
    } while (0)

#define HASH_VALUE(key, length, hash) HASH_FUNCTION(key, length, hash)
#define HASH_FIND_BYHASHVALUE(hh, head, wanted, length, hash, out)                                                               \
    do {                                                                                                                         \
        (out) = NULL;                                                                                                            \
        if (head)                                                                                                                \
            IC_HASH_FOREACH(peer_at, (head)->hh.tbl->chain_links, TABLE_PLACES, (head)->hh.tbl->buckets, TABLE_BUCKETS, hash) {  \
                const UT_hash_handle *peer_it = (head)->hh.tbl->handles[peer_at];                                                \
                if (peer_it->hashv == (hash) && peer_it->keylen == (length) && HASH_KEYCMP(peer_it->key, wanted, length) == 0) { \
                    (out) = table_element((head)->hh.tbl, peer_at, OFFSET_OF(hh, head));                                         \
                    break;                                                                                                       \
                }                                                                                                                \
            }                                                                                                                    \
    } while (0)
#define HASH_ADD_KEYPTR_BYHASHVALUE(hh, head, key, length, hash, add)                                                    \
    do {                                                                                                                 \
        UT_hash_table *peer_table = table_take(HANDLE(hh, head), &(add)->hh, key, length, hash);                         \
        TABLE_DO(ic_hash_insert(CHAINS(peer_table), BUCKETS(peer_table), hash, (add)->hh.place));                        \
        TABLE_DO(ic_list_push_back(ORDER(peer_table), (add)->hh.place));                                                 \
        (head) = table_show(peer_table, OFFSET_OF(hh, head));                                                            \
    } while (0)
#define HASH_ADD_KEYPTR_BYHASHVALUE_INORDER(hh, head, key, length, hash, add, compare)                                   \
    do {                                                                                                                 \
        UT_hash_table *peer_table = table_take(HANDLE(hh, head), &(add)->hh, key, length, hash);                         \
        __typeof__(head) peer_it = (head);                                                                               \
        while (peer_it && compare(peer_it, add) <= 0)                                                                    \
            peer_it = peer_it->hh.next;                                                                                  \
        TABLE_DO(ic_hash_insert(CHAINS(peer_table), BUCKETS(peer_table), hash, (add)->hh.place));                        \
        TABLE_DO(ic_list_insert_before(ORDER(peer_table), peer_it ? peer_it->hh.place : IC_NONE, (add)->hh.place));      \
        (head) = table_show(peer_table, OFFSET_OF(hh, head));                                                            \
    } while (0)
#define HASH_DELETE(hh, head, element) ((head) = table_remove(&(element)->hh, OFFSET_OF(hh, head)))

/* A sort takes keys here and no comparison. The key of an element is how many come before it. */
#define HASH_SRT(hh, head, compare)                                                                                             \
    do {                                                                                                                        \
        for (__typeof__(head) one = (head); one; one = one->hh.next) {                                                          \
            (head)->hh.tbl->ranks[one->hh.place] = 0;                                                                           \
            for (__typeof__(head) other = (head); other; other = other->hh.next)                                                \
                (head)->hh.tbl->ranks[one->hh.place] += compare(one, other) > 0;                                                \
        }                                                                                                                       \
        TABLE_DO(ic_list_sort((head)->hh.tbl->order_links, TABLE_PLACES, (head)->hh.tbl->ranks, TABLE_PLACES, &(head)->hh.tbl->order)); \
        (head) = table_show((head)->hh.tbl, OFFSET_OF(hh, head));                                                               \
    } while (0)
#define HASH_SELECT(to_hh, to, hh, head, is_wanted)                                                                     \
    for (__typeof__(head) peer_from = (head); peer_from; peer_from = peer_from->hh.next)                                \
        if (is_wanted(peer_from))                                                                                       \
    HASH_ADD_KEYPTR_BYHASHVALUE(to_hh, to, peer_from->hh.key, peer_from->hh.keylen, peer_from->hh.hashv, peer_from)
#define HASH_CLEAR(hh, head)                                                                        \
    do {                                                                                            \
        if (head)                                                                                   \
            for (uint32_t i = 0; i < TABLE_BUCKETS; i++)                                            \
                TABLE_DO(ic_stack_clear(CHAINS((head)->hh.tbl), &(head)->hh.tbl->buckets[i]));      \
        if (head)                                                                                   \
            TABLE_DO(ic_list_clear(ORDER((head)->hh.tbl)));                                         \
        if (head)                                                                                   \
            (head) = table_show((head)->hh.tbl, OFFSET_OF(hh, head));                               \
    } while (0)
#define HASH_CNT(hh, head) ((head) ? (head)->hh.tbl->num_items : 0u)
#define HASH_OVERHEAD(hh, head) ((head) ? sizeof(UT_hash_table) : 0)
#define HASH_ITER(hh, head, it, after) for ((it) = (head); (it) && ((after) = (it)->hh.next, 1); (it) = (after))

/* ---- The same by other words: with a field as the key, with its hash, and of one type ---- */

#define HASH_FIND(hh, head, key, length, out) PEER_BY_HASH(key, length, HASH_FIND_BYHASHVALUE(hh, head, key, peer_length, peer_hash, out))
#define HASH_ADD_KEYPTR(hh, head, key, length, add) PEER_BY_HASH(key, length, HASH_ADD_KEYPTR_BYHASHVALUE(hh, head, key, peer_length, peer_hash, add))
#define HASH_ADD(hh, head, field, length, add) HASH_ADD_KEYPTR(hh, head, &(add)->field, length, add)
#define HASH_ADD_KEYPTR_INORDER(hh, head, key, length, add, compare) \
    PEER_BY_HASH(key, length, HASH_ADD_KEYPTR_BYHASHVALUE_INORDER(hh, head, key, peer_length, peer_hash, add, compare))
#define HASH_ADD_BYHASHVALUE_INORDER(hh, head, field, length, hash, add, compare) \
    HASH_ADD_KEYPTR_BYHASHVALUE_INORDER(hh, head, &(add)->field, length, hash, add, compare)
#define HASH_ADD_INORDER(hh, head, field, length, add, compare) HASH_ADD_KEYPTR_INORDER(hh, head, &(add)->field, length, add, compare)
#define PEER_REPLACE(hh, head, field, length, hash, add, replaced, added)                       \
    do {                                                                                        \
        HASH_FIND_BYHASHVALUE(hh, head, &(add)->field, length, hash, replaced);                 \
        if (replaced)                                                                           \
            HASH_DELETE(hh, head, replaced);                                                    \
        added;                                                                                  \
    } while (0)
#define HASH_REPLACE(hh, head, field, length, add, replaced)                                    \
    PEER_BY_HASH(&(add)->field, length, PEER_REPLACE(hh, head, field, peer_length, peer_hash, add, replaced, \
        HASH_ADD_KEYPTR_BYHASHVALUE(hh, head, &(add)->field, peer_length, peer_hash, add)))
#define HASH_REPLACE_BYHASHVALUE_INORDER(hh, head, field, length, hash, add, replaced, compare) \
    PEER_REPLACE(hh, head, field, length, hash, add, replaced, HASH_ADD_BYHASHVALUE_INORDER(hh, head, field, length, hash, add, compare))
#define HASH_REPLACE_INORDER(hh, head, field, length, add, replaced, compare) \
    PEER_BY_HASH(&(add)->field, length, HASH_REPLACE_BYHASHVALUE_INORDER(hh, head, field, peer_length, peer_hash, add, replaced, compare))

#define HASH_FIND_STR(head, text, out) HASH_FIND(hh, head, text, (unsigned)uthash_strlen(text), out)
#define HASH_ADD_STR(head, field, add) HASH_ADD(hh, head, field[0], (unsigned)uthash_strlen((add)->field), add)
#define HASH_REPLACE_STR(head, field, add, replaced) HASH_REPLACE(hh, head, field[0], (unsigned)uthash_strlen((add)->field), add, replaced)
#define HASH_FIND_INT(head, number, out) HASH_FIND(hh, head, number, sizeof(int), out)
#define HASH_ADD_INT(head, field, add) HASH_ADD(hh, head, field, sizeof(int), add)
#define HASH_REPLACE_INT(head, field, add, replaced) HASH_REPLACE(hh, head, field, sizeof(int), add, replaced)
#define HASH_FIND_PTR(head, pointer, out) HASH_FIND(hh, head, pointer, sizeof(void *), out)
#define HASH_ADD_PTR(head, field, add) HASH_ADD(hh, head, field, sizeof(void *), add)
#define HASH_DEL(head, element) HASH_DELETE(hh, head, element)
#define HASH_SORT(head, compare) HASH_SRT(hh, head, compare)
#define HASH_COUNT(head) HASH_CNT(hh, head)

#endif
