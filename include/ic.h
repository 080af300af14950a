/* This library has doubly linked lists, singly linked lists, XOR lists, rings, hash tables and red-black trees. They link objects that are in your
 * own arrays.
 *
 * You name an object by its place, which is the index of the object in your array. The links of the objects are in a second array, the table, which
 * has one link for each place. A link consists of one to three words, which are integers that name other places. A place that is in a list or tree
 * is linked, and is a member of this list or tree. A place is in at most one list or tree of a table. To have an object in several lists or trees at
 * once, use one table for each list or tree. The library allocates no memory, keeps no data between calls, and calls no other code.
 *
 *     struct ic_link2 links[100] = {0};                   // a hundred unlinked places
 *     struct ic_list list = {0};                          // a list with no members
 *     uint32_t status, oldest;
 *     status = ic_list_push_back(links, 100, &list, 7);   // IC_OK
 *     status = ic_list_push_back(links, 100, &list, 7);   // IC_LINKED: nothing is changed
 *     IC_LIST_FOREACH(place, links, 100, &list)           // reads the members from the first to the last
 *         printf("%u\n", (unsigned)place);
 *     status = ic_list_pop_front(links, 100, &list, &oldest);
 *
 * Every bit pattern is a valid value of each struct. In a table of zero bytes all places are unlinked. A list or a tree of zero bytes has no
 * members. You can copy a table together with its lists and trees, and use the copy instead of the original.
 *
 * A call requires that `table` points to an array of `places` links. In the same way `keys` must point to `key_count` keys, `hashes` to `hash_count`
 * hashes, `buckets` to `bucket_count` lists, and `sums` to `sum_count` sums. Each other pointer must point to one value of its type. No two of these
 * arrays and values may overlap. During the call no other thread may write to these arrays and values. Another thread may read an array or value
 * only if the call takes a const pointer to it. A call requires nothing else, so words, keys, hashes and places may have any values. If you pass a
 * length that is greater than the length of the array, the call may access memory after the array. A length that is smaller than the length of the
 * array does no harm.
 *
 * The following is true of every call, whatever words, keys, hashes and places you pass:
 *   - The call returns one of the statuses below.
 *   - The call writes only to the first `places` links of the table, to the lists, trees, ends and sums that you pass, to the buckets that the
 *     hashes choose, and to the out parameter, such as `popped`.
 *   - If the status is not IC_OK, the call has changed nothing, and has not set the out parameter. If something is wrong with a length or with a
 *     member that you name, the status says what. Otherwise, if something is wrong with the place to insert, the status says what. If nothing is
 *     wrong with any of these, the status is IC_NULL or IC_BROKEN. IC_NULL then means that there is no member to remove or find. IC_BROKEN means
 *     that the words contradict each other, or do not allow the edit.
 *   - The call takes at most as many steps as its comment says, such as O(1) or O(n), where n is the number of members. If the links form no list or
 *     tree, a call whose cost depends on a number of members takes at most a fixed number of steps for each place of the table, and for each bucket
 *     that the call reads.
 *
 * If the links form the list or tree that you pass, and it has the members that you name, the call makes the edit that its comment describes. Every
 * other list and tree of the table then stays as it was. Not every call can detect that you name a member of another list or tree of the same table.
 * At an end of a doubly linked list, the words of the link reveal the mistake, and the call returns IC_BROKEN. In the middle of a doubly linked
 * list, in a singly linked list and in a tree, the call cannot detect the mistake. It may then damage both lists or trees, but writes nothing
 * outside the table. In an XOR list a call cannot always detect a wrong neighbor either, as the part on XOR lists explains.
 */
#ifndef IC_H
#define IC_H

#include <stddef.h>
#include <stdint.h>

/* These numbers are the version of this header. */
#define IC_VERSION_MAJOR 0
#define IC_VERSION_MINOR 1
#define IC_VERSION_PATCH 0

/* Code that includes this header refers to the symbol ic_version_0_1, which only a library of the version 0.1 defines. If parts of a program need
 * two versions, the linker refuses the program, because both versions of the library define the same calls. On Linux, GNU ld also refuses to link
 * this code with a library of another version. The reference to the symbol takes no memory when the program runs. */
#if defined(__GNUC__) && defined(__ELF__)
__asm__(".pushsection .ic_version, \"\"\n\t.long ic_version_0_1\n\t.popsection");
#elif defined(__GNUC__) && !defined(__wasm__)
__asm__(".globl ic_version_0_1");
#endif

#ifdef __cplusplus
extern "C" {
#endif

/* IC_NODISCARD marks a call that may be refused, so that the compiler warns if you ignore its status. The compiler option -DIC_NODISCARD= switches
 * the warning off. IC_NODISCARD is the attribute [[nodiscard]] if the compiler has it, and otherwise the attribute warn_unused_result. With
 * warn_unused_result, GCC warns even if you write (void) before the call. With [[nodiscard]], which GCC has in C from version 11 on, GCC does not
 * warn if you write (void) before the call. */
#ifndef IC_NODISCARD
#if (defined(__cplusplus) && __cplusplus >= 201703L) || (defined(__STDC_VERSION__) && __STDC_VERSION__ >= 202311L)
#define IC_NODISCARD [[nodiscard]]
#elif defined(__GNUC__) && __GNUC__ >= 11 && !defined(__clang__) && !defined(__EDG__)
#define IC_NODISCARD __extension__ [[nodiscard]]
#elif defined(__GNUC__)
#define IC_NODISCARD __attribute__((warn_unused_result))
#else
#define IC_NODISCARD
#endif
#endif

/* ic_length is the type of the length of an array, and has 64 bits on every processor. If size_t has 32 bits, you may pass a length as a size_t, and
 * the compiler converts it. */
#if SIZE_MAX >= UINT64_MAX
typedef size_t ic_length;
#else
typedef uint64_t ic_length;
#endif

/* IC_NONE names no place. If you may pass IC_NONE instead of a member, the comment of the call says what IC_NONE means, for example the front of the
 * list. If you pass IC_NONE as the place to insert, or as the head that ic_ring_init makes, the call returns IC_OUT_OF_RANGE. */
#define IC_NONE UINT32_MAX

/* The status that a call returns is one of these. */
enum ic_status {
    IC_OK = 0,           /* the call has done what its comment says */
    IC_OUT_OF_RANGE = 1, /* a place is not below `places`, or there are fewer keys, hashes or sums than places, or there is no bucket */
    IC_LINKED = 2,       /* the place to insert is in a list or tree of this table already */
    IC_NOT_LINKED = 3,   /* a place that you name as a member is in no list or tree of this table */
    IC_NULL = 4,         /* you passed IC_NONE for a member or head that the call needs, or there is no member to remove or find */
    IC_BROKEN = 5        /* the words of the table, the list or the tree contradict each other, or do not allow the edit */
};

/* Returns the name of a status, such as "IC_OK", and "unknown" for any other number. */
static inline const char *ic_status_name(uint32_t status) {
    switch (status) {
    case IC_OK: return "IC_OK";
    case IC_OUT_OF_RANGE: return "IC_OUT_OF_RANGE";
    case IC_LINKED: return "IC_LINKED";
    case IC_NOT_LINKED: return "IC_NOT_LINKED";
    case IC_NULL: return "IC_NULL";
    case IC_BROKEN: return "IC_BROKEN";
    default: return "unknown";
    }
}

/* Ignores the status of a call, without a warning from any compiler:
 *
 *     ic_ignore(ic_list_remove(links, 100, &list, 7));
 */
static inline void ic_ignore(uint32_t status) {
    (void)status;
}

/* A struct ic_link1 is the link of a place in a table for singly linked lists, hash tables or XOR lists. */
struct ic_link1 {
    uint64_t next;
};

/* A struct ic_link2 is the link of a place in a table for doubly linked lists or rings. */
struct ic_link2 {
    uint64_t next, prev;
};

/* A struct ic_link2_32 is the link of a place in a table for doubly linked lists or rings with words of 4 bytes. */
struct ic_link2_32 {
    uint32_t next, prev;
};

/* A struct ic_link3 is the link of a place in a table for trees. It names both children and the parent of the place. */
struct ic_link3 {
    uint64_t left, right, parent;
};

/* A struct ic_stack is a singly linked list, or a bucket of a hash table. */
struct ic_stack {
    uint64_t head;
};

/* A struct ic_list is a doubly linked list. */
struct ic_list {
    uint64_t head, tail;
};

/* A struct ic_xor_list is an XOR list. The link of a member has one word, which is the exclusive or of the words for the member's two neighbors. */
struct ic_xor_list {
    uint64_t head, tail;
};

/* A struct ic_tree is a red-black tree. */
struct ic_tree {
    uint64_t root;
};

/* A struct ic_tree_ends names the first and the last member of a tree. Only the calls ic_tree_ends_... read and write a struct ic_tree_ends. */
struct ic_tree_ends {
    uint64_t first, last;
};

/* For a tree with sums, you pass an array that has a struct ic_sum for each place. You write the value, and calls write the sum. */
struct ic_sum {
    uint64_t value, sum;
};

/* ---- Words -------------------------------------------------------------------------------------------------------------------- */

/* Returns the word for a place, which is 8 * (place + 1), or 0 for IC_NONE. In a link, bit 0 of the first word is set if the place of this link is
 * linked. In a struct ic_link3, bit 0 of `parent` is set if the place is black in its tree. */
static inline uint64_t ic_word(uint32_t place) {
    return (uint64_t)(uint32_t)(place + 1u) * 8;
}

/* Returns bits 3 to 35 of a word as a number. If the word names a place, the number is this place plus 1. If the number is 0, the word names no
 * place. */
static inline uint64_t ic_number(uint64_t word) {
    return word / 8 % (UINT64_C(1) << 33);
}

/* Returns the place that a word names, or IC_NONE if the word names no place. A word for which ic_number returns 2^32 or more names no place. */
static inline uint32_t ic_place(uint64_t word) {
    uint64_t number = ic_number(word);
    return number <= UINT32_MAX ? (uint32_t)number - 1u : IC_NONE;
}

/* ---- Reads and loops --------------------------------------------------------------------------------------------------------------
 *
 * An inline function that reads a link takes the table and its length, as the calls do. The function returns IC_NONE if the place is out of range or
 * unlinked, or if the word in the link names no place of the table. So the function never reads outside the table, whatever the words are. A
 * function that reads only a list or a tree, such as ic_list_first, takes no length. If the words of the list or tree are wrong, a function without
 * a length may return a place that is out of range.
 *
 * A macro IC_..._FOREACH makes a loop, which runs its body once for each member. As the arguments `place`, `next`, `prev`, `before`, `after` and
 * `bucket`, pass names of your choice. The macro declares variables with these names. You can leave the loop with `break`, go on to the next member
 * with `continue`, and write one loop inside another.
 *
 *     IC_LIST_FOREACH(place, links, 100, &list)
 *         if (place % 2 == 0)
 *             printf("%u\n", (unsigned)place);
 *
 * Whatever the words are, a loop runs its body at most `places` times, each time for a linked place of the table. The loop ends at a word that names
 * no linked place of the table. The loop evaluates its arguments `table`, `places` and `list` again in each round.
 *
 * A loop without _SAFE in its name ends early if its body removes the current member. The body of a ..._SAFE loop may remove the current member, and
 * may then insert the place of this member into another list or tree. This body must not move or remove the neighbors of the current member. A
 * ..._FROM loop begins at the member `at`. To begin after a member, pass as `at` what ic_list_next returns for this member.
 *
 * If your objects are in an array, a ..._ENTRY loop gives you a pointer to the object of each member. You declare the pointer, and pass its name to
 * the loop. The array must have an object for each place of the table. After the last round the pointer is null, and after a `break` the pointer
 * still points to the current object:
 *
 *     struct job jobs[100], *job;
 *     IC_LIST_FOREACH_ENTRY(job, jobs, links, 100, &list)
 *         if (job->is_due)
 *             break;
 *     if (job)
 *         status = ic_list_remove(links, 100, &list, IC_PLACE_OF(job, jobs));
 */

/* Returns the number of places of a table whose length is `places`. This number is `places`, but at most IC_NONE, because every place is below
 * IC_NONE. */
static inline uint32_t ic_bound(ic_length places) {
    return places < IC_NONE ? (uint32_t)places : IC_NONE;
}

/* Returns the place that `word` names, or IC_NONE if `word` names no place or the table has no such place. */
static inline uint32_t ic_place_within(ic_length places, uint64_t word) {
    uint32_t place = ic_place(word);
    return place < ic_bound(places) ? place : IC_NONE;
}

/* Returns the status with which a call refuses `place` as a member. If `is_linked` is not 0, the place is linked but its links are wrong, and the
 * status is IC_BROKEN. */
static inline uint32_t ic_fault_of(ic_length places, uint32_t place, int is_linked) {
    if (place == IC_NONE)
        return IC_NULL;
    return place >= ic_bound(places) ? IC_OUT_OF_RANGE : is_linked ? IC_BROKEN : IC_NOT_LINKED;
}

/* Many of the loop macros below expand to IC_LOOP or IC_LOOP_SAFE. The loop begins at `first`, and runs while the expression `is_member` is true.
 * After each round it goes on from `place` to the value of the expression `next`. */
#define IC_LOOP(place, first, places, is_member, next)                                                       \
    for (uint32_t place = (first), ic_rounds_##place = ic_bound(places); (is_member) && ic_rounds_##place--; \
         place = (next))
#define IC_LOOP_SAFE(place, follower, first, places, is_member, next)                       \
    for (uint32_t place = (first), follower = (next), ic_rounds_##place = ic_bound(places); \
         (is_member) && ic_rounds_##place--; place = follower, follower = (next))

/* IC_ENTRY is a pointer to the object of a place in the array `objects`, or a null pointer if the place is IC_NONE. IC_ENTRY evaluates `place`
 * twice. For example, IC_ENTRY(jobs, ic_list_front(links, 100, &list)) points to the object of the first member. IC_PLACE_OF is the place of the
 * object to which `object` points. */
#define IC_ENTRY(objects, place) ((place) == IC_NONE ? NULL : &(objects)[place])
#define IC_PLACE_OF(object, objects) ((uint32_t)((object) - (objects)))

/* The macros for ..._ENTRY loops use the three macros below. In each round IC_ENTRY_IF makes `object` point to the object of `place`, and after the
 * last round IC_ENTRY_IF makes `object` null. */
#define IC_ENTRY_IF(object, objects, place, is_member) ((is_member) ? ((object) = &(objects)[place], 1) : ((object) = NULL, 0))
#define IC_LOOP_ENTRY(object, objects, place, first, places, is_member, next)              \
    for (uint32_t place = (first), ic_rounds_##place = ic_bound(places);                   \
         IC_ENTRY_IF(object, objects, place, (is_member) && ic_rounds_##place--); place = (next))
#define IC_LOOP_ENTRY_SAFE(object, objects, place, follower, first, places, is_member, next)     \
    for (uint32_t place = (first), follower = (next), ic_rounds_##place = ic_bound(places);      \
         IC_ENTRY_IF(object, objects, place, (is_member) && ic_rounds_##place--); place = follower, follower = (next))

/* ---- Doubly linked lists: 16 bytes for each place; calls take O(1), except fill, clear, check, sort and merge ----------------------------
 *
 * Doubly linked lists are good for queues, and for caches, where you also remove objects from the middle.
 */

/* ---- Lists: functions for links of 8-byte and of 4-byte words ---- */

/* Returns whether a place is in a list of the table. */
static inline int ic_list_is_linked(const struct ic_link2 *table, ic_length places, uint32_t place) {
    return place < ic_bound(places) && (table[place].next & 1);
}

/* Returns whether the list has no members, in which case ic_list_pop_front returns IC_NULL. */
static inline int ic_list_is_empty(const struct ic_list *list) {
    return ic_number(list->head) == 0;
}

/* Returns the first member, or IC_NONE if there is none. */
static inline uint32_t ic_list_first(const struct ic_list *list) {
    return ic_place(list->head);
}

/* Returns the last member, or IC_NONE if there is none. */
static inline uint32_t ic_list_last(const struct ic_list *list) {
    return ic_place(list->tail);
}

/* Returns the member after the member `at`, or IC_NONE if there is none. */
static inline uint32_t ic_list_next(const struct ic_link2 *table, ic_length places, uint32_t at) {
    return ic_list_is_linked(table, places, at) ? ic_place_within(places, table[at].next) : IC_NONE;
}

/* Returns the member before the member `at`, or IC_NONE if there is none. */
static inline uint32_t ic_list_prev(const struct ic_link2 *table, ic_length places, uint32_t at) {
    return ic_list_is_linked(table, places, at) ? ic_place_within(places, table[at].prev) : IC_NONE;
}

/* Returns the first member, or IC_NONE if the list is empty, or if the first member is no linked place of the table. */
static inline uint32_t ic_list_front(const struct ic_link2 *table, ic_length places, const struct ic_list *list) {
    return ic_list_is_linked(table, places, ic_list_first(list)) ? ic_list_first(list) : IC_NONE;
}

/* Returns the last member, or IC_NONE if the list is empty, or if the last member is no linked place of the table. */
static inline uint32_t ic_list_back(const struct ic_link2 *table, ic_length places, const struct ic_list *list) {
    return ic_list_is_linked(table, places, ic_list_last(list)) ? ic_list_last(list) : IC_NONE;
}

/* Returns whether the place `at` is the first member of the list. */
static inline int ic_list_is_first(const struct ic_link2 *table, ic_length places, const struct ic_list *list, uint32_t at) {
    return at != IC_NONE && ic_list_front(table, places, list) == at;
}

/* Returns whether the place `at` is the last member of the list. */
static inline int ic_list_is_last(const struct ic_link2 *table, ic_length places, const struct ic_list *list, uint32_t at) {
    return at != IC_NONE && ic_list_back(table, places, list) == at;
}

/* Returns whether the list has exactly one member. */
static inline int ic_list_is_singular(const struct ic_link2 *table, ic_length places, const struct ic_list *list) {
    return ic_list_is_first(table, places, list, ic_list_last(list));
}

/* An IC_LIST_FOREACH loop goes from the first member to the last, and a loop with REVERSE in its name goes from the last member to the first. In a
 * ..._SAFE loop `next` is the member after `place`, or IC_NONE if `place` is the last member. In a ..._REVERSE_SAFE loop `prev` is the member before
 * `place`, or IC_NONE if `place` is the first member.
 *
 *     IC_LIST_FOREACH_SAFE(place, next, links, 100, &list)
 *         if (is_done(place))
 *             status = ic_list_remove(links, 100, &list, place);
 */
#define IC_LIST_FOREACH(place, table, places, list) \
    IC_LOOP(place, ic_list_first(list), places, ic_list_is_linked(table, places, place), ic_list_next(table, places, place))
#define IC_LIST_FOREACH_REVERSE(place, table, places, list) \
    IC_LOOP(place, ic_list_last(list), places, ic_list_is_linked(table, places, place), ic_list_prev(table, places, place))
#define IC_LIST_FOREACH_SAFE(place, next, table, places, list) \
    IC_LOOP_SAFE(place, next, ic_list_first(list), places, ic_list_is_linked(table, places, place), ic_list_next(table, places, place))
#define IC_LIST_FOREACH_REVERSE_SAFE(place, prev, table, places, list) \
    IC_LOOP_SAFE(place, prev, ic_list_last(list), places, ic_list_is_linked(table, places, place), ic_list_prev(table, places, place))
#define IC_LIST_FOREACH_ENTRY(object, objects, table, places, list)             \
    IC_LOOP_ENTRY(object, objects, ic_at_##object, ic_list_first(list), places, \
        ic_list_is_linked(table, places, ic_at_##object), ic_list_next(table, places, ic_at_##object))
#define IC_LIST_FOREACH_ENTRY_REVERSE(object, objects, table, places, list)    \
    IC_LOOP_ENTRY(object, objects, ic_at_##object, ic_list_last(list), places, \
        ic_list_is_linked(table, places, ic_at_##object), ic_list_prev(table, places, ic_at_##object))
#define IC_LIST_FOREACH_ENTRY_SAFE(object, objects, table, places, list)                               \
    IC_LOOP_ENTRY_SAFE(object, objects, ic_at_##object, ic_next_##object, ic_list_first(list), places, \
        ic_list_is_linked(table, places, ic_at_##object), ic_list_next(table, places, ic_at_##object))
#define IC_LIST_FOREACH_ENTRY_REVERSE_SAFE(object, objects, table, places, list)                      \
    IC_LOOP_ENTRY_SAFE(object, objects, ic_at_##object, ic_next_##object, ic_list_last(list), places, \
        ic_list_is_linked(table, places, ic_at_##object), ic_list_prev(table, places, ic_at_##object))
#define IC_LIST_FOREACH_FROM(place, at, table, places) \
    IC_LOOP(place, at, places, ic_list_is_linked(table, places, place), ic_list_next(table, places, place))
#define IC_LIST_FOREACH_REVERSE_FROM(place, at, table, places) \
    IC_LOOP(place, at, places, ic_list_is_linked(table, places, place), ic_list_prev(table, places, place))
#define IC_LIST_FOREACH_SAFE_FROM(place, next, at, table, places) \
    IC_LOOP_SAFE(place, next, at, places, ic_list_is_linked(table, places, place), ic_list_next(table, places, place))
#define IC_LIST_FOREACH_ENTRY_FROM(object, objects, at, table, places)                                           \
    IC_LOOP_ENTRY(object, objects, ic_at_##object, at, places, ic_list_is_linked(table, places, ic_at_##object), \
                  ic_list_next(table, places, ic_at_##object))
#define IC_LIST_FOREACH_ENTRY_SAFE_FROM(object, objects, at, table, places)           \
    IC_LOOP_ENTRY_SAFE(object, objects, ic_at_##object, ic_next_##object, at, places, \
                       ic_list_is_linked(table, places, ic_at_##object), ic_list_next(table, places, ic_at_##object))

/* ---- Lists: to here ---- */

/* Made by tools/c-calls --write: list list-fill */

/* Inserts `place` at the front, in O(1).
 * IC_OUT_OF_RANGE: `place` is not below `places`. IC_LINKED: `place` is linked already. IC_BROKEN: the first member is not linked in this
 * table, or has a link to a member before it. */
IC_NODISCARD
uint32_t ic_list_push_front(struct ic_link2 *table, ic_length places, struct ic_list *list, uint32_t place);

/* Inserts `place` at the back, in O(1).
 * IC_OUT_OF_RANGE: `place` is not below `places`. IC_LINKED: `place` is linked already. IC_BROKEN: the last member is not linked in this
 * table, or has a link to a member after it. */
IC_NODISCARD
uint32_t ic_list_push_back(struct ic_link2 *table, ic_length places, struct ic_list *list, uint32_t place);

/* Removes the first member, and sets *popped to this member, in O(1).
 * IC_NULL: the list is empty. IC_BROKEN: the first member is not linked in this table, or has a link to a member before it, or the second
 * member has no link back to the first. */
IC_NODISCARD
uint32_t ic_list_pop_front(struct ic_link2 *table, ic_length places, struct ic_list *list, uint32_t *popped);

/* Removes the last member, and sets *popped to this member, in O(1).
 * IC_NULL: the list is empty. IC_BROKEN: the last member is not linked in this table, or has a link to a member after it, or the second-to-
 * last member has no link to the last. */
IC_NODISCARD
uint32_t ic_list_pop_back(struct ic_link2 *table, ic_length places, struct ic_list *list, uint32_t *popped);

/* Inserts `place` after the member `at`, or at the front if `at` is IC_NONE, in O(1).
 * IC_OUT_OF_RANGE: `at` or `place` is not below `places`. IC_LINKED: `place` is linked already. IC_NOT_LINKED: the place `at` is not
 * linked. IC_BROKEN: `at` is no member of the list according to its links. */
IC_NODISCARD
uint32_t ic_list_insert_after(struct ic_link2 *table, ic_length places, struct ic_list *list, uint32_t at, uint32_t place);

/* Inserts `place` before the member `at`, or at the back if `at` is IC_NONE, in O(1).
 * IC_OUT_OF_RANGE: `at` or `place` is not below `places`. IC_LINKED: `place` is linked already. IC_NOT_LINKED: the place `at` is not
 * linked. IC_BROKEN: `at` is no member of the list according to its links. */
IC_NODISCARD
uint32_t ic_list_insert_before(struct ic_link2 *table, ic_length places, struct ic_list *list, uint32_t at, uint32_t place);

/* Removes the member `at`, in O(1).
 * IC_NULL: the place `at` is IC_NONE. IC_OUT_OF_RANGE: the place `at` is not below `places`. IC_NOT_LINKED: the place `at` is not linked.
 * IC_BROKEN: `at` is no member of the list according to its links. */
IC_NODISCARD
uint32_t ic_list_remove(struct ic_link2 *table, ic_length places, struct ic_list *list, uint32_t at);

/* Removes the member `at`, and inserts `place` where `at` was, in O(1).
 * IC_NULL: the place `at` is IC_NONE. IC_OUT_OF_RANGE: `at` or `place` is not below `places`. IC_LINKED: `place` is linked already, or is
 * `at` itself. IC_NOT_LINKED: the place `at` is not linked. IC_BROKEN: `at` is no member of the list according to its links. */
IC_NODISCARD
uint32_t ic_list_replace(struct ic_link2 *table, ic_length places, struct ic_list *list, uint32_t at, uint32_t place);

/* Moves the member `place` after the member `at`, or to the front if `at` is IC_NONE, in O(1). `place` stays linked during the call.
 * Nothing changes if `place` is at this position already, or if `at` and `place` are the same place.
 * IC_NULL: `place` is IC_NONE. IC_OUT_OF_RANGE: `at` or `place` is not below `places`. IC_NOT_LINKED: `at` or `place` is not linked.
 * IC_BROKEN: `at` or `place` is no member of the list according to their links. */
IC_NODISCARD
uint32_t ic_list_move_after(struct ic_link2 *table, ic_length places, struct ic_list *list, uint32_t at, uint32_t place);

/* Moves the member `place` before the member `at`, or to the back if `at` is IC_NONE, in O(1). `place` stays linked during the call.
 * Nothing changes if `place` is at this position already, or if `at` and `place` are the same place.
 * IC_NULL: `place` is IC_NONE. IC_OUT_OF_RANGE: `at` or `place` is not below `places`. IC_NOT_LINKED: `at` or `place` is not linked.
 * IC_BROKEN: `at` or `place` is no member of the list according to their links. */
IC_NODISCARD
uint32_t ic_list_move_before(struct ic_link2 *table, ic_length places, struct ic_list *list, uint32_t at, uint32_t place);

/* Moves the member `place` to the front, as a cache does with an object that it has just used, in O(1). `place` stays linked during the
 * call.
 * IC_NULL: `place` is IC_NONE. IC_OUT_OF_RANGE: `place` is not below `places`. IC_NOT_LINKED: `place` is not linked. IC_BROKEN: `place` is
 * no member of the list according to its links, or the first member is not linked in this table, or has a link to a member before it. */
IC_NODISCARD
uint32_t ic_list_move_to_front(struct ic_link2 *table, ic_length places, struct ic_list *list, uint32_t place);

/* Moves the member `place` to the back, in O(1). `place` stays linked during the call.
 * IC_NULL: `place` is IC_NONE. IC_OUT_OF_RANGE: `place` is not below `places`. IC_NOT_LINKED: `place` is not linked. IC_BROKEN: `place` is
 * no member of the list according to its links, or the last member is not linked in this table, or has a link to a member after it. */
IC_NODISCARD
uint32_t ic_list_move_to_back(struct ic_link2 *table, ic_length places, struct ic_list *list, uint32_t place);

/* Moves all members of `given`, in their order, after the member `at`, or to the front if `at` is IC_NONE, and leaves `given` empty, in
 * O(1).
 * IC_OUT_OF_RANGE: the place `at` is not below `places`. IC_NOT_LINKED: the place `at` is not linked. IC_BROKEN: `at` is no member of the
 * list according to its links, or `given` is no list of this table, or both lists begin with the same member, as a list and its copy do. */
IC_NODISCARD
uint32_t ic_list_splice_after(struct ic_link2 *table, ic_length places, struct ic_list *list, uint32_t at, struct ic_list *given);

/* Moves all members of `given`, in their order, before the member `at`, or to the back if `at` is IC_NONE, and leaves `given` empty, in
 * O(1).
 * IC_OUT_OF_RANGE: the place `at` is not below `places`. IC_NOT_LINKED: the place `at` is not linked. IC_BROKEN: `at` is no member of the
 * list according to its links, or `given` is no list of this table, or both lists begin with the same member, as a list and its copy do. */
IC_NODISCARD
uint32_t ic_list_splice_before(struct ic_link2 *table, ic_length places, struct ic_list *list, uint32_t at, struct ic_list *given);

/* Moves all members of `given`, in their order, to the back, and leaves `given` empty, in O(1).
 * IC_BROKEN: the last member is not linked in this table, or has a link to a member after it, or `given` is no list of this table, or both
 * lists begin with the same member, as a list and its copy do. */
IC_NODISCARD
uint32_t ic_list_append(struct ic_link2 *table, ic_length places, struct ic_list *list, struct ic_list *given);

/* Inserts the `count` places `first`, `first` + 1 and so on at the back, in rising order, in O(count). If `count` is 0, the call changes
 * nothing.
 * IC_OUT_OF_RANGE: none of these places is linked, but one is not below `places`. IC_LINKED: one of these places is linked already.
 * IC_BROKEN: the last member is not linked in this table, or has a link to a member after it. */
IC_NODISCARD
uint32_t ic_list_fill(struct ic_link2 *table, ic_length places, struct ic_list *list, uint32_t first, uint32_t count);

/* Removes all members, in O(n).
 * IC_BROKEN: the links do not lead from the first member to the last, or two neighbors do not have links to each other. */
IC_NODISCARD
uint32_t ic_list_clear(struct ic_link2 *table, ic_length places, struct ic_list *list);

/* Moves the members after the member `at`, or all members if `at` is IC_NONE, to `rest`, which has to be empty, in O(1).
 * IC_OUT_OF_RANGE: the place `at` is not below `places`. IC_NOT_LINKED: the place `at` is not linked. IC_BROKEN: `at` is no member of the
 * list according to its links, or `rest` has members. */
IC_NODISCARD
uint32_t ic_list_split_after(struct ic_link2 *table, ic_length places, struct ic_list *list, uint32_t at, struct ic_list *rest);

/* Moves the members before the member `at`, or all members if `at` is IC_NONE, to `rest`, which has to be empty, in O(1).
 * IC_OUT_OF_RANGE: the place `at` is not below `places`. IC_NOT_LINKED: the place `at` is not linked. IC_BROKEN: `at` is no member of the
 * list according to its links, or `rest` has members. */
IC_NODISCARD
uint32_t ic_list_split_before(struct ic_link2 *table, ic_length places, struct ic_list *list, uint32_t at, struct ic_list *rest);

/* Counts the members, and sets *members to their number, in O(n). Make this call if the words come from a file, or from memory to which
 * other programs write. If the status is IC_OK, all other calls on this list do what their comments say.
 * IC_BROKEN: the links do not lead from the first member to the last, or two neighbors do not have links to each other. */
IC_NODISCARD
uint32_t ic_list_check(const struct ic_link2 *table, ic_length places, const struct ic_list *list, uint64_t *members);

/* to here */

/* ---- Lists by keys ----
 *
 * A key is a number, and a member with a smaller key comes before a member with a greater key. The key of `place` is keys[place]. The array `keys`
 * must have a key for each place, but the calls read only the keys of members. A sort and a merge check the lists before they change a link, so a
 * refused call has changed nothing. A sort is recursive, to a depth of at most 33 calls.
 */

/* Made by tools/c-calls --write: list-keys */

/* Sorts the members by their keys, in O(n log n). Members with equal keys keep their order.
 * IC_OUT_OF_RANGE: there are fewer keys than places. IC_BROKEN: the links do not lead from the first member to the last, or two neighbors
 * do not have links to each other. */
IC_NODISCARD
uint32_t ic_list_sort(struct ic_link2 *table, ic_length places, const uint64_t *keys, ic_length key_count, struct ic_list *list);

/* Moves all members of `given` into `list`, in O(n). If both lists were sorted by keys, `list` is sorted by keys after the call. Of members
 * with equal keys, those that were in `list` come first. After the call `given` is empty.
 * IC_OUT_OF_RANGE: there are fewer keys than places. IC_BROKEN: the links of one of the lists do not lead from its first member to its
 * last, or two neighbors do not have links to each other, or both lists begin with the same member, as a list and its copy do. */
IC_NODISCARD
uint32_t ic_list_merge(struct ic_link2 *table, ic_length places, const uint64_t *keys, ic_length key_count, struct ic_list *list,
                       struct ic_list *given);

/* to here */

/* ---- Transfers: a member moves to another list ----
 *
 * A transfer moves one member from one list to another list of the same table, as a scheduler does with a task that no longer waits:
 *
 *     status = ic_list_transfer_before(links, 100, &ready, IC_NONE, &waiting, 7);  // 7 becomes the last member of `ready`
 *
 * To move all members, call ic_list_splice_after. To move a member within its list, call ic_list_move_after. To move a member from one ring to
 * another, call ic_ring_move_after.
 */

/* Made by tools/c-calls --write: list-transfer */

/* Moves the member `place` of `given` after the member `at`, or to the front if `at` is IC_NONE, in O(1). `place` stays linked during the
 * call.
 * IC_NULL: `place` is IC_NONE. IC_OUT_OF_RANGE: `at` or `place` is not below `places`. IC_NOT_LINKED: `at` or `place` is not linked.
 * IC_BROKEN: according to their links `at` is no member of the list or `place` is no member of `given`, or both lists begin with the same
 * member, as a list and its copy do. */
IC_NODISCARD
uint32_t ic_list_transfer_after(struct ic_link2 *table, ic_length places, struct ic_list *list, uint32_t at, struct ic_list *given,
                                uint32_t place);

/* Moves the member `place` of `given` before the member `at`, or to the back if `at` is IC_NONE, in O(1). `place` stays linked during the
 * call.
 * IC_NULL: `place` is IC_NONE. IC_OUT_OF_RANGE: `at` or `place` is not below `places`. IC_NOT_LINKED: `at` or `place` is not linked.
 * IC_BROKEN: according to their links `at` is no member of the list or `place` is no member of `given`, or both lists begin with the same
 * member, as a list and its copy do. */
IC_NODISCARD
uint32_t ic_list_transfer_before(struct ic_link2 *table, ic_length places, struct ic_list *list, uint32_t at, struct ic_list *given,
                                 uint32_t place);

/* to here */

/* ---- Doubly linked lists with words of 4 bytes: 8 bytes for each place; calls take O(1), except clear and check -----------------------------
 *
 * In a table for these lists, links have words of 4 bytes, which take half the memory of words of 8 bytes. A word of 4 bytes is the lower half of
 * the word of 8 bytes for the same place. So a word of 4 bytes can name only places below 536,870,911, and calls treat all other places as out of
 * range. The list itself is a struct ic_list, like a list with words of 8 bytes. Each call, read and loop does the same as the call, read or loop
 * without 32 in its name. There is no fill, sort or merge for lists with words of 4 bytes.
 *
 *     struct ic_link2_32 links[100] = {0};               // 100 unlinked places
 *     struct ic_list list = {0};                         // a list with no members
 *     status = ic_list32_push_back(links, 100, &list, 7);
 *     IC_LIST32_FOREACH(place, links, 100, &list)        // reads the members from the first to the last
 */

/* Returns the number of places of a table whose links have words of 4 bytes. This number is `places`, but at most 536,870,911. */
static inline ic_length ic_places_32(ic_length places) {
    return places < 536870911 ? places : 536870911;
}

/* Made by tools/c-calls --write: list32 */

/* Inserts `place` at the front, in O(1).
 * IC_OUT_OF_RANGE: `place` is not below `places`, or is 536,870,911 or more. IC_LINKED: `place` is linked already. IC_BROKEN: the first
 * member is not linked in this table, or has a link to a member before it. */
IC_NODISCARD
uint32_t ic_list32_push_front(struct ic_link2_32 *table, ic_length places, struct ic_list *list, uint32_t place);

/* Inserts `place` at the back, in O(1).
 * IC_OUT_OF_RANGE: `place` is not below `places`, or is 536,870,911 or more. IC_LINKED: `place` is linked already. IC_BROKEN: the last
 * member is not linked in this table, or has a link to a member after it. */
IC_NODISCARD
uint32_t ic_list32_push_back(struct ic_link2_32 *table, ic_length places, struct ic_list *list, uint32_t place);

/* Removes the first member, and sets *popped to this member, in O(1).
 * IC_NULL: the list is empty. IC_BROKEN: the first member is not linked in this table, or has a link to a member before it, or the second
 * member has no link back to the first. */
IC_NODISCARD
uint32_t ic_list32_pop_front(struct ic_link2_32 *table, ic_length places, struct ic_list *list, uint32_t *popped);

/* Removes the last member, and sets *popped to this member, in O(1).
 * IC_NULL: the list is empty. IC_BROKEN: the last member is not linked in this table, or has a link to a member after it, or the second-to-
 * last member has no link to the last. */
IC_NODISCARD
uint32_t ic_list32_pop_back(struct ic_link2_32 *table, ic_length places, struct ic_list *list, uint32_t *popped);

/* Inserts `place` after the member `at`, or at the front if `at` is IC_NONE, in O(1).
 * IC_OUT_OF_RANGE: `at` or `place` is not below `places`, or is 536,870,911 or more. IC_LINKED: `place` is linked already. IC_NOT_LINKED:
 * the place `at` is not linked. IC_BROKEN: `at` is no member of the list according to its links. */
IC_NODISCARD
uint32_t ic_list32_insert_after(struct ic_link2_32 *table, ic_length places, struct ic_list *list, uint32_t at, uint32_t place);

/* Inserts `place` before the member `at`, or at the back if `at` is IC_NONE, in O(1).
 * IC_OUT_OF_RANGE: `at` or `place` is not below `places`, or is 536,870,911 or more. IC_LINKED: `place` is linked already. IC_NOT_LINKED:
 * the place `at` is not linked. IC_BROKEN: `at` is no member of the list according to its links. */
IC_NODISCARD
uint32_t ic_list32_insert_before(struct ic_link2_32 *table, ic_length places, struct ic_list *list, uint32_t at, uint32_t place);

/* Removes the member `at`, in O(1).
 * IC_NULL: the place `at` is IC_NONE. IC_OUT_OF_RANGE: the place `at` is not below `places`, or is 536,870,911 or more. IC_NOT_LINKED: the
 * place `at` is not linked. IC_BROKEN: `at` is no member of the list according to its links. */
IC_NODISCARD
uint32_t ic_list32_remove(struct ic_link2_32 *table, ic_length places, struct ic_list *list, uint32_t at);

/* Removes the member `at`, and inserts `place` where `at` was, in O(1).
 * IC_NULL: the place `at` is IC_NONE. IC_OUT_OF_RANGE: `at` or `place` is not below `places`, or is 536,870,911 or more. IC_LINKED: `place`
 * is linked already, or is `at` itself. IC_NOT_LINKED: the place `at` is not linked. IC_BROKEN: `at` is no member of the list according to
 * its links. */
IC_NODISCARD
uint32_t ic_list32_replace(struct ic_link2_32 *table, ic_length places, struct ic_list *list, uint32_t at, uint32_t place);

/* Moves the member `place` after the member `at`, or to the front if `at` is IC_NONE, in O(1). `place` stays linked during the call.
 * Nothing changes if `place` is at this position already, or if `at` and `place` are the same place.
 * IC_NULL: `place` is IC_NONE. IC_OUT_OF_RANGE: `at` or `place` is not below `places`, or is 536,870,911 or more. IC_NOT_LINKED: `at` or
 * `place` is not linked. IC_BROKEN: `at` or `place` is no member of the list according to their links. */
IC_NODISCARD
uint32_t ic_list32_move_after(struct ic_link2_32 *table, ic_length places, struct ic_list *list, uint32_t at, uint32_t place);

/* Moves the member `place` before the member `at`, or to the back if `at` is IC_NONE, in O(1). `place` stays linked during the call.
 * Nothing changes if `place` is at this position already, or if `at` and `place` are the same place.
 * IC_NULL: `place` is IC_NONE. IC_OUT_OF_RANGE: `at` or `place` is not below `places`, or is 536,870,911 or more. IC_NOT_LINKED: `at` or
 * `place` is not linked. IC_BROKEN: `at` or `place` is no member of the list according to their links. */
IC_NODISCARD
uint32_t ic_list32_move_before(struct ic_link2_32 *table, ic_length places, struct ic_list *list, uint32_t at, uint32_t place);

/* Moves the member `place` to the front, as a cache does with an object that it has just used, in O(1). `place` stays linked during the
 * call.
 * IC_NULL: `place` is IC_NONE. IC_OUT_OF_RANGE: `place` is not below `places`, or is 536,870,911 or more. IC_NOT_LINKED: `place` is not
 * linked. IC_BROKEN: `place` is no member of the list according to its links, or the first member is not linked in this table, or has a
 * link to a member before it. */
IC_NODISCARD
uint32_t ic_list32_move_to_front(struct ic_link2_32 *table, ic_length places, struct ic_list *list, uint32_t place);

/* Moves the member `place` to the back, in O(1). `place` stays linked during the call.
 * IC_NULL: `place` is IC_NONE. IC_OUT_OF_RANGE: `place` is not below `places`, or is 536,870,911 or more. IC_NOT_LINKED: `place` is not
 * linked. IC_BROKEN: `place` is no member of the list according to its links, or the last member is not linked in this table, or has a link
 * to a member after it. */
IC_NODISCARD
uint32_t ic_list32_move_to_back(struct ic_link2_32 *table, ic_length places, struct ic_list *list, uint32_t place);

/* Moves all members of `given`, in their order, after the member `at`, or to the front if `at` is IC_NONE, and leaves `given` empty, in
 * O(1).
 * IC_OUT_OF_RANGE: the place `at` is not below `places`, or is 536,870,911 or more. IC_NOT_LINKED: the place `at` is not linked. IC_BROKEN:
 * `at` is no member of the list according to its links, or `given` is no list of this table, or both lists begin with the same member, as a
 * list and its copy do. */
IC_NODISCARD
uint32_t ic_list32_splice_after(struct ic_link2_32 *table, ic_length places, struct ic_list *list, uint32_t at, struct ic_list *given);

/* Moves all members of `given`, in their order, before the member `at`, or to the back if `at` is IC_NONE, and leaves `given` empty, in
 * O(1).
 * IC_OUT_OF_RANGE: the place `at` is not below `places`, or is 536,870,911 or more. IC_NOT_LINKED: the place `at` is not linked. IC_BROKEN:
 * `at` is no member of the list according to its links, or `given` is no list of this table, or both lists begin with the same member, as a
 * list and its copy do. */
IC_NODISCARD
uint32_t ic_list32_splice_before(struct ic_link2_32 *table, ic_length places, struct ic_list *list, uint32_t at, struct ic_list *given);

/* Moves all members of `given`, in their order, to the back, and leaves `given` empty, in O(1).
 * IC_BROKEN: the last member is not linked in this table, or has a link to a member after it, or `given` is no list of this table, or both
 * lists begin with the same member, as a list and its copy do. */
IC_NODISCARD
uint32_t ic_list32_append(struct ic_link2_32 *table, ic_length places, struct ic_list *list, struct ic_list *given);

/* Removes all members, in O(n).
 * IC_BROKEN: the links do not lead from the first member to the last, or two neighbors do not have links to each other. */
IC_NODISCARD
uint32_t ic_list32_clear(struct ic_link2_32 *table, ic_length places, struct ic_list *list);

/* Moves the members after the member `at`, or all members if `at` is IC_NONE, to `rest`, which has to be empty, in O(1).
 * IC_OUT_OF_RANGE: the place `at` is not below `places`, or is 536,870,911 or more. IC_NOT_LINKED: the place `at` is not linked. IC_BROKEN:
 * `at` is no member of the list according to its links, or `rest` has members. */
IC_NODISCARD
uint32_t ic_list32_split_after(struct ic_link2_32 *table, ic_length places, struct ic_list *list, uint32_t at, struct ic_list *rest);

/* Moves the members before the member `at`, or all members if `at` is IC_NONE, to `rest`, which has to be empty, in O(1).
 * IC_OUT_OF_RANGE: the place `at` is not below `places`, or is 536,870,911 or more. IC_NOT_LINKED: the place `at` is not linked. IC_BROKEN:
 * `at` is no member of the list according to its links, or `rest` has members. */
IC_NODISCARD
uint32_t ic_list32_split_before(struct ic_link2_32 *table, ic_length places, struct ic_list *list, uint32_t at, struct ic_list *rest);

/* Counts the members, and sets *members to their number, in O(n). Make this call if the words come from a file, or from memory to which
 * other programs write. If the status is IC_OK, all other calls on this list do what their comments say.
 * IC_BROKEN: the links do not lead from the first member to the last, or two neighbors do not have links to each other. */
IC_NODISCARD
uint32_t ic_list32_check(const struct ic_link2_32 *table, ic_length places, const struct ic_list *list, uint64_t *members);

/* Moves the member `place` of `given` after the member `at`, or to the front if `at` is IC_NONE, in O(1). `place` stays linked during the
 * call.
 * IC_NULL: `place` is IC_NONE. IC_OUT_OF_RANGE: `at` or `place` is not below `places`, or is 536,870,911 or more. IC_NOT_LINKED: `at` or
 * `place` is not linked. IC_BROKEN: according to their links `at` is no member of the list or `place` is no member of `given`, or both
 * lists begin with the same member, as a list and its copy do. */
IC_NODISCARD
uint32_t ic_list32_transfer_after(struct ic_link2_32 *table, ic_length places, struct ic_list *list, uint32_t at, struct ic_list *given,
                                  uint32_t place);

/* Moves the member `place` of `given` before the member `at`, or to the back if `at` is IC_NONE, in O(1). `place` stays linked during the
 * call.
 * IC_NULL: `place` is IC_NONE. IC_OUT_OF_RANGE: `at` or `place` is not below `places`, or is 536,870,911 or more. IC_NOT_LINKED: `at` or
 * `place` is not linked. IC_BROKEN: according to their links `at` is no member of the list or `place` is no member of `given`, or both
 * lists begin with the same member, as a list and its copy do. */
IC_NODISCARD
uint32_t ic_list32_transfer_before(struct ic_link2_32 *table, ic_length places, struct ic_list *list, uint32_t at, struct ic_list *given,
                                   uint32_t place);

/* to here */

/* Made by tools/c-calls --write of list: list32 */

/* Returns whether a place is in a list of the table. */
static inline int ic_list32_is_linked(const struct ic_link2_32 *table, ic_length places, uint32_t place) {
    return place < ic_bound(ic_places_32(places)) && (table[place].next & 1);
}

/* Returns whether the list has no members, in which case ic_list32_pop_front returns IC_NULL. */
static inline int ic_list32_is_empty(const struct ic_list *list) {
    return ic_number(list->head) == 0;
}

/* Returns the first member, or IC_NONE if there is none. */
static inline uint32_t ic_list32_first(const struct ic_list *list) {
    return ic_place(list->head);
}

/* Returns the last member, or IC_NONE if there is none. */
static inline uint32_t ic_list32_last(const struct ic_list *list) {
    return ic_place(list->tail);
}

/* Returns the member after the member `at`, or IC_NONE if there is none. */
static inline uint32_t ic_list32_next(const struct ic_link2_32 *table, ic_length places, uint32_t at) {
    return ic_list32_is_linked(table, places, at) ? ic_place_within(places, table[at].next) : IC_NONE;
}

/* Returns the member before the member `at`, or IC_NONE if there is none. */
static inline uint32_t ic_list32_prev(const struct ic_link2_32 *table, ic_length places, uint32_t at) {
    return ic_list32_is_linked(table, places, at) ? ic_place_within(places, table[at].prev) : IC_NONE;
}

/* Returns the first member, or IC_NONE if the list is empty, or if the first member is no linked place of the table. */
static inline uint32_t ic_list32_front(const struct ic_link2_32 *table, ic_length places, const struct ic_list *list) {
    return ic_list32_is_linked(table, places, ic_list32_first(list)) ? ic_list32_first(list) : IC_NONE;
}

/* Returns the last member, or IC_NONE if the list is empty, or if the last member is no linked place of the table. */
static inline uint32_t ic_list32_back(const struct ic_link2_32 *table, ic_length places, const struct ic_list *list) {
    return ic_list32_is_linked(table, places, ic_list32_last(list)) ? ic_list32_last(list) : IC_NONE;
}

/* Returns whether the place `at` is the first member of the list. */
static inline int ic_list32_is_first(const struct ic_link2_32 *table, ic_length places, const struct ic_list *list, uint32_t at) {
    return at != IC_NONE && ic_list32_front(table, places, list) == at;
}

/* Returns whether the place `at` is the last member of the list. */
static inline int ic_list32_is_last(const struct ic_link2_32 *table, ic_length places, const struct ic_list *list, uint32_t at) {
    return at != IC_NONE && ic_list32_back(table, places, list) == at;
}

/* Returns whether the list has exactly one member. */
static inline int ic_list32_is_singular(const struct ic_link2_32 *table, ic_length places, const struct ic_list *list) {
    return ic_list32_is_first(table, places, list, ic_list32_last(list));
}

/* An IC_LIST32_FOREACH loop goes from the first member to the last, and a loop with REVERSE in its name goes from the last member to the first. In a
 * ..._SAFE loop `next` is the member after `place`, or IC_NONE if `place` is the last member. In a ..._REVERSE_SAFE loop `prev` is the member before
 * `place`, or IC_NONE if `place` is the first member.
 *
 *     IC_LIST32_FOREACH_SAFE(place, next, links, 100, &list)
 *         if (is_done(place))
 *             status = ic_list32_remove(links, 100, &list, place);
 */
#define IC_LIST32_FOREACH(place, table, places, list) \
    IC_LOOP(place, ic_list32_first(list), places, ic_list32_is_linked(table, places, place), ic_list32_next(table, places, place))
#define IC_LIST32_FOREACH_REVERSE(place, table, places, list) \
    IC_LOOP(place, ic_list32_last(list), places, ic_list32_is_linked(table, places, place), ic_list32_prev(table, places, place))
#define IC_LIST32_FOREACH_SAFE(place, next, table, places, list) \
    IC_LOOP_SAFE(place, next, ic_list32_first(list), places, ic_list32_is_linked(table, places, place), ic_list32_next(table, places, place))
#define IC_LIST32_FOREACH_REVERSE_SAFE(place, prev, table, places, list) \
    IC_LOOP_SAFE(place, prev, ic_list32_last(list), places, ic_list32_is_linked(table, places, place), ic_list32_prev(table, places, place))
#define IC_LIST32_FOREACH_ENTRY(object, objects, table, places, list)             \
    IC_LOOP_ENTRY(object, objects, ic_at_##object, ic_list32_first(list), places, \
        ic_list32_is_linked(table, places, ic_at_##object), ic_list32_next(table, places, ic_at_##object))
#define IC_LIST32_FOREACH_ENTRY_REVERSE(object, objects, table, places, list)    \
    IC_LOOP_ENTRY(object, objects, ic_at_##object, ic_list32_last(list), places, \
        ic_list32_is_linked(table, places, ic_at_##object), ic_list32_prev(table, places, ic_at_##object))
#define IC_LIST32_FOREACH_ENTRY_SAFE(object, objects, table, places, list)                               \
    IC_LOOP_ENTRY_SAFE(object, objects, ic_at_##object, ic_next_##object, ic_list32_first(list), places, \
        ic_list32_is_linked(table, places, ic_at_##object), ic_list32_next(table, places, ic_at_##object))
#define IC_LIST32_FOREACH_ENTRY_REVERSE_SAFE(object, objects, table, places, list)                      \
    IC_LOOP_ENTRY_SAFE(object, objects, ic_at_##object, ic_next_##object, ic_list32_last(list), places, \
        ic_list32_is_linked(table, places, ic_at_##object), ic_list32_prev(table, places, ic_at_##object))
#define IC_LIST32_FOREACH_FROM(place, at, table, places) \
    IC_LOOP(place, at, places, ic_list32_is_linked(table, places, place), ic_list32_next(table, places, place))
#define IC_LIST32_FOREACH_REVERSE_FROM(place, at, table, places) \
    IC_LOOP(place, at, places, ic_list32_is_linked(table, places, place), ic_list32_prev(table, places, place))
#define IC_LIST32_FOREACH_SAFE_FROM(place, next, at, table, places) \
    IC_LOOP_SAFE(place, next, at, places, ic_list32_is_linked(table, places, place), ic_list32_next(table, places, place))
#define IC_LIST32_FOREACH_ENTRY_FROM(object, objects, at, table, places)                                           \
    IC_LOOP_ENTRY(object, objects, ic_at_##object, at, places, ic_list32_is_linked(table, places, ic_at_##object), \
                  ic_list32_next(table, places, ic_at_##object))
#define IC_LIST32_FOREACH_ENTRY_SAFE_FROM(object, objects, at, table, places)         \
    IC_LOOP_ENTRY_SAFE(object, objects, ic_at_##object, ic_next_##object, at, places, \
                       ic_list32_is_linked(table, places, ic_at_##object), ic_list32_next(table, places, ic_at_##object))

/* to here */

/* ---- Rings: 16 bytes for each place; calls take O(1), except check, sort and merge ------------------------------------------------------
 *
 * A ring is a circular, doubly linked list of a head and members. The head is a place of the table, and you name a ring by its head. To remove a
 * member, or to insert a place beside a member, you do not name the ring. So rings are good if the code that removes an object does not know which
 * queue contains the object. Rings are like the lists of Linux (list.h). Rings and lists may be in one table. Use places without an object as the
 * heads of rings.
 *
 *     struct ic_link2 links[65] = {0};               // 64 objects, and a head at 64
 *     status = ic_ring_init(links, 65, 64);          // a ring with no members
 *     status = ic_ring_push_back(links, 65, 64, 7);
 *     status = ic_ring_remove(links, 65, 7);         // from whichever ring it is in
 *
 * Each call tests the links of the places that you name and of their neighbors. A member in the middle of a doubly linked list passes these tests,
 * too. A call edits such a list as if it were a ring, and the list stays a list. No call can detect whether two places are in one ring or in two.
 */

/* ---- Rings: functions for links of 8-byte and of 4-byte words ---- */

/* Returns whether a place is in a ring or a list of the table. */
static inline int ic_ring_is_linked(const struct ic_link2 *table, ic_length places, uint32_t place) {
    return place < ic_bound(places) && (table[place].next & 1);
}

/* Returns the place after the place `at` of a ring, or IC_NONE if `at` is not linked. After a head comes the first member, and after the last
 * member comes the head. */
static inline uint32_t ic_ring_next(const struct ic_link2 *table, ic_length places, uint32_t at) {
    return ic_ring_is_linked(table, places, at) ? ic_place_within(places, table[at].next) : IC_NONE;
}

/* Returns the place before the place `at` of a ring, or IC_NONE if `at` is not linked. */
static inline uint32_t ic_ring_prev(const struct ic_link2 *table, ic_length places, uint32_t at) {
    return ic_ring_is_linked(table, places, at) ? ic_place_within(places, table[at].prev) : IC_NONE;
}

/* Returns whether `head` is the head of a ring with no members. */
static inline int ic_ring_is_empty(const struct ic_link2 *table, ic_length places, uint32_t head) {
    return ic_ring_is_linked(table, places, head) && ic_ring_next(table, places, head) == head;
}

/* Returns the first member of the ring with the head `head`, or IC_NONE if the ring has no members, or if the first member is no linked place of the
 * table. */
static inline uint32_t ic_ring_front(const struct ic_link2 *table, ic_length places, uint32_t head) {
    uint32_t place = ic_ring_next(table, places, head);
    return place != head && ic_ring_is_linked(table, places, place) ? place : IC_NONE;
}

/* Returns the last member of the ring with the head `head`, or IC_NONE if the ring has no members, or if the last member is no linked place of the
 * table. */
static inline uint32_t ic_ring_back(const struct ic_link2 *table, ic_length places, uint32_t head) {
    uint32_t place = ic_ring_prev(table, places, head);
    return place != head && ic_ring_is_linked(table, places, place) ? place : IC_NONE;
}

/* Returns whether the place `at` is the first member of the ring with the head `head`. */
static inline int ic_ring_is_first(const struct ic_link2 *table, ic_length places, uint32_t head, uint32_t at) {
    return at != IC_NONE && ic_ring_front(table, places, head) == at;
}

/* Returns whether the place `at` is the last member of the ring with the head `head`. */
static inline int ic_ring_is_last(const struct ic_link2 *table, ic_length places, uint32_t head, uint32_t at) {
    return at != IC_NONE && ic_ring_back(table, places, head) == at;
}

/* Returns whether the ring with the head `head` has exactly one member. */
static inline int ic_ring_is_singular(const struct ic_link2 *table, ic_length places, uint32_t head) {
    return ic_ring_is_first(table, places, head, ic_ring_back(table, places, head));
}

/* An IC_RING_FOREACH loop goes from the first member of the ring with the head `head` to the last member, and a loop with REVERSE in its name goes
 * from the last member to the first. In a ..._SAFE loop `next` is the place after `place`, or the head if `place` is the last member. In a
 * ..._REVERSE_SAFE loop `prev` is the place before `place`, or the head if `place` is the first member. */
#define IC_RING_FOREACH(place, table, places, head)                                                                                   \
    IC_LOOP(place, ic_ring_next(table, places, head), places, place != (head) && ic_ring_is_linked(table, places, place),             \
            ic_ring_next(table, places, place))
#define IC_RING_FOREACH_REVERSE(place, table, places, head)                                                                           \
    IC_LOOP(place, ic_ring_prev(table, places, head), places, place != (head) && ic_ring_is_linked(table, places, place),             \
            ic_ring_prev(table, places, place))
#define IC_RING_FOREACH_SAFE(place, next, table, places, head)                                                                        \
    IC_LOOP_SAFE(place, next, ic_ring_next(table, places, head), places, place != (head) && ic_ring_is_linked(table, places, place),  \
                 ic_ring_next(table, places, place))
#define IC_RING_FOREACH_REVERSE_SAFE(place, prev, table, places, head)                                                                \
    IC_LOOP_SAFE(place, prev, ic_ring_prev(table, places, head), places, place != (head) && ic_ring_is_linked(table, places, place),  \
                 ic_ring_prev(table, places, place))
#define IC_RING_FOREACH_ENTRY(object, objects, table, places, head)                           \
    IC_LOOP_ENTRY(object, objects, ic_at_##object, ic_ring_next(table, places, head), places, \
        ic_at_##object != (head) && ic_ring_is_linked(table, places, ic_at_##object), ic_ring_next(table, places, ic_at_##object))
#define IC_RING_FOREACH_ENTRY_REVERSE(object, objects, table, places, head)                   \
    IC_LOOP_ENTRY(object, objects, ic_at_##object, ic_ring_prev(table, places, head), places, \
        ic_at_##object != (head) && ic_ring_is_linked(table, places, ic_at_##object), ic_ring_prev(table, places, ic_at_##object))
#define IC_RING_FOREACH_ENTRY_SAFE(object, objects, table, places, head)                                             \
    IC_LOOP_ENTRY_SAFE(object, objects, ic_at_##object, ic_next_##object, ic_ring_next(table, places, head), places, \
        ic_at_##object != (head) && ic_ring_is_linked(table, places, ic_at_##object), ic_ring_next(table, places, ic_at_##object))
#define IC_RING_FOREACH_ENTRY_REVERSE_SAFE(object, objects, table, places, head)                                     \
    IC_LOOP_ENTRY_SAFE(object, objects, ic_at_##object, ic_next_##object, ic_ring_prev(table, places, head), places, \
        ic_at_##object != (head) && ic_ring_is_linked(table, places, ic_at_##object), ic_ring_prev(table, places, ic_at_##object))
#define IC_RING_FOREACH_FROM(place, at, table, places, head) \
    IC_LOOP(place, at, places, place != (head) && ic_ring_is_linked(table, places, place), ic_ring_next(table, places, place))
#define IC_RING_FOREACH_REVERSE_FROM(place, at, table, places, head) \
    IC_LOOP(place, at, places, place != (head) && ic_ring_is_linked(table, places, place), ic_ring_prev(table, places, place))
#define IC_RING_FOREACH_SAFE_FROM(place, next, at, table, places, head) \
    IC_LOOP_SAFE(place, next, at, places, place != (head) && ic_ring_is_linked(table, places, place), ic_ring_next(table, places, place))
#define IC_RING_FOREACH_ENTRY_FROM(object, objects, at, table, places, head)                                                                 \
    IC_LOOP_ENTRY(object, objects, ic_at_##object, at, places, ic_at_##object != (head) && ic_ring_is_linked(table, places, ic_at_##object), \
                  ic_ring_next(table, places, ic_at_##object))
#define IC_RING_FOREACH_ENTRY_SAFE_FROM(object, objects, at, table, places, head)     \
    IC_LOOP_ENTRY_SAFE(object, objects, ic_at_##object, ic_next_##object, at, places, \
                       ic_at_##object != (head) && ic_ring_is_linked(table, places, ic_at_##object), ic_ring_next(table, places, ic_at_##object))

/* Made by tools/c-calls --write: ring ring-check */

/* Makes `head` the head of a ring with no members, as INIT_LIST_HEAD of Linux does, in O(1).
 * IC_OUT_OF_RANGE: `head` is not below `places`. IC_LINKED: `head` is linked already. */
IC_NODISCARD
uint32_t ic_ring_init(struct ic_link2 *table, ic_length places, uint32_t head);

/* Inserts `place` after the place `at` of a ring, as list_add of Linux does, in O(1). If `at` is the head of a ring, `place` becomes the
 * first member of this ring.
 * IC_NULL: the place `at` is IC_NONE. IC_OUT_OF_RANGE: `at` or `place` is not below `places`. IC_LINKED: `place` is linked already, or is
 * `at` itself. IC_NOT_LINKED: the place `at` is not linked. IC_BROKEN: `at` is in no ring. */
IC_NODISCARD
uint32_t ic_ring_insert_after(struct ic_link2 *table, ic_length places, uint32_t at, uint32_t place);

/* Inserts `place` before the place `at` of a ring, as list_add_tail of Linux does, in O(1). If `at` is the head of a ring, `place` becomes
 * the last member of this ring.
 * IC_NULL: the place `at` is IC_NONE. IC_OUT_OF_RANGE: `at` or `place` is not below `places`. IC_LINKED: `place` is linked already, or is
 * `at` itself. IC_NOT_LINKED: the place `at` is not linked. IC_BROKEN: `at` is in no ring. */
IC_NODISCARD
uint32_t ic_ring_insert_before(struct ic_link2 *table, ic_length places, uint32_t at, uint32_t place);

/* Removes `place` from its ring, which you do not name, as list_del of Linux does, in O(1). If `place` is the head of a ring without
 * members, this ring ceases to exist.
 * IC_NULL: `place` is IC_NONE. IC_OUT_OF_RANGE: `place` is not below `places`. IC_NOT_LINKED: `place` is not linked. IC_BROKEN: `place` is
 * in no ring. */
IC_NODISCARD
uint32_t ic_ring_remove(struct ic_link2 *table, ic_length places, uint32_t place);

/* Makes the place after `one` follow `other`, and the place after `other` follow `one`, in O(1). `one` and `other` must be in rings. If
 * `one` and `other` are in two rings, the call joins the rings. If `one` and `other` are different places of one ring, the call splits this
 * ring into two. A second call with the same places undoes the first call. For example, let `one` be the last member of a ring, and `other`
 * the head of another ring. After the call the members of the other ring follow `one`, and `other` follows these members.
 * IC_NULL: `one` or `other` is IC_NONE. IC_OUT_OF_RANGE: `one` or `other` is not below `places`. IC_NOT_LINKED: `one` or `other` is not
 * linked. IC_BROKEN: `one` or `other` is in no ring. */
IC_NODISCARD
uint32_t ic_ring_exchange(struct ic_link2 *table, ic_length places, uint32_t one, uint32_t other);

/* Removes the first member of the ring with the head `head`, and sets *popped to this member, in O(1).
 * IC_NULL: `head` is IC_NONE, or the ring has no members. IC_OUT_OF_RANGE: `head` is not below `places`. IC_NOT_LINKED: `head` is not
 * linked. IC_BROKEN: `head` or its first member is in no ring. */
IC_NODISCARD
uint32_t ic_ring_pop_front(struct ic_link2 *table, ic_length places, uint32_t head, uint32_t *popped);

/* Removes the last member of the ring with the head `head`, and sets *popped to this member, in O(1).
 * IC_NULL: `head` is IC_NONE, or the ring has no members. IC_OUT_OF_RANGE: `head` is not below `places`. IC_NOT_LINKED: `head` is not
 * linked. IC_BROKEN: `head` or its last member is in no ring. */
IC_NODISCARD
uint32_t ic_ring_pop_back(struct ic_link2 *table, ic_length places, uint32_t head, uint32_t *popped);

/* Removes the place `at` from its ring, and inserts `place` where `at` was, as list_replace of Linux does, in O(1).
 * IC_NULL: the place `at` is IC_NONE. IC_OUT_OF_RANGE: `at` or `place` is not below `places`. IC_LINKED: `place` is linked already, or is
 * `at` itself. IC_NOT_LINKED: the place `at` is not linked. IC_BROKEN: `at` is in no ring. */
IC_NODISCARD
uint32_t ic_ring_replace(struct ic_link2 *table, ic_length places, uint32_t at, uint32_t place);

/* Moves `place` after the place `at` of the same ring or of another ring, as list_move of Linux does, in O(1). If `at` is the head of a
 * ring, `place` becomes the first member of this ring. `place` stays linked during the call. Nothing changes if `at` and `place` are the
 * same place.
 * IC_NULL: `at` or `place` is IC_NONE. IC_OUT_OF_RANGE: `at` or `place` is not below `places`. IC_NOT_LINKED: `at` or `place` is not
 * linked. IC_BROKEN: `at` or `place` is in no ring. */
IC_NODISCARD
uint32_t ic_ring_move_after(struct ic_link2 *table, ic_length places, uint32_t at, uint32_t place);

/* Moves `place` before the place `at` of the same ring or of another ring, as list_move_tail of Linux does, in O(1). If `at` is the head of
 * a ring, `place` becomes the last member of this ring. `place` stays linked during the call. Nothing changes if `at` and `place` are the
 * same place.
 * IC_NULL: `at` or `place` is IC_NONE. IC_OUT_OF_RANGE: `at` or `place` is not below `places`. IC_NOT_LINKED: `at` or `place` is not
 * linked. IC_BROKEN: `at` or `place` is in no ring. */
IC_NODISCARD
uint32_t ic_ring_move_before(struct ic_link2 *table, ic_length places, uint32_t at, uint32_t place);

/* Moves all members of the ring with the head `head`, in their order, after the place `at` of another ring, as list_splice_init of Linux
 * does, in O(1). After the call `head` is the head of a ring with no members.
 * IC_NULL: `at` or `head` is IC_NONE. IC_OUT_OF_RANGE: `at` or `head` is not below `places`. IC_NOT_LINKED: `at` or `head` is not linked.
 * IC_BROKEN: `at` or `head` is in no ring, or `at` is `head` or the last member of the ring with the head `head`. */
IC_NODISCARD
uint32_t ic_ring_splice_after(struct ic_link2 *table, ic_length places, uint32_t at, uint32_t head);

/* Moves all members of the ring with the head `head`, in their order, before the place `at` of another ring, as list_splice_tail_init of
 * Linux does, in O(1). After the call `head` is the head of a ring with no members.
 * IC_NULL: `at` or `head` is IC_NONE. IC_OUT_OF_RANGE: `at` or `head` is not below `places`. IC_NOT_LINKED: `at` or `head` is not linked.
 * IC_BROKEN: `at` or `head` is in no ring, or `at` is `head` or the first member of the ring with the head `head`. */
IC_NODISCARD
uint32_t ic_ring_splice_before(struct ic_link2 *table, ic_length places, uint32_t at, uint32_t head);

/* Counts the members of the ring with the head `head`, and sets *members to their number, in O(n). Make this call if the words come from a
 * file, or from memory to which other programs write. If the status is IC_OK, all other calls on this ring do what their comments say.
 * IC_NULL: `head` is IC_NONE. IC_OUT_OF_RANGE: `head` is not below `places`. IC_NOT_LINKED: `head` is not linked. IC_BROKEN: the links do
 * not lead from `head` around a ring and back to `head`, or two neighbors do not have links to each other. */
IC_NODISCARD
uint32_t ic_ring_check(const struct ic_link2 *table, ic_length places, uint32_t head, uint64_t *members);

/* to here */

/* The next two functions insert a place at an end of a ring. Their names are like those of the calls that insert a place at an end of a list. */

/* Inserts `place` as the first member of the ring with the head `head`, and returns the status of ic_ring_insert_after. */
IC_NODISCARD
static inline uint32_t ic_ring_push_front(struct ic_link2 *table, ic_length places, uint32_t head, uint32_t place) {
    return ic_ring_insert_after(table, places, head, place);
}

/* Inserts `place` as the last member of the ring with the head `head`, and returns the status of ic_ring_insert_before. */
IC_NODISCARD
static inline uint32_t ic_ring_push_back(struct ic_link2 *table, ic_length places, uint32_t head, uint32_t place) {
    return ic_ring_insert_before(table, places, head, place);
}

/* Each of the functions ic_ring_swap, ic_ring_move_range_after and ic_ring_move_range_before makes two calls. Before the first call, the function
 * tests the links that the second call will test, so a refused edit has changed nothing. */

/* Returns whether `after` is the place after `before` in a ring, and the link of `after` names `before`. */
static inline int ic_ring_is_gap(const struct ic_link2 *table, ic_length places, uint32_t before, uint32_t after) {
    return before != IC_NONE && ic_ring_next(table, places, before) == after && ic_ring_prev(table, places, after) == before;
}

/* Exchanges the positions of the places `one` and `other`, as list_swap of Linux does, in O(1). The two places may be in one ring or in two. Nothing
 * changes if `one` and `other` are the same place.
 * IC_NULL: `one` or `other` is IC_NONE. IC_OUT_OF_RANGE: `one` or `other` is not below `places`. IC_NOT_LINKED: `one` or `other` is not
 * linked. IC_BROKEN: `one` or `other` is in no ring. */
IC_NODISCARD
static inline uint32_t ic_ring_swap(struct ic_link2 *table, ic_length places, uint32_t one, uint32_t other) {
    const uint32_t before_one = ic_ring_prev(table, places, one), before_other = ic_ring_prev(table, places, other);
    uint32_t status;
    if (!ic_ring_is_gap(table, places, before_one, one) || !ic_ring_is_gap(table, places, one, ic_ring_next(table, places, one)))
        return ic_fault_of(places, one, ic_ring_is_linked(table, places, one));
    if (!ic_ring_is_gap(table, places, before_other, other) || !ic_ring_is_gap(table, places, other, ic_ring_next(table, places, other)))
        return ic_fault_of(places, other, ic_ring_is_linked(table, places, other));
    status = ic_ring_exchange(table, places, before_one, before_other);
    return status == IC_OK ? ic_ring_exchange(table, places, one, other) : status;
}

/* Moves the places from `first` to `last` of a ring, in their order, after the place `at` of the same ring or of another ring, in O(1). If `first`
 * is the first member of a ring, and `at` is the head of another ring, the moved members become the first members of the other ring, as with
 * list_cut_position of Linux. Nothing changes if the places are already right after `at`, or if `at` is `last`. If `at` is between `first` and
 * `last`, or if `last` comes before `first`, the call cannot detect this mistake, and leaves places in circles without a head.
 * IC_NULL: `at`, `first` or `last` is IC_NONE. IC_OUT_OF_RANGE: `at`, `first` or `last` is not below `places`. IC_NOT_LINKED: `at`, `first` or
 * `last` is not linked. IC_BROKEN: `at`, `first` or `last` is in no ring, or `at` is `first` but not `last`. */
IC_NODISCARD
static inline uint32_t ic_ring_move_range_after(struct ic_link2 *table, ic_length places, uint32_t at, uint32_t first, uint32_t last) {
    const uint32_t before_first = ic_ring_prev(table, places, first);
    uint32_t status;
    if (!ic_ring_is_gap(table, places, at, ic_ring_next(table, places, at)))
        return ic_fault_of(places, at, ic_ring_is_linked(table, places, at));
    if (!ic_ring_is_gap(table, places, before_first, first))
        return ic_fault_of(places, first, ic_ring_is_linked(table, places, first));
    if (at == last)
        return IC_OK;
    if (at == first)
        return IC_BROKEN;
    status = ic_ring_exchange(table, places, before_first, last);
    return status == IC_OK ? ic_ring_exchange(table, places, at, last) : status;
}

/* Moves the places from `first` to `last` of a ring, in their order, before the place `at` of the same ring or of another ring, in O(1). If `at` is
 * the head of a ring, the moved places become the last members of this ring, as with list_bulk_move_tail of Linux. Nothing changes if the places are
 * already right before `at`, or if `at` is `first`. If `at` is between `first` and `last`, or if `last` comes before `first`, the call cannot detect
 * this mistake, and leaves places in circles without a head.
 * IC_NULL: `at`, `first` or `last` is IC_NONE. IC_OUT_OF_RANGE: `at`, `first` or `last` is not below `places`. IC_NOT_LINKED: `at`, `first` or
 * `last` is not linked. IC_BROKEN: `at`, `first` or `last` is in no ring, or `at` is `last` but not `first`. */
IC_NODISCARD
static inline uint32_t ic_ring_move_range_before(struct ic_link2 *table, ic_length places, uint32_t at, uint32_t first, uint32_t last) {
    const uint32_t before_at = ic_ring_prev(table, places, at);
    if (!ic_ring_is_gap(table, places, before_at, at))
        return ic_fault_of(places, at, ic_ring_is_linked(table, places, at));
    if (at == last && at != first)
        return IC_BROKEN;
    return ic_ring_move_range_after(table, places, at == first ? last : before_at, first, last);
}

/* ---- Rings: to here ---- */

/* ---- Rings by keys ----
 *
 * A key is a number, and a member with a smaller key comes before a member with a greater key. The key of `place` is keys[place], so the array
 * `keys` must have a key for each place. A sort and a merge check the rings before they change a link, so a refused call has changed nothing. A sort
 * is recursive, to a depth of at most 33 calls.
 */

/* Made by tools/c-calls --write: ring-keys */

/* Sorts the members of the ring with the head `head` by their keys, as list_sort of Linux does, in O(n log n). Members with equal keys keep
 * their order.
 * IC_NULL: `head` is IC_NONE. IC_OUT_OF_RANGE: there are fewer keys than places, or `head` is not below `places`. IC_NOT_LINKED: `head` is
 * not linked. IC_BROKEN: the links do not lead from `head` around a ring and back to `head`, or two neighbors do not have links to each
 * other. */
IC_NODISCARD
uint32_t ic_ring_sort(struct ic_link2 *table, ic_length places, const uint64_t *keys, ic_length key_count, uint32_t head);

/* Moves all members of the ring with the head `given` into the ring with the head `head`, in O(n). If both rings were sorted by keys, the
 * ring with the head `head` is sorted by keys after the call. Of members with equal keys, those that were in the ring with the head `head`
 * come first. After the call `given` is the head of a ring with no members.
 * IC_NULL: `head` or `given` is IC_NONE. IC_OUT_OF_RANGE: there are fewer keys than places, or `head` or `given` is not below `places`.
 * IC_NOT_LINKED: `head` or `given` is not linked. IC_BROKEN: the links do not lead from `head` or from `given` around a ring and back to
 * this place, or two neighbors do not have links to each other, or `head` and `given` are in one ring. */
IC_NODISCARD
uint32_t ic_ring_merge(struct ic_link2 *table, ic_length places, const uint64_t *keys, ic_length key_count, uint32_t head, uint32_t given);

/* to here */

/* ---- Rings with words of 4 bytes: 8 bytes for each place; calls take O(1) ----------------------------------------------------------------
 *
 * Rings with words of 4 bytes take half the memory of rings with words of 8 bytes. Each of their links is a struct ic_link2_32, as for lists with
 * words of 4 bytes. Rings and lists with words of 4 bytes may be in one table. Each call, read and loop does the same as the call, read or loop
 * without 32 in its name.
 *
 *     struct ic_link2_32 links[65] = {0};             // 64 objects, and a head at 64
 *     status = ic_ring32_init(links, 65, 64);         // a ring with no members
 *     status = ic_ring32_push_back(links, 65, 64, 7);
 *     status = ic_ring32_remove(links, 65, 7);        // from whichever ring it is in
 */

/* Made by tools/c-calls --write: ring32 */

/* Makes `head` the head of a ring with no members, as INIT_LIST_HEAD of Linux does, in O(1).
 * IC_OUT_OF_RANGE: `head` is not below `places`, or is 536,870,911 or more. IC_LINKED: `head` is linked already. */
IC_NODISCARD
uint32_t ic_ring32_init(struct ic_link2_32 *table, ic_length places, uint32_t head);

/* Inserts `place` after the place `at` of a ring, as list_add of Linux does, in O(1). If `at` is the head of a ring, `place` becomes the
 * first member of this ring.
 * IC_NULL: the place `at` is IC_NONE. IC_OUT_OF_RANGE: `at` or `place` is not below `places`, or is 536,870,911 or more. IC_LINKED: `place`
 * is linked already, or is `at` itself. IC_NOT_LINKED: the place `at` is not linked. IC_BROKEN: `at` is in no ring. */
IC_NODISCARD
uint32_t ic_ring32_insert_after(struct ic_link2_32 *table, ic_length places, uint32_t at, uint32_t place);

/* Inserts `place` before the place `at` of a ring, as list_add_tail of Linux does, in O(1). If `at` is the head of a ring, `place` becomes
 * the last member of this ring.
 * IC_NULL: the place `at` is IC_NONE. IC_OUT_OF_RANGE: `at` or `place` is not below `places`, or is 536,870,911 or more. IC_LINKED: `place`
 * is linked already, or is `at` itself. IC_NOT_LINKED: the place `at` is not linked. IC_BROKEN: `at` is in no ring. */
IC_NODISCARD
uint32_t ic_ring32_insert_before(struct ic_link2_32 *table, ic_length places, uint32_t at, uint32_t place);

/* Removes `place` from its ring, which you do not name, as list_del of Linux does, in O(1). If `place` is the head of a ring without
 * members, this ring ceases to exist.
 * IC_NULL: `place` is IC_NONE. IC_OUT_OF_RANGE: `place` is not below `places`, or is 536,870,911 or more. IC_NOT_LINKED: `place` is not
 * linked. IC_BROKEN: `place` is in no ring. */
IC_NODISCARD
uint32_t ic_ring32_remove(struct ic_link2_32 *table, ic_length places, uint32_t place);

/* Makes the place after `one` follow `other`, and the place after `other` follow `one`, in O(1). `one` and `other` must be in rings. If
 * `one` and `other` are in two rings, the call joins the rings. If `one` and `other` are different places of one ring, the call splits this
 * ring into two. A second call with the same places undoes the first call. For example, let `one` be the last member of a ring, and `other`
 * the head of another ring. After the call the members of the other ring follow `one`, and `other` follows these members.
 * IC_NULL: `one` or `other` is IC_NONE. IC_OUT_OF_RANGE: `one` or `other` is not below `places`, or is 536,870,911 or more. IC_NOT_LINKED:
 * `one` or `other` is not linked. IC_BROKEN: `one` or `other` is in no ring. */
IC_NODISCARD
uint32_t ic_ring32_exchange(struct ic_link2_32 *table, ic_length places, uint32_t one, uint32_t other);

/* Removes the first member of the ring with the head `head`, and sets *popped to this member, in O(1).
 * IC_NULL: `head` is IC_NONE, or the ring has no members. IC_OUT_OF_RANGE: `head` is not below `places`, or is 536,870,911 or more.
 * IC_NOT_LINKED: `head` is not linked. IC_BROKEN: `head` or its first member is in no ring. */
IC_NODISCARD
uint32_t ic_ring32_pop_front(struct ic_link2_32 *table, ic_length places, uint32_t head, uint32_t *popped);

/* Removes the last member of the ring with the head `head`, and sets *popped to this member, in O(1).
 * IC_NULL: `head` is IC_NONE, or the ring has no members. IC_OUT_OF_RANGE: `head` is not below `places`, or is 536,870,911 or more.
 * IC_NOT_LINKED: `head` is not linked. IC_BROKEN: `head` or its last member is in no ring. */
IC_NODISCARD
uint32_t ic_ring32_pop_back(struct ic_link2_32 *table, ic_length places, uint32_t head, uint32_t *popped);

/* Removes the place `at` from its ring, and inserts `place` where `at` was, as list_replace of Linux does, in O(1).
 * IC_NULL: the place `at` is IC_NONE. IC_OUT_OF_RANGE: `at` or `place` is not below `places`, or is 536,870,911 or more. IC_LINKED: `place`
 * is linked already, or is `at` itself. IC_NOT_LINKED: the place `at` is not linked. IC_BROKEN: `at` is in no ring. */
IC_NODISCARD
uint32_t ic_ring32_replace(struct ic_link2_32 *table, ic_length places, uint32_t at, uint32_t place);

/* Moves `place` after the place `at` of the same ring or of another ring, as list_move of Linux does, in O(1). If `at` is the head of a
 * ring, `place` becomes the first member of this ring. `place` stays linked during the call. Nothing changes if `at` and `place` are the
 * same place.
 * IC_NULL: `at` or `place` is IC_NONE. IC_OUT_OF_RANGE: `at` or `place` is not below `places`, or is 536,870,911 or more. IC_NOT_LINKED:
 * `at` or `place` is not linked. IC_BROKEN: `at` or `place` is in no ring. */
IC_NODISCARD
uint32_t ic_ring32_move_after(struct ic_link2_32 *table, ic_length places, uint32_t at, uint32_t place);

/* Moves `place` before the place `at` of the same ring or of another ring, as list_move_tail of Linux does, in O(1). If `at` is the head of
 * a ring, `place` becomes the last member of this ring. `place` stays linked during the call. Nothing changes if `at` and `place` are the
 * same place.
 * IC_NULL: `at` or `place` is IC_NONE. IC_OUT_OF_RANGE: `at` or `place` is not below `places`, or is 536,870,911 or more. IC_NOT_LINKED:
 * `at` or `place` is not linked. IC_BROKEN: `at` or `place` is in no ring. */
IC_NODISCARD
uint32_t ic_ring32_move_before(struct ic_link2_32 *table, ic_length places, uint32_t at, uint32_t place);

/* Moves all members of the ring with the head `head`, in their order, after the place `at` of another ring, as list_splice_init of Linux
 * does, in O(1). After the call `head` is the head of a ring with no members.
 * IC_NULL: `at` or `head` is IC_NONE. IC_OUT_OF_RANGE: `at` or `head` is not below `places`, or is 536,870,911 or more. IC_NOT_LINKED: `at`
 * or `head` is not linked. IC_BROKEN: `at` or `head` is in no ring, or `at` is `head` or the last member of the ring with the head `head`. */
IC_NODISCARD
uint32_t ic_ring32_splice_after(struct ic_link2_32 *table, ic_length places, uint32_t at, uint32_t head);

/* Moves all members of the ring with the head `head`, in their order, before the place `at` of another ring, as list_splice_tail_init of
 * Linux does, in O(1). After the call `head` is the head of a ring with no members.
 * IC_NULL: `at` or `head` is IC_NONE. IC_OUT_OF_RANGE: `at` or `head` is not below `places`, or is 536,870,911 or more. IC_NOT_LINKED: `at`
 * or `head` is not linked. IC_BROKEN: `at` or `head` is in no ring, or `at` is `head` or the first member of the ring with the head `head`. */
IC_NODISCARD
uint32_t ic_ring32_splice_before(struct ic_link2_32 *table, ic_length places, uint32_t at, uint32_t head);

/* to here */

/* Made by tools/c-calls --write of ring: ring32 */

/* Returns whether a place is in a ring or a list of the table. */
static inline int ic_ring32_is_linked(const struct ic_link2_32 *table, ic_length places, uint32_t place) {
    return place < ic_bound(ic_places_32(places)) && (table[place].next & 1);
}

/* Returns the place after the place `at` of a ring, or IC_NONE if `at` is not linked. After a head comes the first member, and after the last
 * member comes the head. */
static inline uint32_t ic_ring32_next(const struct ic_link2_32 *table, ic_length places, uint32_t at) {
    return ic_ring32_is_linked(table, places, at) ? ic_place_within(places, table[at].next) : IC_NONE;
}

/* Returns the place before the place `at` of a ring, or IC_NONE if `at` is not linked. */
static inline uint32_t ic_ring32_prev(const struct ic_link2_32 *table, ic_length places, uint32_t at) {
    return ic_ring32_is_linked(table, places, at) ? ic_place_within(places, table[at].prev) : IC_NONE;
}

/* Returns whether `head` is the head of a ring with no members. */
static inline int ic_ring32_is_empty(const struct ic_link2_32 *table, ic_length places, uint32_t head) {
    return ic_ring32_is_linked(table, places, head) && ic_ring32_next(table, places, head) == head;
}

/* Returns the first member of the ring with the head `head`, or IC_NONE if the ring has no members, or if the first member is no linked place of the
 * table. */
static inline uint32_t ic_ring32_front(const struct ic_link2_32 *table, ic_length places, uint32_t head) {
    uint32_t place = ic_ring32_next(table, places, head);
    return place != head && ic_ring32_is_linked(table, places, place) ? place : IC_NONE;
}

/* Returns the last member of the ring with the head `head`, or IC_NONE if the ring has no members, or if the last member is no linked place of the
 * table. */
static inline uint32_t ic_ring32_back(const struct ic_link2_32 *table, ic_length places, uint32_t head) {
    uint32_t place = ic_ring32_prev(table, places, head);
    return place != head && ic_ring32_is_linked(table, places, place) ? place : IC_NONE;
}

/* Returns whether the place `at` is the first member of the ring with the head `head`. */
static inline int ic_ring32_is_first(const struct ic_link2_32 *table, ic_length places, uint32_t head, uint32_t at) {
    return at != IC_NONE && ic_ring32_front(table, places, head) == at;
}

/* Returns whether the place `at` is the last member of the ring with the head `head`. */
static inline int ic_ring32_is_last(const struct ic_link2_32 *table, ic_length places, uint32_t head, uint32_t at) {
    return at != IC_NONE && ic_ring32_back(table, places, head) == at;
}

/* Returns whether the ring with the head `head` has exactly one member. */
static inline int ic_ring32_is_singular(const struct ic_link2_32 *table, ic_length places, uint32_t head) {
    return ic_ring32_is_first(table, places, head, ic_ring32_back(table, places, head));
}

/* An IC_RING32_FOREACH loop goes from the first member of the ring with the head `head` to the last member, and a loop with REVERSE in its name goes
 * from the last member to the first. In a ..._SAFE loop `next` is the place after `place`, or the head if `place` is the last member. In a
 * ..._REVERSE_SAFE loop `prev` is the place before `place`, or the head if `place` is the first member. */
#define IC_RING32_FOREACH(place, table, places, head)                                                                         \
    IC_LOOP(place, ic_ring32_next(table, places, head), places, place != (head) && ic_ring32_is_linked(table, places, place), \
            ic_ring32_next(table, places, place))
#define IC_RING32_FOREACH_REVERSE(place, table, places, head)                                                                 \
    IC_LOOP(place, ic_ring32_prev(table, places, head), places, place != (head) && ic_ring32_is_linked(table, places, place), \
            ic_ring32_prev(table, places, place))
#define IC_RING32_FOREACH_SAFE(place, next, table, places, head)                                                                         \
    IC_LOOP_SAFE(place, next, ic_ring32_next(table, places, head), places, place != (head) && ic_ring32_is_linked(table, places, place), \
                 ic_ring32_next(table, places, place))
#define IC_RING32_FOREACH_REVERSE_SAFE(place, prev, table, places, head)                                                                 \
    IC_LOOP_SAFE(place, prev, ic_ring32_prev(table, places, head), places, place != (head) && ic_ring32_is_linked(table, places, place), \
                 ic_ring32_prev(table, places, place))
#define IC_RING32_FOREACH_ENTRY(object, objects, table, places, head)                           \
    IC_LOOP_ENTRY(object, objects, ic_at_##object, ic_ring32_next(table, places, head), places, \
        ic_at_##object != (head) && ic_ring32_is_linked(table, places, ic_at_##object), ic_ring32_next(table, places, ic_at_##object))
#define IC_RING32_FOREACH_ENTRY_REVERSE(object, objects, table, places, head)                   \
    IC_LOOP_ENTRY(object, objects, ic_at_##object, ic_ring32_prev(table, places, head), places, \
        ic_at_##object != (head) && ic_ring32_is_linked(table, places, ic_at_##object), ic_ring32_prev(table, places, ic_at_##object))
#define IC_RING32_FOREACH_ENTRY_SAFE(object, objects, table, places, head)                                             \
    IC_LOOP_ENTRY_SAFE(object, objects, ic_at_##object, ic_next_##object, ic_ring32_next(table, places, head), places, \
        ic_at_##object != (head) && ic_ring32_is_linked(table, places, ic_at_##object), ic_ring32_next(table, places, ic_at_##object))
#define IC_RING32_FOREACH_ENTRY_REVERSE_SAFE(object, objects, table, places, head)                                     \
    IC_LOOP_ENTRY_SAFE(object, objects, ic_at_##object, ic_next_##object, ic_ring32_prev(table, places, head), places, \
        ic_at_##object != (head) && ic_ring32_is_linked(table, places, ic_at_##object), ic_ring32_prev(table, places, ic_at_##object))
#define IC_RING32_FOREACH_FROM(place, at, table, places, head) \
    IC_LOOP(place, at, places, place != (head) && ic_ring32_is_linked(table, places, place), ic_ring32_next(table, places, place))
#define IC_RING32_FOREACH_REVERSE_FROM(place, at, table, places, head) \
    IC_LOOP(place, at, places, place != (head) && ic_ring32_is_linked(table, places, place), ic_ring32_prev(table, places, place))
#define IC_RING32_FOREACH_SAFE_FROM(place, next, at, table, places, head) \
    IC_LOOP_SAFE(place, next, at, places, place != (head) && ic_ring32_is_linked(table, places, place), ic_ring32_next(table, places, place))
#define IC_RING32_FOREACH_ENTRY_FROM(object, objects, at, table, places, head)                                                                 \
    IC_LOOP_ENTRY(object, objects, ic_at_##object, at, places, ic_at_##object != (head) && ic_ring32_is_linked(table, places, ic_at_##object), \
                  ic_ring32_next(table, places, ic_at_##object))
#define IC_RING32_FOREACH_ENTRY_SAFE_FROM(object, objects, at, table, places, head)   \
    IC_LOOP_ENTRY_SAFE(object, objects, ic_at_##object, ic_next_##object, at, places, \
                       ic_at_##object != (head) && ic_ring32_is_linked(table, places, ic_at_##object), ic_ring32_next(table, places, ic_at_##object))

/* The next two functions insert a place at an end of a ring. Their names are like those of the calls that insert a place at an end of a list. */

/* Inserts `place` as the first member of the ring with the head `head`, and returns the status of ic_ring32_insert_after. */
IC_NODISCARD
static inline uint32_t ic_ring32_push_front(struct ic_link2_32 *table, ic_length places, uint32_t head, uint32_t place) {
    return ic_ring32_insert_after(table, places, head, place);
}

/* Inserts `place` as the last member of the ring with the head `head`, and returns the status of ic_ring32_insert_before. */
IC_NODISCARD
static inline uint32_t ic_ring32_push_back(struct ic_link2_32 *table, ic_length places, uint32_t head, uint32_t place) {
    return ic_ring32_insert_before(table, places, head, place);
}

/* Each of the functions ic_ring32_swap, ic_ring32_move_range_after and ic_ring32_move_range_before makes two calls. Before the first call, the function
 * tests the links that the second call will test, so a refused edit has changed nothing. */

/* Returns whether `after` is the place after `before` in a ring, and the link of `after` names `before`. */
static inline int ic_ring32_is_gap(const struct ic_link2_32 *table, ic_length places, uint32_t before, uint32_t after) {
    return before != IC_NONE && ic_ring32_next(table, places, before) == after && ic_ring32_prev(table, places, after) == before;
}

/* Exchanges the positions of the places `one` and `other`, as list_swap of Linux does, in O(1). The two places may be in one ring or in two. Nothing
 * changes if `one` and `other` are the same place.
 * IC_NULL: `one` or `other` is IC_NONE. IC_OUT_OF_RANGE: `one` or `other` is not below `places`. IC_NOT_LINKED: `one` or `other` is not
 * linked. IC_BROKEN: `one` or `other` is in no ring. */
IC_NODISCARD
static inline uint32_t ic_ring32_swap(struct ic_link2_32 *table, ic_length places, uint32_t one, uint32_t other) {
    const uint32_t before_one = ic_ring32_prev(table, places, one), before_other = ic_ring32_prev(table, places, other);
    uint32_t status;
    if (!ic_ring32_is_gap(table, places, before_one, one) || !ic_ring32_is_gap(table, places, one, ic_ring32_next(table, places, one)))
        return ic_fault_of(ic_places_32(places), one, ic_ring32_is_linked(table, places, one));
    if (!ic_ring32_is_gap(table, places, before_other, other) || !ic_ring32_is_gap(table, places, other, ic_ring32_next(table, places, other)))
        return ic_fault_of(ic_places_32(places), other, ic_ring32_is_linked(table, places, other));
    status = ic_ring32_exchange(table, places, before_one, before_other);
    return status == IC_OK ? ic_ring32_exchange(table, places, one, other) : status;
}

/* Moves the places from `first` to `last` of a ring, in their order, after the place `at` of the same ring or of another ring, in O(1). If `first`
 * is the first member of a ring, and `at` is the head of another ring, the moved members become the first members of the other ring, as with
 * list_cut_position of Linux. Nothing changes if the places are already right after `at`, or if `at` is `last`. If `at` is between `first` and
 * `last`, or if `last` comes before `first`, the call cannot detect this mistake, and leaves places in circles without a head.
 * IC_NULL: `at`, `first` or `last` is IC_NONE. IC_OUT_OF_RANGE: `at`, `first` or `last` is not below `places`. IC_NOT_LINKED: `at`, `first` or
 * `last` is not linked. IC_BROKEN: `at`, `first` or `last` is in no ring, or `at` is `first` but not `last`. */
IC_NODISCARD
static inline uint32_t ic_ring32_move_range_after(struct ic_link2_32 *table, ic_length places, uint32_t at, uint32_t first, uint32_t last) {
    const uint32_t before_first = ic_ring32_prev(table, places, first);
    uint32_t status;
    if (!ic_ring32_is_gap(table, places, at, ic_ring32_next(table, places, at)))
        return ic_fault_of(ic_places_32(places), at, ic_ring32_is_linked(table, places, at));
    if (!ic_ring32_is_gap(table, places, before_first, first))
        return ic_fault_of(ic_places_32(places), first, ic_ring32_is_linked(table, places, first));
    if (at == last)
        return IC_OK;
    if (at == first)
        return IC_BROKEN;
    status = ic_ring32_exchange(table, places, before_first, last);
    return status == IC_OK ? ic_ring32_exchange(table, places, at, last) : status;
}

/* Moves the places from `first` to `last` of a ring, in their order, before the place `at` of the same ring or of another ring, in O(1). If `at` is
 * the head of a ring, the moved places become the last members of this ring, as with list_bulk_move_tail of Linux. Nothing changes if the places are
 * already right before `at`, or if `at` is `first`. If `at` is between `first` and `last`, or if `last` comes before `first`, the call cannot detect
 * this mistake, and leaves places in circles without a head.
 * IC_NULL: `at`, `first` or `last` is IC_NONE. IC_OUT_OF_RANGE: `at`, `first` or `last` is not below `places`. IC_NOT_LINKED: `at`, `first` or
 * `last` is not linked. IC_BROKEN: `at`, `first` or `last` is in no ring, or `at` is `last` but not `first`. */
IC_NODISCARD
static inline uint32_t ic_ring32_move_range_before(struct ic_link2_32 *table, ic_length places, uint32_t at, uint32_t first, uint32_t last) {
    const uint32_t before_at = ic_ring32_prev(table, places, at);
    if (!ic_ring32_is_gap(table, places, before_at, at))
        return ic_fault_of(ic_places_32(places), at, ic_ring32_is_linked(table, places, at));
    if (at == last && at != first)
        return IC_BROKEN;
    return ic_ring32_move_range_after(table, places, at == first ? last : before_at, first, last);
}

/* to here */

/* ---- Singly linked lists: 8 bytes for each place; calls take O(1), except splice, remove, fill, clear, check, sort and merge ------------
 *
 * Singly linked lists are good for stacks and free lists. Calls edit a singly linked list after the member `at`, or at the front if `at` is IC_NONE.
 * If you store the last member in a variable of your own, you can use the list as a queue: insert after the last member, and remove the first.
 */

/* Returns whether a place is in a list of the table. */
static inline int ic_stack_is_linked(const struct ic_link1 *table, ic_length places, uint32_t place) {
    return place < ic_bound(places) && (table[place].next & 1);
}

/* Returns whether the list has no members, in which case ic_stack_pop_front returns IC_NULL. */
static inline int ic_stack_is_empty(const struct ic_stack *list) {
    return ic_number(list->head) == 0;
}

/* Returns the first member, or IC_NONE if there is none. */
static inline uint32_t ic_stack_first(const struct ic_stack *list) {
    return ic_place(list->head);
}

/* Returns the member after the member `at`, or IC_NONE if there is none. */
static inline uint32_t ic_stack_next(const struct ic_link1 *table, ic_length places, uint32_t at) {
    return ic_stack_is_linked(table, places, at) ? ic_place_within(places, table[at].next) : IC_NONE;
}

/* Returns the first member, or IC_NONE if the list is empty, or if the first member is no linked place of the table. */
static inline uint32_t ic_stack_front(const struct ic_link1 *table, ic_length places, const struct ic_stack *list) {
    return ic_stack_is_linked(table, places, ic_stack_first(list)) ? ic_stack_first(list) : IC_NONE;
}

/* Returns whether the place `at` is the first member of the list. */
static inline int ic_stack_is_first(const struct ic_link1 *table, ic_length places, const struct ic_stack *list, uint32_t at) {
    return at != IC_NONE && ic_stack_front(table, places, list) == at;
}

/* Returns whether the place `at` is the last member of its list. */
static inline int ic_stack_is_last(const struct ic_link1 *table, ic_length places, uint32_t at) {
    return ic_stack_is_linked(table, places, at) && ic_stack_next(table, places, at) == IC_NONE;
}

/* Returns whether the list has exactly one member. */
static inline int ic_stack_is_singular(const struct ic_link1 *table, ic_length places, const struct ic_stack *list) {
    return ic_stack_is_last(table, places, ic_stack_first(list));
}

/* Returns the next member for a loop that is at `place` and may have removed `place`. *before is the member before `place`, or IC_NONE if `place`
 * was the first member. If `place` is still the member after *before, the function sets *before to `place`, and returns the member after `place`. If
 * the body of the loop has removed `place`, the function returns the present member after *before. */
static inline uint32_t ic_stack_go_on(const struct ic_link1 *table, ic_length places, const struct ic_stack *list, uint32_t *before,
                                      uint32_t place) {
    uint32_t after = *before == IC_NONE ? ic_stack_first(list) : ic_stack_next(table, places, *before);
    if (after != place)
        return after;
    *before = place;
    return ic_stack_next(table, places, place);
}

/* An IC_STACK_FOREACH loop goes from the first member to the last. In a ..._SAFE loop `before` is the member before `place`, or IC_NONE if `place`
 * is the first member. Pass `before` to the calls that edit the list:
 *
 *     IC_STACK_FOREACH_SAFE(before, place, links, 100, &list)
 *         if (is_done(place))
 *             status = ic_stack_remove_after(links, 100, &list, before, &removed);
 */
#define IC_STACK_FOREACH(place, table, places, list) \
    IC_LOOP(place, ic_stack_first(list), places, ic_stack_is_linked(table, places, place), ic_stack_next(table, places, place))
#define IC_STACK_FOREACH_SAFE(before, place, table, places, list)                                       \
    for (uint32_t before = IC_NONE, place = ic_stack_first(list), ic_rounds_##place = ic_bound(places); \
         ic_stack_is_linked(table, places, place) && ic_rounds_##place--;                               \
         place = ic_stack_go_on(table, places, list, &before, place))
#define IC_STACK_FOREACH_FROM(place, at, table, places) \
    IC_LOOP(place, at, places, ic_stack_is_linked(table, places, place), ic_stack_next(table, places, place))
#define IC_STACK_FOREACH_ENTRY(object, objects, table, places, list)                  \
    IC_LOOP_ENTRY(object, objects, ic_at_##object, ic_stack_first(list), places,      \
                  ic_stack_is_linked(table, places, ic_at_##object), ic_stack_next(table, places, ic_at_##object))
#define IC_STACK_FOREACH_ENTRY_FROM(object, objects, at, table, places)           \
    IC_LOOP_ENTRY(object, objects, ic_at_##object, at, places,                    \
                  ic_stack_is_linked(table, places, ic_at_##object), ic_stack_next(table, places, ic_at_##object))
#define IC_STACK_FOREACH_ENTRY_SAFE(before, object, objects, table, places, list)                                             \
    for (uint32_t before = IC_NONE, ic_at_##object = ic_stack_first(list), ic_rounds_##object = ic_bound(places);             \
         IC_ENTRY_IF(object, objects, ic_at_##object, ic_stack_is_linked(table, places, ic_at_##object) && ic_rounds_##object--); \
         ic_at_##object = ic_stack_go_on(table, places, list, &before, ic_at_##object))

/* Made by tools/c-calls --write: stack */

/* Inserts `place` at the front, in O(1).
 * IC_OUT_OF_RANGE: `place` is not below `places`. IC_LINKED: `place` is linked already. IC_BROKEN: the first member is not linked in this
 * table. */
IC_NODISCARD
uint32_t ic_stack_push_front(struct ic_link1 *table, ic_length places, struct ic_stack *list, uint32_t place);

/* Removes the first member, and sets *popped to this member, in O(1).
 * IC_NULL: the list is empty. IC_BROKEN: the first member is not linked in this table. */
IC_NODISCARD
uint32_t ic_stack_pop_front(struct ic_link1 *table, ic_length places, struct ic_stack *list, uint32_t *popped);

/* Inserts `place` after the member `at`, or at the front if `at` is IC_NONE, in O(1).
 * IC_OUT_OF_RANGE: `at` or `place` is not below `places`. IC_LINKED: `place` is linked already. IC_NOT_LINKED: the place `at` is not
 * linked. IC_BROKEN: the member that is to follow `place` is not linked in this table. */
IC_NODISCARD
uint32_t ic_stack_insert_after(struct ic_link1 *table, ic_length places, struct ic_stack *list, uint32_t at, uint32_t place);

/* Removes the member after the member `at`, or the first member if `at` is IC_NONE, and sets *removed to this member, in O(1).
 * IC_NULL: `at` is the last member, or the list is empty. IC_OUT_OF_RANGE: the place `at` is not below `places`. IC_NOT_LINKED: the place
 * `at` is not linked. IC_BROKEN: the member to remove is not linked in this table. */
IC_NODISCARD
uint32_t ic_stack_remove_after(struct ic_link1 *table, ic_length places, struct ic_stack *list, uint32_t at, uint32_t *removed);

/* Removes the member after the member `at`, or the first member if `at` is IC_NONE, inserts `place` in its position, and sets *replaced to
 * the removed member, in O(1).
 * IC_NULL: `at` is the last member, or the list is empty. IC_OUT_OF_RANGE: `at` or `place` is not below `places`. IC_LINKED: `place` is
 * linked already. IC_NOT_LINKED: the place `at` is not linked. IC_BROKEN: the member to remove is not linked in this table. */
IC_NODISCARD
uint32_t ic_stack_replace_after(struct ic_link1 *table, ic_length places, struct ic_stack *list, uint32_t at, uint32_t place,
                                uint32_t *replaced);

/* Moves all members of `given`, in their order, after the member `at`, or to the front if `at` is IC_NONE, and leaves `given` empty, in
 * O(members of `given`).
 * IC_OUT_OF_RANGE: the place `at` is not below `places`. IC_NOT_LINKED: the place `at` is not linked. IC_BROKEN: the links of `given` run
 * in a circle, or lead to a place that is not linked in this table, or both lists begin with the same member, as a list and its copy do. */
IC_NODISCARD
uint32_t ic_stack_splice_after(struct ic_link1 *table, ic_length places, struct ic_stack *list, uint32_t at, struct ic_stack *given);

/* Moves the members after the member `at`, or all members if `at` is IC_NONE, to `rest`, which has to be empty, in O(1).
 * IC_OUT_OF_RANGE: the place `at` is not below `places`. IC_NOT_LINKED: the place `at` is not linked. IC_BROKEN: the first member to move
 * is not linked in this table, or `rest` has members. */
IC_NODISCARD
uint32_t ic_stack_split_after(struct ic_link1 *table, ic_length places, struct ic_stack *list, uint32_t at, struct ic_stack *rest);

/* Inserts the `count` places `first`, `first` + 1 and so on at the front, in rising order, so that `first` becomes the first member, in
 * O(count). If `count` is 0, the call changes nothing.
 * IC_OUT_OF_RANGE: none of these places is linked, but one is not below `places`. IC_LINKED: one of these places is linked already.
 * IC_BROKEN: the first member is not linked in this table. */
IC_NODISCARD
uint32_t ic_stack_fill(struct ic_link1 *table, ic_length places, struct ic_stack *list, uint32_t first, uint32_t count);

/* Removes all members, in O(n).
 * IC_BROKEN: the links from the first member on run in a circle, or lead to a place that is not linked in this table. */
IC_NODISCARD
uint32_t ic_stack_clear(struct ic_link1 *table, ic_length places, struct ic_stack *list);

/* Counts the members, and sets *members to their number, in O(n). Make this call if the words come from a file, or from memory to which
 * other programs write. If the status is IC_OK, all other calls on this list do what their comments say.
 * IC_BROKEN: the links from the first member on run in a circle, or lead to a place that is not linked in this table. */
IC_NODISCARD
uint32_t ic_stack_check(const struct ic_link1 *table, ic_length places, const struct ic_stack *list, uint64_t *members);

/* to here */

/* ---- Singly linked lists by keys ----
 *
 * A key is a number, and a member with a smaller key comes before a member with a greater key. The key of `place` is keys[place], so the array
 * `keys` must have a key for each place. A sort and a merge check the lists before they change a link, so a refused call has changed nothing. A sort
 * is recursive, to a depth of at most 33 calls.
 */

/* Made by tools/c-calls --write: stack-keys */

/* Sorts the members by their keys, in O(n log n). Members with equal keys keep their order.
 * IC_OUT_OF_RANGE: there are fewer keys than places. IC_BROKEN: the links from the first member on run in a circle, or lead to a place that
 * is not linked in this table. */
IC_NODISCARD
uint32_t ic_stack_sort(struct ic_link1 *table, ic_length places, const uint64_t *keys, ic_length key_count, struct ic_stack *list);

/* Moves all members of `given` into `list`, in O(n). If both lists were sorted by keys, `list` is sorted by keys after the call. Of members
 * with equal keys, those that were in `list` come first. After the call `given` is empty.
 * IC_OUT_OF_RANGE: there are fewer keys than places. IC_BROKEN: the links of one of the lists run in a circle, or lead to a place that is
 * not linked in this table, or both lists have the same last member, as lists with a common member do. */
IC_NODISCARD
uint32_t ic_stack_merge(struct ic_link1 *table, ic_length places, const uint64_t *keys, ic_length key_count, struct ic_stack *list,
                        struct ic_stack *given);

/* to here */

/* ---- Hash tables: 8 bytes for each place, and 8 for each bucket ------------------------------------------------------------------------
 *
 * Hash tables are good for finding objects by a key, if you need no order. A hash table is an array of buckets. Each bucket is a singly linked list,
 * which is called a chain, and a bucket {0} has no members. Your hash function computes a number, the hash, from the key of each object. The chain
 * of a hash is the bucket with the index hash % bucket_count. The place of an object is in the chain of the object's hash, so pass the same hash
 * whenever you name this object. If there are about as many buckets as members, chains are short.
 *
 *     struct ic_link1 links[100] = {0};
 *     struct ic_stack buckets[64] = {0};
 *     status = ic_hash_insert(links, 100, buckets, 64, hash_of(keys[7]), 7);
 *     status = ic_hash_find(links, 100, keys, 100, buckets, 64, hash_of(30), 30, &found);
 *     status = ic_hash_remove(links, 100, buckets, 64, hash_of(keys[7]), 7);
 *
 * ic_hash_find compares keys that are numbers in an array of your own, where the key of `place` is keys[place]. To compare keys that are no numbers,
 * write a loop over the chain:
 *
 *     IC_HASH_FOREACH(place, links, 100, buckets, 64, hash_of(name))
 *         if (strcmp(names[place], name) == 0)
 *             break;
 *
 * IC_HASH_FOREACH_ALL goes over all members. You can pass a bucket to each call for singly linked lists, too. For example, ic_stack_clear empties a
 * bucket. A place is in at most one chain or list of a table. A place that is in no chain can be in a list of the same table, for example in a list
 * of free places.
 *
 * To grow or shrink a hash table, make another array of buckets, and call ic_hash_move_chain for each bucket of the old array, all at once or over
 * time. In the following loop `more` is the array of 128 new buckets, and `hashes` has a hash for each place:
 *
 *     for (uint32_t i = 0; i < 64; i++)
 *         status = ic_hash_move_chain(links, 100, hashes, 100, &buckets[i], more, 128);
 */

/* Returns the first member of the chain of a hash, or IC_NONE if there is none. */
static inline uint32_t ic_hash_first(const struct ic_stack *buckets, ic_length bucket_count, uint64_t hash) {
    return bucket_count ? ic_stack_first(&buckets[hash % bucket_count]) : IC_NONE;
}

/* An IC_HASH_FOREACH loop goes over the members of the chain of a hash. The body of such a loop must not move or remove members. */
#define IC_HASH_FOREACH(place, table, places, buckets, bucket_count, hash)                                                              \
    IC_LOOP(place, ic_hash_first(buckets, bucket_count, hash), places, ic_stack_is_linked(table, places, place),                        \
            ic_stack_next(table, places, place))
#define IC_HASH_FOREACH_ENTRY(object, objects, table, places, buckets, bucket_count, hash)                     \
    IC_LOOP_ENTRY(object, objects, ic_at_##object, ic_hash_first(buckets, bucket_count, hash), places,         \
                  ic_stack_is_linked(table, places, ic_at_##object), ic_stack_next(table, places, ic_at_##object))

/* Returns `place` if it is linked. If `place` is not linked, the function goes on from the chain with the index *bucket to the next chain that has a
 * member. It sets *bucket to the index of this next chain, and returns its first member. If there is no such chain, the function returns IC_NONE. If
 * *bucket is (ic_length)-1, the function begins at the first chain. */
static inline uint32_t ic_hash_go_on(const struct ic_link1 *table, ic_length places, const struct ic_stack *buckets, ic_length bucket_count,
                                     ic_length *bucket, uint32_t place) {
    while (!ic_stack_is_linked(table, places, place) && ++*bucket < bucket_count)
        place = ic_stack_first(&buckets[*bucket]);
    return *bucket < bucket_count ? place : IC_NONE;
}

/* Returns the next member for a loop that is at `place`, as ic_stack_go_on does in one chain. At the end of a chain, the function goes on to the
 * next chain that has a member. */
static inline uint32_t ic_hash_safe_go_on(const struct ic_link1 *table, ic_length places, const struct ic_stack *buckets,
                                          ic_length bucket_count, ic_length *bucket, uint32_t *before, uint32_t place) {
    const ic_length was = *bucket;
    const uint32_t next = ic_stack_go_on(table, places, &buckets[was], before, place);
    const uint32_t found = ic_hash_go_on(table, places, buckets, bucket_count, bucket, next);
    if (*bucket != was)
        *before = IC_NONE;
    return found;
}

/* An IC_HASH_FOREACH_ALL loop goes over all members, chain by chain, in O(buckets + n). Whatever the words are, the loop runs its body at most
 * `places` times. `break` leaves the loop over all chains. In a ..._SAFE loop `bucket` is the index of the chain of `place`, and `before` is the
 * member before `place` in this chain, or IC_NONE if `place` is the first member of the chain. The body of a ..._SAFE loop may remove `place`, and
 * may then insert `place` into another array of buckets:
 *
 *     IC_HASH_FOREACH_ALL_SAFE(bucket, before, place, links, 100, buckets, 64)
 *         if (is_done(place))
 *             status = ic_stack_remove_after(links, 100, &buckets[bucket], before, &removed);
 */
#define IC_HASH_FOREACH_ALL(place, table, places, buckets, bucket_count)                                                           \
    for (ic_length ic_bucket_##place = (ic_length)-1, ic_once_##place = 1; ic_once_##place; ic_once_##place = 0)                   \
        IC_LOOP(place, ic_hash_go_on(table, places, buckets, bucket_count, &ic_bucket_##place, IC_NONE), places, place != IC_NONE, \
                ic_hash_go_on(table, places, buckets, bucket_count, &ic_bucket_##place, ic_stack_next(table, places, place)))
#define IC_HASH_FOREACH_ALL_SAFE(bucket, before, place, table, places, buckets, bucket_count)                          \
    for (ic_length bucket = (ic_length)-1, ic_once_##place = 1; ic_once_##place; ic_once_##place = 0)                  \
        for (uint32_t before = IC_NONE, place = ic_hash_go_on(table, places, buckets, bucket_count, &bucket, IC_NONE), \
                      ic_rounds_##place = ic_bound(places);                                                            \
             place != IC_NONE && ic_rounds_##place--;                                                                  \
             place = ic_hash_safe_go_on(table, places, buckets, bucket_count, &bucket, &before, place))
#define IC_HASH_FOREACH_ALL_ENTRY(object, objects, table, places, buckets, bucket_count)                                                    \
    for (ic_length ic_bucket_##object = (ic_length)-1, ic_once_##object = 1; ic_once_##object; ic_once_##object = 0)                        \
        IC_LOOP_ENTRY(object, objects, ic_at_##object,                                                                                      \
                      ic_hash_go_on(table, places, buckets, bucket_count, &ic_bucket_##object, IC_NONE), places, ic_at_##object != IC_NONE, \
                      ic_hash_go_on(table, places, buckets, bucket_count, &ic_bucket_##object,                                              \
                                    ic_stack_next(table, places, ic_at_##object)))
#define IC_HASH_FOREACH_ALL_ENTRY_SAFE(bucket, before, object, objects, table, places, buckets, bucket_count)                   \
    for (ic_length bucket = (ic_length)-1, ic_once_##object = 1; ic_once_##object; ic_once_##object = 0)                        \
        for (uint32_t before = IC_NONE, ic_at_##object = ic_hash_go_on(table, places, buckets, bucket_count, &bucket, IC_NONE), \
                      ic_rounds_##object = ic_bound(places);                                                                    \
             IC_ENTRY_IF(object, objects, ic_at_##object, ic_at_##object != IC_NONE && ic_rounds_##object--);                   \
             ic_at_##object = ic_hash_safe_go_on(table, places, buckets, bucket_count, &bucket, &before, ic_at_##object))

/* Made by tools/c-calls --write: hash hash-growth */

/* Inserts `place` at the front of the chain of `hash`, in O(1).
 * IC_OUT_OF_RANGE: there is no bucket, or `place` is not below `places`. IC_LINKED: `place` is linked already. IC_BROKEN: the first member
 * of the chain is not linked in this table. */
IC_NODISCARD
uint32_t ic_hash_insert(struct ic_link1 *table, ic_length places, struct ic_stack *buckets, ic_length bucket_count, uint64_t hash,
                        uint32_t place);

/* Removes `place` from any position in the chain of `hash`, in O(members of the chain).
 * IC_NULL: `place` is IC_NONE. IC_OUT_OF_RANGE: there is no bucket, or `place` is not below `places`. IC_NOT_LINKED: `place` is not linked.
 * IC_BROKEN: `place` is linked, for example in the chain of another hash, but the links of the chain of `hash` do not lead to `place`. */
IC_NODISCARD
uint32_t ic_hash_remove(struct ic_link1 *table, ic_length places, struct ic_stack *buckets, ic_length bucket_count, uint64_t hash,
                        uint32_t place);

/* Finds the first member with the key `key` in the chain of `hash`, and sets *found to this member, in O(members of the chain). If several
 * members have this key, the first of them is the one that you inserted last.
 * IC_NULL: no member of the chain has this key. IC_OUT_OF_RANGE: there are fewer keys than places, or there is no bucket. IC_BROKEN: the
 * links of the chain run in a circle, or lead to a place that is not linked in this table. */
IC_NODISCARD
uint32_t ic_hash_find(const struct ic_link1 *table, ic_length places, const uint64_t *keys, ic_length key_count,
                      const struct ic_stack *buckets, ic_length bucket_count, uint64_t hash, uint64_t key, uint32_t *found);

/* Finds the next member after the member `at` that is in the same chain as `at` and has the same key as `at`, and sets *found to this
 * member, in O(members of the chain).
 * IC_NULL: the place `at` is IC_NONE, or no later member of the chain has this key. IC_OUT_OF_RANGE: there are fewer keys than places, or
 * the place `at` is not below `places`. IC_NOT_LINKED: the place `at` is not linked. IC_BROKEN: the links of the chain run in a circle, or
 * lead to a place that is not linked in this table. */
IC_NODISCARD
uint32_t ic_hash_next_equal(const struct ic_link1 *table, ic_length places, const uint64_t *keys, ic_length key_count, uint32_t at,
                            uint32_t *found);

/* Counts the members of all chains, and sets *members to their number, in O(buckets + n). `hashes` has the hash of each place. Make this
 * call if the words come from a file, or from memory to which other programs write. If the status is IC_OK, each member is in the chain of
 * its hash and in no other chain, and all other calls on this hash table do what their comments say.
 * IC_OUT_OF_RANGE: there are fewer hashes than places, or there is no bucket. IC_BROKEN: the links of a chain run in a circle, or lead to a
 * place that is not linked in this table, or to a member whose hash chooses another bucket. */
IC_NODISCARD
uint32_t ic_hash_check(const struct ic_link1 *table, ic_length places, const uint64_t *hashes, ic_length hash_count,
                       const struct ic_stack *buckets, ic_length bucket_count, uint64_t *members);

/* Moves each member of `chain`, a bucket of another array, to the chain of its hash, and leaves `chain` empty, in O(members of the chain).
 * `hashes` has the hash of each place. Members that move to the same bucket keep their order, and come before the members that were in this
 * bucket before. So if several of the moved members have the same key, a search still finds the one that you inserted last. Each place
 * stays linked during the call. To grow or shrink a hash table, make another array of buckets, and make this call for each bucket of the
 * old array.
 * IC_OUT_OF_RANGE: there are fewer hashes than places, or there is no bucket. IC_BROKEN: the links of `chain` run in a circle, or lead to a
 * place that is not linked in this table, or the first member of a bucket to which a member moves is not linked in this table. */
IC_NODISCARD
uint32_t ic_hash_move_chain(struct ic_link1 *table, ic_length places, const uint64_t *hashes, ic_length hash_count, struct ic_stack *chain,
                            struct ic_stack *buckets, ic_length bucket_count);

/* to here */

/* Removes `place` from any position in a singly linked list, in O(n). The function calls ic_hash_remove with the list as a hash table of one bucket.
 * IC_NULL: `place` is IC_NONE. IC_OUT_OF_RANGE: `place` is not below `places`. IC_NOT_LINKED: `place` is not linked. IC_BROKEN: `place` is linked,
 * for example in another list, but the links of this list do not lead to `place`. */
IC_NODISCARD
static inline uint32_t ic_stack_remove(struct ic_link1 *table, ic_length places, struct ic_stack *list, uint32_t place) {
    return ic_hash_remove(table, places, list, 1, 0, place);
}

/* ---- XOR lists: 8 bytes for each place; calls take O(1), except fill and clear ------------------------------------------------------
 *
 * XOR lists are good if you use a list at both ends and walk in both directions, and memory is scarce. Calls insert into a gap, which is the position
 * between two neighbors or at an end of the list. The link of a member does not name its two neighbors separately, so you name a gap by the members
 * on both sides. In the calls `before` is the member before the gap, or IC_NONE at the front, and `after` is the member after the gap, or IC_NONE at
 * the back. In an empty list `before` and `after` are IC_NONE.
 *
 * A call at a gap tests that `before` and `after` are linked. For each of these two members, the call computes the neighbor on the side opposite to
 * the gap. The call tests that this neighbor is linked, or that the member is an end of the list and has no such neighbor. If `before` is IC_NONE,
 * the call refuses an `after` that is not the first member. If `after` is IC_NONE, the call refuses a `before` that is not the last member. A pair
 * of members is wrong if `after` is not the next member after `before`. If few places of the table are linked, the call refuses most wrong pairs. If
 * most places of the table are linked, most wrong pairs pass the tests. In a table of 7 places whose list has the places 0 to 6, in this order, 26
 * of the 36 wrong pairs pass. In a table of 100 places whose list has the places 0 to 99, 8,871 of the 9,801 wrong pairs pass. Two neighbors in the
 * wrong order pass in every table, if neither is an end of the list. If a wrong pair passes, the call damages the list, but writes nothing outside
 * the table. So name members that you know to be neighbors.
 */

/* Returns whether a place is in a list of the table. */
static inline int ic_xor_is_linked(const struct ic_link1 *table, ic_length places, uint32_t place) {
    return place < ic_bound(places) && (table[place].next & 1);
}

/* Returns whether the list has no members, in which case ic_xor_pop_front returns IC_NULL. */
static inline int ic_xor_is_empty(const struct ic_xor_list *list) {
    return ic_number(list->head) == 0;
}

/* Returns the first member, or IC_NONE if there is none. */
static inline uint32_t ic_xor_first(const struct ic_xor_list *list) {
    return ic_place(list->head);
}

/* Returns the last member, or IC_NONE if there is none. */
static inline uint32_t ic_xor_last(const struct ic_xor_list *list) {
    return ic_place(list->tail);
}

/* Returns the other neighbor of the member `at`, the one that is not its neighbor `from`, or IC_NONE if there is no other neighbor. If `at` is the
 * first or the last member, pass IC_NONE as `from` to get the only neighbor of `at`. If `from` is no neighbor of `at`, the function may return any
 * place of the table or IC_NONE. */
static inline uint32_t ic_xor_step(const struct ic_link1 *table, ic_length places, uint32_t from, uint32_t at) {
    return ic_xor_is_linked(table, places, at) ? ic_place_within(places, table[at].next ^ ic_word(from)) : IC_NONE;
}

/* Returns the first member, or IC_NONE if the list is empty, or if the first member is no linked place of the table. */
static inline uint32_t ic_xor_front(const struct ic_link1 *table, ic_length places, const struct ic_xor_list *list) {
    return ic_xor_is_linked(table, places, ic_xor_first(list)) ? ic_xor_first(list) : IC_NONE;
}

/* Returns the last member, or IC_NONE if the list is empty, or if the last member is no linked place of the table. */
static inline uint32_t ic_xor_back(const struct ic_link1 *table, ic_length places, const struct ic_xor_list *list) {
    return ic_xor_is_linked(table, places, ic_xor_last(list)) ? ic_xor_last(list) : IC_NONE;
}

/* Returns whether the place `at` is the first member of the list. */
static inline int ic_xor_is_first(const struct ic_link1 *table, ic_length places, const struct ic_xor_list *list, uint32_t at) {
    return at != IC_NONE && ic_xor_front(table, places, list) == at;
}

/* Returns whether the place `at` is the last member of the list. */
static inline int ic_xor_is_last(const struct ic_link1 *table, ic_length places, const struct ic_xor_list *list, uint32_t at) {
    return at != IC_NONE && ic_xor_back(table, places, list) == at;
}

/* Returns whether the list has exactly one member. */
static inline int ic_xor_is_singular(const struct ic_link1 *table, ic_length places, const struct ic_xor_list *list) {
    return ic_xor_is_first(table, places, list, ic_xor_last(list));
}

/* Returns the next member for a loop that has come from *from to `place`, and sets *from to `place`. */
static inline uint32_t ic_xor_go_on(const struct ic_link1 *table, ic_length places, uint32_t *from, uint32_t place) {
    uint32_t next = ic_xor_step(table, places, *from, place);
    *from = place;
    return next;
}

/* IC_XOR_FOREACH goes from the first member of an XOR list to the last member, and IC_XOR_FOREACH_REVERSE from the last member to the first. In a
 * ..._SAFE loop of either direction, `before` is the member before `place` in the list, or IC_NONE if `place` is the first member. `after` is the
 * member after `place` in the list, or IC_NONE if `place` is the last member.
 *
 *     IC_XOR_FOREACH_SAFE(before, place, after, links, 100, &list)
 *         if (is_done(place))
 *             status = ic_xor_remove(links, 100, &list, before, place);
 *
 * The body of a ..._SAFE loop must not move or remove the next two members of the loop.
 */
#define IC_XOR_FOREACH(place, table, places, list) IC_XOR_LOOP(place, ic_xor_first(list), table, places)
#define IC_XOR_FOREACH_REVERSE(place, table, places, list) IC_XOR_LOOP(place, ic_xor_last(list), table, places)
#define IC_XOR_FOREACH_SAFE(before, place, after, table, places, list) \
    IC_XOR_LOOP_SAFE(before, place, after, ic_xor_first(list), table, places)
#define IC_XOR_FOREACH_REVERSE_SAFE(before, place, after, table, places, list) \
    IC_XOR_LOOP_SAFE(after, place, before, ic_xor_last(list), table, places)
#define IC_XOR_FOREACH_ENTRY(object, objects, table, places, list) \
    IC_XOR_LOOP_ENTRY(object, objects, ic_at_##object, ic_xor_first(list), table, places)
#define IC_XOR_FOREACH_ENTRY_REVERSE(object, objects, table, places, list) \
    IC_XOR_LOOP_ENTRY(object, objects, ic_at_##object, ic_xor_last(list), table, places)
#define IC_XOR_FOREACH_ENTRY_SAFE(before, object, objects, after, table, places, list) \
    IC_XOR_LOOP_ENTRY_SAFE(object, objects, before, ic_at_##object, after, ic_xor_first(list), table, places)
#define IC_XOR_FOREACH_ENTRY_REVERSE_SAFE(before, object, objects, after, table, places, list) \
    IC_XOR_LOOP_ENTRY_SAFE(object, objects, after, ic_at_##object, before, ic_xor_last(list), table, places)

/* IC_XOR_WALK and IC_XOR_WALK_SAFE make a loop in either direction, which runs while the expression `is_member` is true. The loop visits `next`
 * after `place`. Before the body runs, IC_XOR_WALK_SAFE also finds the member that the loop visits after `next`. After the body has run, the loop
 * computes from this member the other neighbor of `next`, which is `place`, or `from` if the body has removed `place`. */
#define IC_XOR_WALK(place, first, table, places, is_member)                                                  \
    for (uint32_t place = (first), ic_from_##place = IC_NONE, ic_rounds_##place = ic_bound(places); is_member; \
         place = ic_xor_go_on(table, places, &ic_from_##place, place))
#define IC_XOR_WALK_SAFE(from, place, next, first, table, places, is_member)                                         \
    for (uint32_t from = IC_NONE, place = (first), next = ic_xor_step(table, places, from, place),                   \
                  ic_beyond_##place = ic_xor_step(table, places, place, next), ic_rounds_##place = ic_bound(places); \
         is_member;                                                                                                  \
         from = ic_xor_step(table, places, ic_beyond_##place, next), place = next, next = ic_beyond_##place,         \
                  ic_beyond_##place = ic_xor_step(table, places, place, next))
#define IC_XOR_ROUND(place, table, places) (ic_xor_is_linked(table, places, place) && ic_rounds_##place--)
#define IC_XOR_LOOP(place, first, table, places) IC_XOR_WALK(place, first, table, places, IC_XOR_ROUND(place, table, places))
#define IC_XOR_LOOP_SAFE(from, place, next, first, table, places) \
    IC_XOR_WALK_SAFE(from, place, next, first, table, places, IC_XOR_ROUND(place, table, places))
#define IC_XOR_LOOP_ENTRY(object, objects, place, first, table, places) \
    IC_XOR_WALK(place, first, table, places, IC_ENTRY_IF(object, objects, place, IC_XOR_ROUND(place, table, places)))
#define IC_XOR_LOOP_ENTRY_SAFE(object, objects, from, place, next, first, table, places) \
    IC_XOR_WALK_SAFE(from, place, next, first, table, places, IC_ENTRY_IF(object, objects, place, IC_XOR_ROUND(place, table, places)))

/* Made by tools/c-calls --write: xor */

/* Inserts `place` at the front, in O(1).
 * IC_OUT_OF_RANGE: `place` is not below `places`. IC_LINKED: `place` is linked already. IC_BROKEN: the first member or the member after it
 * is not linked in this table. */
IC_NODISCARD
uint32_t ic_xor_push_front(struct ic_link1 *table, ic_length places, struct ic_xor_list *list, uint32_t place);

/* Inserts `place` at the back, in O(1).
 * IC_OUT_OF_RANGE: `place` is not below `places`. IC_LINKED: `place` is linked already. IC_BROKEN: the last member or the member before it
 * is not linked in this table. */
IC_NODISCARD
uint32_t ic_xor_push_back(struct ic_link1 *table, ic_length places, struct ic_xor_list *list, uint32_t place);

/* Removes the first member, and sets *popped to this member, in O(1).
 * IC_NULL: the list is empty. IC_BROKEN: the first member or one of the two members after it is not linked in this table. */
IC_NODISCARD
uint32_t ic_xor_pop_front(struct ic_link1 *table, ic_length places, struct ic_xor_list *list, uint32_t *popped);

/* Removes the last member, and sets *popped to this member, in O(1).
 * IC_NULL: the list is empty. IC_BROKEN: the last member or one of the two members before it is not linked in this table. */
IC_NODISCARD
uint32_t ic_xor_pop_back(struct ic_link1 *table, ic_length places, struct ic_xor_list *list, uint32_t *popped);

/* Inserts `place` between the neighbors `before` and `after`, in O(1). Pass IC_NONE as `before` to insert before the first member, and
 * IC_NONE as `after` to insert after the last member.
 * IC_OUT_OF_RANGE: `before`, `place` or `after` is not below `places`. IC_LINKED: `place` is linked already. IC_NOT_LINKED: `before` or
 * `after` is not linked. IC_BROKEN: `before` and `after` are not neighbors according to their links. */
IC_NODISCARD
uint32_t ic_xor_insert_between(struct ic_link1 *table, ic_length places, struct ic_xor_list *list, uint32_t before, uint32_t place,
                               uint32_t after);

/* Removes the member `at`, in O(1). Pass as `before` the member before `at`, or IC_NONE if `at` is the first member.
 * IC_NULL: the place `at` is IC_NONE. IC_OUT_OF_RANGE: `before` or `at` is not below `places`. IC_NOT_LINKED: `before` or `at` is not
 * linked. IC_BROKEN: according to their links `at` is no member of the list or `before` is not the member before `at`. */
IC_NODISCARD
uint32_t ic_xor_remove(struct ic_link1 *table, ic_length places, struct ic_xor_list *list, uint32_t before, uint32_t at);

/* Removes the member `at`, and inserts `place` where `at` was, in O(1). Pass as `before` the member before `at`, or IC_NONE if `at` is the
 * first member.
 * IC_NULL: the place `at` is IC_NONE. IC_OUT_OF_RANGE: `before`, `at` or `place` is not below `places`. IC_LINKED: `place` is linked
 * already, or is `at` itself. IC_NOT_LINKED: `before` or `at` is not linked. IC_BROKEN: according to their links `at` is no member of the
 * list or `before` is not the member before `at`. */
IC_NODISCARD
uint32_t ic_xor_replace(struct ic_link1 *table, ic_length places, struct ic_xor_list *list, uint32_t before, uint32_t at, uint32_t place);

/* Moves all members of `given`, in their order, between the neighbors `before` and `after`, and leaves `given` empty, in O(1). Pass IC_NONE
 * as `before` to move the members to the front, and IC_NONE as `after` to move the members to the back.
 * IC_OUT_OF_RANGE: `before` or `after` is not below `places`. IC_NOT_LINKED: `before` or `after` is not linked. IC_BROKEN: `before` and
 * `after` are not neighbors according to their links, or `given` is no list of this table, or both lists begin with the same member, as a
 * list and its copy do. */
IC_NODISCARD
uint32_t ic_xor_splice_between(struct ic_link1 *table, ic_length places, struct ic_xor_list *list, uint32_t before, struct ic_xor_list *given,
                               uint32_t after);

/* Moves all members of `given`, in their order, to the back, and leaves `given` empty, in O(1).
 * IC_BROKEN: the last member of `list`, the first or the last member of `given`, or the neighbor of one of these members is not linked in
 * this table, or both lists begin with the same member, as a list and its copy do. */
IC_NODISCARD
uint32_t ic_xor_append(struct ic_link1 *table, ic_length places, struct ic_xor_list *list, struct ic_xor_list *given);

/* Inserts the `count` places `first`, `first` + 1 and so on at the back, in rising order, in O(count). If `count` is 0, the call changes
 * nothing.
 * IC_OUT_OF_RANGE: none of these places is linked, but one is not below `places`. IC_LINKED: one of these places is linked already.
 * IC_BROKEN: the last member or the member before it is not linked in this table. */
IC_NODISCARD
uint32_t ic_xor_fill(struct ic_link1 *table, ic_length places, struct ic_xor_list *list, uint32_t first, uint32_t count);

/* Removes all members, in O(n).
 * IC_BROKEN: the links do not lead from the first member to the last through linked places of this table. */
IC_NODISCARD
uint32_t ic_xor_clear(struct ic_link1 *table, ic_length places, struct ic_xor_list *list);

/* Moves the member `after` and all members after it to `rest`, which has to be empty, in O(1). `before` must be the member before `after`,
 * and becomes the last member of `list`. If `before` is IC_NONE, all members move. If `after` is IC_NONE, no member moves.
 * IC_OUT_OF_RANGE: `before` or `after` is not below `places`. IC_NOT_LINKED: `before` or `after` is not linked. IC_BROKEN: `before` and
 * `after` are not neighbors according to their links, or `rest` has members. */
IC_NODISCARD
uint32_t ic_xor_split_between(struct ic_link1 *table, ic_length places, struct ic_xor_list *list, uint32_t before, uint32_t after,
                              struct ic_xor_list *rest);

/* Reverses the list, in O(1). The call takes no table, and always succeeds. */
uint32_t ic_xor_reverse(struct ic_xor_list *list);

/* to here */

/* ---- Red-black trees: 24 bytes for each place; calls take O(log n), except clear, check, append, join and split ---------------------
 *
 * Trees are good for timers, priorities and maps. The members of a tree have an order, and you can insert, remove and find a member at any position.
 * You order the members in one of two ways:
 *
 *   - You give each place a number as its key, in an array of your own, where the key of `place` is keys[place]. ic_tree_insert inserts a place in
 *     the order of the keys, and ic_tree_find, ic_tree_lower_bound and ic_tree_upper_bound search by keys. To change a member's key, remove the
 *     member, change the key, and insert the member again.
 *   - You write a comparison of your own, as with sys/tree.h or the rb_link_node of Linux. The comparison compares the key that you insert or search
 *     for with the key of the member `at`:
 *
 *         IC_TREE_INSERT_BY(status, at, links, 100, &tree, place, strcmp(names[place], names[at]));
 *         IC_TREE_FIND_BY(at, links, 100, &tree, strcmp("oak", names[at]));
 *
 * The calls that remove a member, or find the next or the previous member, compare no keys. The calls ic_tree_append, ic_tree_join and ic_tree_split
 * make one tree of two, or two trees of one. They compare no keys either, but first check in O(n) whether the links form the trees.
 */

/* Returns whether a place is in a tree of the table. */
static inline int ic_tree_is_linked(const struct ic_link3 *table, ic_length places, uint32_t place) {
    return place < ic_bound(places) && (table[place].left & 1);
}

/* Returns whether the tree has no members, in which case ic_tree_first returns IC_NULL. */
static inline int ic_tree_is_empty(const struct ic_tree *tree) {
    return ic_number(tree->root) == 0;
}

/* Returns the root, or IC_NONE if the tree has no members. */
static inline uint32_t ic_tree_root(const struct ic_tree *tree) {
    return ic_place(tree->root);
}

/* Returns the left child of the member `at`, or IC_NONE if there is none. The left child and all members below it come before `at`. */
static inline uint32_t ic_tree_left(const struct ic_link3 *table, ic_length places, uint32_t at) {
    return ic_tree_is_linked(table, places, at) ? ic_place_within(places, table[at].left) : IC_NONE;
}

/* Returns the right child of the member `at`, or IC_NONE if there is none. The right child and all members below it come after `at`. */
static inline uint32_t ic_tree_right(const struct ic_link3 *table, ic_length places, uint32_t at) {
    return ic_tree_is_linked(table, places, at) ? ic_place_within(places, table[at].right) : IC_NONE;
}

/* Returns the parent of the member `at`, or IC_NONE if there is none. */
static inline uint32_t ic_tree_parent(const struct ic_link3 *table, ic_length places, uint32_t at) {
    return ic_tree_is_linked(table, places, at) ? ic_place_within(places, table[at].parent) : IC_NONE;
}

/* Made by tools/c-calls --write: tree */

/* Inserts `place` as the left child of the member `at`, which must have no left child, and balances the tree, in O(log n). So `place` comes
 * directly before `at` in the order of the members. If `at` is IC_NONE, the tree has to be empty, and `place` becomes its root.
 * IC_OUT_OF_RANGE: `at` or `place` is not below `places`. IC_LINKED: `place` is linked already. IC_NOT_LINKED: the place `at` is not
 * linked. IC_BROKEN: `at` has a left child, or `at` is IC_NONE and the tree has members, or the root is not linked in this table. */
IC_NODISCARD
uint32_t ic_tree_insert_left(struct ic_link3 *table, ic_length places, struct ic_tree *tree, uint32_t at, uint32_t place);

/* Inserts `place` as the right child of the member `at`, which must have no right child, and balances the tree, in O(log n). So `place`
 * comes directly after `at` in the order of the members. If `at` is IC_NONE, the tree has to be empty, and `place` becomes its root.
 * IC_OUT_OF_RANGE: `at` or `place` is not below `places`. IC_LINKED: `place` is linked already. IC_NOT_LINKED: the place `at` is not
 * linked. IC_BROKEN: `at` has a right child, or `at` is IC_NONE and the tree has members, or the root is not linked in this table. */
IC_NODISCARD
uint32_t ic_tree_insert_right(struct ic_link3 *table, ic_length places, struct ic_tree *tree, uint32_t at, uint32_t place);

/* Removes the member `at`, in O(log n).
 * IC_NULL: the place `at` is IC_NONE. IC_OUT_OF_RANGE: the place `at` is not below `places`. IC_NOT_LINKED: the place `at` is not linked.
 * IC_BROKEN: the root is not linked in this table, or `at` is the root of another tree. */
IC_NODISCARD
uint32_t ic_tree_remove(struct ic_link3 *table, ic_length places, struct ic_tree *tree, uint32_t at);

/* Removes the member `at`, and inserts `place` where `at` was, in O(1). The call compares no keys, so pass a place that comes between the
 * neighbors of `at` in the order of the keys.
 * IC_NULL: the place `at` is IC_NONE. IC_OUT_OF_RANGE: `at` or `place` is not below `places`. IC_LINKED: `place` is linked already, or is
 * `at` itself. IC_NOT_LINKED: the place `at` is not linked. IC_BROKEN: the root is not linked in this table, or `at` is the root of another
 * tree. */
IC_NODISCARD
uint32_t ic_tree_replace(struct ic_link3 *table, ic_length places, struct ic_tree *tree, uint32_t at, uint32_t place);

/* Moves all members of `given`, in their order, after the members of `tree`, and leaves `given` empty, in O(n). The call compares no keys,
 * so pass as `given` a tree whose keys all come after the keys of `tree`. The call takes O(n) because it checks both trees first. In
 * Rattle, the language in which the library is written, types guarantee that the links form a tree, so the same call takes O(log n).
 * IC_BROKEN: the links below one of the two roots form no red-black tree, or both trees have the same root. */
IC_NODISCARD
uint32_t ic_tree_append(struct ic_link3 *table, ic_length places, struct ic_tree *tree, struct ic_tree *given);

/* Inserts `place` after all members of `tree`, moves all members of `given`, in their order, after `place`, and leaves `given` empty, in
 * O(n). The call compares no keys. The call takes O(n) because it checks both trees first. In Rattle, the language in which the library is
 * written, types guarantee that the links form a tree, so the same call takes O(log n).
 * IC_OUT_OF_RANGE: `place` is not below `places`. IC_LINKED: `place` is linked already. IC_BROKEN: the links below one of the two roots
 * form no red-black tree, or both trees have the same root. */
IC_NODISCARD
uint32_t ic_tree_join(struct ic_link3 *table, ic_length places, struct ic_tree *tree, uint32_t place, struct ic_tree *given);

/* Removes all members, in O(n).
 * IC_BROKEN: the root is not linked in this table, or a walk from the first member on goes in a circle, or comes to a place that is not
 * linked in this table. */
IC_NODISCARD
uint32_t ic_tree_clear(struct ic_link3 *table, ic_length places, struct ic_tree *tree);

/* Moves the member `at` and all members after it to `rest`, which has to be empty, in O(n). The call takes O(n) because it checks the tree
 * first. In Rattle, the language in which the library is written, types guarantee that the links form a tree, so the same call takes O(log
 * n).
 * IC_NULL: the place `at` is IC_NONE. IC_OUT_OF_RANGE: the place `at` is not below `places`. IC_NOT_LINKED: the place `at` is not linked.
 * IC_BROKEN: the links below the root form no red-black tree, or `at` is no member of the tree, or `rest` has members. */
IC_NODISCARD
uint32_t ic_tree_split(struct ic_link3 *table, ic_length places, struct ic_tree *tree, uint32_t at, struct ic_tree *rest);

/* Counts the members, and sets *members to their number, in O(n). Make this call if the words come from a file, or from memory to which
 * other programs write. If the status is IC_OK, all other calls on this tree do what their comments say. The check reads no keys. It is
 * recursive, to a depth of at most 67 calls.
 * IC_BROKEN: the links below the root form no red-black tree, because a parent, a color or a child is wrong. */
IC_NODISCARD
uint32_t ic_tree_check(const struct ic_link3 *table, ic_length places, const struct ic_tree *tree, uint64_t *members);

/* to here */

/* ---- Trees by keys ----
 *
 * A key is a number, and a member with a smaller key comes before a member with a greater key. The key of `place` is keys[place]. The array `keys`
 * must have a key for each place, but the calls read only the keys of members and of the place to insert. If the members of the tree are not sorted
 * by keys, a search may find a wrong member or none.
 */

/* Made by tools/c-calls --write: tree-keys */

/* Inserts `place` by its key, after all members whose keys are not greater than `keys[place]`, in O(log n).
 * IC_OUT_OF_RANGE: there are fewer keys than places, or `place` is not below `places`. IC_LINKED: `place` is linked already. IC_BROKEN: the
 * root is not linked in this table. */
IC_NODISCARD
uint32_t ic_tree_insert(struct ic_link3 *table, ic_length places, const uint64_t *keys, ic_length key_count, struct ic_tree *tree,
                        uint32_t place);

/* Finds the first member whose key is `key`, and sets *found to this member, in O(log n).
 * IC_NULL: no member has this key. IC_OUT_OF_RANGE: there are fewer keys than places. IC_BROKEN: the root is not linked in this table. */
IC_NODISCARD
uint32_t ic_tree_find(const struct ic_link3 *table, ic_length places, const uint64_t *keys, ic_length key_count, const struct ic_tree *tree,
                      uint64_t key, uint32_t *found);

/* Finds the first member whose key is not less than `key`, and sets *found to this member, in O(log n).
 * IC_NULL: every member's key is less than `key`. IC_OUT_OF_RANGE: there are fewer keys than places. IC_BROKEN: the root is not linked in
 * this table. */
IC_NODISCARD
uint32_t ic_tree_lower_bound(const struct ic_link3 *table, ic_length places, const uint64_t *keys, ic_length key_count,
                             const struct ic_tree *tree, uint64_t key, uint32_t *found);

/* Finds the LAST member whose key is NOT GREATER than `key`, and sets *found to this member, in O(log n). The upper_bound of C++ finds
 * another member, the first one whose key is greater than `key`. The names of the lower and the upper bound come from the Rust crate
 * intrusive-collections. If members have keys from `low` to `high`, the lower bound of `low` is the first of these members, and the upper
 * bound of `high` is the last.
 * IC_NULL: every member's key is greater than `key`. IC_OUT_OF_RANGE: there are fewer keys than places. IC_BROKEN: the root is not linked
 * in this table. */
IC_NODISCARD
uint32_t ic_tree_upper_bound(const struct ic_link3 *table, ic_length places, const uint64_t *keys, ic_length key_count,
                             const struct ic_tree *tree, uint64_t key, uint32_t *found);

/* to here */

/* Inserts `place` by its key if no member has this key. Sets *found to the first member with this key, which is `place` if the function has inserted
 * it. The function takes O(log n).
 * IC_OUT_OF_RANGE: there are fewer keys than places, or `place` is not below `places`. IC_LINKED: `place` is linked already. IC_BROKEN: the root
 * is not linked in this table. */
IC_NODISCARD
static inline uint32_t ic_tree_insert_unique(struct ic_link3 *table, ic_length places, const uint64_t *keys, ic_length key_count,
                                             struct ic_tree *tree, uint32_t place, uint32_t *found) {
    uint32_t status = IC_NULL;
    if (place < ic_bound(places) && places <= key_count && !ic_tree_is_linked(table, places, place))
        status = ic_tree_find(table, places, keys, key_count, tree, keys[place], found);
    if (status != IC_NULL)
        return status;
    status = ic_tree_insert(table, places, keys, key_count, tree, place);
    if (status == IC_OK)
        *found = place;
    return status;
}

/* ---- Trees by a comparison ----
 *
 * The macros IC_TREE_..._BY search a tree, or insert into a tree, by a comparison that you write, in O(log n). Use them, for example, if your keys
 * are no numbers. Each macro is a statement. `at` is the name of a uint32_t variable of yours. `comparison` is an expression that compares your key,
 * which you insert or search for, with the key of the member `at`. Its value must be negative if your key comes before the key of `at`, 0 if the two
 * keys are equal, and positive if your key comes after the key of `at`, as with strcmp.
 *
 *     const char *names[100];
 *     uint32_t at, status;
 *     IC_TREE_FIND_BY(at, links, 100, &tree, strcmp("oak", names[at]));
 *     if (at == IC_NONE)
 *         IC_TREE_INSERT_BY(status, at, links, 100, &tree, place, strcmp(names[place], names[at]));
 *
 * Whatever the words are, a macro makes at most `places` comparisons, each with a linked place of the table. A macro evaluates `table`, `places`,
 * `tree` and `place` several times.
 */

/* Returns the right child of the member `at` if `is_left` is 0, and otherwise the left child. The function returns IC_NONE if `at` has no such
 * child. */
static inline uint32_t ic_tree_child(const struct ic_link3 *table, ic_length places, uint32_t at, int is_left) {
    if (!ic_tree_is_linked(table, places, at))
        return IC_NONE;
    return ic_place_within(places, is_left ? table[at].left : table[at].right);
}

/* The three macros below that search by a comparison expand to IC_SEARCH_BY. Its arguments `is_found` and `goes_left` are operators such as <=. At
 * each member the search goes to the left child if `comparison goes_left 0` is true, and otherwise to the right child. Of the members on this way,
 * `at` becomes the last one for which `comparison is_found 0` is true. */
#define IC_SEARCH_BY(at, table, places, tree, comparison, is_found, goes_left)                  \
    do {                                                                                        \
        uint32_t ic_found_##at = IC_NONE, ic_rounds_##at = ic_bound(places);                    \
        at = ic_tree_root(tree);                                                                \
        while (ic_tree_is_linked(table, places, at) && ic_rounds_##at--) {                      \
            const int64_t ic_order_##at = (comparison);                                         \
            if (ic_order_##at is_found 0)                                                       \
                ic_found_##at = at;                                                             \
            at = ic_tree_child(table, places, at, ic_order_##at goes_left 0);                   \
        }                                                                                       \
        at = ic_found_##at;                                                                     \
    } while (0)

/* Sets `at` to the first member for which the comparison is 0, or to IC_NONE if there is none. */
#define IC_TREE_FIND_BY(at, table, places, tree, comparison) IC_SEARCH_BY(at, table, places, tree, comparison, ==, <=)

/* Sets `at` to the first member for which the comparison is 0 or less, or to IC_NONE if there is none. */
#define IC_TREE_LOWER_BOUND_BY(at, table, places, tree, comparison) IC_SEARCH_BY(at, table, places, tree, comparison, <=, <=)

/* Sets `at` to the last member for which the comparison is 0 or greater, or to IC_NONE if there is none. */
#define IC_TREE_UPPER_BOUND_BY(at, table, places, tree, comparison) IC_SEARCH_BY(at, table, places, tree, comparison, >=, <)

/* The two macros below that insert expand to IC_DESCEND_AND_INSERT. If `place` is out of range or linked already, the macro makes no comparison, and
 * sets `status` to IC_OUT_OF_RANGE or IC_LINKED. */
#define IC_DESCEND_AND_INSERT(status, at, table, places, tree, place, comparison, is_unique)                                    \
    do {                                                                                                                        \
        uint32_t ic_under_##at = IC_NONE, ic_same_##at = IC_NONE, ic_rounds_##at = ic_bound(places);                            \
        int ic_is_left_##at = 0;                                                                                                \
        at = (place) < ic_bound(places) && !ic_tree_is_linked(table, places, place) ? ic_tree_root(tree) : IC_NONE;             \
        while (ic_tree_is_linked(table, places, at) && ic_rounds_##at--) {                                                      \
            const int64_t ic_order_##at = (comparison);                                                                         \
            if ((is_unique) && ic_order_##at == 0) {                                                                            \
                ic_same_##at = at;                                                                                              \
                break;                                                                                                          \
            }                                                                                                                   \
            ic_under_##at = at;                                                                                                 \
            ic_is_left_##at = ic_order_##at < 0;                                                                                \
            at = ic_tree_child(table, places, at, ic_is_left_##at);                                                             \
        }                                                                                                                       \
        status = IC_OK;                                                                                                         \
        if (ic_same_##at == IC_NONE)                                                                                            \
            status = (ic_is_left_##at ? ic_tree_insert_left : ic_tree_insert_right)(table, places, tree, ic_under_##at, place); \
        at = status != IC_OK ? IC_NONE : ic_same_##at != IC_NONE ? ic_same_##at : (place);                                      \
    } while (0)

/* Inserts `place` after all members for which the comparison is 0 or greater, and sets `status` to IC_OK and `at` to `place`. If the insertion is
 * refused, the macro sets `status` to one of the statuses below, and `at` to IC_NONE.
 * IC_OUT_OF_RANGE: `place` is not below `places`. IC_LINKED: `place` is linked already. IC_BROKEN: the root is not linked in this table, or the
 * links below the root form no tree. */
#define IC_TREE_INSERT_BY(status, at, table, places, tree, place, comparison) \
    IC_DESCEND_AND_INSERT(status, at, table, places, tree, place, comparison, 0)

/* Inserts `place` as IC_TREE_INSERT_BY does, if there is no member for which the comparison is 0. If there is such a member, the macro sets `status`
 * to IC_OK and `at` to this member. If `place` is out of range or linked already, the macro does not search, and refuses the insertion. */
#define IC_TREE_INSERT_UNIQUE_BY(status, at, table, places, tree, place, comparison) \
    IC_DESCEND_AND_INSERT(status, at, table, places, tree, place, comparison, 1)

/* ---- Steps through a tree ----
 *
 * A walk over all n members takes O(n). If you remove members during the walk, find the next member before you remove the current member.
 *
 * To dispose of a whole tree, walk over its members, free or reuse what each object owns, and then call ic_tree_clear, which takes O(n), too. The
 * links are in the table and not in the objects, so the walk can go on after you have freed an object.
 */

/* Made by tools/c-calls --write: tree-steps */

/* Finds the member after the member `at`, or the first member if `at` is IC_NONE, and sets *found to this member, in O(log n).
 * IC_NULL: `at` is the last member, or the tree is empty. IC_OUT_OF_RANGE: the place `at` is not below `places`. IC_NOT_LINKED: the place
 * `at` is not linked. IC_BROKEN: the root is not linked in this table. */
IC_NODISCARD
uint32_t ic_tree_next(const struct ic_link3 *table, ic_length places, const struct ic_tree *tree, uint32_t at, uint32_t *found);

/* Finds the member before the member `at`, or the last member if `at` is IC_NONE, and sets *found to this member, in O(log n).
 * IC_NULL: `at` is the first member, or the tree is empty. IC_OUT_OF_RANGE: the place `at` is not below `places`. IC_NOT_LINKED: the place
 * `at` is not linked. IC_BROKEN: the root is not linked in this table. */
IC_NODISCARD
uint32_t ic_tree_prev(const struct ic_link3 *table, ic_length places, const struct ic_tree *tree, uint32_t at, uint32_t *found);

/* to here */

/* Sets *found to the first member, in O(log n). IC_NULL: the tree is empty. IC_BROKEN: the root is not linked in this table. */
IC_NODISCARD
static inline uint32_t ic_tree_first(const struct ic_link3 *table, ic_length places, const struct ic_tree *tree, uint32_t *found) {
    return ic_tree_next(table, places, tree, IC_NONE, found);
}

/* Sets *found to the last member, in O(log n). IC_NULL: the tree is empty. IC_BROKEN: the root is not linked in this table. */
IC_NODISCARD
static inline uint32_t ic_tree_last(const struct ic_link3 *table, ic_length places, const struct ic_tree *tree, uint32_t *found) {
    return ic_tree_prev(table, places, tree, IC_NONE, found);
}

/* Returns the member after the member `at`, or the first member if `at` is IC_NONE. The function returns IC_NONE if there is no such member, or if
 * ic_tree_next refuses the step. */
static inline uint32_t ic_tree_after(const struct ic_link3 *table, ic_length places, const struct ic_tree *tree, uint32_t at) {
    uint32_t found;
    return ic_tree_next(table, places, tree, at, &found) == IC_OK ? found : IC_NONE;
}

/* Returns the member before the member `at`, or the last member if `at` is IC_NONE. The function returns IC_NONE if there is no such member, or if
 * ic_tree_prev refuses the step. */
static inline uint32_t ic_tree_before(const struct ic_link3 *table, ic_length places, const struct ic_tree *tree, uint32_t at) {
    uint32_t found;
    return ic_tree_prev(table, places, tree, at, &found) == IC_OK ? found : IC_NONE;
}

/* An IC_TREE_FOREACH loop goes from the first member to the last, and a loop with REVERSE in its name goes from the last member to the first. In a
 * ..._SAFE loop `next` is the member after `place`, or IC_NONE if `place` is the last member. In a ..._REVERSE_SAFE loop `prev` is the member before
 * `place`, or IC_NONE if `place` is the first member. */
#define IC_TREE_FOREACH(place, table, places, tree) \
    IC_LOOP(place, ic_tree_after(table, places, tree, IC_NONE), places, place != IC_NONE, ic_tree_after(table, places, tree, place))
#define IC_TREE_FOREACH_REVERSE(place, table, places, tree) \
    IC_LOOP(place, ic_tree_before(table, places, tree, IC_NONE), places, place != IC_NONE, ic_tree_before(table, places, tree, place))
#define IC_TREE_FOREACH_SAFE(place, next, table, places, tree)                                                               \
    IC_LOOP_SAFE(place, next, ic_tree_after(table, places, tree, IC_NONE), places, ic_tree_is_linked(table, places, place), \
                 ic_tree_after(table, places, tree, place))
#define IC_TREE_FOREACH_REVERSE_SAFE(place, prev, table, places, tree)                                                       \
    IC_LOOP_SAFE(place, prev, ic_tree_before(table, places, tree, IC_NONE), places, ic_tree_is_linked(table, places, place), \
                 ic_tree_before(table, places, tree, place))
#define IC_TREE_FOREACH_ENTRY(object, objects, table, places, tree)                                     \
    IC_LOOP_ENTRY(object, objects, ic_at_##object, ic_tree_after(table, places, tree, IC_NONE), places, \
        ic_tree_is_linked(table, places, ic_at_##object), ic_tree_after(table, places, tree, ic_at_##object))
#define IC_TREE_FOREACH_ENTRY_REVERSE(object, objects, table, places, tree)                              \
    IC_LOOP_ENTRY(object, objects, ic_at_##object, ic_tree_before(table, places, tree, IC_NONE), places, \
        ic_tree_is_linked(table, places, ic_at_##object), ic_tree_before(table, places, tree, ic_at_##object))
#define IC_TREE_FOREACH_ENTRY_SAFE(object, objects, table, places, tree)                                                       \
    IC_LOOP_ENTRY_SAFE(object, objects, ic_at_##object, ic_next_##object, ic_tree_after(table, places, tree, IC_NONE), places, \
        ic_tree_is_linked(table, places, ic_at_##object), ic_tree_after(table, places, tree, ic_at_##object))
#define IC_TREE_FOREACH_ENTRY_REVERSE_SAFE(object, objects, table, places, tree)                                                \
    IC_LOOP_ENTRY_SAFE(object, objects, ic_at_##object, ic_next_##object, ic_tree_before(table, places, tree, IC_NONE), places, \
        ic_tree_is_linked(table, places, ic_at_##object), ic_tree_before(table, places, tree, ic_at_##object))
#define IC_TREE_FOREACH_FROM(place, at, table, places, tree) \
    IC_LOOP(place, at, places, ic_tree_is_linked(table, places, place), ic_tree_after(table, places, tree, place))
#define IC_TREE_FOREACH_REVERSE_FROM(place, at, table, places, tree) \
    IC_LOOP(place, at, places, ic_tree_is_linked(table, places, place), ic_tree_before(table, places, tree, place))
#define IC_TREE_FOREACH_SAFE_FROM(place, next, at, table, places, tree) \
    IC_LOOP_SAFE(place, next, at, places, ic_tree_is_linked(table, places, place), ic_tree_after(table, places, tree, place))
#define IC_TREE_FOREACH_ENTRY_FROM(object, objects, at, table, places, tree)                                     \
    IC_LOOP_ENTRY(object, objects, ic_at_##object, at, places, ic_tree_is_linked(table, places, ic_at_##object), \
                  ic_tree_after(table, places, tree, ic_at_##object))
#define IC_TREE_FOREACH_ENTRY_SAFE_FROM(object, objects, at, table, places, tree)     \
    IC_LOOP_ENTRY_SAFE(object, objects, ic_at_##object, ic_next_##object, at, places, \
                       ic_tree_is_linked(table, places, ic_at_##object), ic_tree_after(table, places, tree, ic_at_##object))

/* ---- Trees that keep their first and last member ----
 *
 * The ends of a tree are a struct ic_tree_ends, which has the words for the first and the last member. With the ends you find the first member, such
 * as the next timer, in O(1). The ends of an empty tree are {0}. To insert, remove or replace a member of a tree with ends, make only the calls
 * ic_tree_ends_..., which update the ends. No other call changes the ends. So after ic_tree_clear set the ends to {0}. After ic_tree_append,
 * ic_tree_join or ic_tree_split, set the ends of each tree that is empty to {0}. If a tree has members, set ends.first to ic_word of the member that
 * ic_tree_first finds, and ends.last to ic_word of the member that ic_tree_last finds.
 *
 *     struct ic_tree_ends ends = {0};
 *     status = ic_tree_ends_insert(links, 100, keys, 100, &tree, &ends, 7);
 *     next = ic_tree_ends_first(links, 100, &ends);                             // in O(1)
 *     status = ic_tree_ends_pop_first(links, 100, &tree, &ends, &next);
 */

/* Returns the first member that `ends` names, in O(1), or IC_NONE if `ends` names no linked place of the table. */
static inline uint32_t ic_tree_ends_first(const struct ic_link3 *table, ic_length places, const struct ic_tree_ends *ends) {
    uint32_t place = ic_place(ends->first);
    return ic_tree_is_linked(table, places, place) ? place : IC_NONE;
}

/* Returns the last member that `ends` names, in O(1), or IC_NONE if `ends` names no linked place of the table. */
static inline uint32_t ic_tree_ends_last(const struct ic_link3 *table, ic_length places, const struct ic_tree_ends *ends) {
    uint32_t place = ic_place(ends->last);
    return ic_tree_is_linked(table, places, place) ? place : IC_NONE;
}

/* Made by tools/c-calls --write: tree-ends */

/* Inserts `place` by its key, after all members whose keys are not greater than `keys[place]`, and updates the ends of the tree, in O(log
 * n).
 * IC_OUT_OF_RANGE: there are fewer keys than places, or `place` is not below `places`. IC_LINKED: `place` is linked already. IC_BROKEN: the
 * root is not linked in this table. */
IC_NODISCARD
uint32_t ic_tree_ends_insert(struct ic_link3 *table, ic_length places, const uint64_t *keys, ic_length key_count, struct ic_tree *tree,
                             struct ic_tree_ends *ends, uint32_t place);

/* Inserts `place` as ic_tree_insert_left does, and updates the ends of the tree, in O(log n).
 * IC_OUT_OF_RANGE: `at` or `place` is not below `places`. IC_LINKED: `place` is linked already. IC_NOT_LINKED: the place `at` is not
 * linked. IC_BROKEN: `at` has a left child, or `at` is IC_NONE and the tree has members, or the root is not linked in this table. */
IC_NODISCARD
uint32_t ic_tree_ends_insert_left(struct ic_link3 *table, ic_length places, struct ic_tree *tree, struct ic_tree_ends *ends, uint32_t at,
                                  uint32_t place);

/* Inserts `place` as ic_tree_insert_right does, and updates the ends of the tree, in O(log n).
 * IC_OUT_OF_RANGE: `at` or `place` is not below `places`. IC_LINKED: `place` is linked already. IC_NOT_LINKED: the place `at` is not
 * linked. IC_BROKEN: `at` has a right child, or `at` is IC_NONE and the tree has members, or the root is not linked in this table. */
IC_NODISCARD
uint32_t ic_tree_ends_insert_right(struct ic_link3 *table, ic_length places, struct ic_tree *tree, struct ic_tree_ends *ends, uint32_t at,
                                   uint32_t place);

/* Removes the member `at`, in O(log n). If `at` is the first or the last member, the call sets this end of the tree to the neighbor of
 * `at`.
 * IC_NULL: the place `at` is IC_NONE. IC_OUT_OF_RANGE: the place `at` is not below `places`. IC_NOT_LINKED: the place `at` is not linked.
 * IC_BROKEN: the root is not linked in this table, or `at` is the root of another tree, or `at` is an end, and the links lead from `at` to
 * a place that is not linked, or back to `at`. */
IC_NODISCARD
uint32_t ic_tree_ends_remove(struct ic_link3 *table, ic_length places, struct ic_tree *tree, struct ic_tree_ends *ends, uint32_t at);

/* Removes the member `at`, and inserts `place` where `at` was, in O(1). If `at` is the first or the last member, the call sets this end of
 * the tree to `place`. The call compares no keys, so pass a place that comes between the neighbors of `at` in the order of the keys.
 * IC_NULL: the place `at` is IC_NONE. IC_OUT_OF_RANGE: `at` or `place` is not below `places`. IC_LINKED: `place` is linked already, or is
 * `at` itself. IC_NOT_LINKED: the place `at` is not linked. IC_BROKEN: the root is not linked in this table, or `at` is the root of another
 * tree. */
IC_NODISCARD
uint32_t ic_tree_ends_replace(struct ic_link3 *table, ic_length places, struct ic_tree *tree, struct ic_tree_ends *ends, uint32_t at,
                              uint32_t place);

/* Removes the first member, and sets *popped to this member, in O(log n). The call reads this member from `ends`, and finds the next
 * member, which becomes the first one, in O(1) on average.
 * IC_NULL: `ends` names no first member. IC_BROKEN: the root or the first member is not linked in this table, or the links lead from the
 * first member to a place that is not linked, or back to the first member. */
IC_NODISCARD
uint32_t ic_tree_ends_pop_first(struct ic_link3 *table, ic_length places, struct ic_tree *tree, struct ic_tree_ends *ends, uint32_t *popped);

/* to here */

/* ---- Trees with sums ----
 *
 * An array of your own has a value and a sum for each place. You write the values, and pass IC_SUM or IC_GREATEST as `kind` to each call. With
 * IC_SUM, the combined value of several members is the total of their values, but at most UINT64_MAX. With IC_GREATEST, the combined value is the
 * greatest of their values. The sum at a member is the combined value of this member and all members below it in the tree. If each value is 1, the
 * sum with IC_SUM is the number of these members.
 *
 *     struct ic_sum counts[100];                                             // with the value 1 at each place
 *     status = ic_tree_sums_renew(links, 100, counts, 100, IC_SUM, IC_NONE); // makes all sums right
 *     status = ic_tree_sums_insert(links, 100, keys, 100, counts, 100, IC_SUM, &tree, 7);     // and they still are
 *     status = ic_tree_sums_find(links, 100, counts, 100, IC_SUM, &tree, IC_NONE, 3, &found); // the member at position 3, from 0 on
 *     status = ic_tree_sums_before(links, 100, counts, 100, IC_SUM, found, &position);        // which is 3
 *
 * The sums of a tree are right if the array has, for each member, the sum at this member. The sums of an empty tree are right. The calls
 * ic_tree_sums_insert... and ic_tree_sums_remove edit the tree as the calls without sums_ in their names do, and keep the sums right, in O(log n).
 * The calls without sums_ in their names do not update the sums. After such a call has edited the tree, pass IC_NONE to ic_tree_sums_renew, which
 * makes all sums right. After you have changed the value of one member, pass this member to ic_tree_sums_renew.
 *
 * If the values are the lengths of lines, ic_tree_sums_find finds the line at an offset, and ic_tree_sums_before finds where a line begins. With
 * IC_GREATEST, ic_tree_sums_find finds the first member whose value is greater than a bound, for example the first region that is long enough. If the
 * keys are the starts of intervals, and the values are their ends, ic_tree_sums_overlap finds, one after the other, all intervals that overlap a
 * given interval.
 */

/* With IC_SUM, a sum is the total of values, and with IC_GREATEST, a sum is the greatest of these values. If you pass any other number as `kind`, it
 * means IC_GREATEST. */
enum { IC_SUM = 0, IC_GREATEST = 1 };

/* Returns the sum at the root, in O(1). If the sums of the tree are right, this is the combined value of all members. The function returns 0 if the
 * tree is empty. */
static inline uint64_t ic_tree_sums_total(const struct ic_sum *sums, ic_length sum_count, const struct ic_tree *tree) {
    uint32_t root = ic_tree_root(tree);
    return root < ic_bound(sum_count) ? sums[root].sum : 0;
}

/* Made by tools/c-calls --write: tree-sums */

/* Inserts `place` by its key as ic_tree_insert does, and updates each sum that the insertion changes, in O(log n). If the sums of the tree
 * were right before the call, they are right after the call, too. The sum of `place` may be any number before the call.
 * IC_OUT_OF_RANGE: there are fewer keys than places, or there are fewer sums than places, or `place` is not below `places`. IC_LINKED:
 * `place` is linked already. IC_BROKEN: the root is not linked in this table. */
IC_NODISCARD
uint32_t ic_tree_sums_insert(struct ic_link3 *table, ic_length places, const uint64_t *keys, ic_length key_count, struct ic_sum *sums,
                             ic_length sum_count, uint32_t kind, struct ic_tree *tree, uint32_t place);

/* Inserts `place` as ic_tree_insert_left does, and updates each sum that the insertion changes, in O(log n).
 * IC_OUT_OF_RANGE: there are fewer sums than places, or `at` or `place` is not below `places`. IC_LINKED: `place` is linked already.
 * IC_NOT_LINKED: the place `at` is not linked. IC_BROKEN: `at` has a left child, or `at` is IC_NONE and the tree has members, or the root
 * is not linked in this table. */
IC_NODISCARD
uint32_t ic_tree_sums_insert_left(struct ic_link3 *table, ic_length places, struct ic_sum *sums, ic_length sum_count, uint32_t kind,
                                  struct ic_tree *tree, uint32_t at, uint32_t place);

/* Inserts `place` as ic_tree_insert_right does, and updates each sum that the insertion changes, in O(log n).
 * IC_OUT_OF_RANGE: there are fewer sums than places, or `at` or `place` is not below `places`. IC_LINKED: `place` is linked already.
 * IC_NOT_LINKED: the place `at` is not linked. IC_BROKEN: `at` has a right child, or `at` is IC_NONE and the tree has members, or the root
 * is not linked in this table. */
IC_NODISCARD
uint32_t ic_tree_sums_insert_right(struct ic_link3 *table, ic_length places, struct ic_sum *sums, ic_length sum_count, uint32_t kind,
                                   struct ic_tree *tree, uint32_t at, uint32_t place);

/* Removes the member `at`, and updates each sum that the removal changes, in O(log n). If the sums of the tree were right before the call,
 * they are right after the call, too.
 * IC_NULL: the place `at` is IC_NONE. IC_OUT_OF_RANGE: there are fewer sums than places, or the place `at` is not below `places`.
 * IC_NOT_LINKED: the place `at` is not linked. IC_BROKEN: the root is not linked in this table, or `at` is the root of another tree. */
IC_NODISCARD
uint32_t ic_tree_sums_remove(struct ic_link3 *table, ic_length places, struct ic_sum *sums, ic_length sum_count, uint32_t kind,
                             struct ic_tree *tree, uint32_t at);

/* Computes the sum at the member `at` again, and then the sums at the members above `at`, until a sum does not change, in O(log n). Make
 * this call after you have changed the value of `at`. If `at` is IC_NONE, the call computes the sums of all trees in the table, in O(p log
 * p) for a table of p places. The call writes only sums.
 * IC_OUT_OF_RANGE: there are fewer sums than places, or the place `at` is not below `places`. IC_NOT_LINKED: the place `at` is not linked. */
IC_NODISCARD
uint32_t ic_tree_sums_renew(const struct ic_link3 *table, ic_length places, struct ic_sum *sums, ic_length sum_count, uint32_t kind,
                            uint32_t at);

/* Finds the first member at which the combined value becomes greater than `bound`, and sets *found to this member, in O(log n). The call
 * combines the values of the members one after the other, in their order. It begins with the member after the member `at`, or with the
 * first member if `at` is IC_NONE. The call changes no sum.
 * IC_NULL: the combined value does not become greater than `bound` at any member. IC_OUT_OF_RANGE: there are fewer sums than places, or the
 * place `at` is not below `places`. IC_NOT_LINKED: the place `at` is not linked. IC_BROKEN: the sums of the tree are wrong, or the root is
 * not linked in this table. */
IC_NODISCARD
uint32_t ic_tree_sums_find(const struct ic_link3 *table, ic_length places, const struct ic_sum *sums, ic_length sum_count, uint32_t kind,
                           const struct ic_tree *tree, uint32_t at, uint64_t bound, uint32_t *found);

/* Computes the combined value of the members before the member `at`, and sets *sum to this value, in O(log n). The call changes no sum.
 * IC_NULL: the place `at` is IC_NONE. IC_OUT_OF_RANGE: there are fewer sums than places, or the place `at` is not below `places`.
 * IC_NOT_LINKED: the place `at` is not linked. IC_BROKEN: the links from `at` upwards lead to no root. */
IC_NODISCARD
uint32_t ic_tree_sums_before(const struct ic_link3 *table, ic_length places, const struct ic_sum *sums, ic_length sum_count, uint32_t kind,
                             uint32_t at, uint64_t *sum);

/* Finds the first member whose interval overlaps the interval that begins at `from` and ends before `to`, and sets *found to this member,
 * in O(log n). The search begins after the member `at`, or at the first member if `at` is IC_NONE. The interval of a member begins at its
 * key and ends before its value. The sums must be computed with IC_GREATEST, and the members must be sorted by keys. The call changes no
 * sum.
 * IC_NULL: there is no such member. IC_OUT_OF_RANGE: there are fewer keys than places, or there are fewer sums than places, or the place
 * `at` is not below `places`. IC_NOT_LINKED: the place `at` is not linked. IC_BROKEN: the sums of the tree are wrong, or the root is not
 * linked in this table. */
IC_NODISCARD
uint32_t ic_tree_sums_overlap(const struct ic_link3 *table, ic_length places, const uint64_t *keys, ic_length key_count,
                              const struct ic_sum *sums, ic_length sum_count, const struct ic_tree *tree, uint32_t at, uint64_t from,
                              uint64_t to, uint32_t *found);

/* to here */

#ifdef __cplusplus
}
#endif

#endif
