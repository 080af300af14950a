/* Tables of links whose words are right or random, between pages that can't be touched. The program defines _DEFAULT_SOURCE before it
 * includes this, for mmap of no file. On a processor with no system there are no pages, and so no guards. */
#ifndef TABLES_H
#define TABLES_H

#include "common.h"
#include <string.h>

#if defined(__unix__) || defined(__APPLE__)
#include <sys/mman.h>
#include <unistd.h>
#endif

enum { MOST = 24 }; /* how many places a table has at most */

/* Only hostile.c tries the last one, lists and rings with words of 4 bytes. */
enum kind { KIND_LIST, KIND_STACK, KIND_XOR, KIND_TREE, KINDS, KIND_NARROW = KINDS, TRIED_KINDS };

/* How many words of 8 bytes a link and a list of each kind have. */
static const struct { size_t link, list; } sizes[TRIED_KINDS] = {{2, 2}, {1, 1}, {1, 2}, {3, 1}, {1, 2}};

static inline uint32_t place(size_t places) {
    switch (below(8)) {
    case 0: return IC_NONE;
    case 1: return (uint32_t)any();
    case 2: return (uint32_t)places;
    default: return below((uint32_t)places + 1);
    }
}

static inline uint64_t word(size_t places) {
    uint32_t choice = below(6), bits = below(8), at = below((uint32_t)places + 1);
    switch (choice) {
    case 0: return any();
    case 1: return bits & 1;
    case 2: return ic_word((uint32_t)places) + (bits & 1);
    case 3: return (ic_word(at) + bits) ^ any() << 35; /* bit 35 makes it a place of no table */
    default: return ic_word(at) + (bits & 1);
    }
}

/* The numbers below `count` in a random order. */
static inline void shuffle(uint32_t *numbers, uint32_t count) {
    for (uint32_t i = 0; i < count; i++) {
        uint32_t j = below(i + 1);
        numbers[i] = numbers[j];
        numbers[j] = i;
    }
}

/* Writes the words of a list of `count` places, and returns those of its ends. */
static inline struct ic_list chain(enum kind kind, void *table, const uint32_t *members, uint32_t count) {
    for (uint32_t i = 0; i < count; i++) {
        uint64_t before = i ? ic_word(members[i - 1]) : 0, behind = i + 1 < count ? ic_word(members[i + 1]) : 0;
        if (kind == KIND_LIST)
            ((struct ic_link2 *)table)[members[i]] = (struct ic_link2){behind + 1, before};
        else if (kind == KIND_NARROW)
            ((struct ic_link2_32 *)table)[members[i]] = (struct ic_link2_32){(uint32_t)behind + 1, (uint32_t)before};
        else
            ((struct ic_link1 *)table)[members[i]].next = (kind == KIND_XOR ? before ^ behind : behind) + 1;
    }
    return count ? (struct ic_list){ic_word(members[0]), ic_word(members[count - 1])} : (struct ic_list){0, 0};
}

/* Writes the words of a tree of `count` places, which are in order, and returns that of its root. The places at `depth` 0 are red. */
static inline uint64_t grow(struct ic_link3 *table, const uint32_t *members, uint32_t count, uint32_t parent, uint32_t depth) {
    if (!count)
        return 0;
    uint32_t middle = count / 2, at = members[middle];
    table[at].left = grow(table, members, middle, at, depth - 1) + 1;
    table[at].right = grow(table, members + middle + 1, count - middle - 1, at, depth - 1);
    table[at].parent = ic_word(parent) + (depth != 0);
    return ic_word(at);
}

/* Writes the words of a list or a tree of `count` places in this order, and returns its own. Some kinds have only the first. Of the
 * two depths of a tree that lack children the lower is red. */
static inline struct ic_list lead_through(enum kind kind, void *table, const uint32_t *members, uint32_t count) {
    if (kind != KIND_TREE)
        return chain(kind, table, members, count);
    uint32_t depth = 0;
    while ((count + 1) >> (depth + 1))
        depth++;
    return (struct ic_list){grow(table, members, count, IC_NONE, depth), 0};
}

#if defined(__unix__) || defined(__APPLE__)
/* The end of a page between two that can't be touched. Before it are `count` words that can be read and written. */
static inline uint64_t *end_between_guards(size_t count) {
    size_t page = (size_t)sysconf(_SC_PAGESIZE);
    char *pages = mmap(NULL, 3 * page, PROT_NONE, MAP_PRIVATE | MAP_ANONYMOUS, -1, 0);
    if (count * sizeof(uint64_t) > page || pages == MAP_FAILED || mprotect(pages + page, page, PROT_READ | PROT_WRITE))
        exit(2);
    return (uint64_t *)(pages + 2 * page);
}

static inline void protect(uint64_t *end, int allowed) {
    size_t page = (size_t)sysconf(_SC_PAGESIZE);
    if (mprotect((char *)end - page, page, allowed))
        exit(2);
}

/* Lets nobody write to the page that ends there. */
static inline void guard_writes(uint64_t *end) {
    protect(end, PROT_READ);
}

/* Lets all write to it again. */
static inline void allow_writes(uint64_t *end) {
    protect(end, PROT_READ | PROT_WRITE);
}
#else
static inline uint64_t *end_between_guards(size_t count) {
    uint64_t *words = malloc(count * sizeof *words);
    if (!words)
        exit(2);
    return words + count;
}

static inline void guard_writes(uint64_t *end) {
    (void)end;
}

static inline void allow_writes(uint64_t *end) {
    (void)end;
}
#endif

#endif
