/* Plays a text of calls, in C or in C++, and prints what each returns. tools/same-calls says how a line is written, and writes made.h, whose
 * function `play` makes the call of a line: as ic.h has it, or as ic.hpp has it, whose views don't tell why they hand out no member.
 *     player CALLS [coarse]
 * With `coarse` it prints a dash for each call that hands out a member or a number and does not succeed.
 */
#include "ic.h"

#include <inttypes.h>
#include <stdio.h>
#include <stdlib.h>
#include <string.h>

enum { SLOTS = 3, WORDS = 128, LETTERS = 2048 };

/* What the calls take besides the tables and lists of made.h, which have as many places as tools/same-calls says. */
static uint64_t keys[TREE_PLACES];

/* Of three hash tables the second has too few keys, as the second list and the second tree do, also too few sums, and the third has no buckets. */
static const uint32_t bucket_from[SLOTS] = {0, 4, 7}, bucket_count[SLOTS] = {4, 3, 0};
static inline size_t key_count(uint64_t slot) {
    return slot == 1 ? 5 : TREE_PLACES;
}

/* The words of a table or of some lists, and of how many bytes each is. made.h has them in the order in which they are shown. */
struct part {
    void *words;
    size_t count, bytes;
};

/* ---- What `play` hands out, and what is printed of it ---- */

static struct {
    uint32_t place;
    uint64_t number;
} out;
static int is_coarse;

static inline void answer(uint32_t status) {
    puts(ic_status_name(status) + 3);
}

static inline void answer_number(uint32_t status, uint64_t number) {
    if (status == IC_OK)
        printf("%" PRIu64 "\n", number);
    else
        puts(is_coarse ? "-" : ic_status_name(status) + 3);
}

/* Prints what a call hands out. */
#define HANDED_OUT(call, number)                   \
    do {                                           \
        const uint32_t handed_out_status = (call); \
        answer_number(handed_out_status, number);  \
    } while (0)

/* A split fills another list, if that is empty. */
#define SPLIT(is_empty, other, kind, ...)            \
    do {                                             \
        struct kind rest;                            \
        uint32_t split_status;                       \
        memset(&rest, 0, sizeof rest);               \
        if (!is_empty(other)) {                      \
            puts("skipped");                         \
            break;                                   \
        }                                            \
        split_status = (__VA_ARGS__);                \
        if (split_status == IC_OK)                   \
            *(other) = rest;                         \
        answer(split_status);                        \
    } while (0)

static inline void answer_place(uint32_t place) {
    if (place == IC_NONE)
        puts("none");
    else
        printf("%" PRIu32 "\n", place);
}

static inline void answer_is(int is) {
    puts(is ? "yes" : "no");
}

/* One member of a walk. */
static inline void see(uint32_t place) {
    printf("%" PRIu32 " ", place);
}

#include "made.h"

/* ---- */

enum { PARTS = sizeof parts / sizeof *parts };

static uint64_t word_of(struct part part, size_t at) {
    return part.bytes == 4 ? ((uint32_t *)part.words)[at] : ((uint64_t *)part.words)[at];
}

static void set_word(struct part part, size_t at, uint64_t word) {
    if (part.bytes == 4)
        ((uint32_t *)part.words)[at] = (uint32_t)word;
    else
        ((uint64_t *)part.words)[at] = word;
}

static void show(void) {
    for (int part = 0; part < PARTS; part++) {
        for (size_t at = 0; at < parts[part].count; at++)
            printf("%" PRIu64 " ", word_of(parts[part], at));
        puts("");
    }
}

static void reset(void) {
    for (int part = 0; part < PARTS; part++)
        memset(parts[part].words, 0, parts[part].count * parts[part].bytes);
}

static void set_values(const uint64_t *values) {
    for (size_t at = 0; at < TREE_PLACES; at++)
        sums[at].value = values[at];
}

int main(int count, char **arguments) {
    char line[LETTERS];
    FILE *file = count > 1 ? fopen(arguments[1], "r") : NULL;
    is_coarse = count > 2;
    if (!file)
        return 2;
    while (fgets(line, sizeof line, file)) {
        uint64_t n[WORDS] = {0};
        const char *name = strtok(line, " \n"), *word;
        for (int at = 0; (word = strtok(NULL, " \n")) != NULL && at < WORDS; at++)
            n[at] = strcmp(word, "none") == 0 ? IC_NONE : strtoull(word, NULL, 10);
        if (strcmp(name, "reset") == 0)
            reset();
        else if (strcmp(name, "show") == 0)
            show();
        else if (strcmp(name, "keys") == 0)
            memcpy(keys, n, sizeof keys);
        else if (strcmp(name, "values") == 0)
            set_values(n);
        else if (strcmp(name, "word") == 0)
            set_word(parts[n[0]], n[1], n[2]);
        else if (!play(name, n))
            return printf("there is no call %s\n", name), 1;
    }
    fclose(file);
    return 0;
}
