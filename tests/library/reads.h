/* Reads the cases of reads.txt, of which it says how they are written. */
#ifndef READS_H
#define READS_H

#include "ic.h"

#include <inttypes.h>
#include <stdio.h>
#include <stdlib.h>
#include <string.h>

enum { MOST = 8, LETTERS = 256 };

/* What a line of reads.txt reads: the words of the part, the read with its arguments, and what it has to return. */
struct reads_case {
    char kind[16], read[16], wanted[LETTERS];
    uint64_t words[3 * MOST], head[2];
    size_t count;
    uint32_t arguments[2], line;
};

static inline uint32_t reads_place(const char *word) {
    return strcmp(word, "none") == 0 ? IC_NONE : (uint32_t)strtoul(word, NULL, 10);
}

/* Adds a place to a text, `none` of IC_NONE. */
static inline void reads_add(char *text, uint32_t place) {
    size_t used = strlen(text);
    if (place == IC_NONE)
        snprintf(text + used, LETTERS - used, " none");
    else
        snprintf(text + used, LETTERS - used, " %" PRIu32, place);
}

/* Takes a line's words into the case, and returns whether the line is a read. */
static inline int reads_take(struct reads_case *it, char *line) {
    size_t count = 0;
    char *word, *right = strchr(line, '=');
    line[strcspn(line, "#\n")] = 0;
    right = right && *right ? right : NULL;
    if (right)
        *right++ = 0;
    word = strtok(line, " ");
    if (!word)
        return 0;
    if (!right && strcmp(word, "links") != 0 && strcmp(word, "head") != 0) {
        snprintf(it->kind, sizeof it->kind, "%s", word);
        return 0;
    }
    snprintf(it->read, sizeof it->read, "%s", word);
    for (word = strtok(NULL, " "); word; word = strtok(NULL, " "), count++) {
        if (right && count < 2)
            it->arguments[count] = reads_place(word);
        else if (strcmp(it->read, "links") == 0 && count < 3 * MOST)
            it->words[count] = strtoull(word, NULL, 10);
        else if (!right && count < 2)
            it->head[count] = strtoull(word, NULL, 10);
    }
    if (!right) {
        it->count = strcmp(it->read, "links") == 0 ? count : it->count;
        return 0;
    }
    it->wanted[0] = 0;
    for (word = strtok(right, " "); word; word = strtok(NULL, " ")) {
        size_t used = strlen(it->wanted);
        snprintf(it->wanted + used, LETTERS - used, " %s", word);
    }
    return 1;
}

/* Plays each case: `play` writes what the read returns, and returns whether the language has this read. Returns the exit status. */
static inline int reads_play(const char *path, int (*play)(const struct reads_case *, char *)) {
    struct reads_case it;
    char line[LETTERS], said[LETTERS];
    unsigned played = 0, wrong = 0;
    FILE *file = fopen(path, "r");
    memset(&it, 0, sizeof it);
    if (!file)
        return 2;
    while (fgets(line, sizeof line, file)) {
        it.line++;
        said[0] = 0;
        if (!reads_take(&it, line) || !play(&it, said))
            continue;
        played++;
        if (strcmp(said, it.wanted) != 0) {
            printf("line %" PRIu32 ", %s %s:%s in place of%s\n", it.line, it.kind, it.read, said, it.wanted);
            wrong++;
        }
    }
    fclose(file);
    printf("%u reads, %u of them wrong\n", played, wrong);
    return wrong || !played;
}

#endif
