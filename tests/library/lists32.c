/* What sequences.c does with doubly linked lists, over links with words of 4 bytes. */
#define WORDS_32
#include "sequences.c"
