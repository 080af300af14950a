/* What rings.c does, over links with words of 4 bytes. */
#define WORDS_32
#include "rings.c"
