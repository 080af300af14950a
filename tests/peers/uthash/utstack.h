/* uthash's names of stacks (utstack.h), which are LL lists. */
#ifndef UTSTACK_H
#define UTSTACK_H

#include "utlist.h"

#define STACK_TOP(head) (head)
#define STACK_EMPTY(head) ic_stack_is_empty(PEER_STACK(head, next))
#define STACK_PUSH2(head, add, next) LL_PREPEND2(head, add, next)
#define STACK_POP2(head, popped, next)                                          \
    do {                                                                        \
        uint32_t place;                                                         \
        PEER_LL(head, next, ic_stack_pop_front(SINGLES, &list, &place));        \
        (popped) = ELEMENT(place, head, next);                                  \
    } while (0)
#define STACK_COUNT2(head, it, counter, next) LL_COUNT2(head, it, counter, next)

#define STACK_PUSH(head, add) STACK_PUSH2(head, add, next)
#define STACK_POP(head, popped) STACK_POP2(head, popped, next)
#define STACK_COUNT(head, it, counter) STACK_COUNT2(head, it, counter, next)

#endif
