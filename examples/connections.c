/* Connections that close themselves: each is in one of the rings `busy` and `idle`, and leaves its ring without naming it. */
#include "ic.h"
#include <stdio.h>

enum { CONNECTIONS = 6, BUSY = CONNECTIONS, IDLE, PLACES };

static struct ic_link2 links[PLACES];

/* A connection does not know in which ring it is. */
static void close_connection(uint32_t connection) {
    if (ic_ring_remove(links, PLACES, connection) != IC_OK)
        printf("%u is closed already\n", (unsigned)connection);
}

static void print(const char *name, uint32_t head) {
    printf("%s:", name);
    IC_RING_FOREACH(connection, links, PLACES, head)
        printf(" %u", (unsigned)connection);
    printf("\n");
}

int main(void) {
    uint32_t status = ic_ring_init(links, PLACES, BUSY), oldest = IC_NONE;
    if (status == IC_OK)
        status = ic_ring_init(links, PLACES, IDLE);
    for (uint32_t connection = 0; connection < CONNECTIONS && status == IC_OK; connection++)
        status = ic_ring_push_back(links, PLACES, connection % 2 ? IDLE : BUSY, connection);
    if (status != IC_OK)
        return 1;
    close_connection(2);
    close_connection(3);
    close_connection(3);
    if (ic_ring_move_before(links, PLACES, IDLE, 0) != IC_OK) /* 0 has nothing to do */
        return 1;
    print("busy", BUSY);
    print("idle", IDLE);
    if (ic_ring_pop_front(links, PLACES, IDLE, &oldest) == IC_OK)
        printf("idle for longest: %u\n", (unsigned)oldest);
    if (ic_ring_splice_before(links, PLACES, BUSY, IDLE) != IC_OK) /* all are busy */
        return 1;
    print("busy", BUSY);
    print("idle", IDLE);
    return 0;
}
