/* Sessions that a request names by an id of 64 bits. A hash table finds the session, and a list in the same table has the free places. If
 * there are more sessions than buckets, all sessions move to twice as many buckets. The program allocates nothing. */
#include "ic.h"
#include <stdio.h>

enum { SESSIONS = 6, MOST_BUCKETS = 8 };

static struct ic_link1 links[SESSIONS];
static struct ic_stack vacant, buckets[2][MOST_BUCKETS]; /* of the two arrays of buckets one is in use */
static size_t bucket_count = 2, open_count;
static int in_use;
static uint64_t ids[SESSIONS], hashes[SESSIONS];
static unsigned requests[SESSIONS];

/* Ids that follow one another, or end alike, get hashes that do not (by the last steps of MurmurHash3). */
static uint64_t hash_of(uint64_t id) {
    id = (id ^ id >> 33) * UINT64_C(0xFF51AFD7ED558CCD);
    id = (id ^ id >> 33) * UINT64_C(0xC4CEB9FE1A85EC53);
    return id ^ id >> 33;
}

/* The session with this id, or IC_NONE. */
static uint32_t find(uint64_t id) {
    uint32_t found;
    uint32_t status = ic_hash_find(links, SESSIONS, ids, SESSIONS, buckets[in_use], bucket_count, hash_of(id), id, &found);
    return status == IC_OK ? found : IC_NONE;
}

/* Moves all sessions to twice as many buckets, by one call for each of the old buckets. */
static uint32_t grow(void) {
    uint32_t status = IC_OK;
    for (size_t i = 0; status == IC_OK && i < bucket_count; i++)
        status = ic_hash_move_chain(links, SESSIONS, hashes, SESSIONS, &buckets[in_use][i], buckets[!in_use], 2 * bucket_count);
    in_use = !in_use;
    bucket_count *= 2;
    return status;
}

/* Opens a session with an id that no other session has. IC_NULL: all places are in use. */
static uint32_t open_session(uint64_t id) {
    uint32_t session, status = ic_stack_pop_front(links, SESSIONS, &vacant, &session);
    if (status == IC_OK && open_count == bucket_count && bucket_count < MOST_BUCKETS)
        status = grow();
    if (status != IC_OK)
        return status;
    open_count++;
    ids[session] = id;
    hashes[session] = hash_of(id);
    requests[session] = 0;
    return ic_hash_insert(links, SESSIONS, buckets[in_use], bucket_count, hashes[session], session);
}

static void request(uint64_t id) {
    uint32_t session = find(id);
    if (session == IC_NONE)
        printf("%llx: no session\n", (unsigned long long)id);
    else
        printf("%llx: request %u at place %u\n", (unsigned long long)id, ++requests[session], (unsigned)session);
}

static uint32_t close_session(uint64_t id) {
    uint32_t session = find(id);
    uint32_t status = ic_hash_remove(links, SESSIONS, buckets[in_use], bucket_count, hash_of(id), session);
    if (status != IC_OK)
        return status; /* IC_NULL: there is no such session */
    open_count--;
    return ic_stack_push_front(links, SESSIONS, &vacant, session);
}

int main(void) {
    static const uint64_t opened[] = {0xA100, 0xA200, 0xA300, 0xB100, 0xB200};
    if (ic_stack_fill(links, SESSIONS, &vacant, 0, SESSIONS) != IC_OK)
        return 1;
    for (size_t i = 0; i < sizeof opened / sizeof *opened; i++)
        if (open_session(opened[i]) != IC_OK)
            return 1;
    printf("%u sessions in %u buckets\n", (unsigned)open_count, (unsigned)bucket_count);
    request(0xA300);
    request(0xA300);
    request(0xB100);
    request(0xC100);
    printf("close a300: %s\n", ic_status_name(close_session(0xA300)));
    printf("close a300: %s\n", ic_status_name(close_session(0xA300)));
    request(0xA300);
    printf("open c100: %s\n", ic_status_name(open_session(0xC100)));
    printf("open c200: %s\n", ic_status_name(open_session(0xC200)));
    printf("open c300: %s\n", ic_status_name(open_session(0xC300)));
    request(0xC100);
    return 0;
}
