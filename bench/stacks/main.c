// How many pushes a second threads make on one stack, which all of them push to and take from: the work of rattle/src/main.rt.txt.
//
// Built as it is, all atomic steps are sequentially consistent, as ours are. With -DWEAK they have the orders that Linux gives them in
// llist_add and llist_del_all, and with -DMUTEX the head stands under a mutex, and the links are plain words.
#include <pthread.h>
#include <stdatomic.h>
#include <stdint.h>
#include <stdio.h>
#include <time.h>

enum { PLACES = 1000, OWN = 64, TURNS = 4000000 };

#ifdef MUTEX
static uint64_t links[PLACES], head = 1;
static pthread_mutex_t lock = PTHREAD_MUTEX_INITIALIZER;

static void push(uint64_t place) {
    pthread_mutex_lock(&lock);
    links[place] = head;
    head = 8 * (place + 1) + 1;
    pthread_mutex_unlock(&lock);
}

static uint64_t take_all(void) {
    pthread_mutex_lock(&lock);
    uint64_t first = head;
    head = 1;
    pthread_mutex_unlock(&lock);
    return first;
}

static uint64_t next(uint64_t place) { return links[place]; }
#else
#ifdef WEAK
#define RELAXED memory_order_relaxed
#define RELEASE memory_order_release
#define BOTH memory_order_acq_rel
#else
#define RELAXED memory_order_seq_cst
#define RELEASE memory_order_seq_cst
#define BOTH memory_order_seq_cst
#endif
static _Atomic uint64_t words[PLACES + 1];

static void push(uint64_t place) {
    uint64_t seen = atomic_load_explicit(&words[PLACES], RELAXED);
    do
        atomic_store_explicit(&words[place], seen, RELAXED);
    while (!atomic_compare_exchange_strong_explicit(&words[PLACES], &seen, 8 * (place + 1) + 1, RELEASE, RELAXED));
}

static uint64_t take_all(void) { return atomic_exchange_explicit(&words[PLACES], 1, BOTH); }

static uint64_t next(uint64_t place) { return atomic_load_explicit(&words[place], RELAXED); }
#endif

static void *turn(void *number) {
    uint64_t *pushed = number, first = *pushed;
    for (uint64_t i = 0; i < OWN; i++)
        push(first * OWN + i);
    *pushed = 0;
    uint64_t chain = take_all();
    for (int i = 0; i < TURNS; i++) {
        if (chain != 1) {
            uint64_t place = (chain - 1) / 8 - 1;
            chain = next(place);
            push(place);
            ++*pushed;
        } else
            chain = take_all();
    }
    return 0;
}

int main(void) {
    for (int threads = 1; threads <= 4; threads *= 2) {
#ifndef MUTEX
        atomic_store(&words[PLACES], 1);
#else
        head = 1;
#endif
        pthread_t started[4];
        struct { uint64_t pushed, apart[15]; } all[4];
        struct timespec from, to;
        clock_gettime(CLOCK_MONOTONIC, &from);
        for (int i = 0; i < threads; i++) {
            all[i].pushed = i;
            pthread_create(&started[i], 0, turn, &all[i].pushed);
        }
        uint64_t pushed = 0;
        for (int i = 0; i < threads; i++) {
            pthread_join(started[i], 0);
            pushed += all[i].pushed;
        }
        clock_gettime(CLOCK_MONOTONIC, &to);
        printf("%d %lu %lu\n", threads, (unsigned long)pushed, (to.tv_sec - from.tv_sec) * 1000000000ul + to.tv_nsec - from.tv_nsec);
    }
}
