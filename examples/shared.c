/* A program and its four workers, each a process, share slots for jobs: a free list and a queue over one table. The table is in a file,
 * which each process maps at an address of its own. One worker is killed while it edits, and the next process that locks the table links
 * the slots anew. Each job is done once all the same.
 *
 * It needs a system with POSIX and robust locks, such as Linux. Compile it with -pthread. */
#define _XOPEN_SOURCE 700
#include "ic.h"
#include <errno.h>
#include <pthread.h>
#include <signal.h>
#include <stdio.h>
#include <stdlib.h>
#include <string.h>
#include <sys/mman.h>
#include <sys/wait.h>
#include <unistd.h>

enum { SLOTS = 8, JOBS = 20000, WORKERS = 4 };
enum state { VACANT, WAITING, TAKEN };

/* What the processes share. They read and write it under the lock, except what comes after `relinked`. */
struct shared {
    pthread_mutex_t lock;
    struct ic_link2 links[SLOTS]; /* of both lists */
    struct ic_list vacant, waiting;
    enum state state[SLOTS]; /* says which list a slot belongs to, and is written before the slot is linked */
    uint32_t job[SLOTS];
    uint32_t jobs_made, relinked;
    uint32_t done[JOBS]; /* how often each job was done: the process that has taken the job counts it */
    uintptr_t mapped_at[WORKERS + 1];
};

/* Links a slot at the end of the list that its state names. */
static void put(struct shared *shared, uint32_t slot) {
    struct ic_list *list = shared->state[slot] == VACANT ? &shared->vacant : &shared->waiting;
    if (ic_list_push_back(shared->links, SLOTS, list, slot) != IC_OK)
        abort();
}

/* Takes the first slot off a list, or returns IC_NONE if the list is empty. */
static uint32_t take(struct shared *shared, struct ic_list *list) {
    uint32_t slot = IC_NONE, status = ic_list_pop_front(shared->links, SLOTS, list, &slot);
    if (status != IC_OK && status != IC_NULL)
        abort();
    return slot;
}

/* Links the slots anew, whatever the links and the lists were. A slot that a process has taken is in no list. */
static void relink(struct shared *shared) {
    memset(shared->links, 0, sizeof shared->links);
    shared->vacant = shared->waiting = (struct ic_list){0, 0};
    for (uint32_t slot = 0; slot < SLOTS; slot++)
        if (shared->state[slot] != TAKEN)
            put(shared, slot);
}

static void lock(struct shared *shared) {
    int status = pthread_mutex_lock(&shared->lock);
    if (status == EOWNERDEAD) { /* a process has died while it had the lock */
        relink(shared);
        shared->relinked++;
        status = pthread_mutex_consistent(&shared->lock);
    }
    if (status != 0)
        abort();
}

static void unlock(struct shared *shared) {
    if (pthread_mutex_unlock(&shared->lock) != 0)
        abort();
}

/* Puts a job into each vacant slot, while there are jobs to make. */
static void make_jobs(struct shared *shared) {
    while (shared->jobs_made < JOBS) {
        uint32_t slot = take(shared, &shared->vacant);
        if (slot == IC_NONE)
            return;
        shared->job[slot] = shared->jobs_made++;
        shared->state[slot] = WAITING;
        put(shared, slot);
    }
}

/* Takes a job, or returns IC_NONE if all are taken. */
static uint32_t take_job(struct shared *shared) {
    lock(shared);
    make_jobs(shared);
    uint32_t slot = take(shared, &shared->waiting);
    if (slot != IC_NONE)
        shared->state[slot] = TAKEN;
    unlock(shared);
    return slot;
}

/* Does a job that the process has taken, and gives its slot back. */
static void do_job(struct shared *shared, uint32_t slot) {
    shared->done[shared->job[slot]]++;
    lock(shared);
    shared->state[slot] = VACANT;
    put(shared, slot);
    unlock(shared);
}

/* Kills the process while it holds the lock, and after it has overwritten half of the links. */
static void die(struct shared *shared) {
    lock(shared);
    memset(shared->links, 0xFF, sizeof shared->links / 2);
    raise(SIGKILL);
}

static struct shared *map(int file) {
    struct shared *shared = mmap(NULL, sizeof *shared, PROT_READ | PROT_WRITE, MAP_SHARED, file, 0);
    if (shared == MAP_FAILED)
        abort();
    return shared;
}

/* What a worker does. Each maps the file once more often than the worker before it, so that its last mapping is at another address. */
static void run_worker(int file, int worker) {
    struct shared *shared = map(file);
    for (int again = 0; again < worker; again++)
        shared = map(file);
    shared->mapped_at[worker] = (uintptr_t)shared;
    if (worker == WORKERS - 1)
        die(shared);
    for (uint32_t slot = take_job(shared); slot != IC_NONE; slot = take_job(shared))
        do_job(shared, slot);
}

/* Makes the file: a lock for all processes, and vacant slots. */
static struct shared *prepare(int file) {
    pthread_mutexattr_t kind;
    if (ftruncate(file, sizeof(struct shared)) != 0)
        abort();
    struct shared *shared = map(file); /* all is zero */
    if (pthread_mutexattr_init(&kind) || pthread_mutexattr_setpshared(&kind, PTHREAD_PROCESS_SHARED) ||
        pthread_mutexattr_setrobust(&kind, PTHREAD_MUTEX_ROBUST) || pthread_mutex_init(&shared->lock, &kind))
        abort();
    relink(shared);
    shared->mapped_at[WORKERS] = (uintptr_t)shared;
    return shared;
}

/* Starts the workers, and waits until all have ended. Returns how many were killed. */
static int run_workers(int file) {
    int killed = 0, status;
    for (int worker = 0; worker < WORKERS; worker++) {
        pid_t child = fork();
        if (child < 0)
            abort();
        if (child == 0) {
            run_worker(file, worker);
            _exit(0);
        }
    }
    while (wait(&status) > 0)
        killed += WIFSIGNALED(status) != 0;
    return killed;
}

static int count_addresses(const struct shared *shared) {
    int count = 0;
    for (int one = 0; one <= WORKERS; one++) {
        int first = 0;
        while (shared->mapped_at[first] != shared->mapped_at[one])
            first++;
        count += first == one;
    }
    return count;
}

int main(void) {
    FILE *file = tmpfile();
    if (!file)
        return 1;
    struct shared *shared = prepare(fileno(file));
    uint32_t slot_of_first = take_job(shared);
    int killed = run_workers(fileno(file)), once = 0, vacant = 0;
    do_job(shared, slot_of_first); /* which is in no list while the others work */
    lock(shared);
    for (int job = 0; job < JOBS; job++)
        once += shared->done[job] == 1;
    IC_LIST_FOREACH(slot, shared->links, SLOTS, &shared->vacant)
        vacant++;
    printf("%d processes mapped the file, at %d addresses\n", WORKERS + 1, count_addresses(shared));
    printf("killed: %d, linked anew: %u\n", killed, (unsigned)shared->relinked);
    printf("jobs that were done once: %d of %d\n", once, JOBS);
    printf("vacant slots: %d of %d, and the queue is %s\n", vacant, SLOTS, ic_list_is_empty(&shared->waiting) ? "empty" : "not empty");
    unlock(shared);
    return 0;
}
