/* What a call is expected to return, and how often each did. The program lists its calls before it includes this, as CALLS(X). */
#ifndef EXPECTED_H
#define EXPECTED_H

#include "common.h"

#define NUMBER(name) CALL_##name,
#define NAME(name) "ic_" #name,

enum call { CALLS(NUMBER) COUNT };
static const char *const names[] = {CALLS(NAME)};
static size_t returned[COUNT][STATUSES];
static uint64_t done;

static enum call now;
static uint32_t faults; /* a bit for each status that the call may return; none: it has to succeed */

static inline void stop(const char *wrong) {
    printf("%s %s\n", names[now], wrong);
    exit(1);
}

static inline void expect(int is_so, const char *wrong) {
    if (!is_so)
        stop(wrong);
}

static inline void fault(int is_so, enum ic_status status) {
    if (is_so)
        faults |= 1u << status;
}

/* Whether the call has succeeded. */
static inline int made(uint32_t status) {
    expect(status < STATUSES, "returned no status");
    returned[now][status]++;
    done++;
    expect(faults ? (faults >> status & 1) != 0 : status == IC_OK, "returned another status than it should");
    return status == IC_OK;
}

#endif
