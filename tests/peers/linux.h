/* What all of Linux's tests call that is no collection: its types, its memory, its modules and KUnit, which runs test functions. */
#ifndef LINUX_H
#define LINUX_H

#include "places.h"

#include <errno.h>
#include <stddef.h>

typedef uint32_t u32;
typedef unsigned int uint;
typedef uint64_t cycles_t;
struct rnd_state {
    uint64_t state;
};

#define __init
#define __exit
#define KERN_ALERT
#define GFP_KERNEL 0
#define __GFP_NOFAIL 0
#define container_of(pointer, type, member) ((type *)((char *)(pointer) - offsetof(type, member)))

#define kmalloc(size, flags) malloc(size)
#define kzalloc(size, flags) calloc(1, size)
#define kmalloc_array(count, size, flags) calloc(count, size)
#define kunit_kcalloc(test, count, size, flags) calloc(count, size)
#define kunit_kmalloc(test, size, flags) malloc(size)
#define kfree(memory) free(memory)

static uint64_t peer_state;
#define prandom_seed_state(rnd, seed) ((rnd)->state = (seed))
#define prandom_u32_state(rnd) ((u32)peer_random(&(rnd)->state))
#define prandom_u32_max(bound) ((u32)(peer_random(&peer_state) % (bound)))

#define printk(...) printf(__VA_ARGS__)
#define get_cycles() 0
#define div_u64(number, by) ((number) / (uint64_t)(by))
#define WARN_ON_ONCE(is_wrong) PEER_EXPECT(!(is_wrong))

/* ---- Modules, of which each is a program ---- */

#define module_param(name, type, mode)
#define MODULE_PARM_DESC(name, text)
#define MODULE_LICENSE(text)
#define MODULE_AUTHOR(text)
#define MODULE_DESCRIPTION(text)
#define module_exit(name)
#define module_init(name)                                                 \
    int main(void) {                                                      \
        peer_state = 1;                                                   \
        name();                                                           \
        printf("%s %s\n", peer_failures ? "not ok" : "ok", #name);        \
        return peer_failures != 0;                                        \
    }

/* ---- KUnit ---- */

struct kunit {
    void *priv;
};
struct kunit_case {
    void (*run)(struct kunit *test);
    const char *name;
};
struct kunit_suite {
    const char *name;
    struct kunit_case *test_cases;
};
#define KUNIT_CASE(name) {name, #name}

static void peer_begin(void);

static inline int peer_run(struct kunit_suite **suites) {
    uint32_t failures = 0;
    for (; *suites; suites++)
        for (struct kunit_case *it = (*suites)->test_cases; it->run; it++) {
            struct kunit test = {NULL};
            peer_state = 1;
            peer_begin();
            it->run(&test);
            printf("%s %s\n", peer_failures ? "not ok" : "ok", it->name);
            failures += peer_failures;
        }
    return failures != 0;
}
#define kunit_test_suite(suite) kunit_test_suites(&suite)
#define kunit_test_suites(...)                                          \
    int main(void) {                                                    \
        return peer_run((struct kunit_suite *[]){__VA_ARGS__, NULL});   \
    }

#define KUNIT_EXPECT_TRUE(test, is_so) PEER_EXPECT(is_so)
#define KUNIT_EXPECT_FALSE(test, is_so) PEER_EXPECT(!(is_so))
#define KUNIT_EXPECT_EQ(test, one, other) PEER_EXPECT((one) == (other))
#define KUNIT_EXPECT_PTR_EQ(test, one, other) PEER_EXPECT((const void *)(one) == (const void *)(other))
#define KUNIT_EXPECT_TRUE_MSG(test, is_so, ...) PEER_EXPECT(is_so)
#define KUNIT_EXPECT_FALSE_MSG(test, is_so, ...) PEER_EXPECT(!(is_so))
#define KUNIT_EXPECT_EQ_MSG(test, one, other, ...) PEER_EXPECT((one) == (other))
#define KUNIT_EXPECT_LT_MSG(test, one, other, ...) PEER_EXPECT((one) < (other))
#define KUNIT_EXPECT_PTR_EQ_MSG(test, one, other, ...) PEER_EXPECT((const void *)(one) == (const void *)(other))
#define KUNIT_ASSERT_LE_MSG(test, one, other, ...) PEER_EXPECT((one) <= (other))
#define KUNIT_ASSERT_PTR_EQ_MSG(test, one, other, ...) PEER_EXPECT((const void *)(one) == (const void *)(other))
#define KUNIT_ASSERT_NOT_ERR_OR_NULL(test, pointer) PEER_EXPECT((pointer) != NULL)

#endif
