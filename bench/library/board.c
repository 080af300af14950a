/* A clock of a processor with no system. qemu's option `-icount shift=0` lets each instruction take a nanosecond: so it counts instructions. */
#include <stdint.h>

uint64_t now(void);

#ifdef __riscv
uint64_t now(void) {
    uint32_t high, low, again;
    do
        __asm__ volatile("rdinstreth %0\n\trdinstret %1\n\trdinstreth %2" : "=r"(high), "=r"(low), "=r"(again));
    while (high != again);
    return (uint64_t)high << 32 | low;
}
#else
/* The timer of a Cortex-M goes down in 24 bits, on the board mps2-an386 once in 40 nanoseconds. */
uint64_t now(void) {
    static volatile uint32_t *const systick = (volatile uint32_t *)0xE000E010u;
    static uint32_t last;
    static uint64_t ticks;
    if (!(systick[0] & 1)) {
        systick[1] = last = 0xFFFFFF;
        systick[2] = 0;
        systick[0] = 5;
    }
    uint32_t left = systick[2];
    ticks += (last - left) & 0xFFFFFF;
    last = left;
    return ticks * 40;
}
#endif
