/* The ready queues and the timer wheel of a small kernel, on a Cortex-M4 with no system and no C library. All memory is static.
 *
 *     arm-none-eabi-gcc -mcpu=cortex-m4 -O2 -ffreestanding -nostdlib -Wl,--gc-sections -Iinclude -T examples/board/board.ld examples/board/kernel.c dist/asm/ic.S -o kernel.elf
 *     qemu-system-arm -M mps2-an386 -nographic -semihosting -kernel kernel.elf
 *
 * A task is a place of two tables: it is in the queue of its priority while it is ready, and in a slot of the wheel while it sleeps. At each
 * tick the kernel wakes the tasks whose time has come, and runs the first task of the highest priority for one tick. */
#include "ic.h"

enum task { SENSOR, FILTER, RADIO, LOGGER, SHELL, TASKS };
enum { PRIORITIES = 3, SLOTS = 8, SENDS = 3, LAST_TICK = 16 };

static const struct {
    const char *name;
    uint32_t priority; /* 0 is the highest */
} tasks[TASKS] = {{"sensor", 0}, {"filter", 1}, {"radio", 1}, {"logger", 2}, {"shell", 2}};

static struct ic_link2 ready_links[TASKS], sleep_links[TASKS];
static struct ic_list ready[PRIORITIES], wheel[SLOTS];
static uint32_t wakes[TASKS]; /* at which tick a task that sleeps goes on */
static uint32_t sends_left;
static volatile uint32_t ticks; /* since the start */

/* ---- The board: the first serial port and the timer of an MPS2, and semihosting, by which qemu ends ----------------------------------- */

static volatile uint32_t *const uart = (volatile uint32_t *)0x40004000u, *const systick = (volatile uint32_t *)0xE000E010u;

static void print(const char *text) {
    while (*text) {
        while (uart[1] & 1) { /* its buffer is full */
        }
        uart[0] = (uint32_t)*text++;
    }
}

static void print_number(uint32_t number) {
    if (number >= 10)
        print_number(number / 10);
    print((const char[]){(char)('0' + number % 10), 0});
}

static void print_event(uint32_t tick, const char *what, const char *name) {
    print("tick ");
    print_number(tick);
    print(what);
    print(name);
    print("\n");
}

static void end(int is_right) {
    register uint32_t request __asm__("r0") = 0x18, reason __asm__("r1") = is_right ? 0x20026 : 0x20024;
    __asm__ volatile("bkpt 0xab" : : "r"(request), "r"(reason) : "memory");
    for (;;) {
    }
}

static void on_tick(void) {
    ticks++;
}

/* ---- The kernel ----------------------------------------------------------------------------------------------------------------------- */

/* Ends the program if a call on the kernel's own tables is refused, because then these tables are damaged. */
static void expect(uint32_t status) {
    if (status != IC_OK) {
        print("refused: ");
        print(ic_status_name(status));
        print("\n");
        end(0);
    }
}

static uint32_t make_ready(uint32_t task) {
    return ic_list_push_back(ready_links, TASKS, &ready[tasks[task].priority], task);
}

static void sleep_until(uint32_t task, uint32_t tick) {
    wakes[task] = tick;
    expect(ic_list_push_back(sleep_links, TASKS, &wheel[tick % SLOTS], task));
}

/* Goes over the slot of this tick. Some of its tasks sleep for another turn of the wheel, or more. */
static void wake(uint32_t tick) {
    struct ic_list *slot = &wheel[tick % SLOTS];
    IC_LIST_FOREACH_SAFE(task, next, sleep_links, TASKS, slot)
        if (wakes[task] == tick) {
            expect(ic_list_remove(sleep_links, TASKS, slot, task));
            expect(make_ready(task));
            print_event(tick, ": wakes ", tasks[task].name);
        }
}

/* What a task does in its tick, and where it goes then. */
static void run(uint32_t task, uint32_t tick) {
    switch (task) {
    case SENSOR:
        if (make_ready(FILTER) == IC_LINKED) /* it has not come to the last reading yet */
            print_event(tick, ": overrun of ", tasks[FILTER].name);
        sleep_until(SENSOR, tick + 3);
        break;
    case FILTER: break; /* it waits for the next reading, in no list */
    case RADIO: /* it sends for three ticks, and stays first meanwhile */
        if (--sends_left)
            expect(ic_list_push_front(ready_links, TASKS, &ready[tasks[RADIO].priority], RADIO));
        else {
            sends_left = SENDS;
            sleep_until(RADIO, tick + 10);
        }
        break;
    default: expect(make_ready(task));
    }
}

static void dispatch(uint32_t tick) {
    uint32_t task;
    for (uint32_t priority = 0; priority < PRIORITIES; priority++)
        if (!ic_list_is_empty(&ready[priority])) {
            expect(ic_list_pop_front(ready_links, TASKS, &ready[priority], &task));
            print_event(tick, ": runs ", tasks[task].name);
            run(task, tick);
            return;
        }
    print_event(tick, ": ", "idle");
}

/* A store that went astray into a link. The check finds it, and a call that would follow the link is refused and changes nothing. */
static void show_damage(void) {
    uint64_t members;
    uint32_t task;
    ready_links[LOGGER].next = UINT64_C(0xDEADBEEFDEADBEEF);
    print("after a stray store the check says ");
    print(ic_status_name(ic_list_check(ready_links, TASKS, &ready[2], &members)));
    print(", and a pop ");
    print(ic_status_name(ic_list_pop_front(ready_links, TASKS, &ready[2], &task)));
    print("\n");
}

static int run_kernel(void) {
    static const enum task first[] = {SENSOR, RADIO, LOGGER, SHELL};
    uart[4] = 16; /* its speed, and that it sends */
    uart[2] = 1;
    sends_left = SENDS;
    for (uint32_t i = 0; i < sizeof first / sizeof *first; i++)
        expect(make_ready(first[i]));
    systick[1] = 24999; /* a thousand ticks a second of 25 MHz, with an interrupt */
    systick[2] = 0;
    systick[0] = 7;
    for (uint32_t tick = 1; tick <= LAST_TICK; tick++) {
        while (ticks < tick)
            __asm__ volatile("wfi");
        wake(tick);
        dispatch(tick);
    }
    print("in the last queue:");
    IC_LIST_FOREACH(task, ready_links, TASKS, &ready[2]) {
        print(" ");
        print(tasks[task].name);
    }
    print("\n");
    show_damage();
    return 1;
}

/* ---- Where the processor begins -------------------------------------------------------------------------------------------------------- */

extern uint32_t board_zero[], board_zero_end[], board_stack[];

void start(void);

void start(void) {
    for (volatile uint32_t *word = board_zero; word < board_zero_end; word++)
        *word = 0;
    end(run_kernel());
}

static void fault(void) {
    print("a fault\n");
    end(0);
}

/* The end of the stack, where to start, and what to do at each exception of the processor, the last of which is the timer's. */
__attribute__((section(".vectors"), used)) static const struct {
    uint32_t *stack;
    void (*handlers[15])(void);
} vectors = {board_stack, {start, fault, fault, fault, fault, fault, 0, 0, 0, 0, fault, fault, 0, fault, on_tick}};
