/* What a Cortex-M reads when it begins: the end of its stack, which the linker is told, and where the C library starts. */
extern char board_stack[];
extern void _start(void);

__attribute__((section(".vectors"), used)) static const struct {
    char *stack;
    void (*start)(void);
} vectors = {board_stack, _start};
