/* What the program of dist/ calls besides the C library, on Linux with glibc: memory, the arguments, and the number of the last error. The kit
   says what each of these functions does. Nothing proves that it does so.
   Licensed under Apache 2.0 or MIT. */
#include <errno.h>
#include <stdbool.h>
#include <stddef.h>
#include <stdint.h>
#include <stdlib.h>
#include <sys/types.h>

/* Whether there was memory, and where it is. Without memory the second is an address that is not null, and nobody uses it. */
struct tried {
    bool ok;
    void *memory;
};

struct tried rattle_alloc(size_t size, size_t alignment);
struct tried rattle_realloc(void *memory, size_t kept, size_t size, size_t alignment);
void rattle_dealloc(void *memory);
ssize_t rattle_arg(size_t index, uint8_t *buffer, size_t length);
int32_t rattle_errno(void);
void rattle_set_errno(int32_t error);

/* The program asks for no alignment over 16, and malloc's memory is aligned to 16. A block of no bytes has one, so that its address is its own. */
_Static_assert(_Alignof(max_align_t) == 16, "malloc has to align memory to 16 bytes");

static struct tried tried(void *memory)
{
    static max_align_t none;

    return (struct tried){memory != NULL, memory != NULL ? memory : &none};
}

struct tried rattle_alloc(size_t size, size_t alignment)
{
    (void)alignment;
    return tried(malloc(size > 0 ? size : 1));
}

/* Keeps the first bytes of the block, which is left as it was if there is no memory. */
struct tried rattle_realloc(void *memory, size_t kept, size_t size, size_t alignment)
{
    (void)kept;
    (void)alignment;
    return tried(realloc(memory, size > 0 ? size : 1));
}

void rattle_dealloc(void *memory)
{
    free(memory);
}

static size_t argument_count;
static char **arguments;

/* glibc calls this before `main`, with what it passes to that. */
__attribute__((constructor)) static void keep_arguments(int count, char **values)
{
    argument_count = (size_t)count;
    arguments = values;
}

/* Writes the argument to the buffer, and returns its length, -1 if there is no such argument, or -2 if it is longer than the buffer. */
ssize_t rattle_arg(size_t index, uint8_t *buffer, size_t length)
{
    if (index >= argument_count)
        return -1;
    const char *word = arguments[index];
    size_t at = 0;
    for (; word[at] != '\0'; at++) {
        if (at == length)
            return -2;
        buffer[at] = (uint8_t)word[at];
    }
    return (ssize_t)at;
}

int32_t rattle_errno(void)
{
    return errno;
}

void rattle_set_errno(int32_t error)
{
    errno = error;
}
