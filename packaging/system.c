/*
 * What the proved program asks of the system beyond the C library, for processors and linkers for
 * which the kit has no such code. Each function does what the kit declares of it. No contract
 * covers this file: it has to be read to be believed.
 */
#include <errno.h>
#include <stdbool.h>
#include <stddef.h>
#include <stdint.h>
#include <stdlib.h>

size_t rattle_arg_count(void);
ptrdiff_t rattle_arg(size_t number, unsigned char *buffer, size_t room);
int32_t rattle_errno(void);
void rattle_set_errno(int32_t error);
struct tried { bool done; unsigned char *block; };
struct tried rattle_alloc(size_t size, size_t alignment);
struct tried rattle_realloc(unsigned char *block, size_t kept, size_t size, size_t alignment);
void rattle_dealloc(unsigned char *block);

static size_t count;
static char **arguments;

/* Keeps the arguments before main runs: the C library passes them to what it calls first. */
__attribute__((constructor)) static void keep_arguments(int given, char **words)
{
    count = (size_t)given;
    arguments = words;
}

/* How many arguments there are, the program's name among them. */
size_t rattle_arg_count(void)
{
    return count;
}

/* Puts an argument into the buffer and gives its length: -1 where there is no such argument, and
   -2 where it doesn't fit, and then the buffer is full. */
ptrdiff_t rattle_arg(size_t number, unsigned char *buffer, size_t room)
{
    if (number >= count)
        return -1;
    const char *argument = arguments[number];
    size_t length = 0;
    for (; argument[length] != '\0'; length++) {
        if (length == room)
            return -2;
        buffer[length] = (unsigned char)argument[length];
    }
    return (ptrdiff_t)length;
}

/* What the last call of the system that failed left as its reason. */
int32_t rattle_errno(void)
{
    return errno;
}

/* Sets that reason. */
void rattle_set_errno(int32_t error)
{
    errno = error;
}

/* What an allocation gave. The block of one that failed is no null pointer, since it is passed on
   before anyone looks whether it was done. */
static struct tried tried(unsigned char *block)
{
    static unsigned char none;
    return (struct tried){ block != NULL, block != NULL ? block : &none };
}

/* Asks for a block of so many bytes, whose alignment divides 16 as that of each block of malloc
   does; where no bytes are asked for, for one that can be freed as any other. */
struct tried rattle_alloc(size_t size, size_t alignment)
{
    return tried(malloc(size != 0 ? size : alignment));
}

/* Makes a block one of so many bytes, which begins as it did, or leaves it as it was. */
struct tried rattle_realloc(unsigned char *block, size_t kept, size_t size, size_t alignment)
{
    (void)kept;
    return tried(realloc(block, size != 0 ? size : alignment));
}

/* Gives a block back. */
void rattle_dealloc(unsigned char *block)
{
    free(block);
}
