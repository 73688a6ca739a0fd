/* Tries packaging/system.c. tests/sources/system_c.sh runs it with the words "first", "" and "last". */
#include <errno.h>
#include <stdbool.h>
#include <stddef.h>
#include <stdint.h>
#include <stdio.h>
#include <string.h>

size_t rattle_arg_count(void);
ptrdiff_t rattle_arg(size_t number, unsigned char *buffer, size_t room);
int32_t rattle_errno(void);
void rattle_set_errno(int32_t error);
struct tried { bool done; unsigned char *block; };
struct tried rattle_alloc(size_t size, size_t alignment);
struct tried rattle_realloc(unsigned char *block, size_t kept, size_t size, size_t alignment);
void rattle_dealloc(unsigned char *block);

static int failed;

static void check(bool held, const char *what)
{
    if (!held) {
        fprintf(stderr, "tests/sources/system.c: %s\n", what);
        failed = 1;
    }
}

static void try_arguments(void)
{
    unsigned char buffer[8];
    check(rattle_arg_count() == 4, "there are four arguments");
    memset(buffer, '.', sizeof buffer);
    check(rattle_arg(1, buffer, 8) == 5, "an argument has its length");
    check(memcmp(buffer, "first...", 8) == 0, "an argument is put at the start");
    memset(buffer, '.', sizeof buffer);
    check(rattle_arg(3, buffer, 4) == 4, "an argument fits exactly");
    check(memcmp(buffer, "last....", 8) == 0, "nothing is put behind the room");
    memset(buffer, '.', sizeof buffer);
    check(rattle_arg(1, buffer, 4) == -2, "an argument doesn't fit");
    check(memcmp(buffer, "firs....", 8) == 0, "the room is full");
    check(rattle_arg(1, buffer, 0) == -2, "an argument doesn't fit into nothing");
    check(rattle_arg(2, buffer, 0) == 0, "an empty argument fits into nothing");
    check(rattle_arg(4, buffer, 8) == -1, "there is no argument after the last");
    check(rattle_arg(SIZE_MAX, buffer, 8) == -1, "there is no argument of the greatest number");
}

static void try_memory(void)
{
    struct tried none = rattle_alloc(0, 8), bytes = rattle_alloc(100, 1);
    check(none.done && none.block != NULL, "no bytes are a block");
    check(bytes.done && (uintptr_t)bytes.block % 16 == 0, "a block is aligned");
    check(none.block != bytes.block, "two blocks are apart");
    memset(bytes.block, 7, 100);
    struct tried more = rattle_realloc(bytes.block, 100, 100000, 1);
    check(more.done && more.block[0] == 7 && more.block[99] == 7, "a block grows and is kept");
    struct tried refused = rattle_realloc(more.block, 100000, SIZE_MAX / 2, 1);
    check(!refused.done && refused.block != NULL, "a block can't grow so far");
    check(more.block[0] == 7 && more.block[99] == 7, "a block that can't grow is as it was");
    struct tried less = rattle_realloc(more.block, 0, 0, 4);
    check(less.done && less.block != NULL, "a block of no bytes is one");
    refused = rattle_alloc(SIZE_MAX / 2, 16);
    check(!refused.done && refused.block != NULL, "too much is refused without a null pointer");
    rattle_dealloc(less.block);
    rattle_dealloc(none.block);
}

int main(void)
{
    try_arguments();
    try_memory();
    rattle_set_errno(ENOENT);
    check(errno == ENOENT && rattle_errno() == ENOENT, "the reason is the one that was set");
    return failed;
}
