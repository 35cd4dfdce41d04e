// Loaded before the C library: refuses one growth of a program's memory, and counts them. A program of the kit takes memory by
// malloc and realloc alone (`nm -D` shows it). What makes a block smaller is no growth; nor, since it looks the same, is what
// makes one of less than 8 bytes larger, up to 8.
//
// REFUSE is the number of the growth that is refused, from 1; with no such growth none is. Where COUNT is set, the number
// of growths stands on standard error at the end.
#define _GNU_SOURCE
#include <malloc.h>
#include <stdio.h>
#include <stdlib.h>
#include <sys/syscall.h>
#include <unistd.h>

extern void *__libc_malloc(size_t size);
extern void *__libc_realloc(void *block, size_t size);

// A block of more than 8 bytes has less than so many bytes more than were asked for.
#define ROUNDING 16

static long refused, made;

__attribute__((constructor)) static void begin(void)
{
    const char *number = getenv("REFUSE");
    refused = number ? atol(number) : 0;
    made = 0;
}

__attribute__((destructor)) static void end(void)
{
    if (getenv("COUNT"))
        fprintf(stderr, "growths %ld\n", made);
}

// A program with threads ends so, and no destructor is called.
void _exit(int status)
{
    end();
    syscall(SYS_exit_group, status);
    __builtin_unreachable();
}

void *malloc(size_t size)
{
    return __atomic_add_fetch(&made, 1, __ATOMIC_RELAXED) == refused ? NULL : __libc_malloc(size);
}

static int is_smaller(void *block, size_t size)
{
    return size + ROUNDING <= malloc_usable_size(block);
}

void *realloc(void *block, size_t size)
{
    if (is_smaller(block, size))
        return __libc_realloc(block, size);
    return __atomic_add_fetch(&made, 1, __ATOMIC_RELAXED) == refused ? NULL : __libc_realloc(block, size);
}
