/* What picolibc asks of the system that it runs on: the standard streams, read, write, memory and an end. */
#include <stdio.h>
#include <stddef.h>
#include <sys/types.h>

static long call(long number, long first, const void *second, long third)
{
    register long a0 asm("a0") = first;
    register const void *a1 asm("a1") = second;
    register long a2 asm("a2") = third;
    register long a7 asm("a7") = number;
    asm volatile("ecall" : "+r"(a0) : "r"(a1), "r"(a2), "r"(a7) : "memory");
    return a0;
}

ssize_t read(int descriptor, void *bytes, size_t count)
{
    return call(63, descriptor, bytes, count);
}

ssize_t write(int descriptor, const void *bytes, size_t count)
{
    return call(64, descriptor, bytes, count);
}

_Noreturn void _exit(int code)
{
    for (;;)
        call(93, code, 0, 0);
}

/* Moves the program break, which lies in the heap that `inspect` shows. */
void *sbrk(ptrdiff_t more)
{
    long old = call(214, 0, 0, 0);
    return call(214, old + more, 0, 0) == old + more ? (void *)old : (void *)-1;
}

/* One byte a call: what a guest writes is told in order, and nothing waits in a buffer when a core is stopped. */
static int put(char byte, FILE *stream)
{
    (void)stream;
    return write(1, &byte, 1) == 1 ? 0 : EOF;
}

static int get(FILE *stream)
{
    unsigned char byte;
    (void)stream;
    return read(0, &byte, 1) == 1 ? byte : EOF;
}

static FILE console = FDEV_SETUP_STREAM(put, get, NULL, _FDEV_SETUP_RW);
FILE *const stdin = &console;
FILE *const stdout = &console;
FILE *const stderr = &console;
