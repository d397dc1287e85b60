/* What the guests in C use: system calls with the numbers of RISC-V Linux, and decimal numbers. */
#ifndef GUEST_H
#define GUEST_H

enum { CALL_READ = 63, CALL_WRITE = 64, CALL_EXIT = 93 };
enum { INPUT = 0, OUTPUT = 1 };

/* The body of one core of the guests with start_guest.S; what it returns is the core's exit code. */
int guest(unsigned core, unsigned cores);

static inline int call(int number, int descriptor, const void *bytes, int count)
{
    register int a0 asm("a0") = descriptor;
    register const void *a1 asm("a1") = bytes;
    register int a2 asm("a2") = count;
    register int a7 asm("a7") = number;
    asm volatile("ecall" : "+r"(a0) : "r"(a1), "r"(a2), "r"(a7) : "memory");
    return a0;
}

/* Reads at most `count` bytes and returns how many; 0 at the end of the input. */
static inline int read_input(void *bytes, int count)
{
    return call(CALL_READ, INPUT, bytes, count);
}

static inline void write_output(const void *bytes, int count)
{
    call(CALL_WRITE, OUTPUT, bytes, count);
}

/* Writes a constant text, without the zero byte at its end. */
#define WRITE_TEXT(text) write_output(text, sizeof(text) - 1)

/* Puts a number in decimal at `to` and returns the place after its last digit. */
static inline char *put_decimal(char *to, unsigned number)
{
    char digits[10];
    int count = 0;
    do {
        digits[count++] = '0' + number % 10;
        number /= 10;
    } while (number > 0);
    while (count > 0)
        *to++ = digits[--count];
    return to;
}

#endif
