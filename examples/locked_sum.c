/* Each core sums its share of the numbers 1 to 1000 and adds it, part by part, to one total under a lock.
   The core that is the last to finish writes the total: 500500 for every count of cores. */
#include "guest.h"

enum { LAST = 1000, PART = 50 };

static int lock;
static unsigned total;
static unsigned finished;

/* Takes the lock where it is free: a load-reserved finds 0, and the store-conditional stores 1. */
static int try_lock(int *lock)
{
    int failed;
    asm volatile("   lr.w.aq %0, (%1)\n"
                 "   bnez    %0, 1f\n"
                 "   sc.w    %0, %2, (%1)\n"
                 "1:"
                 : "=&r"(failed) : "r"(lock), "r"(1) : "memory");
    return !failed;
}

/* Cores that fail together wait for different times, as their store-conditionals would fail together again:
   each access to the lock between the two makes a store-conditional fail. */
static void acquire(int *lock, unsigned core)
{
    unsigned pause = core + 1;
    while (!try_lock(lock)) {
        for (unsigned i = 0; i < pause; i++)
            asm volatile("nop");
        pause += core + 1;
    }
}

static void release(int *lock)
{
    asm volatile("fence rw, w\n"
                 "sw zero, 0(%0)"
                 : : "r"(lock) : "memory");
}

static unsigned sum_from(unsigned first)
{
    unsigned sum = 0;
    for (unsigned number = first; number < first + PART; number++)
        sum += number;
    return sum;
}

static void write_line(unsigned number)
{
    char line[11];
    char *end = put_decimal(line, number);
    *end++ = '\n';
    write_output(line, end - line);
}

int guest(unsigned core, unsigned cores)
{
    for (unsigned first = 1 + core * PART; first <= LAST; first += cores * PART) {
        unsigned sum = sum_from(first);
        acquire(&lock, core);
        total += sum;
        release(&lock);
    }

    acquire(&lock, core);
    int is_last = ++finished == cores;
    unsigned result = total;
    release(&lock);

    if (is_last)
        write_line(result);
    return 0;
}
