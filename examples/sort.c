/* Core 0 sorts an array of numbers by insertion and writes them, one to a line. */
#include "guest.h"

enum { COUNT = 16 };

static int numbers[COUNT] = { 42, -7, 1000, 3, 3, 0, -2147483647, 65536, 99, -100, 7, 12345678, 2147483647, -1, 10, 256 };

static void sort(int *items, int count)
{
    for (int next = 1; next < count; next++) {
        int item = items[next];
        int place = next;
        for (; place > 0 && items[place - 1] > item; place--)
            items[place] = items[place - 1];
        items[place] = item;
    }
}

static char *put_signed(char *to, int number)
{
    if (number >= 0)
        return put_decimal(to, number);
    *to++ = '-';
    return put_decimal(to, 0u - number);
}

int guest(unsigned core, unsigned cores)
{
    (void)cores;
    if (core > 0)
        return 0;

    sort(numbers, COUNT);
    char text[COUNT * 12];
    char *end = text;
    for (int i = 0; i < COUNT; i++) {
        end = put_signed(end, numbers[i]);
        *end++ = '\n';
    }
    write_output(text, end - text);
    return 0;
}
