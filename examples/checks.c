/* One use of the input for each check that the other guests do not show.
   The first byte of the input says which use, and the second is used:
   l is the index of a load, s the index of a store, n the number of a call, a the count of a write call.
   The first byte decides branches in any case. */
#include "guest.h"

static const char text[] = "0123456789\n";

static struct {
    char use;
    unsigned char value;
} request;
static volatile char table[256];

int guest(unsigned core, unsigned cores)
{
    (void)cores;
    if (core > 0)
        return 0;

    read_input(&request, sizeof request);
    if (request.use == 'l')
        (void)table[request.value];
    else if (request.use == 's')
        table[request.value] = 1;
    else if (request.use == 'n')
        call(request.value, OUTPUT, text, sizeof text - 1);
    else if (request.use == 'a')
        write_output(text, request.value % sizeof text);
    WRITE_TEXT("done\n");
    return 0;
}
