/* The first byte of the input is a request: g and a name (up to a line feed) greets that name from a template,
   s writes the session's state, and anything else writes how to use the program.
   Only the first lets bytes of the input out. */
#include "guest.h"

struct session {
    char request;   /* from the input */
    char state[3];  /* the program's own, in the same word of memory */
};

static struct session session = { 0, { 'o', 'k', '\n' } };
static char name[32];

/* Puts the template at `to`, with the name for each `$`, and returns the place after the last byte. */
static char *expand(char *to, const char *template, int length)
{
    for (; *template != 0; template++) {
        if (*template != '$') {
            *to++ = *template;
            continue;
        }
        for (int i = 0; i < length; i++)
            *to++ = name[i];
    }
    return to;
}

static void greet(void)
{
    int length = read_input(name, sizeof name);
    if (length > 0 && name[length - 1] == '\n')
        length--;
    char line[64];
    char *end = expand(line, "hello, $!\n", length);
    write_output(line, end - line);
}

int guest(unsigned core, unsigned cores)
{
    (void)cores;
    if (core > 0)
        return 0;

    read_input(&session.request, 1);
    if (session.request == 'g')
        greet();
    else if (session.request == 's')
        write_output(session.state, sizeof session.state);
    else
        WRITE_TEXT("g and a name greets, s tells the state\n");
    return 0;
}
