/* A visitor's name is read into a record that also holds the function which answers the visitor.
   The mistake: the read call is given the size of the whole record in place of that of the name,
   so bytes 16 to 19 of a long input become the address that is jumped to. */
#include "guest.h"

struct visitor {
    char name[16];
    void (*answer)(const struct visitor *);
    int length;
};

static void welcome(const struct visitor *visitor)
{
    WRITE_TEXT("welcome, ");
    write_output(visitor->name, visitor->length);
}

/* Nothing calls this, but its address stands in the image. */
__attribute__((used)) static void open_vault(const struct visitor *visitor)
{
    (void)visitor;
    WRITE_TEXT("the vault is open\n");
}

static struct visitor visitor = { .answer = welcome };

int guest(unsigned core, unsigned cores)
{
    (void)cores;
    if (core > 0)
        return 0;

    visitor.length = read_input(visitor.name, sizeof visitor);
    visitor.answer(&visitor);
    return 0;
}
