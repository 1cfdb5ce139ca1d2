// Runs a program RUNS times, each time with its data as at its start, so that a short one makes many steps.
#include "string.h"

int program(void);

extern char __bss_start[], _end[];

// The first constant of the first object, so nothing that a program changes stands before it.
const unsigned first_constant[4] = {1, 2, 3, 4};

static unsigned saved[0x8000];

static void copy(unsigned *to, const unsigned *from, unsigned words)
{
    for (; words > 0; words--)
        *to++ = *from++;
}

int main(void)
{
    // As numbers, since a compiler may suppose that addresses of different objects are never compared.
    unsigned begin = (unsigned)first_constant, zeroed = ((unsigned)__bss_start + 3) & -4u, end = (unsigned)_end;
    unsigned own = (unsigned)saved, behind = own + sizeof saved, words = (zeroed - begin) / 4;
    if (words > sizeof saved / sizeof *saved)
        return program();
    copy(saved, (unsigned *)begin, words);
    for (int left = RUNS - 1; left > 0; left--) {
        int status = program();
        if (status != 0)
            return status;
        copy((unsigned *)begin, saved, words);
        memset((void *)zeroed, 0, own - zeroed);
        memset((void *)behind, 0, end - behind);
    }
    return program();
}
