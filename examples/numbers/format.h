#include "firmware.h"

// Prints text, with %d, %u, %x, %s, %l (a pointer to a 64-bit number) and %f (a number of thousandths) from the values.
void print(const char *form, ...);
