#include "firmware.h"

// The value of a formula in reverse Polish notation: numbers, and % & * + - / of the last two. ( and ) give the less and the
// greater of them, and . prints the one and keeps the other. `failed` is set if it has no value.
int calculate(const char *formula, int *failed);
