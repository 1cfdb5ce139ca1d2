#include "firmware.h"

typedef int (*order)(const void *first, const void *second);

// Sorts as many items of a size by an order (a heap sort, so the stack stays small).
void sort(void *items, u32 count, u32 size, order compare);
