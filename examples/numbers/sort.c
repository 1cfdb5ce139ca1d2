#include "sort.h"

static void exchange(u8 *first, u8 *second, u32 size)
{
    for (; size > 0; size--, first++, second++) {
        u8 kept = *first;
        *first = *second;
        *second = kept;
    }
}

static void sink(u8 *items, u32 at, u32 count, u32 size, order compare)
{
    for (u32 child; (child = 2 * at + 1) < count; at = child) {
        if (child + 1 < count && compare(items + child * size, items + (child + 1) * size) < 0)
            child++;
        if (compare(items + at * size, items + child * size) >= 0)
            return;
        exchange(items + at * size, items + child * size, size);
    }
}

void sort(void *items, u32 count, u32 size, order compare)
{
    for (u32 at = count / 2; at-- > 0;)
        sink(items, at, count, size, compare);
    for (u32 left = count; left-- > 1;) {
        exchange(items, (u8 *)items + left * size, size);
        sink(items, 0, left, size, compare);
    }
}
