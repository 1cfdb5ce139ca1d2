// Readings of sensors, sorted by several orders and printed with a small formatter.
#include "format.h"
#include "sort.h"

struct reading {
    const char *name;
    int thousandths;
    u64 at;
};

static struct reading readings[] = {
    {"boiler", 81250, 4294967296ull}, {"outside", -7125, 1000000007}, {"cellar", 11000, 18446744073709551615ull},
    {"attic", -50, 0},                {"water", 54999, 999999999999}, {"room", 21500, 65536},
};

static int by_name(const void *first, const void *second)
{
    return strcmp(((const struct reading *)first)->name, ((const struct reading *)second)->name);
}

static int by_value(const void *first, const void *second)
{
    return ((const struct reading *)first)->thousandths - ((const struct reading *)second)->thousandths;
}

static int by_time(const void *first, const void *second)
{
    u64 one = ((const struct reading *)first)->at, other = ((const struct reading *)second)->at;
    return one < other ? -1 : one > other;
}

static const struct {
    const char *name;
    order compare;
} orders[] = {{"name", by_name}, {"value", by_value}, {"time", by_time}};

int main(void)
{
    int sum = 0;
    for (u32 k = 0; k < COUNT(orders); k++) {
        print("by %s\n", orders[k].name);
        sort(readings, COUNT(readings), sizeof readings[0], orders[k].compare);
        for (u32 i = 0; i < COUNT(readings); i++)
            print("  %s %f at %l\n", readings[i].name, readings[i].thousandths, &readings[i].at);
    }
    for (u32 i = 0; i < COUNT(readings); i++)
        sum += readings[i].thousandths;
    print("mean %f, %u%% of %d, %x\n", sum / (int)COUNT(readings), 50, -2147483647 - 1, (u32)sum);
    return 42;
}
