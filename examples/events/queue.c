#include "queue.h"

#define ROOM 16

static struct event waiting[ROOM];
static u32 count;

int post(u16 due, u8 kind, u8 value)
{
    if (count == ROOM)
        return 0;
    u32 at = count++;
    for (; at > 0 && waiting[at - 1].due > due; at--)
        waiting[at] = waiting[at - 1];
    waiting[at] = (struct event){due, kind, value};
    return 1;
}

int next(struct event *event)
{
    if (count == 0)
        return 0;
    *event = waiting[0];
    count--;
    for (u32 at = 0; at < count; at++)
        waiting[at] = waiting[at + 1];
    return 1;
}
