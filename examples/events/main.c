// A door with a lock: a queue of events, a machine of states with a table of handlers, and functions that hear of each change.
#include "door.h"
#include "queue.h"

static const char *const names[STATES] = {"locked", "opened", "closing"};
static u32 opened;
static u16 now;

static void print(u8 from, u8 to)
{
    put_number(now);
    put(": ");
    put(names[from]);
    put(" -> ");
    put(names[to]);
    put("\n");
}

static void number(u8 from, u8 to)
{
    (void)from;
    if (to == OPENED)
        opened++;
}

static const u8 keys[] = {9, 9, 1, 2, 3, 4, 1, 2, 3, 4};

int main(void)
{
    struct event event;
    listen(print);
    listen(number);
    for (u32 i = 0; i < COUNT(keys); i++)
        post(i < 2 ? 5 + i : i < 6 ? 20 + i : 100 + i, KEY, keys[i]);
    post(15, TIMER, 0);
    post(30, ALARM, 0);
    post(85, SENSOR, 0);
    while (next(&event)) {
        now = event.due;
        handle(now, event.kind, event.value);
    }
    put("opened ");
    put_number(opened);
    put(" times, now ");
    put(names[state_now()]);
    put("\n");
    return state_now() == LOCKED ? 0 : 1;
}
