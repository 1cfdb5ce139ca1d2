#include "door.h"
#include "queue.h"

#define CODE 1234

static listener listeners[4];
static u8 state;
static u16 code_so_far;

static void change(u8 to)
{
    u8 from = state;
    state = to;
    for (u32 i = 0; i < COUNT(listeners); i++)
        if (listeners[i])
            listeners[i](from, to);
}

static void key(u16 now, u8 value)
{
    code_so_far = code_so_far * 10 + value;
    if (code_so_far == CODE) {
        post(now + 50, TIMER, 0);
        change(OPENED);
    }
}

static void forget(u16 now, u8 value)
{
    (void)now;
    (void)value;
    code_so_far = 0;
}

static void time_out(u16 now, u8 value)
{
    (void)value;
    post(now + 10, SENSOR, 1);
    change(CLOSING);
}

static void closed(u16 now, u8 value)
{
    if (value) {
        code_so_far = 0;
        change(LOCKED);
    } else {
        post(now + 1, TIMER, 0);
        change(OPENED);
    }
}

typedef void (*handler)(u16 now, u8 value);

// What is done in a state at an event; nothing where there is no handler.
static const handler handlers[STATES][KINDS] = {
    [LOCKED] = {[KEY] = key, [TIMER] = forget},
    [OPENED] = {[TIMER] = time_out},
    [CLOSING] = {[SENSOR] = closed},
};

void handle(u16 now, u8 kind, u8 value)
{
    handler call = kind < KINDS ? handlers[state][kind] : 0;
    if (call)
        call(now, value);
}

int listen(listener call)
{
    for (u32 i = 0; i < COUNT(listeners); i++) {
        if (!listeners[i]) {
            listeners[i] = call;
            return 1;
        }
    }
    return 0;
}

u8 state_now(void)
{
    return state;
}
