// The timer: it counts, and its count is read after each interrupt until it has passed.
#include "driver.h"

// Where the chip goes at an interrupt: the timer has come to its match, and counts on from there. mtvec has this address, whose low two
// bits are zero.
__attribute__((interrupt, aligned(8))) void on_trap(void)
{
    TIMER->control = RUNS | FAST;
}

void start_timer(u32 match)
{
    u32 status = begin_critical();
    TIMER->control = 0;
    TIMER->match = match;
    TIMER->count = 0;
    TIMER->control = RUNS | FAST;
    end_critical(status);
}

void stop_timer(void)
{
    u32 status = begin_critical();
    TIMER->control = 0;
    end_critical(status);
}

u32 now(void)
{
    return TIMER->count;
}

void wait_for(u32 ticks)
{
    u32 start = now();
    while (now() - start < ticks)
        wait_for_interrupt();
}
