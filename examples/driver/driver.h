// The registers of a serial port and a timer, and what their drivers do. An access to a register is an event of the program, so it is
// made in its width and once.
#include "firmware.h"

struct serial {
    volatile u8 data; // a byte that was received, or one to send
    u8 unused[3];
    volatile u8 status;
};

#define HAS_BYTE 1
#define CAN_SEND 2

struct timer {
    volatile u32 count;
    volatile u32 match;
    volatile u16 control;
};

#define RUNS 1
#define FAST 0x100

// Both lie above the stack of the standard memory map.
#define SERIAL ((struct serial *)0x10000000)
#define TIMER ((struct timer *)0x10001000)

void send(const char *text);
u32 receive_line(char *line, u32 room);

void start_timer(u32 match);
void stop_timer(void);
u32 now(void);
void wait_for(u32 ticks);

// ---- interrupts

// The bit of mstatus with which the chip takes interrupts, and that of mie for the timer's.
#define TAKES_INTERRUPTS 8
#define FROM_TIMER 0x80

// Begins a critical section, and gives what its end needs.
static inline u32 begin_critical(void)
{
    u32 status;
    __asm__ volatile("csrrci %0, mstatus, %1" : "=r"(status) : "i"(TAKES_INTERRUPTS) : "memory");
    return status & TAKES_INTERRUPTS;
}

static inline void end_critical(u32 status)
{
    __asm__ volatile("csrs mstatus, %0" : : "r"(status) : "memory");
}

static inline void take_interrupts(void)
{
    __asm__ volatile("csrs mie, %0" : : "r"(FROM_TIMER) : "memory");
    __asm__ volatile("csrsi mstatus, %0" : : "i"(TAKES_INTERRUPTS) : "memory");
}

static inline void wait_for_interrupt(void)
{
    __asm__ volatile("wfi" : : : "memory");
}
