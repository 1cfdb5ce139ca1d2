// Goes through a table of a vectored trap and a row of jumps, and says where it came to; and writes bits to a pin, each for as
// many instructions. On a chip the handlers would be interrupt functions, which end with mret.
#include "firmware.h"

void trap(u32 cause);
u32 pick(u32 number);
void send(volatile u32 *pin, u32 bits);

static char text[18];
static u32 length;
static volatile u32 pin;

static void add(char letter)
{
    text[length++] = letter;
}

// Until mtvec has the table it has this address, whose low two bits the chip would take for a mode.
__attribute__((section(".text.handler"))) void on_exception(void)
{
    add('x');
}

void on_software(void)
{
    add('s');
}

void on_timer(void)
{
    add('t');
}

void on_external(void)
{
    add('e');
}

void on_other(void)
{
    add('.');
}

int main(void)
{
    for (u32 cause = 0; cause < 12; cause++)
        trap(cause);
    for (u32 number = 0; number < 4; number++)
        add(pick(number));
    send(&pin, 0x80);
    add(pin ? 'h' : 'l');
    add('\n');
    write_bytes(1, text, length);
    return 0;
}
