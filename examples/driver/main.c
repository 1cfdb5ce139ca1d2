// Answers lines from a serial port, each with the time, until one says "bye". It says on standard output how long each took. What the
// devices answer is in the file `devices`, whose answers stand in the order in which this program asks for them.
#include "driver.h"

static void reverse(char *text, u32 length)
{
    for (u32 at = 0; at < length / 2; at++) {
        char held = text[at];
        text[at] = text[length - 1 - at];
        text[length - 1 - at] = held;
    }
}

int main(void)
{
    char line[16];
    u32 lines = 0;
    start_timer(0xFFFFFFFF);
    take_interrupts();
    send("ready\n");
    for (;;) {
        u32 length = receive_line(line, sizeof line);
        u32 start = now();
        if (!strcmp(line, "bye"))
            break;
        wait_for(3);
        reverse(line, length);
        send(line);
        send("\n");
        put("(");
        put_number(now() - start);
        put(" ticks)\n");
        lines++;
    }
    stop_timer();
    send("bye\n");
    return lines;
}
