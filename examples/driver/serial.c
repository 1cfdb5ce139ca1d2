// The serial port: its status is asked until it has a byte, or can send one.
#include "driver.h"

static void send_byte(u8 byte)
{
    while (!(SERIAL->status & CAN_SEND))
        ;
    SERIAL->data = byte;
}

static u8 receive_byte(void)
{
    while (!(SERIAL->status & HAS_BYTE))
        ;
    return SERIAL->data;
}

void send(const char *text)
{
    while (*text)
        send_byte(*text++);
}

// Reads a line, without its end, and gives its length. What has no room is passed over.
u32 receive_line(char *line, u32 room)
{
    u32 length = 0;
    for (u8 byte = receive_byte(); byte != '\n'; byte = receive_byte())
        if (length + 1 < room)
            line[length++] = byte;
    line[length] = 0;
    return length;
}
