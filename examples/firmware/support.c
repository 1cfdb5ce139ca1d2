// What a C library and the compiler's own library would give.
#include "firmware.h"

void *memcpy(void *to, const void *from, u32 length)
{
    u8 *at = to;
    for (const u8 *byte = from; length > 0; length--)
        *at++ = *byte++;
    return to;
}

void *memset(void *to, int value, u32 length)
{
    for (u8 *at = to; length > 0; length--)
        *at++ = (u8)value;
    return to;
}

u32 strlen(const char *text)
{
    u32 length = 0;
    while (text[length])
        length++;
    return length;
}

int strcmp(const char *first, const char *second)
{
    while (*first && *first == *second)
        first++, second++;
    return (u8)*first - (u8)*second;
}

void put(const char *text)
{
    write_bytes(1, text, strlen(text));
}

void put_hex(u32 value, int digits)
{
    static const char of_digit[] = "0123456789abcdef";
    char text[9];
    for (int i = digits - 1; i >= 0; i--, value >>= 4)
        text[i] = of_digit[value & 15];
    write_bytes(1, text, digits);
}

void put_number(u32 value)
{
    char text[10];
    u32 at = sizeof text;
    do
        text[--at] = '0' + value % 10;
    while ((value /= 10) > 0);
    write_bytes(1, text + at, sizeof text - at);
}
