// What programs of csmith take from a C library. examples/firmware/support.c has the rest.
#include "stdio.h"
#include "string.h"

int write_bytes(int stream, const void *bytes, unsigned length);

void *memmove(void *to, const void *from, size_t length)
{
    unsigned char *at = to;
    const unsigned char *byte = from;
    if (at < byte)
        for (size_t k = 0; k < length; k++)
            at[k] = byte[k];
    else
        for (size_t k = length; k > 0; k--)
            at[k - 1] = byte[k - 1];
    return to;
}

int memcmp(const void *first, const void *second, size_t length)
{
    const unsigned char *one = first, *other = second;
    for (size_t k = 0; k < length; k++)
        if (one[k] != other[k])
            return one[k] - other[k];
    return 0;
}

static void put_text(const char *text)
{
    write_bytes(1, text, strlen(text));
}

static void put_hex(unsigned long value)
{
    char text[9];
    int at = 8;
    text[at] = 0;
    do
        text[--at] = "0123456789ABCDEF"[value & 15];
    while ((value >>= 4) > 0);
    put_text(text + at);
}

// A conversion is %s, or %X or %lX of a word; everything else is written as it is.
int printf(const char *format, ...)
{
    __builtin_va_list values;
    __builtin_va_start(values, format);
    for (; *format; format++) {
        if (*format != '%') {
            write_bytes(1, format, 1);
            continue;
        }
        format += format[1] == 'l' ? 2 : 1;
        if (*format == 's')
            put_text(__builtin_va_arg(values, const char *));
        else
            put_hex(__builtin_va_arg(values, unsigned long));
    }
    __builtin_va_end(values);
    return 0;
}
