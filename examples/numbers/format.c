#include "format.h"
#include "divide.h"

static char out[128];
static u32 length;

static void add(char byte)
{
    if (length < sizeof out)
        out[length++] = byte;
}

static void add_number(u64 number, u32 base, u32 least)
{
    char digits[20];
    u32 count = 0, digit;
    while (number > 0 || count < least) {
        number = divide(number, base, &digit);
        digits[count++] = digit < 10 ? '0' + digit : 'a' + digit - 10;
    }
    while (count > 0)
        add(digits[--count]);
}

static u32 absolute(int number)
{
    if (number < 0)
        add('-');
    return number < 0 ? -(u32)number : (u32)number;
}

void print(const char *form, ...)
{
    __builtin_va_list values;
    __builtin_va_start(values, form);
    length = 0;
    for (; *form; form++) {
        if (*form != '%') {
            add(*form);
            continue;
        }
        switch (*++form) {
        case 'd':
            add_number(absolute(__builtin_va_arg(values, int)), 10, 1);
            break;
        case 'u':
            add_number(__builtin_va_arg(values, u32), 10, 1);
            break;
        case 'x':
            add_number(__builtin_va_arg(values, u32), 16, 8);
            break;
        case 'l':
            add_number(*__builtin_va_arg(values, const u64 *), 10, 1);
            break;
        case 's':
            for (const char *text = __builtin_va_arg(values, const char *); *text; text++)
                add(*text);
            break;
        case 'f': {
            u32 number = absolute(__builtin_va_arg(values, int));
            add_number(number / 1000, 10, 1);
            add('.');
            add_number(number % 1000, 10, 3);
            break;
        }
        default:
            add(*form);
        }
    }
    __builtin_va_end(values);
    write_bytes(1, out, length);
}
