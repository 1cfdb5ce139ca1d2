#include "calculate.h"

#define ROOM 8

static int stack[ROOM];
static u32 depth;

static void push(int value)
{
    if (depth < ROOM)
        stack[depth++] = value;
}

static int pop(int *failed)
{
    if (depth == 0) {
        *failed = 1;
        return 0;
    }
    return stack[--depth];
}

static int of_two(char operation, int first, int second, int *failed)
{
    switch (operation) {
    case '%':
        return second ? first % second : 0;
    case '&':
        return first & second;
    case '*':
        return first * second;
    case '+':
        return first + second;
    case '-':
        return first - second;
    case '/':
        return second ? first / second : 0;
    case '.':
        put_number(first);
        put(" ");
        return second;
    case '(':
        return first < second ? first : second;
    case ')':
        return first < second ? second : first;
    default:
        *failed = 1;
        return 0;
    }
}

int calculate(const char *formula, int *failed)
{
    depth = 0;
    *failed = 0;
    while (*formula && !*failed) {
        if (*formula >= '0' && *formula <= '9') {
            int value = 0;
            for (; *formula >= '0' && *formula <= '9'; formula++)
                value = value * 10 + *formula - '0';
            push(value);
        } else if (*formula == ' ') {
            formula++;
        } else {
            int second = pop(failed), first = pop(failed);
            push(of_two(*formula++, first, second, failed));
        }
    }
    return pop(failed);
}
