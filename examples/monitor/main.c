// A monitor, as many boards have one on their serial line: it reads lines, and calls the command that each names.
#include "commands.h"

u32 unknown;
static char line[80];

// Reads a line without its end; gives -1 at the end of the input.
static int read_line(void)
{
    u32 length = 0;
    char byte;
    while (read_bytes(0, &byte, 1) == 1) {
        if (byte == '\n') {
            line[length] = 0;
            return length;
        }
        if (length < sizeof line - 1)
            line[length++] = byte;
    }
    return -1;
}

static int call(void)
{
    char *rest = line;
    while (*rest && *rest != ' ')
        rest++;
    if (*rest)
        *rest++ = 0;
    for (const struct command *command = commands; command->name; command++) {
        if (strcmp(command->name, line) == 0) {
            calls++;
            return command->call(rest);
        }
    }
    unknown++;
    put("unknown: ");
    put(line);
    put("\n");
    return 1;
}

int main(void)
{
    int failed = 0;
    while (read_line() >= 0)
        failed += call();
    put_number(calls);
    put(" calls, ");
    put_number(unknown);
    put(" unknown\n");
    return failed;
}
