#include "commands.h"
#include "calculate.h"
#include "crc.h"

u32 calls;
static u8 memory[64];

// A board may give its own greeting; this one has none.
__attribute__((weak)) void board_greeting(void);

static int help(const char *rest)
{
    (void)rest;
    for (const struct command *command = commands; command->name; command++) {
        put(command->name);
        put(" - ");
        put(command->help);
        put("\n");
    }
    return 0;
}

static int crc(const char *rest)
{
    put_hex(crc32((const u8 *)rest, strlen(rest)), 8);
    put("\n");
    return 0;
}

static int store(const char *rest)
{
    u32 length = strlen(rest);
    if (length > sizeof memory)
        return 1;
    memset(memory, 0, sizeof memory);
    memcpy(memory, rest, length);
    return 0;
}

static int dump(const char *rest)
{
    (void)rest;
    for (u32 at = 0; at < 32; at += 16) {
        put_hex(at, 4);
        for (u32 i = 0; i < 16; i++) {
            put(i == 8 ? "  " : " ");
            put_hex(memory[at + i], 2);
        }
        put("\n");
    }
    return 0;
}

static int calc(const char *rest)
{
    int failed, value = calculate(rest, &failed);
    put_hex((u32)value, 8);
    put(failed ? " failed\n" : "\n");
    return failed;
}

static int greet(const char *rest)
{
    (void)rest;
    if (board_greeting)
        board_greeting();
    else
        put("no board\n");
    return 0;
}

const struct command commands[] = {
    {"help", "lists the commands", help},
    {"crc", "CRC-32 of the rest of the line", crc},
    {"store", "keeps the rest of the line", store},
    {"dump", "shows what is kept", dump},
    {"calc", "a formula in reverse Polish notation", calc},
    {"greet", "the board's greeting", greet},
    {0, 0, 0},
};
