#include "firmware.h"

struct command {
    const char *name;
    const char *help;
    int (*call)(const char *rest);
};

// The commands, and one without a name at their end.
extern const struct command commands[];

// How many commands were called, and how many had no such name.
extern u32 calls;
extern u32 unknown;
