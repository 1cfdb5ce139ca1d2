#include "firmware.h"

struct event {
    u16 due;
    u8 kind;
    u8 value;
};

// A queue of events, the one that is due first in front. Gives 0 if it is full, or if it is empty.
int post(u16 due, u8 kind, u8 value);
int next(struct event *event);
