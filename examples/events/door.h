#include "firmware.h"

// The kinds of events, and the states of a door with a lock.
enum { KEY, TIMER, SENSOR, ALARM, KINDS };
enum { LOCKED, OPENED, CLOSING, STATES };

typedef void (*listener)(u8 from, u8 to);

// Handles an event at a time.
void handle(u16 now, u8 kind, u8 value);

// Calls a function at each change of the state. There is room for four.
int listen(listener call);

u8 state_now(void);
