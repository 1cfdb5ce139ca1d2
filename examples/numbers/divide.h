#include "firmware.h"

// Division of 64-bit numbers, which the processor doesn't have; the rest is stored.
u64 divide(u64 number, u32 by, u32 *rest);
