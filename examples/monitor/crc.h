#include "firmware.h"

// CRC-32 of IEEE 802.3, four bits at a time.
u32 crc32(const u8 *bytes, u32 length);
