#include "divide.h"

u64 divide(u64 number, u32 by, u32 *rest)
{
    u32 high = (u32)(number >> 32), low = (u32)number;
    u32 quotient = 0, left = high % by;
    for (int bit = 31; bit >= 0; bit--) {
        u32 carry = left >> 31;
        left = left << 1 | (low >> bit & 1);
        if (carry || left >= by) {
            left -= by;
            quotient |= 1u << bit;
        }
    }
    *rest = left;
    return (u64)(high / by) << 32 | quotient;
}
