"""The words that halfwords of Zca and Zcb expand to, one of each, and those that halfwords of Zcmp expand to, one after another
(RISC-V unprivileged manual, "RVC Instruction Set Listings"; RISC-V Zc specification 1.0, "Zcb", "Zcmp").

    models/expansions.py HALFWORD...

says the words of each halfword. The way back is in halfwords.py. It is independent of the program, so that both can be
compared.
"""
import functools
import os
import sys

sys.path.insert(0, os.path.join(os.path.dirname(os.path.abspath(__file__)), os.pardir, 'scripts'))

from zcld_tools.instructions import (A0, A1, EBREAK, RA, RET, S0, S1, SP, ZERO, addi, branch, immediate, jal, jalr, load, lui,
                                     lw, of_format_r, signed, store, sw)


def bits(value, high, low=None):
    """The bits of a value from one place down to another, as a number."""
    low = high if low is None else low
    return value >> low & (1 << high - low + 1) - 1


def joined(value, *pieces):
    """The number whose pieces are in a value: each piece is its lowest place in the number, and its places in the value."""
    return sum(bits(value, *places) << at for at, *places in pieces)


# ---- halfwords


def expanded(half):
    """The word of a halfword, or none; where the low two bits are 11, the halfword is the first of a word."""
    quadrant = (quadrant_0, quadrant_1, quadrant_2, lambda *_: None)[half & 3]
    return quadrant(half, half >> 13, 8 + bits(half, 4, 2), 8 + bits(half, 9, 7))


def quadrant_0(half, group, low, high):
    if group == 0:
        value = joined(half, (4, 12, 11), (6, 10, 7), (2, 6), (3, 5))
        return addi(low, SP, value) if value else None
    if group in (2, 6):
        value = joined(half, (3, 12, 10), (2, 6), (6, 5))
        return lw(low, high, value) if group == 2 else sw(low, high, value)
    if group == 4:
        byte, pair, row = joined(half, (0, 6), (1, 5)), bits(half, 5) << 1, bits(half, 12, 10)
        return {0: load(4, low, high, byte), 1: load(1 if bits(half, 6) else 5, low, high, pair), 2: store(0, low, high, byte),
                3: None if bits(half, 6) else store(1, low, high, pair)}.get(row)
    return None


def quadrant_1(half, group, low, high):
    register, value = bits(half, 11, 7), signed(joined(half, (5, 12), (0, 6, 2)), 6)
    if group in (1, 5):
        places = (11, 12), (4, 11), (8, 10, 9), (10, 8), (6, 7), (7, 6), (1, 5, 3), (5, 2)
        return jal(RA if group == 1 else ZERO, signed(joined(half, *places), 12))
    if group >= 6:
        return branch(group - 6, high, ZERO, signed(joined(half, (8, 12), (3, 11, 10), (6, 6, 5), (1, 4, 3), (5, 2)), 9))
    if group == 3:
        wide = signed(joined(half, (9, 12), (4, 6), (6, 5), (7, 4, 3), (5, 2)), 10)
        if value == 0:
            return None
        return addi(SP, SP, wide) if register == SP else lui(register, value)
    if group == 4:
        return operation(half, low, high, value)
    return addi(register, ZERO if group == 2 else register, value)


def operation(half, low, high, value):
    row = bits(half, 11, 10)
    if row < 2:
        return None if bits(half, 12) else immediate(5, high, high, row << 10 | bits(half, 6, 2))
    if row == 2:
        return immediate(7, high, high, value)
    which = bits(half, 12) << 2 | bits(half, 6, 5)
    if which == 7:
        return {0: immediate(7, high, high, 255), 5: immediate(4, high, high, -1)}.get(bits(half, 4, 2))
    found = {0: (0x20, 0), 1: (0, 4), 2: (0, 6), 3: (0, 7), 6: (1, 0)}.get(which)
    return of_format_r(*found, high, high, low) if found else None


def quadrant_2(half, group, low, high):
    register, second = bits(half, 11, 7), bits(half, 6, 2)
    if group == 0:
        return None if bits(half, 12) else immediate(1, register, register, second)
    if group == 2:
        return lw(register, SP, joined(half, (5, 12), (2, 6, 4), (6, 3, 2))) if register else None
    if group == 6:
        return sw(second, SP, joined(half, (2, 12, 9), (6, 8, 7)))
    if group == 4:
        if second:
            return of_format_r(0, 0, register, register if bits(half, 12) else ZERO, second)
        if register:
            return jalr(RA if bits(half, 12) else ZERO, register)
        return EBREAK if bits(half, 12) else None
    return None


# ---- pushes, pops and moves

# Bits 12 to 8 of the four instructions that have a list.
PUSH, POP, POPRETZ, POPRET = 0b11000, 0b11010, 0b11100, 0b11110
# The registers of the longest list, in the order of the accesses: from the highest address down.
SAVED = (*range(27, 17, -1), S1, S0, RA)
# How many registers each list has, and by how much it moves sp at least.
COUNTS = dict(zip(range(4, 16), (*range(1, 12), 13)))
MOVED = dict(zip(range(4, 16), (*[16] * 4, *[32] * 4, *[48] * 3, 64)))


@functools.cache
def expansion(half):
    """The words that a push, a pop or two moves expand to, in their order; none, if it is another halfword."""
    if half & 3 != 2 or half >> 13 != 5:
        return ()
    form, number = bits(half, 12, 8), bits(half, 7, 4)
    if bits(half, 12, 10) == 3:
        return moves(bits(half, 6, 5), saved_register(bits(half, 9, 7)), saved_register(bits(half, 4, 2)))
    if form not in (PUSH, POP, POPRETZ, POPRET) or number not in COUNTS:
        return ()
    moved = MOVED[number] + 16 * bits(half, 3, 2)
    slots = [*zip(SAVED[-COUNTS[number]:], range(moved - 4, -4, -4))]
    if form == PUSH:
        return (addi(SP, SP, -moved), *(sw(register, SP, offset) for register, offset in slots))
    cleared, left = [addi(A0, ZERO)] * (form == POPRETZ), [RET] * (form in (POPRETZ, POPRET))
    return (*(lw(register, SP, offset) for register, offset in slots), *cleared, addi(SP, SP, moved), *left)


def saved_register(code):
    """The register that three bits of a move name."""
    return (code >> 1 > 0) << 4 | (code >> 1 == 0) << 3 | code


def moves(which, first, second):
    """The moves between a0 and one register, and a1 and another. None go to one register twice."""
    if which == 3:
        return addi(A0, first), addi(A1, second)
    return (addi(first, A0), addi(second, A1)) if which == 1 and first != second else ()


def main():
    for half in sys.argv[1:]:
        word = expanded(int(half, 16))
        words = expansion(int(half, 16)) if word is None else [word]
        print(' '.join(f'{word:08x}' for word in words) or 'none')


if __name__ == '__main__':
    main()
