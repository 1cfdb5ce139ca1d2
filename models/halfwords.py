"""Short forms of instructions: the halfword of Zca or Zcb that does what a word does (RISC-V unprivileged manual, "C Extension for
Compressed Instructions"; RISC-V Zc specification 1.0, "Zcb").

    models/halfwords.py WORD...

says the short form of each word. It is independent of the program, so that both can be compared. The way back is in
expansions.py.
"""
import os
import sys

sys.path.insert(0, os.path.join(os.path.dirname(os.path.abspath(__file__)), os.pardir, 'scripts'))

from zcld_tools.instructions import (EBREAK, OPCODE_BRANCH, OPCODE_IMMEDIATE, OPCODE_JAL, OPCODE_JALR, OPCODE_LOAD,
                                     OPCODE_LUI, OPCODE_REGISTER, OPCODE_STORE, addi, branch_distance, jal_distance, low_part,
                                     signed)

COMMUTE = {(0, 0), (0, 4), (0, 6), (0, 7), (1, 0)}


class Instruction:
    """A word's fields. Two words that swap the sources of a sum, or copy a register in different ways, have the same ones."""

    def __init__(self, word):
        self.word, self.opcode, self.f3, self.f7 = word, word & 127, word >> 12 & 7, word >> 25
        self.rd, self.first, self.second = word >> 7 & 31, word >> 15 & 31, word >> 20 & 31
        self.low, self.distance, self.jump = low_part(word), branch_distance(word), jal_distance(word)
        if self.opcode == OPCODE_REGISTER and (self.f7, self.f3) in COMMUTE or self.opcode == OPCODE_BRANCH and self.f3 < 2:
            self.first, self.second = max(self.first, self.second), min(self.first, self.second)
        if self.opcode == OPCODE_REGISTER and (self.f7, self.f3) == (0, 0) and self.second == 0:
            self.opcode, self.low = OPCODE_IMMEDIATE, 0

    def normal_form(self):
        """The word that those have in common which have the same fields: a copy is an `addi`, and of two sources that may be
        swapped the greater one is the first."""
        if self.opcode != self.word & 127:
            return addi(self.rd, self.first)
        return self.word & ~(0x3FF << 15) | self.second << 20 | self.first << 15


def bits(value, *places):
    """The bits of a value at these places, the highest first, as one number."""
    made = 0
    for place in places:
        made = made << 1 | value >> place & 1
    return made


def half(quadrant, group, middle=0, low=0, bit=0):
    """A halfword by its quadrant, bits 15 to 13, bit 12, bits 11 to 7, and bits 6 to 2."""
    return group << 13 | bit << 12 | middle << 7 | low << 2 | quadrant


def is_small(*registers):
    """x8 to x15."""
    return all(8 <= register < 16 for register in registers)


def is_offset(value, most, step):
    return 0 <= value <= most and value % step == 0


def six(quadrant, group, register, value):
    """A halfword with a register and six bits of a value."""
    return half(quadrant, group, register, value & 31, value >> 5 & 1)


def of_sum(i):
    """`addi rd,rs,imm`."""
    rd, rs, imm = i.rd, i.first, i.low
    if is_small(rd) and rs == 2 and imm and is_offset(imm, 1020, 4):
        return half(0, 0, bits(imm, 9, 8, 7, 6) | bits(imm, 5, 4) << 4 & 31, bits(imm, 2, 3) << 3 | rd - 8,
                    bits(imm, 5))
    if rd == rs and -32 <= imm < 32 and (imm == 0) == (rd == 0):
        return six(1, 0, rd, imm)
    if rs == 0 and rd and -32 <= imm < 32:
        return six(1, 2, rd, imm)
    if rd == rs == 2 and imm and -512 <= imm < 512 and imm % 16 == 0:
        return half(1, 3, 2, bits(imm, 4, 6, 8, 7, 5), bits(imm, 9))
    if imm == 0 and rd and rs:
        return half(2, 4, rd, rs)
    return None


def of_immediate(i):
    """An operation with an immediate."""
    amount, is_own = i.second, i.rd == i.first
    if i.f3 == 0:
        return of_sum(i)
    if i.f3 == 1 and is_own and i.rd and amount:
        return half(2, 0, i.rd, amount)
    if not (is_own and is_small(i.rd)):
        return None
    if i.f3 == 5 and amount:
        return half(1, 4, (1 if i.f7 else 0) << 3 | i.rd - 8, amount)
    if i.f3 == 7 and -32 <= i.low < 32:
        return six(1, 4, 2 << 3 | i.rd - 8, i.low)
    if i.f3 == 7 and i.low == 255:
        return half(1, 4, 3 << 3 | i.rd - 8, 0b11000, 1)
    if i.f3 == 4 and i.low == -1:
        return half(1, 4, 3 << 3 | i.rd - 8, 0b11101, 1)
    return None


def of_registers(i):
    """An operation on two registers."""
    kind = {(0x20, 0): (0, 0), (0, 4): (1, 0), (0, 6): (2, 0), (0, 7): (3, 0), (1, 0): (2, 1)}.get((i.f7, i.f3))
    other = i.second if i.rd == i.first else i.first if i.rd == i.second and (i.f7, i.f3) in COMMUTE else None
    if other is None:
        return None
    if kind and is_small(i.rd, other):
        return half(1, 4, 3 << 3 | i.rd - 8, kind[0] << 3 | other - 8, kind[1])
    if (i.f7, i.f3) == (0, 0) and i.rd and other:
        return half(2, 4, i.rd, other, 1)
    return None


def of_load(i):
    offset, base = i.low, i.first
    if is_small(i.rd, base):
        if i.f3 == 2 and is_offset(offset, 124, 4):
            return half(0, 2, bits(offset, 4, 3) << 3 | base - 8, bits(offset, 2, 6) << 3 | i.rd - 8, bits(offset, 5))
        if i.f3 == 4 and 0 <= offset < 4:
            return half(0, 4, base - 8, bits(offset, 0, 1) << 3 | i.rd - 8)
        if i.f3 in (1, 5) and is_offset(offset, 2, 2):
            return half(0, 4, 1 << 3 | base - 8, (i.f3 == 1) << 4 | bits(offset, 1) << 3 | i.rd - 8)
    if i.f3 == 2 and base == 2 and i.rd and is_offset(offset, 252, 4):
        return half(2, 2, i.rd, bits(offset, 4, 3, 2, 7, 6), bits(offset, 5))
    return None


def of_store(i):
    offset, base, source = i.low, i.first, i.second
    if is_small(source, base):
        if i.f3 == 2 and is_offset(offset, 124, 4):
            return half(0, 6, bits(offset, 4, 3) << 3 | base - 8, bits(offset, 2, 6) << 3 | source - 8, bits(offset, 5))
        if i.f3 == 0 and 0 <= offset < 4:
            return half(0, 4, 2 << 3 | base - 8, bits(offset, 0, 1) << 3 | source - 8)
        if i.f3 == 1 and is_offset(offset, 2, 2):
            return half(0, 4, 3 << 3 | base - 8, bits(offset, 1) << 3 | source - 8)
    if i.f3 == 2 and base == 2 and is_offset(offset, 252, 4):
        return half(2, 6, bits(offset, 4, 3, 2, 7, 6), source, bits(offset, 5))
    return None


def of_jump(i):
    group = {0: 5, 1: 1}.get(i.rd)
    if group is None or not -2048 <= i.jump < 2048:
        return None
    made = bits(i.jump, 11, 4, 9, 8, 10, 6, 7, 3, 2, 1, 5)
    return group << 13 | made << 2 | 1


def of_branch(i):
    if i.f3 > 1 or i.second or not is_small(i.first) or not -256 <= i.distance < 256:
        return None
    return half(1, 6 + i.f3, bits(i.distance, 4, 3) << 3 | i.first - 8, bits(i.distance, 7, 6, 2, 1, 5), bits(i.distance, 8))


def of_register_jump(i):
    if i.f3 or i.low or i.rd > 1 or i.first == 0:
        return None
    return half(2, 4, i.first, 0, i.rd)


def of_upper(i):
    upper = signed(i.word >> 12, 20)
    return six(1, 3, i.rd, upper) if upper and -32 <= upper < 32 and i.rd not in (0, 2) else None


def short_form(word):
    """The halfword that does what a word of RV32IM does, or none. It is no hint."""
    if word == EBREAK:
        return 0x9002
    i = Instruction(word)
    kinds = {OPCODE_IMMEDIATE: of_immediate, OPCODE_REGISTER: of_registers, OPCODE_LOAD: of_load, OPCODE_STORE: of_store,
             OPCODE_JAL: of_jump, OPCODE_BRANCH: of_branch, OPCODE_JALR: of_register_jump, OPCODE_LUI: of_upper}
    return kinds[i.opcode](i) if i.opcode in kinds else None


def extension_of(half):
    """The extension that a halfword is of, as a name in `Extensions`, or none if it is one of Zca; by the opcodes that the
    extensions beside Zca add."""
    row = half >> 10 & 7
    if half & 3 == 0 and half >> 13 == 4 or half & 3 == 1 and half >> 13 == 4 and row == 7:
        return 'zcb'
    if half & 3 == 2 and half >> 13 == 5:
        return 'zcmp' if row else 'zcmt'
    return None


def has_half(extensions, half):
    """Whether a chip with these extensions beside Zca has a halfword that some chip has."""
    needed = extension_of(half)
    return needed is None or getattr(extensions, needed)


def main():
    for word in sys.argv[1:]:
        made = short_form(int(word, 16))
        print('none' if made is None else f'{made:04x}')


if __name__ == '__main__':
    main()
