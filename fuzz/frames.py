#!/usr/bin/env python3
"""Prints what every push and pop leaves, interrupted after each of its accesses and then committed, as the two numbers that a test
of the machine expects (crates/machine_tests/src/images/frames.rt): over each list at each adjustment, and over some lists at the
ends of the stack. It is independent of that machine: it follows the model in zc_machine.py.
"""
import os
import sys

sys.path[:0] = (os.path.join(os.path.dirname(os.path.abspath(__file__)), os.pardir, it) for it in ('scripts', 'models'))

from zc_machine import MASK, SAVED, Machine, Stopped
from zcld_tools.images import COMPRESSED, STACK_HIGH, STACK_LOW, TEXT_AT, image_bytes
from zcld_tools.instructions import A0, SP, constant, words_of

PUSH, POP, POPRETZ, POPRET = 0xB802, 0xBA02, 0xBC02, 0xBE02
REGISTERS = A0, *SAVED
MIDDLE = 0x0FFF_FE80
ENDS = (*(STACK_LOW + k for k in (-64, -16, -4, 0, 4, 8, 16, 32, 48, 52, 64)),
        *(STACK_HIGH + k for k in (-112, -80, -64, -32, -16, -4, 0, 4)), MIDDLE + 1, MIDDLE + 2, MIDDLE + 3, 0, TEXT_AT)
PLACES = (STACK_LOW, 128), (MIDDLE - 128, 256), (STACK_HIGH - 128, 128)


class Sum:
    """A number over all that was added."""

    def __init__(self):
        self.value = 0

    def add(self, value):
        self.value = self.value * 0x0100_0193 & MASK ^ value

    def add_state(self, machine):
        self.add(machine.pc)
        for word in machine.registers:
            self.add(word)
        for at, count in PLACES:
            cells, index = machine.place(at, count)
            for byte in cells[index:index + count]:
                self.add(byte)

    def add_step(self, machine):
        try:
            machine.commit()
            self.add(0)
        except Stopped as why:
            self.add(why.args[0])


def pattern(at, count):
    return [(at + k & MASK, ((at + k) * 0x9E37_79B1 & MASK) >> 24) for k in range(count)]


def add_frames(total, halves, pointer):
    code = b''
    for half in halves:
        words = [word for register in REGISTERS for word in constant(register, register * 0x0765_4321 & MASK ^ half)]
        code += words_of(*words, *constant(SP, pointer)) + half.to_bytes(2, 'little')
    machine = Machine(image_bytes(code, {}, b'', 0, TEXT_AT, COMPRESSED), b'')
    for at, count in PLACES:
        machine.interrupt([0], pattern(at, count))
    for _ in halves:
        add_frame(total, machine, pattern(pointer - 6, 12))


def add_frame(total, machine, dirt):
    for _ in range(2 * len(REGISTERS) + 2):
        total.add_step(machine)
    for access in range(14):
        machine.interrupt([access], [])
        total.add_state(machine)
    machine.interrupt([12, 3, 200, 0], dirt)
    total.add_state(machine)
    total.add_step(machine)
    total.add_state(machine)


def main():
    lists, ends = Sum(), Sum()
    for form in (PUSH, POP):
        add_frames(lists, [form | number << 2 for number in range(16, 64)], MIDDLE)
    for form in (POPRETZ, POPRET):
        for number in range(4, 16):
            add_frames(lists, [form | number << 4 | number % 4 << 2], MIDDLE)
    for form, more in ((PUSH, 0x94), (POP, 0xF8), (POPRETZ, 0x40), (POPRET, 0x94)):
        for pointer in ENDS:
            add_frames(ends, [form | more], pointer & MASK)
    print(f'each list at each adjustment: {lists.value:#010x}')
    print(f'at the ends of the stack: {ends.value:#010x}')


if __name__ == '__main__':
    main()
