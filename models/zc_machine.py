"""Runs an image with devices and under a plan of interrupts, as `run` does.

    models/zc_machine.py [--devices DEVICES] [--plan PLAN] [--steps N] IMAGE

takes standard input, writes what the program writes, and ends like `run`. It is independent of the program, so that both can be
compared: it follows the RISC-V unprivileged manual ("RV32I", "M", "Zicsr", "RVC Instruction Set Listings"), the privileged manual
("WFI") and the RISC-V Zc specification 1.0 ("Zcb", "Zcmp", "Zcmt"). It looks at an image, at devices and at a plan only as far as they have no fault.
"""
import argparse
import os
import random
import sys

sys.path.insert(0, os.path.join(os.path.dirname(os.path.abspath(__file__)), os.pardir, 'scripts'))

from devices import NO_DEVICES, read_devices
from expansions import bits, expanded
from symbolic_machine import MASK, computed, holds
from zcld_tools.files import random_bytes, read
from zcld_tools.images import STANDARD, segments
from zcld_tools.elf import EXECUTE
from zcld_tools.instructions import (A0, A1, A2, A7, EBREAK, ECALL, EXIT_CALL, JVT, OPCODE_AUIPC, OPCODE_FENCE,
                                     OPCODE_IMMEDIATE, OPCODE_JAL, OPCODE_JALR, OPCODE_LOAD, OPCODE_LUI, OPCODE_REGISTER,
                                     OPCODE_SYSTEM, RA, READ_CALL, S0, SP, WRITE_CALL, branch_distance, is_branch, is_store,
                                     is_system, jal_distance, low_part, signed)

ILLEGAL, BAD_ACCESS, MISALIGNED, BREAK, UNKNOWN_CALL = range(1, 6)
NAMES = (None, 'Illegal', 'BadAccess', 'Misaligned', 'Break', 'UnknownCall')
# The registers that a list may have, from ra on, and the bytes of a frame by how many it has.
SAVED = (RA, S0, S0 + 1, *range(18, 28))
PUSH, POP, POPRETZ, POPRET = 'cm.push', 'cm.pop', 'cm.popretz', 'cm.popret'
LIST_FORMS = {0b11000: PUSH, 0b11010: POP, 0b11100: POPRETZ, 0b11110: POPRET}


class Stopped(Exception):
    """A commit that can't be made, by its number."""


# ---- Zcmp and Zcmt


class Frame:
    """A push or pop: its form, the registers in the order of its accesses, and how far it moves sp."""

    def __init__(self, form, number, more):
        count = 13 if number == 15 else number - 3
        self.form, self.registers = form, SAVED[:count][::-1]
        self.size = (4 * count + 15 & ~15) + 16 * more

    def top(self, pointer):
        """The address below which the words lie, by sp before the instruction."""
        return pointer if self.form == PUSH else pointer + self.size & MASK

    def accesses(self, pointer):
        return [(self.top(pointer) - 4 * (j + 1) & MASK, register) for j, register in enumerate(self.registers)]


def frame_of(half):
    """The push or pop of a halfword, or none."""
    form = LIST_FORMS.get(bits(half, 12, 8))
    if half & 3 != 2 or half >> 13 != 5 or form is None or bits(half, 7, 4) < 4:
        return None
    return Frame(form, bits(half, 7, 4), bits(half, 3, 2))


def moved_registers(half):
    """The s registers that a move names, r1s' first."""
    return [S0 + code if code < 2 else 16 + code for code in (bits(half, 9, 7), bits(half, 4, 2))]


# ---- the machine


class Machine:
    """The state of a run: registers, jvt, pc, memory, what is read and answered, what was written, the events and the commits so
    far."""

    def __init__(self, image, given, memory=STANDARD, devices=NO_DEVICES):
        self.given, self.written, self.commits, self.memory = devices.answers(given), {1: b'', 2: b''}, 0, memory
        self.devices, self.events = devices, []
        self.regions = [[segment.address, bytearray(segment.content.ljust(segment.size, b'\0')), bool(segment.flags & EXECUTE)]
                        for segment in segments(image)]
        self.regions.append([memory.stack_low, bytearray(memory.stack_high - memory.stack_low), False])
        self.registers, self.jvt, self.pc = [0] * 32, 0, int.from_bytes(image[24:28], 'little')
        self.registers[SP] = 0 if devices.reset else memory.stack_high

    def start_by_chance(self, seed):
        """Gives the registers but x0, jvt and the stack any content, as they have it when a chip starts; and sp only if it isn't
        set at the start."""
        rng = random.Random(seed)
        given = (0,) if self.devices.reset else (0, SP)
        self.registers = [word if k in given else rng.getrandbits(32) for k, word in enumerate(self.registers)]
        if self.devices.reset and rng.random() < 0.5:
            self.registers[SP] = rng.randrange(self.memory.stack_low - 64, self.memory.stack_high + 64) & MASK
        self.jvt = rng.getrandbits(32)
        stack = self.regions[-1][1]
        stack[:] = random_bytes(rng, len(stack))

    # memory

    def place(self, at, size, is_code=False):
        """The cells of a region and where an access begins in them, or none."""
        for start, cells, code in self.regions:
            if code == is_code and start <= at and at + size <= start + len(cells):
                return cells, at - start
        return None

    def reach(self, at, size):
        """The same of data at a multiple of its size, or a stop."""
        if at % size:
            raise Stopped(MISALIGNED)
        found = self.place(at, size)
        if found is None:
            raise Stopped(BAD_ACCESS)
        return found

    def fetch(self, at, size):
        found = self.place(at, size, True)
        if found is None:
            raise Stopped(BAD_ACCESS)
        cells, index = found
        return int.from_bytes(cells[index:index + size], 'little')

    def is_device(self, at, size):
        """Whether an access goes to a device: memory is asked first."""
        return at % size == 0 and self.place(at, size) is None and self.devices.have(at, size)

    def load(self, at, size):
        if self.is_device(at, size):
            taken = self.given.take(size)
            self.events.append(('Load', at, size, taken))
            return int.from_bytes(taken, 'little')
        cells, index = self.reach(at, size)
        return int.from_bytes(cells[index:index + size], 'little')

    def store(self, at, size, word):
        stored = (word & (1 << 8 * size) - 1).to_bytes(size, 'little')
        if self.is_device(at, size):
            self.events.append(('Store', at, stored))
            self.written[1] += self.devices.shown(at, stored)
            return
        cells, index = self.reach(at, size)
        cells[index:index + size] = stored

    def set(self, register, word):
        if register:
            self.registers[register] = word & MASK

    # interrupts

    def interrupt(self, done, dirt):
        """The accesses with these numbers are made of the push or pop at pc, and then these bytes are written below sp."""
        for address, register in self.numbered(done):
            if address % 4 == 0 and self.place(address, 4):
                self.access(address, register, self.frame().form == PUSH)
        for address, byte in dirt:
            if self.memory.stack_low <= address < min(self.memory.stack_high, self.registers[SP]):
                self.regions[-1][1][address - self.memory.stack_low] = byte

    def frame(self):
        try:
            return frame_of(self.fetch(self.pc, 2))
        except Stopped:
            return None

    def numbered(self, numbers):
        frame = self.frame()
        accesses = frame.accesses(self.registers[SP]) if frame else []
        return [accesses[number] for number in numbers if number < len(accesses)]

    def access(self, address, register, saves):
        if saves:
            self.store(address, 4, self.registers[register])
        else:
            self.set(register, self.load(address, 4))

    # commits

    def commit(self):
        """Makes a commit, and gives the status if it was the exit."""
        half = self.fetch(self.pc, 2)
        status = None
        if half & 3 == 3:
            status = self.word(self.fetch(self.pc, 4), 4)
        elif half & 3 == 2 and half >> 13 == 5:
            self.fused(half)
        else:
            word = expanded(half)
            if word is None:
                raise Stopped(ILLEGAL)
            status = self.word(word, 2)
        self.commits += 1
        return status

    def fused(self, half):
        """Zcmp and Zcmt."""
        frame, row, which = frame_of(half), bits(half, 12, 10), bits(half, 6, 5)
        if frame:
            self.move_frame(frame)
        elif row == 0:
            self.jump_by_table(bits(half, 9, 2))
        elif row == 3 and which in (1, 3):
            first, second = moved_registers(half)
            if which == 1 and first == second:
                raise Stopped(ILLEGAL)
            pairs = ((first, A0), (second, A1)) if which == 1 else ((A0, first), (A1, second))
            words = [self.registers[source] for _, source in pairs]
            for (to, _), word in zip(pairs, words):
                self.set(to, word)
            self.pc = self.pc + 2 & MASK
        else:
            raise Stopped(ILLEGAL)

    def move_frame(self, frame):
        pointer = self.registers[SP]
        accesses = frame.accesses(pointer)
        for address, _ in accesses:
            self.reach(address, 4)
        for address, register in accesses:
            self.access(address, register, frame.form == PUSH)
        self.set(SP, pointer - frame.size if frame.form == PUSH else pointer + frame.size)
        self.pc = self.registers[RA] & ~1 if frame.form in (POPRET, POPRETZ) else self.pc + 2 & MASK
        if frame.form == POPRETZ:
            self.set(A0, 0)

    def jump_by_table(self, index):
        target = self.fetch(self.jvt + 4 * index & MASK, 4) & ~1
        if index >= 32:
            self.set(RA, self.pc + 2)
        self.pc = target

    def word(self, word, size):
        """An instruction of RV32IM, of this size."""
        opcode, f3, to = word & 0x7F, word >> 12 & 7, word >> 7 & 31
        first, second = self.registers[word >> 15 & 31], self.registers[word >> 20 & 31]
        after = self.pc + size & MASK
        if word == ECALL:
            return self.environment(after)
        if word == EBREAK:
            raise Stopped(BREAK)
        if is_system(word):
            self.set(to, self.answer_of_system(word, word >> 15 & 31 if f3 & 4 else first))
            self.pc = after
            return None
        result, target = self.result(word, opcode, f3, first, second, after)
        self.set(to if result is not None else 0, result or 0)
        self.pc = target
        return None

    def result(self, word, opcode, f3, first, second, after):
        """What goes to rd, or none, and the next pc."""
        f7 = word >> 25
        if opcode == OPCODE_LUI:
            return word & 0xFFFFF000, after
        if opcode == OPCODE_AUIPC:
            return self.pc + (word & 0xFFFFF000) & MASK, after
        if opcode == OPCODE_JAL:
            return after, self.pc + jal_distance(word) & MASK
        if opcode == OPCODE_JALR and f3 == 0:
            return after, first + low_part(word) & MASK & ~1
        if is_branch(word):
            return None, self.pc + branch_distance(word) & MASK if holds(f3, first, second) else after
        if opcode == OPCODE_LOAD and f3 in (0, 1, 2, 4, 5):
            size = 1 << f3 % 4
            found = self.load(first + low_part(word) & MASK, size)
            return signed(found, 8 * size) & MASK if f3 < 4 else found, after
        if is_store(word):
            self.store(first + low_part(word) & MASK, 1 << f3, second)
            return None, after
        if opcode == OPCODE_IMMEDIATE and (f3 not in (1, 5) or f7 == 0 or (f7, f3) == (0x20, 5)):
            value = low_part(word)
            return computed(f7, f3, first, value & 31) if f3 in (1, 5) else computed(0, f3, first, value & MASK), after
        if opcode == OPCODE_REGISTER and (f7 in (0, 1) or f7 == 0x20 and f3 in (0, 5)):
            return computed(f7, f3, first, second), after
        if opcode == OPCODE_FENCE and f3 == 0:
            return None, after
        if opcode == OPCODE_SYSTEM and f3 == 1 and word >> 20 == JVT:
            old, self.jvt = self.jvt, first & ~63
            return old, after
        raise Stopped(ILLEGAL)

    def answer_of_system(self, word, operand):
        """What an instruction of the system reads: it is asked for only if it goes to a register."""
        if not self.devices.registers:
            raise Stopped(ILLEGAL)
        taken = self.given.take(4 if word >> 7 & 31 else 0)
        self.events.append(('System', word, operand, taken))
        return int.from_bytes(taken, 'little')

    def environment(self, after):
        which, first, at, size = (self.registers[register] for register in (A7, A0, A1, A2))
        if which == EXIT_CALL:
            self.events.append(('Exit', first & 255))
            return first & 255
        if which not in (READ_CALL, WRITE_CALL) or first not in ((0,) if which == READ_CALL else (1, 2)):
            raise Stopped(UNKNOWN_CALL)
        cells, index = self.place(at, size) or (None, None) if size else (b'', 0)
        if cells is None:
            raise Stopped(BAD_ACCESS)
        if which == READ_CALL:
            taken = self.given.take(size)
            self.events.append(('Read', taken))
            if taken:
                cells[index:index + len(taken)] = taken
            self.set(A0, len(taken))
        else:
            written = bytes(cells[index:index + size])
            self.events.append(('Write', first, written))
            self.written[first] += written
            self.set(A0, size)
        self.pc = after
        return None


def plan_in(text):
    """The interrupts of a plan without a fault: the commit, the accesses that were done, and the bytes that are written."""
    interrupts = []
    for line in text.decode().splitlines()[1:]:
        _, at, *rest = line.split(' ')
        dirt = [word[1:].split(':') for word in rest if word[0] == 'd']
        interrupts.append((int(at), [int(word[1:]) for word in rest if word[0] == 'a'],
                           [(int(address, 16), int(byte, 16)) for address, byte in dirt]))
    return interrupts


def line_of(at, done, dirt):
    """The line of an interrupt in a plan."""
    return ''.join((f'cut {at}', *(f' a{number}' for number in done), *(f' d{address:08x}:{byte:02x}' for address, byte in dirt)))


def plan_of(interrupts):
    """The text of a plan."""
    return '\n'.join(('zcld plan 1', *(line_of(*it) for it in interrupts), '')).encode()


def run(machine, interrupts, steps):
    """The line that a run under a plan ends with."""
    waiting = list(reversed(interrupts))
    for commit in range(steps):
        while waiting and waiting[-1][0] == commit:
            machine.interrupt(*waiting.pop()[1:])
        try:
            status = machine.commit()
        except Stopped as why:
            number, = why.args
            return f'stopped {number} {NAMES[number]} {machine.pc:08x}'
        if status is not None:
            return f'exited {status}'
    return 'spent'


def main():
    arguments = argparse.ArgumentParser(description='Runs an image with devices and under a plan of interrupts.')
    arguments.add_argument('image')
    arguments.add_argument('--devices')
    arguments.add_argument('--plan')
    arguments.add_argument('--steps', type=int, default=10_000_000)
    given = arguments.parse_args()
    devices = read_devices(read(given.devices)) if given.devices else NO_DEVICES
    machine = Machine(read(given.image), devices.input(sys.stdin.buffer), devices=devices)
    line = run(machine, plan_in(read(given.plan)) if given.plan else [], given.steps)
    sys.stdout.buffer.write(machine.written[1])
    sys.stdout.flush()
    sys.stderr.buffer.write(machine.written[2] + line.encode() + b'\n')


if __name__ == '__main__':
    main()
