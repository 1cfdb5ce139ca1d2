"""Runs a list of objects without a fault before their code has addresses, with devices, as `trace` does.

    models/symbolic_machine.py [--devices DEVICES] [--steps N] FILE...

takes standard input, writes what the program writes, and ends like `trace`. It is independent of the program, so that both can
be compared. A byte is a number, a part of an address of code, or undefined; a word is a number, an address of code (or an upper
part of one), or four bytes. Where an event of the image has the address of a place of code, the event here has the place.
"""
import argparse
import os
import sys

sys.path.insert(0, os.path.join(os.path.dirname(os.path.abspath(__file__)), os.pardir, 'scripts'))

from devices import NO_DEVICES, read_devices
from expansions import expansion
from object_data import CODE
from object_faults import Object, told
from object_items import Code, Item, first_fault
from zcld_tools.files import read, read_all
from zcld_tools.images import STANDARD
from zcld_tools.instructions import (A0, A1, A2, A7, EBREAK, ECALL, EXIT_CALL, OPCODE_AUIPC, OPCODE_FENCE, OPCODE_IMMEDIATE,
                                     OPCODE_LOAD, OPCODE_LUI, OPCODE_STORE, READ_CALL, SP, WRITE_CALL, is_jalr, is_system,
                                     low_part, signed)

MASK = 0xFFFFFFFF
UNDEFINED = 'undefined'
# Words that are no numbers: the address of a place, and upper parts of the address of a place, or from a place on.
PLACE, HIGH, HIGH_FROM = 'place', 'high', 'high from'
ADDRESS, CONDITION, TARGET, ARGUMENT, BAD_ADDRESS, MISALIGNED, STACK_POINTER, NO_INSTRUCTION, UNKNOWN_CALL = range(1, 10)
NAMES = (None, 'AddressUnknown', 'ConditionUnknown', 'TargetUnknown', 'ArgumentUnknown', 'BadAddress', 'Misaligned',
         'StackPointer', 'NoInstruction', 'UnknownCall')


class Stuck(Exception):
    """A step that can't be made, by its number."""


# ---- words


def bytes_of(word):
    """The four bytes of a word."""
    if isinstance(word, int):
        return [word >> 8 * i & 255 for i in range(4)]
    if word[0] in (PLACE, HIGH, HIGH_FROM):
        return [(word, i) for i in range(4)]
    return list(word)


def word_of(parts):
    """The word of four bytes."""
    if all(isinstance(part, int) for part in parts):
        return sum(part << 8 * i for i, part in enumerate(parts))
    first = parts[0]
    if isinstance(first, tuple) and all(part == (first[0], i) for i, part in enumerate(parts)):
        return first[0]
    return tuple(parts)


NOTHING = (UNDEFINED,) * 4


# ---- what instructions compute (RISC-V unprivileged manual, "RV32I" and "M")


def divided(first, second):
    """Quotient and remainder, rounded to zero."""
    quotient = abs(first) // abs(second) * (1 if (first < 0) == (second < 0) else -1)
    return quotient, first - quotient * second


def multiplied_or_divided(f3, a, b):
    x, y = signed(a, 32), signed(b, 32)
    if f3 < 4:
        return (a * b, x * y >> 32, x * b >> 32, a * b >> 32)[f3]
    if b == 0:
        return -1 if f3 < 6 else a
    return divided(*((x, y) if f3 % 2 == 0 else (a, b)))[f3 >= 6]


def computed(f7, f3, a, b):
    """What a register operation gives of two numbers."""
    if f7 == 1:
        return multiplied_or_divided(f3, a, b) & MASK
    x, y = signed(a, 32), signed(b, 32)
    return {0: lambda: a - b if f7 else a + b, 1: lambda: a << b % 32, 2: lambda: int(x < y), 3: lambda: int(a < b),
            4: lambda: a ^ b, 5: lambda: (x if f7 else a) >> b % 32, 6: lambda: a | b, 7: lambda: a & b}[f3]() & MASK


def holds(f3, a, b):
    """Whether the condition of a branch holds of two numbers."""
    x, y = signed(a, 32), signed(b, 32)
    return {0: a == b, 1: a != b, 4: x < y, 5: x >= y, 6: a < b, 7: a >= b}[f3]


# ---- the machine


class Machine:
    """The state of a run: the place, the registers, data and stack, what is read and answered, what was written to each stream,
    the events and the steps so far."""

    def __init__(self, objects, given, memory=STANDARD, devices=NO_DEVICES):
        self.code, self.given, self.steps, self.memory = Code(objects, memory), devices.answers(given), 0, memory
        self.devices, self.events = devices, []
        self.place = self.code.entry()
        self.registers, self.is_sp_set = [NOTHING] * 32, not devices.reset
        self.registers[0] = 0
        if self.is_sp_set:
            self.registers[SP] = memory.stack_high
        self.stack, self.data = {}, self.first_data()
        self.written = {1: b'', 2: b''}
        self.items = {}

    def first_data(self):
        """The bytes of data at the start, with the addresses that relocations put there."""
        symbols = self.code.symbols
        data = list(symbols.data.bytes) + [0] * (symbols.data.end - symbols.data.file_end)
        for at, target in self.code.addresses_in_data():
            data[at:at + 4] = bytes_of(self.word_for(target))
        return data

    def word_for(self, target):
        return (PLACE, target[1:]) if target[0] == CODE else target[1]

    # memory

    def is_memory(self, at, size):
        data, stack = self.memory.data, (self.memory.stack_low, self.memory.stack_high)
        return data <= at and at + size <= data + len(self.data) or stack[0] <= at and at + size <= stack[1]

    def load(self, at, size):
        if at < self.memory.stack_low:
            return self.data[at - self.memory.data:at - self.memory.data + size]
        return [self.stack.get(at + i, UNDEFINED) for i in range(size)]

    def store(self, at, parts):
        if at < self.memory.stack_low:
            start = at - self.memory.data
            self.data[start:start + len(parts)] = parts
            return
        for i, part in enumerate(parts):
            self.stack[at + i] = part

    def address(self, base, size):
        if not isinstance(base, int):
            raise Stuck(ADDRESS)
        if base % size:
            raise Stuck(MISALIGNED)
        if not self.is_memory(base, size):
            raise Stuck(BAD_ADDRESS)
        return base

    # steps

    def step(self):
        """Makes a step, and gives the status if it was the exit."""
        i, k, offset = self.place
        part = self.code.parts[i, k]
        if offset == part.section.size:
            raise Stuck(NO_INSTRUCTION)
        if self.place not in self.items:
            self.items[self.place] = self.code.item(self.place)
        item = self.items[self.place]
        after = (i, k, offset + part.starts[offset])
        if item.kind == 'RawShort':
            return self.in_turn(expansion(item.half), after)
        if item.kind == 'Raw' and is_system(item.words[0]) and self.devices.registers:
            return self.system(item.words[0], after)
        if item.kind in ('Raw', 'Word'):
            raise Stuck(NO_INSTRUCTION)
        if item.kind == 'RawPair':
            raise Stuck(TARGET)
        return {'Align': self.go, 'Branch': self.branch, 'Jump': self.jump, 'Call': self.call, 'Hi': self.high,
                'PcHi': self.high_from}.get(item.kind, self.operate)(item, after)

    def in_turn(self, words, after):
        """A step that makes the words of a push, a pop or two moves one after another. If one can't be made, none is: the program
        is stuck at this place."""
        place = self.place
        if not words:
            raise Stuck(NO_INSTRUCTION)
        try:
            for word in words:
                self.operate(Item('Op', [word]), after)
        except Stuck:
            self.place = place
            raise

    def set(self, register, word, place):
        """Ends a step: a register has a word, and the place is the next. All below sp is undefined then, and all of the stack as
        long as sp isn't set: the first number in the stack sets it, and then it stays there."""
        pointer = word if register == SP else self.registers[SP]
        is_inside = isinstance(pointer, int) and self.memory.stack_low <= pointer <= self.memory.stack_high
        if self.is_sp_set and not is_inside:
            raise Stuck(STACK_POINTER)
        self.is_sp_set = is_inside
        if register:
            self.registers[register] = word
        self.place = place
        self.forget(pointer if is_inside else self.memory.stack_high)

    def forget(self, pointer):
        for at in [at for at in self.stack if at < pointer]:
            del self.stack[at]

    def go(self, _, after):
        self.set(0, 0, after)

    def jump(self, item, after):
        self.set(item.words[0] >> 7 & 31, (PLACE, after), item.target[1:])

    def call(self, item, after):
        temporary, to = item.words[0] >> 7 & 31, item.words[1] >> 7 & 31
        if temporary == 0:
            raise Stuck(TARGET)
        # sp as the temporary register stays undefined unless it is the other register too
        if SP in (temporary, to) and self.is_sp_set:
            raise Stuck(STACK_POINTER)
        self.registers[temporary] = NOTHING
        self.set(to, (PLACE, after), item.target[1:])

    def high(self, item, after):
        word = self.word_for(item.target)
        word = word + 0x800 & MASK & ~0xFFF if isinstance(word, int) else (HIGH, item.target[1:])
        self.set(item.words[0] >> 7 & 31, word, after)

    def high_from(self, item, after):
        self.set(item.words[0] >> 7 & 31, (HIGH_FROM, self.place), after)

    def branch(self, item, after):
        word = item.words[0]
        taken = self.condition(word >> 12 & 7, self.registers[word >> 15 & 31], self.registers[word >> 20 & 31])
        self.set(0, 0, item.target[1:] if taken else after)

    def condition(self, f3, first, second):
        if isinstance(first, int) and isinstance(second, int):
            return holds(f3, first, second)
        places = [word for word in (first, second) if not isinstance(word, int) and word[0] == PLACE]
        if f3 > 1 or not places:
            raise Stuck(CONDITION)
        if len(places) == 1 and 0 in (first, second):
            return f3 == 1
        if len(places) == 2:
            if first == second:
                return f3 == 0
            if not any(self.is_loose(*place[1]) for place in places):
                return f3 == 1
        raise Stuck(CONDITION)

    def is_loose(self, i, k, offset):
        """Whether the place may have the address of another: a section's end, or a padding."""
        return offset not in self.code.parts[i, k].starts or self.code.item((i, k, offset)).kind == 'Align'

    # operations

    def low(self, item):
        """The immediate of an item, or none, and the sum that it names in place of that."""
        word = item.words[0]
        if item.kind == 'Op':
            return low_part(word), None
        if item.kind == 'Lo' and item.target[0] != CODE:
            return signed(item.target[1] & 0xFFF, 12), None
        base = self.registers[word >> 15 & 31]
        if item.kind == 'Lo':
            return None, (PLACE, item.target[1:]) if base == (HIGH, item.target[1:]) else NOTHING
        high = item.target[1:]
        return None, self.word_for(self.code.item(high).target) if base == (HIGH_FROM, high) else NOTHING

    def sum(self, item):
        """The base and the immediate together, as an address or as what addi gives."""
        value, named = self.low(item)
        if value is None:
            return named
        base = self.registers[item.words[0] >> 15 & 31]
        if isinstance(base, int):
            return base + value & MASK
        return base if value == 0 else NOTHING

    def operate(self, item, after):
        word = item.words[0]
        opcode, f3, to = word & 0x7F, word >> 12 & 7, word >> 7 & 31
        if word == ECALL:
            return self.environment(after)
        if word == EBREAK:
            raise Stuck(NO_INSTRUCTION)
        if not self.is_sp_set and self.needs_stack(item):
            raise Stuck(STACK_POINTER)
        if opcode == OPCODE_LOAD:
            self.fetch(item, f3, after)
        elif opcode == OPCODE_STORE:
            self.keep(item, 1 << f3, after)
        elif is_jalr(word):
            self.jump_by_register(item, to, after)
        else:
            result = self.result(item, opcode, f3)
            self.set(0 if opcode == OPCODE_FENCE else to, result, after)
        return None

    @staticmethod
    def needs_stack(item):
        """Whether what stands there takes sp for the stack's: it accesses memory by sp, or moves sp by a number of its own."""
        word = item.words[0]
        is_by_sp = word >> 15 & 31 == SP
        moves = item.kind == 'Op' and word & 0x707F == OPCODE_IMMEDIATE and word >> 7 & 31 == SP
        return is_by_sp and (moves or word & 0x7F in (OPCODE_LOAD, OPCODE_STORE))

    @staticmethod
    def loaded(parts, f3):
        """The word that a load makes of the bytes that it gets."""
        if f3 >= 4:
            fill = 0
        else:
            fill = (255 if parts[-1] & 128 else 0) if isinstance(parts[-1], int) else UNDEFINED
        return word_of(parts + [fill] * (4 - len(parts)))

    def is_device(self, item, at, size):
        """Whether an access goes to a device: memory is asked first, and what goes by sp reaches memory alone."""
        return (isinstance(at, int) and at % size == 0 and not self.is_memory(at, size) and item.words[0] >> 15 & 31 != SP
                and self.devices.have(at, size))

    def fetch(self, item, f3, after):
        at, size, to = self.sum(item), 1 << f3 % 4, item.words[0] >> 7 & 31
        if not self.is_device(item, at, size):
            self.set(to, self.loaded(self.load(self.address(at, size), size), f3), after)
            return
        taken = self.given.take(size)
        self.set(to, self.loaded(list(taken.ljust(size, b'\0')), f3), after)
        self.events.append(('Load', at, size, taken))

    def keep(self, item, size, after):
        at, parts = self.sum(item), bytes_of(self.registers[item.words[0] >> 20 & 31])[:size]
        if self.is_device(item, at, size):
            self.send(at, parts)
        else:
            self.store(self.address(at, size), parts)
        self.set(0, 0, after)

    def send(self, at, parts):
        """Stores to a device: numbers, or a whole address of code."""
        if all(isinstance(part, int) for part in parts):
            self.events.append(('Store', at, bytes(parts)))
            self.written[1] += self.devices.shown(at, parts)
            return
        word = word_of(parts) if len(parts) == 4 else NOTHING
        if word[0] != PLACE:
            raise Stuck(BAD_ADDRESS)
        self.events.append(('Store', at, word))

    def jump_by_register(self, item, to, after):
        target = self.sum(item)
        if isinstance(target, int) or target[0] != PLACE:
            raise Stuck(TARGET)
        self.set(to, (PLACE, after), target[1])

    def result(self, item, opcode, f3):
        """The word that an operation gives."""
        word = item.words[0]
        if opcode == OPCODE_LUI:
            return word & 0xFFFFF000
        if opcode in (OPCODE_AUIPC, OPCODE_FENCE):
            return NOTHING
        first, second = self.registers[word >> 15 & 31], self.registers[word >> 20 & 31]
        if opcode == OPCODE_IMMEDIATE:
            if f3 == 0:
                return self.sum(item)
            value = signed(word >> 20, 12)
            if isinstance(first, int):
                return computed(word >> 25, f3, first, value & 31) if f3 in (1, 5) else computed(0, f3, first, value & MASK)
            return 0 if f3 == 3 and value == 1 and first[0] == PLACE else NOTHING
        return self.of_registers(word, f3, first, second)

    def of_registers(self, word, f3, first, second):
        f7, one, other = word >> 25, word >> 15 & 31, word >> 20 & 31
        if f7 == 0 and f3 == 0 and 0 in (one, other):
            return first if other == 0 else second
        if isinstance(first, int) and isinstance(second, int):
            return computed(f7, f3, first, second)
        if f7 == 0 and f3 == 3 and one == 0 and second[0] == PLACE:
            return 1
        return NOTHING

    # instructions of the system

    def system(self, word, after):
        """An instruction of Zicsr, or `wfi`. It is answered only if what it reads goes to a register."""
        first, to = word >> 15 & 31, word >> 7 & 31
        operand = first if word >> 12 & 4 else self.registers[first]
        if not isinstance(operand, int) and operand[0] != PLACE:
            raise Stuck(ARGUMENT)
        taken = self.given.take(4 if to else 0)
        self.set(to, int.from_bytes(taken, 'little'), after)
        self.events.append(('System', word, operand, taken))

    # the environment's calls

    def environment(self, after):
        which, first, at, size = (self.registers[register] for register in (A7, A0, A1, A2))
        if not isinstance(which, int):
            raise Stuck(ARGUMENT)
        if which == EXIT_CALL:
            if not isinstance(first, int):
                raise Stuck(ARGUMENT)
            self.events.append(('Exit', first & 255))
            return first & 255
        if which not in (READ_CALL, WRITE_CALL):
            raise Stuck(UNKNOWN_CALL)
        if not all(isinstance(word, int) for word in (first, size)) or size and not isinstance(at, int):
            raise Stuck(ARGUMENT)
        if first not in ((0,) if which == READ_CALL else (1, 2)):
            raise Stuck(UNKNOWN_CALL)
        if size and not self.is_memory(at, size):
            raise Stuck(BAD_ADDRESS)
        count = self.read(at, size) if which == READ_CALL else self.write(first, at, size)
        self.set(A0, count, after)
        return None

    def read(self, at, size):
        taken = self.given.take(size)
        self.events.append(('Read', taken))
        if taken:
            self.store(at, list(taken))
        return len(taken)

    def write(self, stream, at, size):
        parts = self.load(at, size) if size else []
        if not all(isinstance(part, int) for part in parts):
            raise Stuck(ARGUMENT)
        self.events.append(('Write', stream, bytes(parts)))
        self.written[stream] += bytes(parts)
        return size


def event_in(event, addresses):
    """The event that it is in an image with these addresses of places."""
    if event[0] not in ('System', 'Store') or isinstance(event[2], (int, bytes)):
        return event
    what, first, (_, place), *answered = event
    address = addresses[place]
    return what, first, address if what == 'System' else address.to_bytes(4, 'little'), *answered


def run(machine, steps):
    """The line that a run of this many steps at most ends with."""
    while machine.steps < steps:
        try:
            status = machine.step()
        except Stuck as why:
            number, = why.args
            return 'stuck {} {} {} {} {}'.format(*machine.place, number, NAMES[number])
        machine.steps += 1
        if status is not None:
            return f'exited {status}'
    return 'spent'


def trace(files, given, steps, memory=STANDARD, devices=NO_DEVICES):
    """What `trace` writes to each stream, without its line, and its line."""
    machine = Machine([Object(data) for data in files], given, memory, devices)
    line = run(machine, steps)
    return machine.written[1], machine.written[2], line.encode()


def main():
    arguments = argparse.ArgumentParser(description='Runs objects with devices before their code has addresses.')
    arguments.add_argument('files', nargs='+')
    arguments.add_argument('--devices')
    arguments.add_argument('--steps', type=int, default=10_000_000)
    given = arguments.parse_args()
    files, devices = read_all(given.files), read_devices(read(given.devices)) if given.devices else NO_DEVICES
    found = first_fault(files)
    out, err, line = (b'', b'', told(found)) if found else trace(files, devices.input(sys.stdin.buffer), given.steps,
                                                                 devices=devices)
    sys.stdout.buffer.write(out)
    sys.stdout.flush()
    sys.stderr.buffer.write(err + line + b'\n')


if __name__ == '__main__':
    main()
