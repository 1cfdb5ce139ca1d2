#!/usr/bin/env python3
"""Runs a linked program under a plan whose interrupts also write shared variables, as `share` does.

    models/shared_cells.py [--steps N] OUT PLAN FILE...

takes standard input, writes the image of the files under OUT and what the program writes, and ends like `share`. It is
independent of the program, so that both can be compared (docs/FORMATS.md, "Shared plans"). A variable is shared if it lies in a
section of data named `.shared`. `SharedImage` runs the image: what an interrupt writes there, it writes before its commit.
`SharedProgram` runs the objects, whose steps it counts in commits of the image: before a step that takes some of these, all
that comes before them is written. So both come to the same.
"""
import argparse
import os
import re
import sys
from typing import NamedTuple

sys.path.insert(0, os.path.join(os.path.dirname(os.path.abspath(__file__)), os.pardir, 'scripts'))

import symbolic_machine
import zc_machine
from object_faults import told
from object_items import first_fault
from symbolic_machine import HIGH, MASK, PLACE, UNDEFINED, holds
from zc_link import link_of
from zcld_tools.files import read, read_all, write
from zcld_tools.images import STANDARD

SHARED, PLAN_TITLE, SHARED_TITLE = b'.shared', b'zcld plan 1', b'zcld shared 1'
MOST_TEXT, MOST_INPUT, STUB_COMMITS = 8 << 20, 16 << 20, 3


# ---- plans


class Cut(NamedTuple):
    """An interrupt: before which commit it comes, which accesses were done, and the bytes that it writes below the stack pointer
    and to shared variables, each with its address."""

    at: int
    done: list
    dirt: list
    cells: list = ()


class BadPlan(Exception):
    """The first fault of a text, in the words of its line."""


LINE = re.compile(rb'cut (0|[1-9][0-9]{0,19})((?: a[0-9]{1,3})*)((?: d[0-9a-f]{8}:[0-9a-f]{2})*)((?: s[0-9a-f]{8}:[0-9a-f]{2})*)')


def written_in(words):
    """The addresses and bytes of a line's words."""
    return [(int(word[1:9], 16), int(word[10:], 16)) for word in words.split()]


def cut_in(line, title):
    """The interrupt of a line, or none if it is no line of such a plan."""
    found = LINE.fullmatch(line)
    if found is None or int(found[1]) >> 64 or found[4] and title != SHARED_TITLE:
        return None
    done = [word[1:] for word in found[2].split()]
    if any(int(it) > 255 or str(int(it)).encode() != it for it in done):
        return None
    return Cut(int(found[1]), [int(it) for it in done], written_in(found[3]), written_in(found[4]))


def read_plan(text, title=SHARED_TITLE):
    """The interrupts of a plan whose first line is this one."""
    if len(text) > MOST_TEXT:
        raise BadPlan('size')
    *lines, rest = text.split(b'\n')
    made = []
    for number, line in enumerate(lines, 1):
        cut = cut_in(line, title) if number > 1 else None
        if line != title if number == 1 else cut is None:
            raise BadPlan(f'line {number}')
        if cut and made and cut.at < made[-1].at:
            raise BadPlan(f'order {number}')
        made += [cut] if cut else []
    if rest or not lines:
        raise BadPlan(f'line {len(lines) + 1}')
    return made


def plan_fault(text, title=SHARED_TITLE):
    """The first fault of a plan's text, or none."""
    try:
        read_plan(text, title)
    except BadPlan as why:
        return str(why)
    return None


def shared_plan_of(cuts):
    """The text of a plan."""
    lines = (zc_machine.line_of(*cut[:3]) + ''.join(f' s{at:08x}:{byte:02x}' for at, byte in cut.cells) for cut in cuts)
    return '\n'.join((SHARED_TITLE.decode(), *lines, '')).encode()


# ---- what is shared


def shared_ranges(symbols):
    """The address and the size of each section of data that is shared, by object and section."""
    objects = symbols.objects
    return [(at, objects[i].sections[k].size) for (i, k), at in sorted(symbols.data.sections.items())
            if objects[i].name_of(objects[i].sections[k]) == SHARED]


def is_shared(ranges, at):
    return any(start <= at < start + size for start, size in ranges)


# ---- the image


class SharedImage(zc_machine.Machine):
    """The run of an image under a shared plan."""

    def __init__(self, image, given, cuts, ranges, memory=STANDARD):
        super().__init__(image, given, memory)
        self.waiting, self.ranges, self.status = list(reversed(cuts)), ranges, None

    def poke(self, at, byte):
        """Writes a byte of a segment of data. The stack is none."""
        for start, cells, is_code in self.regions[:-1]:
            if not is_code and start <= at < start + len(cells):
                cells[at - start] = byte

    def interrupted(self):
        """All interrupts before the next commit, each followed by its cells."""
        while self.waiting and self.waiting[-1].at == self.commits:
            cut = self.waiting.pop()
            self.interrupt(cut.done, cut.dirt)
            for at, byte in cut.cells:
                if is_shared(self.ranges, at):
                    self.poke(at, byte)

    def advance(self):
        """The interrupts before the next commit, and the commit. After the exit nothing changes."""
        if self.status is None:
            self.interrupted()
            self.status = self.commit()


def run(machine, steps):
    """The line that a run ends with."""
    for _ in range(steps):
        try:
            machine.advance()
        except zc_machine.Stopped as why:
            number, = why.args
            return f'stopped {number} {zc_machine.NAMES[number]} {machine.pc:08x}'
        if machine.status is not None:
            return f'exited {machine.status}'
    return 'spent'


# ---- the program


class Pace:
    """How many steps of the program go together, and how many commits of the image they take."""

    def __init__(self, link):
        self.link = link

    def start(self):
        """The commits before the program's first step: those of the stub if there is a table."""
        return STUB_COMMITS if self.link.start() != self.link.addresses[self.link.code.entry()] else 0

    def span(self, place):
        return self.link.groups[place].items if place in self.link.groups else 1

    def weight(self, place, registers):
        link = self.link
        if place in link.groups:
            return 1 if len(link.groups[place].code) == 2 else 2
        item = link.items.get(place)
        if item is None:
            return 1
        if item.kind == 'Align':
            size = len(link.padding(place, item))
            return size % 4 // 2 + size // 4
        if item.kind == 'Branch' and link.sizes[place] == 8:
            return 2 if self.is_taken(item.words[0], registers) else 1
        return 2 if item.kind == 'Call' and link.sizes[place] == 8 else 1

    @staticmethod
    def is_taken(word, registers):
        """Whether a branch is known to be taken. If that isn't known, the program is stuck there."""
        f3, first, second = word >> 12 & 7, registers[word >> 15 & 31], registers[word >> 20 & 31]
        if isinstance(first, int) and isinstance(second, int):
            return holds(f3, first, second)
        return f3 == 1 if f3 < 2 and first != second else f3 == 0


class SharedProgram(symbolic_machine.Machine):
    """The run of the objects under a shared plan. `taken` is how many commits the image has made after the steps so far."""

    def __init__(self, objects, given, cuts, pace):
        super().__init__(objects, given, pace.link.memory)
        self.waiting, self.ranges, self.pace, self.status = list(reversed(cuts)), shared_ranges(self.code.symbols), pace, None
        self.taken = self.after = pace.start()
        self.left = 0
        self.write_before(self.taken)

    def write_before(self, commits):
        """Writes the cells of all interrupts before this many commits that weren't written yet."""
        while self.waiting and self.waiting[-1].at < commits:
            for at, byte in self.waiting.pop().cells:
                if is_shared(self.ranges, at):
                    self.data[at - self.memory.data] = byte

    def advance(self):
        """A step. After the exit nothing changes."""
        if self.status is not None:
            return
        if self.left == 0:
            self.left = self.pace.span(self.place)
            self.after = self.taken + self.pace.weight(self.place, self.registers)
            self.write_before(self.after)
        self.status = self.step()
        self.steps += 1
        self.left -= 1
        if self.left == 0:
            self.taken = self.after


# ---- both together


class Differs(Exception):
    """What isn't the same after some steps."""


def value(link, word):
    """The number that an address of code, or an upper part of one, is in the image."""
    kind, place = word
    if kind == PLACE:
        return link.addresses[place]
    at = link.addresses[place]
    if kind == HIGH:
        return at + 0x800 & MASK & ~0xFFF
    distance = link.value(link.code.item(place).target) - at
    return at + (distance + 0x800 & MASK & ~0xFFF) & MASK


def byte_of(link, part):
    """The byte that stands for a part of a word."""
    return part if isinstance(part, int) else value(link, part[0]) >> 8 * part[1] & 255


def state_differs(link, program, machine):
    """What the image's state has in another way than the program's, if it is at a place with an address."""
    if program.status is None and machine.pc != link.addresses[program.place]:
        return f'pc {machine.pc:08x}'
    for number, word in enumerate(program.registers):
        parts = symbolic_machine.bytes_of(word)
        own = machine.registers[number].to_bytes(4, 'little')
        if any(part != UNDEFINED and byte_of(link, part) != byte for part, byte in zip(parts, own)):
            return f'x{number} {machine.registers[number]:08x}'
    data = next((cells for start, cells, is_code in machine.regions[:-1] if not is_code), b'')
    for k, (part, byte) in enumerate(zip(program.data, data)):
        if part != byte and part != UNDEFINED and byte_of(link, part) != byte:
            return f'byte {program.memory.data + k:08x}'
    stack = machine.regions[-1][1]
    for at, part in program.stack.items():
        if part != UNDEFINED and byte_of(link, part) != stack[at - program.memory.stack_low]:
            return f'byte {at:08x}'
    return None


def events_of(machine):
    return machine.events, machine.status


def compared(objects, link, given, cuts, steps, each=1):
    """Runs the objects and their image side by side, and gives how many steps were made before the program was stuck, exited or
    had made all. After each step the events must be the same, and at places with an address, every so many steps, the states."""
    program = SharedProgram(objects, given, cuts, Pace(link))
    machine = SharedImage(link.image(), given, cuts, program.ranges, link.memory)
    for step in range(steps + 1):
        try:
            if step:
                program.advance()
        except symbolic_machine.Stuck:
            return step - 1
        while machine.commits < program.taken:
            machine.advance()
        if events_of(program) != events_of(machine):
            raise Differs(f'after {step} steps: {events_of(machine)} in place of {events_of(program)}')
        if program.taken > 64 * step + STUB_COMMITS:
            raise Differs(f'{program.taken} commits after {step} steps')
        is_listed = program.left == 0 or program.status is not None
        if is_listed and (step % each == 0 or program.status is not None):
            wrong = state_differs(link, program, machine)
            if wrong:
                raise Differs(f'after {step} steps: {wrong}')
        if program.status is not None:
            return step
    return steps


# ---- the command


class Ended(NamedTuple):
    """How `share` ends: its status, what it writes to each stream, and the image that stands under OUT then, or none."""

    status: int
    out: bytes
    err: bytes
    image: bytes = None


def status_of(line):
    """The status of a run by its line."""
    word = line.split()[0]
    return min(118, int(line.split()[1])) if word == 'exited' else {'stopped': 126, 'spent': 127}[word]


def share(files, text, given=b'', steps=10_000_000, memory=STANDARD, names=()):
    """What `share` does with files that can be read, if OUT can be written and no memory is wanting: the objects are judged, and
    then the plan; the input is taken; and OUT is put before the image runs."""
    fault = first_fault(files, memory, names)
    if fault:
        return Ended(121, b'', told(fault) + b'\n')
    why = plan_fault(text)
    if why:
        return Ended(125, b'', f'bad plan {why}\n'.encode())
    link = link_of(files, memory, names).link
    if len(given) > MOST_INPUT:
        return Ended(122, b'', b'read fault\n')
    image = link.image()
    machine = SharedImage(image, given, read_plan(text), shared_ranges(link.code.symbols), memory)
    line = run(machine, steps)
    return Ended(status_of(line), machine.written[1], machine.written[2] + line.encode() + b'\n', image)


def main():
    arguments = argparse.ArgumentParser(description='Runs a linked program under a plan with shared variables.')
    arguments.add_argument('out')
    arguments.add_argument('plan')
    arguments.add_argument('files', nargs='+')
    arguments.add_argument('--steps', type=int, default=10_000_000)
    given = arguments.parse_args()
    ended = share(read_all(given.files), read(given.plan), sys.stdin.buffer.read(), given.steps)
    if ended.image is not None:
        write(given.out, ended.image)
    sys.stdout.buffer.write(ended.out)
    sys.stdout.flush()
    sys.stderr.buffer.write(ended.err)
    return ended.status


if __name__ == '__main__':
    sys.exit(main())
