#!/usr/bin/env python3
"""Runs random programs that load from devices and store there, and compares them with their objects and with the models.

    fuzz/device_programs.py [--seed S] [--count N] [--models] [PROGRAM]

PROGRAM is build/zcld if none is given; with --models there is none. A case is a random list of objects whose functions also
access devices, in a memory map; a text of devices, at both ends of the map and of all addresses, with answers of its own or
without; an input; and a plan of interrupts. Accesses have each width and sign, lie at the ends of ranges, over them or beside
them, are misaligned, go by sp, and store what is no number; some are made until an answer has come. Control and status
registers are read, written and changed in each way, with x0 in each place, and get numbers, addresses of code, parts of
these, and what is undefined; addresses of code are stored to devices, by words, halfwords and bytes. Where sp isn't set at
the start, programs set it in each way, to addresses in the stack and out of it, and use the stack before. Checked are:

- the events of both images in the models (models/zc_machine.py), with the plan and without, begin with those of the objects
  (models/symbolic_machine.py) within 64 times their steps and 3, where a place that the objects hand out is its listed
  address; if the objects exit, the images do so with the same events; and so it is from first states with other registers,
  another jvt and another stack, and another sp if that isn't set at the start;
- `trace` and `run` write and end as the models do, after as many steps and commits; the links' images are the models';
- standard input is taken unless the devices have answers; a text with a fault is refused, by the line of its first one.

It prints counts, and stops at the first difference with status 1.
"""
import argparse
import collections
import functools
import os
import random
import sys
import tempfile

sys.path[:0] = (os.path.join(os.path.dirname(os.path.abspath(__file__)), os.pardir, it) for it in ('scripts', 'models'))

import symbolic_machine
import zc_machine
from checks.harness import Folder
from devices import BadDevices, devices_text, may_follow, read_devices
from made_objects import SUM, Function, made_program
from memory_maps import made_map, words_of_map
from object_faults import Object, told
from object_items import first_fault
from plain_link import plain
from symbolic_machine import event_in
from zc_link import link_of
from zcld_tools import programs
from zcld_tools.elf import ABS, DATA_FLAGS, HI20, PROGBITS, R_32
from zcld_tools.files import random_bytes
from zcld_tools.images import STANDARD, listed_places
from zcld_tools.instructions import (A2, A3, A4, JVT, RA, SP, T0, T1, T2, WFI, ZERO, add, addi, branch, constant, csr, immediate,
                                     load, lui, lw, signed, store, sw, with_high)

STEPS = 1500
END = 1 << 32
# Registers that no program sets, those that have addresses of devices, and those that get what is loaded.
UNSET, BASES, LOADED = (30, 31), (T0, A3, A4), (T1, T2, A2)
LOADS, STORES = (0, 1, 2, 4, 5), (0, 1, 2)
SIZES = (1, 2, 3, 4, 4, 5, 8, 8, 12, 64, 64, 4096)
# The six instructions on a register, of which the first three take what a register holds; and registers: mstatus, mie, mtvec,
# mscratch, mepc, mcause, cycle, a custom one, and those beside jvt.
BY_REGISTER, BY_NUMBER = (1, 2, 3), (5, 6, 7)
REGISTERS = 0x300, 0x304, 0x305, 0x340, 0x341, 0x342, 0xC00, 0x7C0, JVT - 1, JVT + 1
MTVEC, MSCRATCH = 0x305, 0x340
MRET = 0x30200073


class Differs(Exception):
    """What isn't as it must be."""


# ---- devices


def range_near(rng, ranges, memory):
    """A range at an end of the map or of all addresses, behind another one, or anywhere."""
    size = rng.choice(SIZES)
    anywhere = rng.choice((rng.randrange(memory.text), rng.randrange(memory.stack_high, END)))
    low = rng.choice((0, memory.text - size, memory.stack_high, END - size, anywhere, anywhere & ~0xFFF,
                      *(end for _, end in ranges)))
    return low, low + size


def made_lines(rng, memory):
    """The lines of a text by chance: ranges, among them addresses that print, and then answers or none."""
    lines = []

    def add_line(word, value):
        if may_follow(lines, word, value, memory):
            lines.append((word, value))

    alone = [word for word, share in (('registers', 0.5), ('reset', 0.4)) if rng.random() < share]
    for _ in range(rng.choice((1, 2, 3, 5) if not alone else (0, 1, 2, 3))):
        if alone and rng.random() < 0.5:
            add_line(alone.pop(), None)
        add_line('device', range_near(rng, [value for word, value in lines if word == 'device'], memory))
        ranges = [value for word, value in lines if word == 'device']
        for _ in range(rng.randrange(3) * bool(ranges)):
            low, end = rng.choice(ranges)
            add_line('output', rng.choice((low, end - 1, min(end - 1, low + rng.randrange(4)))))
    for word in alone:
        add_line(word, None)
    for word in rng.choice(((), ('answer',), ('answer', 'answer'), ('then',), ('answer', 'then'))):
        few = bytes(rng.choice((0, 0, 1, 128, 255, rng.randrange(256))) for _ in range(rng.randrange(12)))
        add_line(word, rng.choice((few, random_bytes(rng, rng.randrange(200)))))
    return lines


def changed(rng, text):
    """A text with a byte changed, left out or added, or a line moved or cut off."""
    at, which = rng.randrange(len(text)), rng.randrange(5)
    if which < 3:
        return text[:at] + (b'', bytes([rng.choice(b' \n0fa:x')]), b'0')[which] + text[at + (which < 2):]
    title, *lines = text.splitlines(keepends=True)
    rng.shuffle(lines)
    return b''.join((title, *lines[which - 3:]))


# ---- programs


class Found:
    """What a program finds by lines of devices in a map: ranges, whether there are control and status registers, and whether sp
    isn't set at the start."""

    def __init__(self, lines, memory):
        words = [word for word, _ in lines]
        self.memory, self.has_registers, self.is_reset = memory, 'registers' in words, 'reset' in words
        self.ranges = [value for word, value in lines if word == 'device'] or [(memory.stack_high, memory.stack_high + 8)]
        self.has_ranges = 'device' in words or not self.has_registers


class Driver(Function):
    """A function that accesses devices. Most accesses lie in a device as they should."""

    def __init__(self, found, *how):
        super().__init__(*how)
        self.found, self.ranges = found, found.ranges

    def ways(self):
        own = (self.load_device, self.load_device, self.store_device, self.store_device, self.poll, self.copy, self.wander,
               self.send_address) * self.found.has_ranges
        own += (self.control, self.control, self.control, self.guard, self.hand_address) * self.found.has_registers
        return (*super().ways(), *own, *own) if self.rng.random() < 0.9 else (*super().ways(), self.misuse)

    def inside(self, size):
        """An aligned address in a device where this many bytes lie as a whole, most often at an end; or none."""
        found = [(-(-low // size) * size, end // size * size - size) for low, end in self.ranges]
        found = [(first, last) for first, last in found if first <= last]
        if not found:
            return None
        first, last = self.rng.choice(found)
        return self.rng.choice((first, last, first + size * self.rng.randrange((last - first) // size + 1)))

    def beside(self, size):
        """An address at which an access is misaligned, or passes an end of a device."""
        low, end = self.rng.choice(self.ranges)
        return (low + self.rng.choice((-size, -1, 1, 2, 3, end - low - size + 1, end - low - 1, end - low))) % END

    def somewhere(self, size):
        at = self.inside(size)
        return self.beside(size) if at is None or self.rng.random() < 0.01 else at

    def access(self, at, word_with):
        """Adds an access at an address: by a register, by x0 if that reaches, or by a symbol."""
        rng, base = self.rng, self.rng.choice(BASES)
        if rng.random() < 0.3 and -2048 <= signed(at, 32) < 2048:
            self.section.words(word_with(ZERO, signed(at, 32)))
        elif rng.random() < 0.3:
            self.pair(base, self.absolute(at & ~7), at & 7, word_with(base, 0))
        else:
            offset = rng.choice((0, 0, 4, rng.randrange(128), rng.randrange(-2048, 2048)))
            self.section.words(*constant(base, at - offset), word_with(base, offset))

    def load_device(self):
        f3, to = self.rng.choice(LOADS), self.rng.choice((*LOADED, *LOADED, ZERO))
        self.access(self.somewhere(1 << f3 % 4), lambda base, offset: load(f3, to, base, offset))
        self.section.words(add(SUM, SUM, to))

    def store_device(self):
        f3 = self.rng.choice(STORES)
        self.access(self.somewhere(1 << f3), lambda base, offset: store(f3, self.rng.choice((SUM, SUM, ZERO)), base, offset))

    def poll(self):
        """Loads until a bit of what is loaded is set, or clear."""
        f3 = self.rng.choice(LOADS)
        at = self.inside(1 << f3 % 4)
        if at is not None:
            self.section.words(*constant(A3, at), load(f3, A2, A3), immediate(7, A2, A2, self.rng.choice((1, 128, 255))),
                               branch(self.rng.choice((0, 1, 1)), A2, ZERO, -8), add(SUM, SUM, A2))

    def copy(self):
        """Loads bytes and stores each of them, at the same address or at another."""
        first, second, count = self.inside(1), self.inside(1), self.rng.randrange(1, 9)
        self.section.words(*constant(A3, first), *constant(A4, second), addi(A2, ZERO, count),
                           load(self.rng.choice((0, 4)), T1, A3), store(0, T1, A4), addi(A2, A2, -1), branch(1, A2, ZERO, -12))

    def wander(self):
        """Loads where what was loaded before says, in a device or a few bytes beside it."""
        at = self.inside(4)
        if at is not None:
            mask = self.rng.choice((0, 4, 4, 7, 60))
            f3 = self.rng.choice(LOADS)
            self.section.words(*constant(A3, at), load(4, T1, A3), immediate(7, T1, T1, mask), add(A3, A3, T1), load(f3, T2, A3),
                               add(SUM, SUM, T2))

    # control and status registers, and addresses that are handed out

    def control(self):
        """An instruction on a register, with a number, or `wfi`."""
        rng, number, to = self.rng, self.rng.choice(REGISTERS), self.rng.choice((*LOADED, *LOADED, ZERO))
        by_register = csr(rng.choice(BY_REGISTER), to, number, rng.choice((SUM, SUM, ZERO)))
        word = rng.choice((by_register, by_register, csr(rng.choice(BY_NUMBER), to, number, rng.randrange(32)), WFI))
        self.section.words(word, *(add(SUM, SUM, to) for _ in range(word != WFI)))

    def guard(self):
        """Work between two instructions on a register, the second of which gets what the first read."""
        number = self.rng.choice(REGISTERS)
        self.section.words(csr(self.rng.choice(BY_NUMBER), T1, number, self.rng.randrange(32)))
        self.work()
        self.section.words(csr(self.rng.choice(BY_REGISTER), self.rng.choice((ZERO, T2)), number, T1))

    def take_place(self, to):
        """The address of a function, or of what stands behind this."""
        if self.rng.random() < 0.6:
            self.take_function(to)
            return
        label = self.label()
        self.pair(to, label, 0, addi(to, to))
        self.place(label)

    def hand_address(self):
        """Hands the address of a place to a register."""
        to = self.rng.choice((ZERO, ZERO, T1))
        self.take_place(T0)
        self.section.words(csr(self.rng.choice(BY_REGISTER), to, self.rng.choice((MTVEC, *REGISTERS)), T0), add(SUM, SUM, to))

    def send_address(self):
        """Stores the address of a place to a device."""
        at = self.inside(4)
        if at is not None:
            self.take_place(T0)
            self.section.words(*constant(A3, at), sw(T0, A3))

    # how sp is set

    def start_up(self):
        rng, is_reset = self.rng, self.found.is_reset
        if not is_reset and rng.random() < 0.95:
            return
        memory, words = self.found.memory, self.section.words
        is_used = rng.random() < 0.2
        if is_used:
            words(*constant(A3, memory.stack_high - 16), sw(SUM, A3, rng.choice((0, 4))))
        for _ in range(rng.choice((0, 0, 0, 1, 3))):
            rng.choice((self.work, self.load_number, self.store_number, self.take_address, self.call_nothing,
                        *[self.control, self.hand_address] * self.found.has_registers))()
        if rng.random() < 0.1:
            self.use_early()
        for _ in range(rng.choice((1, 1, 1, 1, 1, 1, 2, 0))):
            self.set_sp(memory.stack_high - 16 if is_used else self.top())
        if is_used:
            words(lw(T1, A3), *rng.choice(((), (add(SUM, SUM, T1),), (branch(0, T1, ZERO, 8), addi(SUM, SUM, 1)))))

    def top(self):
        """A number for sp: most often the stack's end, or an address of the stack, or one outside."""
        memory, rng = self.found.memory, self.rng
        outside = rng.choice((memory.stack_low - 16, memory.stack_high + 16, memory.data, memory.text, 0)) % END
        inside = rng.choice((memory.stack_low, memory.stack_high - 4, memory.stack_high - 16, memory.stack_high - 64))
        return rng.choice((*[memory.stack_high] * 8, max(inside, memory.stack_low), outside))

    def use_early(self):
        """Uses the stack before sp is set."""
        self.rng.choice((self.keep, lambda: self.section.words(self.rng.choice((
            addi(SP, SP, -16), addi(SP, SP), lw(T1, SP), sw(SUM, SP, -4), load(4, T1, SP, 2))))))()

    def held(self, number):
        """A symbol of a word of data that is this number."""
        section = self.program.new_section(self.read, b'.data', PROGBITS, DATA_FLAGS)
        if self.rng.random() < 0.5:
            section.words(number)
        else:
            section.reloc(R_32, self.absolute(number), 0, (0,))
        return self.read.symbol(self.program.new_name(b'top'), home=section)

    def absolute(self, number):
        """A symbol that is a number."""
        name, home = b'number%08x' % number, self.program.objects[-1]
        self.program.named(home, name, home=ABS, value=number)
        return self.program.named(self.read, name)

    def set_sp(self, top):
        """Gives sp a number: by an address, a copy, a load, an operation, or what a register or a device answers."""
        rng, words = self.rng, self.section.words
        which = rng.randrange(10 if self.found.has_registers else 9)
        if which < 3:
            self.pair(SP, self.absolute(top), 0, addi(SP, SP))
        elif which == 3:
            words(*constant(T0, top), rng.choice((addi(SP, T0), add(SP, T0, ZERO), add(SP, ZERO, T0), immediate(7, SP, T0, -4))))
        elif which == 4:
            self.pair(T0, self.held(top), 0, lw(SP, T0))
        elif which == 5:
            words(with_high(lui(T0), top), addi(SP, T0, top))
        elif which == 6:
            words(*constant(SP, top)[:1 if top % 4096 == 0 else rng.choice((1, 2, 2))])
        elif which == 7:
            self.section.reloc(HI20, self.absolute(top), 0, (lui(SP),))
        elif which == 8:
            self.pair(T1, self.absolute(top), 0, addi(T1, T1))
            words(addi(SP, T1))
        else:
            words(csr(rng.choice(BY_REGISTER), SP, MSCRATCH, ZERO))

    def misuse_register(self):
        """An instruction on a register that the objects' program is stuck at, or most likely."""
        rng, words, which = self.rng, self.section.words, self.rng.randrange(6)
        f3, number = rng.choice(BY_REGISTER), rng.choice(REGISTERS)
        if which == 0:
            words(csr(rng.choice((*BY_REGISTER, *BY_NUMBER)), rng.choice((ZERO, T1)), JVT, rng.choice((SUM, ZERO))))
        elif which == 1:
            words(csr(f3, ZERO, number, rng.choice(UNSET)))
        elif which == 2:
            self.section.reloc(HI20, self.program.named(self.read, rng.choice(self.program.functions)), 0, (lui(T0),))
            words(csr(f3, T1, number, T0))
        elif which == 3:
            self.take_place(T0)
            words(rng.choice((addi(T0, T0, 1), immediate(7, T0, T0, -4))), csr(f3, ZERO, MTVEC, T0))
        elif which == 4:
            self.take_place(T0)
            words(addi(SP, SP, -16), sw(T0, SP), store(0, SUM, SP, rng.choice((0, 8))), lw(T0, SP), addi(SP, SP, 16),
                  csr(f3, ZERO, MTVEC, T0))
        else:
            words(rng.choice((MRET, csr(f3, SP, MSCRATCH, rng.choice((SP, ZERO))), csr(4, T1, number, SUM), WFI | 1 << 7)))

    def misuse(self):
        """An access that the objects' program is stuck at, or most likely, though the image may go on."""
        which, at = self.rng.randrange(7), self.inside(4)
        words = self.section.words
        if self.found.has_registers and self.rng.random() < 0.5:
            self.misuse_register()
        elif which == 0:
            self.access(self.beside(4), lambda base, offset: lw(T1, base, offset))
        elif at is None or which == 1:
            words(lw(T1, SP, self.rng.choice((0, 4, 8, 64))), add(SUM, SUM, T1))
        elif which == 2:
            words(*constant(T0, at), store(self.rng.choice(STORES), self.rng.choice(UNSET), T0))
        elif which == 3:
            self.take_function(T1)
            words(*constant(A3, at), store(self.rng.choice(STORES), T1, A3))
        elif which == 4:
            # one byte of a word is a number
            words(addi(SP, SP, -16), store(0, SUM, SP), lw(T1, SP), addi(SP, SP, 16), *constant(A3, at),
                  store(self.rng.choice((0, 0, 1, 2)), T1, A3))
        elif which == 5:
            words(*constant(A3, at), lw(SP, A3))
        else:
            words(lw(RA, SP, 12), addi(SP, SP, 16), sw(SUM, SP, -16))


def made_interrupts(rng, memory):
    """Interrupts by chance, before commits that are close together."""
    at, interrupts = 0, []
    gap, reach = rng.choice((1, 3, 20)), rng.choice((16, 256, 256))
    for _ in range(rng.choice((0, 5, 60, 300))):
        at += rng.randrange(gap + 1)
        done = [rng.randrange(14) for _ in range(rng.choice((0, 0, 1, 3)))]
        dirt = [(memory.stack_high - 1 - rng.randrange(reach), rng.randrange(256)) for _ in range(rng.choice((0, 0, 1, 4)))]
        interrupts.append((at, done, dirt))
    return interrupts


# ---- cases


class Run:
    """A run of a model: its line, its steps, and the machine as it was left."""

    def __init__(self, machine, line):
        self.machine, self.line, self.events = machine, line, machine.events
        self.steps = machine.steps if isinstance(machine, symbolic_machine.Machine) else machine.commits

    def ended(self):
        """How a call must end."""
        word, *rest = self.line.split()
        status = min(118, int(rest[0])) if word == 'exited' else {'stuck': 126, 'stopped': 126, 'spent': 127}[word]
        return status, self.machine.written[1], self.machine.written[2] + self.line.encode() + b'\n'


class Case:
    """A list of objects, a map, a text of devices, an input and a plan."""

    def __init__(self, rng):
        self.memory = rng.choice((STANDARD, STANDARD, made_map(rng)))
        lines = made_lines(rng, self.memory)
        while not lines:
            lines = made_lines(rng, self.memory)
        self.text = devices_text(lines)
        made = made_program(rng, rng.random() < 0.05, functools.partial(Driver, Found(lines, self.memory)))
        self.files = [read.bytes() for read in made.objects]
        self.given = random_bytes(rng, rng.choice((0, 5, 40, 400)))
        self.interrupts = made_interrupts(rng, self.memory)
        if rng.random() < 0.1:
            self.text = changed(rng, self.text)

    def traced(self, devices, steps=STEPS):
        machine = symbolic_machine.Machine([Object(data) for data in self.files], self.given, self.memory, devices)
        return Run(machine, symbolic_machine.run(machine, steps))

    def ran(self, image, devices, interrupts, steps=STEPS, first=None):
        """The run of an image, from where `run` starts, or from a first state by chance that this number names."""
        machine = zc_machine.Machine(image, self.given, self.memory, devices)
        if first is not None:
            machine.start_by_chance(first)
        return Run(machine, zc_machine.run(machine, interrupts, steps))


def events_agree(case, image, devices, interrupts, traced, first=None):
    """The image's events begin with the program's, within 64 times its steps and 3, and end with them at an exit."""
    most, ran = 64 * traced.steps + 3, case.ran(image, devices, interrupts, first=first)
    if len(ran.events) < len(traced.events) and ran.line == 'spent':
        ran = case.ran(image, devices, interrupts, most, first)
    is_exit, addresses = traced.line.startswith('exited'), listed_places(image)
    events = ran.events if is_exit else ran.events[:len(traced.events)]
    wanted = [event_in(event, addresses) for event in traced.events]
    if events != wanted or is_exit and (ran.line != traced.line or ran.steps > most):
        raise Differs(f'the objects have {traced.events[-3:]} and {traced.line}, and the image {ran.events[-3:]} and {ran.line}')


def images_of(case):
    """The image of each link."""
    return {'plain': plain(case.files, case.memory)[0], 'zc': link_of(case.files, case.memory).link.image()}


def model_counts(devices, traced):
    """What a case has, as the counts are named."""
    kinds = collections.Counter(kind for kind, *_ in traced.events)
    word, *rest = traced.line.split()
    yield f'{word} {rest[-1]}' if word == 'stuck' else word, 1
    yield 'with answers', devices.own is not None
    yield 'loads', kinds['Load']
    yield 'stores', kinds['Store']
    yield 'reads and writes', kinds['Read'] + kinds['Write']
    yield 'instructions of the system', kinds['System']
    yield 'addresses handed out', sum(isinstance(word, tuple) for _, *rest in traced.events for word in rest)
    yield 'with sp not set at the start', devices.reset
    yield 'with sp set then', devices.reset and traced.machine.is_sp_set
    yield 'short answers', sum(event[0] == 'Load' and len(event[3]) < event[2] for event in traced.events)


class Calls:
    """Calls of the program in a folder, over the files of a case."""

    def __init__(self, folder, case):
        self.folder, self.case, self.map = folder, case, words_of_map(case.memory)
        self.names = folder.write_list(case.files)
        for name, data in (('devices', case.text), ('plan', zc_machine.plan_of(case.interrupts)), ('input', case.given)):
            folder.write(name, data)

    def must_end(self, words, wanted, taken=None):
        """A call ends so, and takes this many bytes of its input."""
        with open(self.folder.path('input'), 'rb') as given:
            ended = self.folder.run([words[0], *self.map, *words[1:]], given)
            at = os.lseek(given.fileno(), 0, os.SEEK_CUR)
        if tuple(ended) != wanted or taken not in (None, at):
            raise Differs(f'{words}: {ended} after {at} bytes of input, in place of {wanted} after {taken}')

    def follows(self, words, files, run, taken):
        """A command ends as a run of a model does, and not with a step less."""
        command, *options = words
        self.must_end([command, '--devices', 'devices', *options, '--steps', str(STEPS), *files], run.ended(), taken)
        last = run.steps - run.line.startswith('exited')
        if run.line != 'spent':
            self.must_end([command, *options, '--steps', str(last + 1), '--devices', 'devices', *files], run.ended())
            spent = 127, run.machine.written[1], run.machine.written[2] + b'spent\n'
            self.must_end([command, '--devices', 'devices', *options, '--steps', str(last), *files], spent)

    def refused(self, fault):
        """Both commands name the fault of the text, and take no input."""
        wanted = 125, b'', f'bad devices {fault}\n'.encode()
        self.must_end(['trace', '--devices', 'devices', *self.names], wanted, 0)
        self.must_end(['run', '--plan', 'plan', '--devices', 'devices', 'plain'], wanted, 0)

    def write_images(self, images):
        """The links write the images of the models."""
        for command, more in (('plain', ()), ('zc', ('--cert', 'cert'))):
            self.folder.run([command, *self.map, '--out', command, *more, *self.names])
            if self.folder.read(command) != images[command]:
                raise Differs(f'{command} writes another image')


def look(folder, rng, counts):
    """Raises what differs in a case by chance, if anything does. Without a folder only the models are compared."""
    case = Case(rng)
    calls = folder and Calls(folder, case)
    fault = first_fault(case.files, case.memory)
    if fault:
        counts['refused'] += 1
        if calls:
            calls.must_end(['trace', '--devices', 'devices', *calls.names], (121, b'', told(fault) + b'\n'), 0)
        return
    images = images_of(case)
    if calls:
        calls.write_images(images)
    try:
        devices = read_devices(case.text, case.memory)
    except BadDevices as why:
        counts['bad devices'] += 1
        if calls:
            calls.refused(why)
        return
    traced = case.traced(devices)
    counts.update(dict(model_counts(devices, traced)))
    taken = len(case.given) if devices.own is None else 0
    if calls:
        calls.follows(['trace'], calls.names, traced, taken)
    for link, image in images.items():
        for interrupts in ([], case.interrupts):
            for first in (None, rng.getrandbits(32)):
                events_agree(case, image, devices, interrupts, traced, first)
            if calls:
                options = ['run', '--plan', 'plan'] if interrupts else ['run']
                calls.follows(options, [link], case.ran(image, devices, interrupts), taken)


def main():
    words = argparse.ArgumentParser(description='Compares runs with devices with those of the models.')
    words.add_argument('--seed', type=int, default=1)
    words.add_argument('--count', type=int, default=1000)
    words.add_argument('--models', action='store_true')
    words.add_argument('program', nargs='?', default=programs.BUILT)
    given, counts = words.parse_args(), collections.Counter()
    program = None if given.models else programs.built(given.program)
    for seed in range(given.seed, given.seed + given.count):
        with tempfile.TemporaryDirectory() as place:
            try:
                look(program and Folder(program, place), random.Random(f'devices {seed}'), counts)
            except Differs as why:
                sys.exit(f'seed {seed}: {why}')
    print(f'{given.count} lists: ' + ', '.join(f'{count} {what}' for what, count in sorted(counts.items())))


if __name__ == '__main__':
    main()
