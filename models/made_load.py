#!/usr/bin/env python3
"""The programs that `make` generates, as docs/FORMATS.md has them ("Generated objects"), and the summary of what becomes of them.

    models/made_load.py [--out PREFIX] NUMBER FUNCTIONS

prints the summary that `make` prints, and with PREFIX writes the objects as `make` does. It is independent of the program, so that
both can be compared: the objects are made by the rule, the links are those of plain_link.py and zc_link.py, and they run on
symbolic_machine.py and zc_machine.py.
"""
import argparse
import os
import sys
from typing import NamedTuple

sys.path.insert(0, os.path.join(os.path.dirname(os.path.abspath(__file__)), os.pardir, 'scripts'))

import symbolic_machine
import zc_machine
from object_faults import Object
from plain_link import plain
from zc_link import link_of
from zcld_tools.elf import CALL, DATA_FLAGS, DATA_TYPE, FUNCTION_TYPE, HI20, LO12_I, LO12_S, LOCAL, NOBITS
from zcld_tools.files import write_list
from zcld_tools.images import STACK_HIGH
from zcld_tools.instructions import (A0, A1, A2, A7, CALL_WORDS, ECALL, EXIT_WORDS, RA, RET, S0, SP, T1, WRITE_CALL, ZERO, add,
                                     addi, branch, immediate, lui, lw, of_format_r, sw)
from zcld_tools.objects import Written

MOST_FUNCTIONS, IN_AN_OBJECT, CUTS, MOST_STEPS = 1600, 8, 200, 100_000_000
BEQ = 0


class Draws:
    """Numbers below 2^31 that are drawn from a number, one after another."""

    def __init__(self, number):
        self.state = number

    def next(self):
        self.state = (self.state * 6364136223846793005 + 1442695040888963407) % (1 << 64)
        return self.state >> 33

    def below(self, end):
        return self.next() % end


# ---- functions


class Call(NamedTuple):
    """A call of the function with this number."""

    function: int


# How a function begins and ends, by its frame: it saves s0 and ra, or ra, or has none.
OPENINGS = ((addi(SP, SP, -16), sw(S0, SP, 12), sw(RA, SP, 8), addi(S0, A0)), (addi(SP, SP, -16), sw(RA, SP, 12)), ())
CLOSINGS = ((of_format_r(0, 4, A0, A0, S0), lw(S0, SP, 12), lw(RA, SP, 8), addi(SP, SP, 16), RET),
            (lw(RA, SP, 12), addi(SP, SP, 16), RET), (RET,))
WITHOUT_FRAME = 2


def operation(kind, value):
    """The words of an operation on a0, by its kind and a number below 2048."""
    return {0: lambda: (addi(A0, A0, value - 1024),),
            1: lambda: (immediate(4, A0, A0, value),),
            2: lambda: (immediate(1, A0, A0, 1 + value % 3),),
            3: lambda: (addi(A1, A0, value % 32), add(A0, A0, A1)),
            4: lambda: (lui(A1, value), of_format_r(0x20, 0, A0, A0, A1)),
            5: lambda: (immediate(5, A0, A0, 0x400 | 1 + value % 3),)}[kind]()


def made_function(draws, number):
    """The code of a function: words, and maybe a call of a function before it."""
    frame = draws.below(len(OPENINGS))
    code = [*OPENINGS[frame]]
    for _ in range(4 + draws.below(8)):
        kind = draws.below(6)
        code += operation(kind, draws.below(2048))
    code += branch(BEQ, A0, ZERO, 8), addi(A0, A0, 1)
    if frame != WITHOUT_FRAME and number > 0:
        code.append(Call(draws.below(number)))
    return [*code, *CLOSINGS[frame]]


def size_of(code):
    return sum(8 if isinstance(it, Call) else 4 for it in code)


# ---- objects


def name_of(function):
    return b'f%d' % function


def add_code(made, text, named, code):
    """Adds code to a section of an object. A function without a symbol gets one that is undefined."""
    for it in code:
        if isinstance(it, Call):
            if it.function not in named:
                named[it.function] = made.symbol(name_of(it.function))
            text.reloc(CALL, named[it.function], 0, CALL_WORDS)
        else:
            text.words(it)


def start_object(number, count):
    """The object with `_start`, which calls all functions in their order, each with what the one before it gave, writes the
    last result, and exits with 0."""
    made = Written()
    text, room = made.section(b'.text'), made.section(b'.bss', NOBITS, DATA_FLAGS, size=4)
    result = made.symbol(b'result', home=room, bind=LOCAL, kind=DATA_TYPE, size=4)
    made.symbol(b'_start', home=text)
    add_code(made, text, {}, [addi(A0, ZERO, number % 2048), *map(Call, range(count))])
    for kind, word in ((HI20, lui(T1)), (LO12_S, sw(A0, T1)), (HI20, lui(A1)), (LO12_I, addi(A1, A1))):
        text.reloc(kind, result, 0, (word,))
    text.words(addi(A0, ZERO, 1), addi(A2, ZERO, 4), addi(A7, ZERO, WRITE_CALL), ECALL, addi(A0, ZERO), *EXIT_WORDS)
    return made.bytes()


def object_of(functions, first):
    """The object of some functions, of which the first has this number."""
    made, named, at = Written(), {}, 0
    text = made.section(b'.text')
    for number, code in enumerate(functions, first):
        named[number] = made.symbol(name_of(number), home=text, value=at, kind=FUNCTION_TYPE, size=size_of(code))
        at += size_of(code)
    for code in functions:
        add_code(made, text, named, code)
    return made.bytes()


def made_objects(number, count):
    """The objects of this many functions, from a number."""
    draws = Draws(number)
    functions = [made_function(draws, k) for k in range(count)]
    return [start_object(number, count), *(object_of(functions[first:first + IN_AN_OBJECT], first)
                                           for first in range(0, count, IN_AN_OBJECT))]


# ---- plans


def made_interrupts(number, count):
    """So many interrupts from a number: the commit, the accesses that were done, and the bytes that are written."""
    draws, at, interrupts = Draws(number), 0, []
    for _ in range(count):
        at += draws.below(64)
        done = draws.next()
        dirt = [(STACK_HIGH - 4096 + draws.below(4096), draws.below(256)) for _ in range(4)]
        interrupts.append((at, [access for access in range(13) if done >> access & 1], dirt))
    return interrupts


def made_plan(number, count=CUTS):
    """The text of the plan with these interrupts."""
    return zc_machine.plan_of(made_interrupts(number, count))


# ---- the summary

# What its lines begin with, in their order. The last four say what was written, and the exit's status.
LINES = ('functions', 'objects', 'plain text', 'zc text', 'net', 'steps', 'commits', 'trace', 'plain', 'zc', 'cuts')
RUNS = LINES[-4:]


class Exit(NamedTuple):
    """An exit: how many steps or commits it took, with it, and what was written, with the status."""

    count: int
    shown: str


def exit_of(line, count, written):
    """The exit that a run came to."""
    word, status = line.split()
    assert word == 'exited', line
    return Exit(count, f'{written[1].hex()} {status}')


def traced(files):
    machine = symbolic_machine.Machine([Object(data) for data in files], b'')
    return exit_of(symbolic_machine.run(machine, MOST_STEPS), machine.steps, machine.written)


def ran(image, interrupts=()):
    machine = zc_machine.Machine(image, b'')
    return exit_of(zc_machine.run(machine, interrupts, MOST_STEPS), machine.commits, machine.written)


def summary(number, count):
    """What `make` prints."""
    files = made_objects(number, count)
    (plain_image, plain_length), linked = plain(files), link_of(files)
    image = linked.link.image()
    trace, zc, cuts = traced(files), ran(image), ran(image, made_interrupts(number, CUTS))
    values = (count, len(files), plain_length, linked.link.length(), linked.certificate.net, trace.count, zc.count, trace.shown,
              ran(plain_image).shown, zc.shown, cuts.shown)
    return ''.join(f'{name} {value}\n' for name, value in zip(LINES, values)).encode()


def read_summary(text):
    """What a summary says, by what its lines begin with."""
    return {name: line.removeprefix(name + ' ') for name, line in zip(LINES, text.decode().splitlines())}


def main():
    arguments = argparse.ArgumentParser(description='Makes the programs that `make` generates.')
    arguments.add_argument('--out', metavar='PREFIX')
    arguments.add_argument('number', type=int)
    arguments.add_argument('functions', type=int)
    given = arguments.parse_args()
    if given.out is not None:
        write_list('', made_objects(given.number, given.functions), given.out + '{}.o')
    print(summary(given.number, given.functions).decode(), end='')


if __name__ == '__main__':
    main()
