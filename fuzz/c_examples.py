#!/usr/bin/env python3
"""Compiles the programs in examples/ in many ways, links them, runs and traces them, and compares them with GNU ld's link under
qemu-riscv32.

    fuzz/c_examples.py [--zcmp] [--keep FOLDER] [PROGRAM]

PROGRAM is build/zcld if none is given. It needs GCC and GNU ld for RISC-V, qemu-riscv32, and Clang for its flags. Each program,
and the one in bench/sizes/ that needs picolibc, if it is installed, is compiled with both compilers, at each level, with hints for
relaxation and without, without compressed code and with it, and by Clang 19 for Zca, Zcb and Zcmp too. Its objects are linked as
they are, with a start of the other kind, and joined by `ld -r` with what they need of libgcc and without what nothing needs. What
is checked is in c_programs.py. The status is 1 if something differs, and FOLDER then has the objects and the images. With --zcmp
only what is compiled for Zcmp is checked.
"""
import argparse
import collections
import itertools
import os
import sys
import tempfile
import time
from typing import NamedTuple

sys.path[:0] = (os.path.join(os.path.dirname(os.path.abspath(__file__)), os.pardir, it) for it in ('scripts', 'models'))

from c_programs import (BY_CLOCK, COMPRESSED, FIRMWARE, LIBRARIES, PLAIN, ZCMP, Differs, Left, Tools, compared, keep,
                        target_of)
from zcld_tools import TOP, programs
from zcld_tools.files import read
from zcld_tools.programs import Failed

EXAMPLES, LIBRARY, PICOLIBC = os.path.join(TOP, 'examples'), 'library', '/usr/lib/picolibc/riscv64-unknown-elf'
LEVELS, HINTS = ('-O0', '-O1', '-O2', '-O3', '-Os'), ('-mrelax', '-mno-relax')
# What GCC must be told: anchors of sections lie past their ends, and the loop in memset is no call of memset.
MORE = {'gcc': '-fno-section-anchors -fno-tree-loop-distribute-patterns', 'clang': '-Wno-unused-command-line-argument'}
SEPARATE = '-ffunction-sections -fdata-sections'
# The ways in which objects are linked, with flags of their own.
AS_THEY_ARE, BESIDE, JOINED = 'as they are', 'beside a start of the other kind', 'joined'
WAYS = ((AS_THEY_ARE, SEPARATE), (BESIDE, ''), (JOINED, SEPARATE))


class Program(NamedTuple):
    """A program: its name, its sources, and its input."""

    name: str
    sources: list
    given: bytes = b''

    def words(self, flags):
        """The words for the compiler, which tell it where headers are."""
        if not self.has_library():
            return f' -I{FIRMWARE}'
        return ' --specs=picolibc.specs' if flags.startswith('gcc') else f' -isystem {PICOLIBC}/include'

    def has_library(self):
        return self.name == LIBRARY

    def libraries(self, target):
        """The archives of picolibc, if it needs them."""
        folder = os.path.join(PICOLIBC, 'lib', LIBRARIES[target].split('=')[1], 'ilp32')
        return [os.path.join(folder, it) for it in ('libc.a', 'libm.a')] if self.has_library() else []

    def objects(self, tools, flags, way):
        """The objects that are linked."""
        target = target_of(flags)
        of_start = flags.replace(target, COMPRESSED if target == PLAIN else PLAIN) if way == BESIDE else flags
        firmware = ['start.s'] if self.has_library() else ['start.s', 'support.c']
        made = [tools.compiled(of_start + self.words(flags), os.path.join(FIRMWARE, it)) for it in firmware]
        made += [tools.compiled(flags + self.words(flags), it) for it in self.sources]
        if way == JOINED or self.has_library():
            return [tools.joined(flags, [*made, *self.libraries(target)], '--gc-sections', '-e', '_start')]
        return made


def listed():
    """The programs."""
    for name in ('monitor', 'events', 'numbers'):
        folder = os.path.join(EXAMPLES, name)
        path = os.path.join(folder, 'input')
        yield Program(name, sorted(os.path.join(folder, it) for it in os.listdir(folder) if it.endswith('.c')),
                      given=read(path) if os.path.exists(path) else b'')
    if os.path.isdir(PICOLIBC):
        source = os.path.join(TOP, 'bench', 'sizes', LIBRARY + '.c')
        yield Program(LIBRARY, [source], b'3.5 1e3\n-2.25e-1 7\n')


def has(compiler, program, target):
    """Whether a compiler makes a program for a target: GCC not for Zcmp, and Clang what needs picolibc for Zcmp alone."""
    return target != ZCMP if compiler == 'gcc' else target == ZCMP or not program.has_library()


def lists(program, compilers, targets):
    """The flags, and in which way each list's objects are linked."""
    for compiler, level, target, hints, (way, more) in itertools.product(compilers, LEVELS, targets, HINTS, WAYS):
        if has(compiler, program, target):
            yield ' '.join((compiler, level, target, hints, MORE[compiler], more)), way


def outcome(tools, program, flags, way):
    """What one list comes to."""
    wanted = None
    if target_of(flags) == ZCMP:
        wanted = tools.reference(program.objects(tools, flags.replace(ZCMP, PLAIN), way))
    return compared(tools, program.objects(tools, flags, way), wanted)


def check(tools, program, counts, targets):
    """Checks each list of a program, and counts what they come to. Gives what differs, or none."""
    for flags, way in lists(program, [name for name, path in tools.compilers.items() if path], targets):
        try:
            told = outcome(tools, program, flags, way)
        except Left as why:
            told = f'left out: {why}'
        except (Differs, Failed) as why:
            return f'{flags}, {way}: {why}'
        counts[told] += 1
        print(f'{program.name}, {flags}, {way}: {told}', file=sys.stderr)
    return None


def main():
    arguments = argparse.ArgumentParser(description='Compares the programs in examples/ with GNU ld and qemu-riscv32.')
    arguments.add_argument('program', nargs='?', default=programs.BUILT)
    arguments.add_argument('--zcmp', action='store_true', help='what is compiled for Zcmp alone')
    arguments.add_argument('--keep', default=os.path.join('build', 'fuzz'))
    given = arguments.parse_args()
    counts, begun, wrong = collections.Counter(), time.monotonic(), 0
    programs.TIME_OUT = BY_CLOCK
    for program in listed():
        with tempfile.TemporaryDirectory() as folder:
            tools = Tools(programs.built(given.program), folder, program.given)
            targets = [ZCMP] * tools.has_zcmp()
            differs = check(tools, program, counts, targets if given.zcmp else [PLAIN, COMPRESSED, *targets])
            if differs:
                wrong += 1
                print(f'WRONG: {program.name}, {differs}; files: {keep(tools, given.keep, f"c-{program.name}")}')
    print(f'{sum(counts.values())} lists of objects in {time.monotonic() - begun:.0f} s')
    for what, count in counts.most_common():
        print(f'{count:6} {what}')
    print(f'{wrong} wrong')
    return wrong > 0


if __name__ == '__main__':
    sys.exit(main())
