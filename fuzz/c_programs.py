#!/usr/bin/env python3
"""Compiles random C programs, links them, runs and traces them, and compares them with GNU ld's link under qemu-riscv32.

    fuzz/c_programs.py [--seed S] [--count N] [--seconds T] [--runs R] [--only CASE] [--zcmp] [--flags FLAGS]...
                       [--keep FOLDER] [PROGRAM]

PROGRAM is build/zcld if none is given. It needs csmith with its headers (Debian: csmith, libcsmith-dev), GCC and GNU ld for
RISC-V, qemu-riscv32, and Clang for its flags. A case is fixed by the seed and its number: the program that csmith generates
from their sum, and one of the lists of flags in turn, or of those that are given, as `gcc -O2` or `clang -Os -mrelax`. Each third
list is for compressed code; with --zcmp all are for Zca, Zcb and Zcmp, which needs Clang 19. The program is joined with what it
needs of libgcc by `ld -r`, and linked with the start of examples/firmware and with c_runtime/, which aren't compressed beside
programs without compressed code and beside three of seven others. With R above 1 it is run this many times in one, each time with
its data as at its start: most of csmith's programs make fewer than a hundred thousand steps. Checked are:

- `plain`, `zc` and `trace` refuse the objects alike;
- the images of both links write what the same objects write that GNU ld links with relaxation and qemu-riscv32 runs, and exit
  as they do; csmith's programs write a checksum of their global variables. In place of objects for Zcmp qemu-riscv32 runs those
  of the same program for RV32IM;
- `trace` writes and ends so too, or is stuck, and then has written the beginning of that.

Of a program that is stuck in `trace` nothing is promised, so it is no failure if an image does something else; but it is
counted. It says how many programs did alike, which of them took a million steps or more, and why others were refused, stuck
or left out: those that aren't compiled, that qemu-riscv32 doesn't end within some seconds of the processor, and that take more
commits than a run may make. It stops at the first difference, with status 1, and FOLDER then has the source, the objects and
the images.
"""
import argparse
import collections
import os
import re
import resource
import shutil
import signal
import sys
import tempfile
import time

sys.path[:0] = (os.path.join(os.path.dirname(os.path.abspath(__file__)), os.pardir, it) for it in ('scripts', 'models'))

from zcld_tools import TOP, programs
from zcld_tools.files import read
from zcld_tools.programs import Failed

RUNTIME, FIRMWARE = os.path.join(TOP, 'fuzz', 'c_runtime'), os.path.join(TOP, 'examples', 'firmware')
CSMITH_HEADERS = os.path.join(os.sep, 'usr', 'include', 'csmith')
# The targets, without and with compressed code and with pushes and pops too, and those for which GCC's libraries are made.
PLAIN, COMPRESSED, ABI = '-march=rv32im', '-march=rv32imc', '-mabi=ilp32'
ZCMP = '-march=rv32im_zca_zcb_zcmp'
LIBRARIES = {PLAIN: PLAIN, COMPRESSED: '-march=rv32imac', ZCMP: PLAIN}
USUAL = PLAIN, ABI, '-ffreestanding', '-fno-pic', '-w'
COMPILERS = {'gcc': (tuple(prefix + 'gcc' for prefix in programs.PREFIXES), ()),
             'clang': (('clang-19', 'clang'), ('--target=riscv32-unknown-elf', '-Wno-unused-command-line-argument'))}
FLAGS = ('gcc -Og', 'clang -O0', f'gcc -Os {COMPRESSED} -fno-section-anchors',
         'gcc -O1', 'clang -O1', f'clang -Os {COMPRESSED} -mrelax',
         'gcc -O2', 'clang -O2 -mrelax', f'gcc -O2 {COMPRESSED} -fno-section-anchors -ffunction-sections -fdata-sections',
         'gcc -O3', 'clang -O3', f'clang -O3 {COMPRESSED} -ffunction-sections',
         'gcc -Os', 'clang -Os -mrelax', f'gcc -O0 {COMPRESSED}',
         'gcc -Os -fno-section-anchors', 'clang -Oz -ffunction-sections -fdata-sections', f'clang -O0 {COMPRESSED} -mrelax',
         'gcc -O2 -fno-section-anchors -ffunction-sections -fdata-sections', 'clang -O1 -fno-jump-tables -mcmodel=medany',
         f'gcc -O3 {COMPRESSED} -fno-section-anchors -funroll-loops -mno-relax',
         'gcc -O3 -fno-section-anchors -funroll-loops', 'clang -Os -msmall-data-limit=8 -mrelax',
         f'clang -O1 {COMPRESSED} -mcmodel=medany -fno-jump-tables',
         'gcc -Os -fno-section-anchors -mno-relax -msmall-data-limit=0', 'clang -O3 -mno-relax -ffunction-sections',
         f'gcc -Os {COMPRESSED} -fno-section-anchors -msave-restore',
         'gcc -Os -fno-section-anchors -msave-restore', 'clang -O2 -mno-relax', f'clang -Oz {COMPRESSED} -mno-relax')
FLAGS_OF_ZCMP = tuple(f'clang {flags} {ZCMP}' for flags in (
    '-Os', '-Oz -mrelax', '-O2 -mrelax', '-O0', '-O1 -ffunction-sections', '-O3', '-Os -mrelax -msmall-data-limit=8',
    '-Oz -ffunction-sections -fdata-sections', '-O2 -mno-relax -mcmodel=medany', '-O1 -mrelax -fno-jump-tables', '-O0 -mrelax',
    '-O3 -mrelax -funroll-loops'))
SHARED = {PLAIN: f'gcc -Os -fno-tree-loop-distribute-patterns {PLAIN}',
          COMPRESSED: f'gcc -Os -fno-tree-loop-distribute-patterns {COMPRESSED}', ZCMP: f'clang -Os {ZCMP}'}
STEPS = 50_000_000
# From this many steps on a program counts as a long one.
MANY_STEPS = 1_000_000
QEMU = 'qemu-riscv32'
# The seconds of the processor that csmith or a compiler may take, those of qemu-riscv32, and those of elapsed time.
MOST, MOST_OF_QEMU, BY_CLOCK = 10, 2, 120


class Left(Exception):
    """Why nothing is compared of a program."""


class Differs(Exception):
    """Two answers that aren't the same."""


def in_time(seconds=MOST):
    programs.limit(resource.RLIMIT_CPU, seconds)


class Tools:
    """The programs that are called, a folder for what they make, and the input of the runs."""

    usual = USUAL

    def __init__(self, program, folder, given=b''):
        self.program, self.folder, self.given = program, folder, given
        self.linker = programs.found(*programs.GNU_LINKERS)
        self.compilers = {name: programs.found(*names) for name, (names, _) in COMPILERS.items()}
        if None in (self.linker, self.compilers['gcc'], programs.found(QEMU)):
            sys.exit('it needs GCC and GNU ld for RISC-V, and qemu-riscv32')
        self.libgcc = {target: programs.told([self.compilers['gcc'], library, ABI, '-print-libgcc-file-name']).strip()
                       for target, library in LIBRARIES.items()}

    def path(self, name):
        return os.path.join(self.folder, name)

    def compiled(self, flags, source, more=''):
        """The object of a source file, which has more in its name. Flags begin with the compiler's name."""
        compiler, *words = flags.split()
        out = self.path(os.path.splitext(os.path.basename(source))[0] + more + '.o')
        programs.told([self.compilers[compiler], *COMPILERS[compiler][1], *self.usual, *words, '-c', source, '-o', out],
                      first=in_time)
        return out

    def joined(self, flags, files, *words):
        """Objects and archives as one object, with what they need of libgcc."""
        out = self.path('joined.o')
        programs.told([self.linker, *programs.FORMAT, '-r', *words, '-o', out, '--start-group', *files,
                       self.libgcc[target_of(flags)], '--end-group'])
        return out

    def reference(self, objects):
        """What qemu-riscv32 makes of GNU ld's link: the status and the output."""
        out = self.path('reference')
        programs.told([self.linker, *programs.FORMAT, '-T', os.path.join(RUNTIME, 'memory.ld'), '-o', out, *objects])
        try:
            ended = programs.run([QEMU, out], self.given, first=lambda: in_time(MOST_OF_QEMU))
        except Failed:
            raise Left(f'no end under {QEMU}') from None
        if ended.status < 0:
            is_long = ended.status in (-signal.SIGXCPU, -signal.SIGKILL)
            raise Left(f'no end under {QEMU}' if is_long else f'signal {-ended.status} under {QEMU}')
        return ended.status, ended.out

    def call(self, *words):
        return programs.run([self.program, *words], self.given)

    def has_zcmp(self):
        """Whether Clang compiles for Zcmp."""
        words = ZCMP, '-c', '-x', 'c', os.devnull, '-o', os.devnull
        clang = self.compilers['clang']
        return clang is not None and programs.run([clang, *COMPILERS['clang'][1], *self.usual, *words]).status == 0


class Generator(Tools):
    """The same with csmith, and the objects that all programs are linked with."""

    usual = (*USUAL, '-isystem', RUNTIME, '-isystem', CSMITH_HEADERS)

    def __init__(self, program, folder, runs=1, targets=(PLAIN, COMPRESSED)):
        super().__init__(program, folder)
        if programs.found('csmith') is None:
            sys.exit('it needs csmith')
        self.more, again = ('', []) if runs == 1 else (' -Dmain=program', [os.path.join(RUNTIME, 'again.c')])
        sources = *again, *(os.path.join(FIRMWARE, name) for name in ('start.s', 'support.c')), os.path.join(RUNTIME, 'runtime.c')
        self.shared = {target: [self.compiled(f'{SHARED[target]} -DRUNS={runs}', source, target) for source in sources]
                       for target in targets}

    def made(self, number, flags):
        """The object of the program with this number, joined with what it needs of libgcc."""
        source = self.path('program.c')
        try:
            programs.told(['csmith', '--no-argc', '--seed', str(number), '--output', source], cwd=self.folder, first=in_time)
            return self.joined(flags, [self.compiled(flags + self.more, source)])
        except Failed as why:
            raise Left(f'not generated or compiled: {os.path.basename(str(why).split()[0])}') from None


def target_of(flags):
    """The target of a compiler's flags."""
    return next((target for target in (COMPRESSED, ZCMP) if target in flags.split()), PLAIN)


def last_line(ended):
    return ended.err.decode('latin-1').rstrip('\n').rsplit('\n', 1)[-1]


def refusal(tools, objects):
    """Links the objects both ways, and gives the line of the refusal, or none."""
    plain = tools.call('plain', '--out', tools.path('plain'), *objects)
    zc = tools.call('zc', '--out', tools.path('zc'), '--cert', tools.path('cert'), *objects)
    if (plain.status, plain.err) != (zc.status, zc.err):
        raise Differs(f'plain ends with {plain.status} and {last_line(plain)}, zc with {zc.status} and {last_line(zc)}')
    if plain.status not in (0, 121):
        raise Differs(f'plain ends with {plain.status} and {last_line(plain)}')
    return plain.err or None


def check_image(tools, name, wanted):
    """An image's run writes and exits as the reference does."""
    ran = tools.call('run', '--steps', str(STEPS), tools.path(name))
    if ran == (127, wanted[1][:len(ran.out)], b'spent\n'):
        raise Left(f'more than {STEPS} commits')
    if (ran.out, ran.err) != (wanted[1], b'exited %d\n' % wanted[0]):
        raise Differs(f'run of {name} ends with {ran}, and not with {wanted}')


def traced(tools, objects, wanted):
    """Why `trace` doesn't come to the end of the reference, or none."""
    ended = tools.call('trace', '--steps', str(STEPS), *objects)
    line = last_line(ended)
    if (ended.out, ended.err) == (wanted[1], b'exited %d\n' % wanted[0]):
        return None
    if line == 'spent':
        raise Left(f'more than {STEPS} steps')
    if line.startswith('stuck ') and wanted[1].startswith(ended.out):
        return 'stuck in trace: ' + line.split()[-1]
    raise Differs(f'trace ends with {ended}, and not with {wanted}')


def is_long(tools, objects):
    """Whether `trace` of objects makes many steps."""
    return last_line(tools.call('trace', '--steps', str(MANY_STEPS), *objects)) == 'spent'


def case(tools, number, flags):
    """What one program comes to."""
    target, wanted = PLAIN if number % 7 < 3 else target_of(flags), None
    if target_of(flags) == ZCMP:
        wanted = tools.reference([*tools.shared[PLAIN], tools.made(number, flags.replace(ZCMP, PLAIN))])
    return compared(tools, [*tools.shared[target], tools.made(number, flags)], wanted)


def compared(tools, objects, wanted=None):
    """What objects come to. They must do what is wanted, or what they do by GNU ld and qemu-riscv32."""
    line = refusal(tools, objects)
    if line:
        ended = tools.call('trace', *objects)
        if ended != (121, b'', line):
            raise Differs(f'trace ends with {ended}, and plain with {line}')
        why = re.sub(r'^refused \d+ \d+ ', '', line.decode().strip())
        anchors = ', with section anchors' if 'BadSymbol' in why and b'.LANCHOR' in b''.join(map(read, objects)) else ''
        return f'refused: {why}{anchors}'
    wanted = wanted or tools.reference(objects)
    stuck, differ = traced(tools, objects, wanted), []
    for name in ('plain', 'zc'):
        try:
            check_image(tools, name, wanted)
        except Differs:
            if not stuck:
                raise
            differ.append(name)
    ended = stuck or ('alike, in a million steps or more' if is_long(tools, objects) else 'alike')
    return ended + ''.join(f', and the image of {name} does something else' for name in differ)


def keep(tools, folder, name):
    """Keeps the files of a case."""
    place = os.path.join(folder, name)
    shutil.copytree(tools.folder, place, dirs_exist_ok=True)
    return place


def say(counts, alike, begun):
    """Prints the figures, of all programs and of each list of flags."""
    total = sum(counts.values())
    print(f'{total} programs in {time.monotonic() - begun:.0f} s')
    for what, count in counts.most_common():
        print(f'{count:6} {what}')
    for flags, (same, tried) in sorted(alike.items()):
        print(f'{same:6} of {tried:4} alike: {flags}')


def main():
    arguments = argparse.ArgumentParser(description='Compares random C programs with GNU ld and qemu-riscv32.')
    arguments.add_argument('program', nargs='?', default=programs.BUILT)
    arguments.add_argument('--seed', type=int, default=1)
    arguments.add_argument('--count', type=int, default=1000)
    arguments.add_argument('--seconds', type=float, default=3600)
    arguments.add_argument('--runs', type=int, default=1, help='how many times each program is run in one')
    arguments.add_argument('--only', type=int, help='one case, by its number')
    arguments.add_argument('--zcmp', action='store_true', help='the lists for Zcmp')
    arguments.add_argument('--flags', action='append', help='a compiler and its flags, in place of the usual lists')
    arguments.add_argument('--keep', default=os.path.join('build', 'fuzz'))
    given = arguments.parse_args()
    counts, alike, begun, wrong = collections.Counter(), {}, time.monotonic(), 0
    programs.TIME_OUT = BY_CLOCK
    with tempfile.TemporaryDirectory() as folder:
        tools = Generator(programs.built(given.program), folder, given.runs, SHARED if given.zcmp else (PLAIN, COMPRESSED))
        lists = given.flags or [flags for flags in (FLAGS_OF_ZCMP if given.zcmp else FLAGS) if tools.compilers[flags.split()[0]]]
        for number in range(given.count) if given.only is None else (given.only,):
            if time.monotonic() - begun > given.seconds:
                break
            flags = lists[number % len(lists)]
            try:
                told = case(tools, given.seed + number, flags)
            except Left as why:
                told = f'left out: {why}'
            except (Differs, Failed) as why:
                wrong += 1
                print(f'WRONG: case {number}, {flags}: {why}; files: {keep(tools, given.keep, f"c-{given.seed}-{number}")}')
                break
            counts[told] += 1
            same, tried = alike.get(flags, (0, 0))
            alike[flags] = same + told.startswith('alike'), tried + 1
            print(f'case {number}, {flags}: {told}', file=sys.stderr)
    say(counts, alike, begun)
    print(f'{wrong} wrong')
    return wrong > 0


if __name__ == '__main__':
    sys.exit(main())
