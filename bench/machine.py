#!/usr/bin/env python3
"""Measures how fast `run` makes commits, and `trace` steps.

    bench/machine.py [--repeats R] [--commits N] [PROGRAM]        PROGRAM is build/zcld if none is given

Programs are made by rule, each a loop: of arithmetic, of loads and stores (in data and on the stack, of each width), and of
calls and returns; of polls of a device, of copies of a word in it, and of stores that appear. The loop of loads and stores is run
beside a device too, and the polls among many devices. Each makes about N commits, and is run R times as an image by `run`, R
times as an object by `trace`, and as often by each with `--steps 0`. A rate comes from the difference of the least processor
times, so start-up isn't in it. Instructions of the processor for a commit or step come from `perf stat` if the system allows it,
and else from `valgrind --tool=callgrind` of a short run; callgrind also says which functions they go into. The images without
devices run on `qemu-riscv32` and `spike` too, if these are installed; their start-up is in their figures. Beside each rate stands
which part it is of that of `qemu-riscv32` on the image of the same loop.

Then loops that move sp by the stack's 1 MiB down and up in each turn, as objects by `trace`: the time of a turn comes from the
difference of two numbers of turns.
"""
import os
import re
import shutil
import subprocess
import sys
import tempfile
from typing import NamedTuple

sys.path.insert(0, os.path.join(os.path.dirname(os.path.abspath(__file__)), os.pardir, 'scripts'))

from run import SPENT
from zcld_tools.elf import DATA_FLAGS, NOBITS
from zcld_tools.files import write
from zcld_tools.images import DATA_AT, PAGE, TEXT_AT, image_in_pages
from zcld_tools.instructions import (A0, EXIT_WORDS, RA, RET, S0, SP, T0, ZERO, addi, branch, constant, immediate, jal,
                                     load, lui, of_format_r, store, words_of)
from zcld_tools.measured import Call, processor_name, table, words_of_bench
from zcld_tools.objects import object_with
from zcld_tools.programs import built, found

QEMU = 'qemu-riscv32'
# The register that counts the turns of a loop, and the one that has the address of data.
COUNT, BASE = T0, S0
BNE = 1

# The stack's pages and its size, and the turns of loops that move sp over them.
STACK_PAGES = 256
STACK_SIZE = STACK_PAGES * PAGE
SP_TURNS = 2000

# The commits of a run that callgrind follows.
FOLLOWED = 100_000

ARITHMETIC = [
    of_format_r(0, 0, 6, 6, 7),     # add x6,x6,x7
    of_format_r(0, 4, 7, 7, 6),     # xor x7,x7,x6
    immediate(1, 11, 6, 3),         # slli x11,x6,3
    of_format_r(0, 3, 9, 7, 11),    # sltu x9,x7,x11
    of_format_r(0x20, 0, 12, 9, 6), # sub x12,x9,x6
    of_format_r(1, 0, 13, 12, 6),   # mul x13,x12,x6
]

ACCESSES = [
    load(2, 6, BASE, 0),            # lw x6,0(x8)
    addi(6, 6, 1),
    store(2, 6, BASE, 0),           # sw x6,0(x8)
    load(5, 7, BASE, 2),            # lhu x7,2(x8)
    store(1, 6, BASE, 8),           # sh x6,8(x8)
    load(0, 9, BASE, 5),            # lb x9,5(x8)
    store(0, 6, BASE, 4),           # sb x6,4(x8)
    load(2, 11, SP, -4),            # lw x11,-4(sp)
    store(2, 6, SP, -4),            # sw x6,-4(sp)
]

# The function stands before the loop: it keeps ra on the stack and calls one that only counts.
COUNTS = [addi(A0, A0, 1), RET]
CALLED = [addi(SP, SP, -16), store(2, RA, SP, 12), jal(RA, -16), load(2, RA, SP, 12), addi(SP, SP, 16), RET]


# A device of a page, and one of many of 4 bytes each behind it. `then` answers all polls.
DEVICE_AT, MANY = 0x20000000, 300_000
TITLE, DEVICE, SHOWN = b'zcld devices 1\n', b'device 20000000 00001000\n', b'output 20000000\n'
ANSWERS = b'then 00\n'

POLLS = [
    load(4, 6, BASE, 4),            # lbu x6,4(x8)
    immediate(7, 6, 6, 1),          # andi x6,x6,1
]
COPIES = [
    load(2, 6, BASE, 0),            # lw x6,0(x8)
    store(2, 6, BASE, 8),           # sw x6,8(x8)
]
SHOWS = [
    store(0, ZERO, BASE, 0),        # sb x0,0(x8)
    addi(6, 6, 1),
]


class Loop(NamedTuple):
    """A program that is a loop: its code, its entry, and the text of its devices, or none."""

    text: bytes
    entry: int
    devices: bytes = None


def looped(body, each, commits, before=(), base=DATA_AT, devices=None):
    """A program that makes the body so often that there are about this many commits, then exits with 0."""
    start = [addi(6, ZERO, 1), addi(7, ZERO, 2), addi(A0, ZERO), lui(BASE, base >> 12), *constant(COUNT, commits // (each + 2))]
    loop = [*body(4 * (len(before) + len(start))), addi(COUNT, COUNT, -1)]
    loop.append(branch(BNE, COUNT, ZERO, -4 * len(loop)))
    return Loop(words_of(*before, *start, *loop, addi(A0, ZERO), *EXIT_WORDS), TEXT_AT + 4 * len(before), devices)


def with_device(words, commits, text):
    """A loop of these words, whose base register has the address of a device."""
    return looped(lambda at: words, len(words), commits, base=DEVICE_AT, devices=TITLE + text)


def many_devices():
    """The lines of as many devices, behind the first one."""
    return b''.join(b'device %08x 00000004\n' % (DEVICE_AT + 0x1000 + 16 * k) for k in range(MANY))


def object_of(text, entry):
    """An object with the code, whose `_start` is the entry, and with a page of zeroed data."""
    made, code = object_with()
    code.content += text
    made.symbols[0].value = entry - TEXT_AT
    made.section(b'.bss', NOBITS, DATA_FLAGS, size=PAGE)
    return made.bytes()


def programs(commits):
    called = [*COUNTS, *CALLED]
    accesses = looped(lambda at: ACCESSES, len(ACCESSES), commits)
    return {
        'arithmetic': looped(lambda at: ARITHMETIC, len(ARITHMETIC), commits),
        'loads and stores': accesses,
        'calls and returns': looped(lambda at: [jal(RA, 4 * len(COUNTS) - at)], 1 + len(called), commits, called),
        'loads and stores, beside a device': accesses._replace(devices=TITLE + DEVICE + ANSWERS),
        'polls of a device': with_device(POLLS, commits, DEVICE + ANSWERS),
        f'polls of a device among {MANY:,}': with_device(POLLS, commits, many_devices() + DEVICE + ANSWERS),
        'copies of words in a device': with_device(COPIES, commits, DEVICE + ANSWERS),
        'bytes that appear': with_device(SHOWS, commits, DEVICE + SHOWN),
    }


def sp_loops():
    """Objects whose loop moves sp down and up, by what each turn writes: the steps before the loop, those of a turn, and the object."""
    size, page, here, left = 6, 7, 9, 11
    down, up = of_format_r(0x20, 0, SP, SP, size), of_format_r(0, 0, SP, SP, size)
    each = [store(2, ZERO, here, 0), of_format_r(0, 0, here, here, page), addi(left, left, -1)]
    each.append(branch(BNE, left, ZERO, -4 * len(each)))
    pages = [lui(page, PAGE >> 12), addi(here, SP, 0), *constant(left, STACK_PAGES), *each]
    pages_steps = len(pages) + len(each) * (STACK_PAGES - 1)
    lowest = [down, store(2, ZERO, SP, 0), up]
    loops = {
        'nothing': ([], 0, [down, up], 2),
        'the lowest word': ([], 0, lowest, 3),
        'the lowest word, after all pages were': ([down, *pages, up], 2 + pages_steps, lowest, 3),
        'nothing, after all pages were': ([down, *pages, up], 2 + pages_steps, [down, up], 2),
        'a word of each page': ([], 0, [down, *pages, up], 2 + pages_steps),
    }
    for name, (before, steps_before, body, steps) in loops.items():
        text = words_of(lui(size, STACK_SIZE >> 12), *before, *body, jal(ZERO, -4 * len(body)))
        yield name, 1 + steps_before, steps + 1, object_of(text, TEXT_AT)


def sp_rows(program, folder, repeats):
    """Nanoseconds of a turn of each loop that moves sp."""
    for name, before, steps, data in sp_loops():
        file = os.path.join(folder, 'sp.o')
        write(file, data)
        turns = SP_TURNS if steps > STACK_PAGES else 100 * SP_TURNS
        took = [least([program, 'trace', '--steps', str(before + steps * count), file], SPENT, repeats)
                for count in (turns, 3 * turns)]
        yield name, steps, f'{(took[1] - took[0]) / (2 * turns) * 1e9:.0f}'


def instructions(words):
    """Instructions that a call takes in user space, as `perf stat` counts them, or none where it can't."""
    if shutil.which('perf') is None:
        return None
    told = subprocess.run(['perf', 'stat', '-x', ',', '-e', 'instructions:u', '--', *words], stdin=subprocess.DEVNULL,
                          stdout=subprocess.DEVNULL, stderr=subprocess.PIPE, text=True, check=False).stderr
    found = re.search(r'^(\d+),,instructions', told, re.MULTILINE)
    return int(found.group(1)) if found else None


def followed(words, folder):
    """The total of a short run under callgrind, and the functions that take most of it, or none without valgrind."""
    if shutil.which('valgrind') is None:
        return None
    out = os.path.join(folder, 'callgrind.out')
    subprocess.run(['valgrind', '--tool=callgrind', f'--callgrind-out-file={out}', *words],
                   stdin=subprocess.DEVNULL, stdout=subprocess.DEVNULL, stderr=subprocess.DEVNULL, check=False)
    told = subprocess.run(['callgrind_annotate', '--threshold=99', out], stdout=subprocess.PIPE, text=True, check=False).stdout
    rows = re.findall(r'^\s*([\d,]+) \([^)]*\)\s+\S*?:(\S+)', told, re.MULTILINE)
    total = re.search(r'^\s*([\d,]+).*PROGRAM TOTALS', told, re.MULTILINE)
    number = lambda text: int(text.replace(',', ''))
    return number(total.group(1)), {name: number(count) for count, name in rows}


def per_commit(call_with, commits, folder):
    """Instructions a commit beyond start-up, how they were counted, and the functions that take a part of them."""
    counted = [instructions(call_with(steps)) for steps in (commits * 2, 0)]
    both = [followed(call_with(steps), folder) for steps in (FOLLOWED, 0)]
    parts = []
    if None not in both:
        (more, by_name), (less, at_start) = both
        spent = {name: number - at_start.get(name, 0) for name, number in by_name.items()}
        parts = [f'{name} {number / FOLLOWED:.1f}' for name, number in sorted(spent.items(), key=lambda row: -row[1])
                 if number >= FOLLOWED]
    if None not in counted:
        return f'{(counted[0] - counted[1]) / commits:.1f}', 'perf', parts
    if None not in both:
        return f'{(more - less) / FOLLOWED:.1f}', 'callgrind', parts
    return '-', 'not counted', parts


def others(file):
    """The least processor time of the image on other machines that are installed, by their names."""
    calls = {QEMU: [QEMU, file], 'spike': ['spike', '--isa=rv32im', 'pk', file]}
    return {name: least([found(name), *words[1:]], 0, 3) for name, words in calls.items() if found(name)}


def part_of(took, other):
    """Which part of the rate of qemu-riscv32 a rate is, by the times that both took for as many commits."""
    return f'{other[QEMU] / took:.3f}' if QEMU in other else '-'


def least(words, status, repeats):
    call = Call(words, status)
    for _ in range(repeats):
        call.make()
    return min(call.processor)


def main():
    arguments = words_of_bench('Measures how fast `run` makes commits, and `trace` steps.', 5)
    arguments.add_argument('--commits', type=int, default=10_000_000)
    given = arguments.parse_args()
    program = built(given.program)
    print(f'Processor: {processor_name()}, load {os.getloadavg()[0]:.1f}.')
    rows, parts = [], {}
    with tempfile.TemporaryDirectory() as folder:
        for name, loop in programs(given.commits).items():
            options = []
            if loop.devices:
                options = ['--devices', os.path.join(folder, 'devices')]
                write(options[1], loop.devices)
            files = image_in_pages(loop.text, PAGE, loop.entry), object_of(loop.text, loop.entry)
            for command, data in zip(('run', 'trace'), files):
                file = os.path.join(folder, f'{re.sub("[ ,]+", "-", name)}.{command}')
                write(file, data)
                os.chmod(file, 0o755)
                if command == 'run':
                    other = {} if loop.devices else others(file)
                call_with = lambda steps: [program, command, *options, '--steps', str(steps), file]
                start_up = least(call_with(0), SPENT, given.repeats)
                took = least(call_with(given.commits * 2), 0, given.repeats) - start_up
                what = f'{name}, {command}'
                each, way, parts[what] = per_commit(call_with, given.commits, folder)
                rows.append((what, f'{given.commits / took / 1e6:.1f}', part_of(took, other), each, way,
                             ', '.join(f'{it} {given.commits / time / 1e6:.0f}' for it, time in other.items()) or '-'))
        moved = list(sp_rows(program, folder, given.repeats))
    table(('loop', 'millions of commits or steps a second', f'of {QEMU}', 'instructions each', 'counted by',
           'others, millions a second'), rows)
    if all(row[-1] == '-' for row in rows):
        print('\nNeither qemu-riscv32 nor spike is installed.')
    print()
    table(('what each turn writes', 'steps a turn', 'nanoseconds a turn'), moved)
    print('\nFunctions that take an instruction a commit or more, by callgrind:\n')
    for name, named in parts.items():
        print(f'{name}: {", ".join(named) or "none told"}')


if __name__ == '__main__':
    main()
