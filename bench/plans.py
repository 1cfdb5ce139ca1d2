#!/usr/bin/env python3
"""Measures plans of interrupts and texts of devices: how long one takes to read, and what interrupts and fused instructions cost
in a run.

    bench/plans.py [--repeats R] [PROGRAM]        PROGRAM is build/zcld if none is given

Plans of about 8 MiB are read with `--steps 0`: with short lines, with one line of many accesses and bytes, and with a bad line
at the end; and so are texts of devices of 1 to 8 MiB, with devices in any order, and with one line of answers. A loop of 10,000
commits is run under plans of up to 100,000 interrupts, all of them before its commits; it is run by `share` too, under as many,
which write nothing to shared data, or a byte each. What both take with `--steps 0` is left out, and so is the link. Pushes are
counted against the stores and the `addi` that they stand for: instructions of the processor by `valgrind --tool=callgrind`, if
it is installed. Each call is made R times, and a time is the least of the processor's.
"""
import os
import random
import sys
import tempfile

sys.path.insert(0, os.path.join(os.path.dirname(os.path.abspath(__file__)), os.pardir, 'scripts'))
sys.path[:0] = (os.path.join(os.path.dirname(os.path.abspath(__file__)), os.pardir, it) for it in ('fuzz', 'models'))

from machine import DEVICE_AT, TITLE, followed, least
from run import SPENT
from zcld_tools.elf import DATA_FLAGS, NOBITS
from zcld_tools.files import write
from zcld_tools.images import COMPRESSED, DATA_AT, STACK_HIGH, TEXT_AT, image_bytes
from zcld_tools.instructions import A0, EXIT_WORDS, RA, SP, T0, ZERO, addi, branch, constant, sw, words_of
from zcld_tools.measured import processor_name, table, words_of_bench
from zcld_tools.objects import object_with
from zcld_tools.programs import built

LIMIT, BAD, HEAD, SHARED_HEAD = 8 << 20, 125, b'zcld plan 1\n', b'zcld shared 1\n'
COMMITS, PLANS, PUSHES = 10_000, (0, 12_500, 25_000, 50_000, 100_000), 10_000
BNE = 1
# `cm.push` with list 0, and the registers of lists by their numbers
PUSH = 0xB802
REGISTERS = {4: (RA,), 6: (RA, 8, 9), 15: (RA, 8, 9, *range(18, 28))}


def image_of(text):
    return image_bytes(text, {}, b'', 0, TEXT_AT, COMPRESSED)


def filled(line):
    """A plan of as many lines as 8 MiB have room for."""
    return HEAD + line * ((LIMIT - len(HEAD)) // len(line))


def plans_of_8_mib():
    line = b'cut 18446744073709551615 a0 a12 d0fffffff:ee\n'
    dirt = b' d0fffffff:ee'
    return {'short lines': (filled(b'cut 7\n'), SPENT), 'longer lines': (filled(line), SPENT),
            'one line': (HEAD + b'cut 7' + dirt * ((LIMIT - 20) // len(dirt)) + b'\n', SPENT),
            'a bad line at the end': (filled(line)[:-len(line)] + b'cut 07\n', BAD)}


def devices_of(size):
    """A text of at most so many bytes, of devices of 4 bytes in any order."""
    line = b'device %08x 00000004\n'
    places = [*range((size - len(TITLE)) // len(line % 0))]
    random.Random(size).shuffle(places)
    return TITLE + b''.join(line % (DEVICE_AT + 8 * place) for place in places)


def answers_of(size):
    """A text of at most so many bytes, with one line of answers."""
    return TITLE + b'answer' + b' 00' * ((size - len(TITLE) - 7) // 3) + b'\n'


def plan_of(count):
    """So many interrupts before the commits, each with an access and four bytes."""
    return HEAD + b''.join(b'cut %d a0 d0ffffff0:01 d0ffffff1:02 d0ffffff2:03 d0ffffff3:04\n' % (k * COMMITS // count)
                           for k in range(count))


def shared_plan_of(count, cell):
    """The same as a shared plan, with a cell each or none."""
    return (SHARED_HEAD + plan_of(count)[len(HEAD):]).replace(b':04\n', b':04' + cell + b'\n')


def shared_loop(turns):
    """The loop of a sum as an object, with a shared word."""
    made, _ = object_with(*constant(T0, turns), addi(6, 6, 1), addi(T0, T0, -1), branch(BNE, T0, ZERO, -8), addi(A0, ZERO),
                          *EXIT_WORDS)
    made.section(b'.shared', NOBITS, DATA_FLAGS, size=4)
    return made.bytes()


def running(program, words, repeats):
    """The seconds that a call takes with no commits, and how many more with all."""
    none, whole = (least([program, *words, '--steps', str(steps)], status, repeats)
                   for steps, status in ((0, SPENT), (2 * COMMITS, 0)))
    return none, whole - none


def loop(body, turns, before=()):
    """A loop of instructions, of which halfwords are below 2^16."""
    content = words_of(*before, *constant(T0, turns))
    for it in body:
        content += it.to_bytes(4 if it & 3 == 3 else 2, 'little')
    size = sum(4 if it & 3 == 3 else 2 for it in body)
    return image_of(content + words_of(addi(T0, T0, -1), branch(BNE, T0, ZERO, -size - 4), addi(A0, ZERO), *EXIT_WORDS))


def stored(registers):
    """The instructions that a push stands for."""
    size = 4 * len(registers) + 15 & ~15
    return [addi(SP, SP, -size), *(sw(register, SP, size - 4 * (k + 1)) for k, register in enumerate(reversed(registers)))], size


def pushes(program, folder):
    rows = []
    for number, registers in REGISTERS.items():
        separate, size = stored(registers)
        back = addi(SP, SP, size) & 0xFFFFFFFF
        counts = []
        for body in ([back], [PUSH | number << 4, back], [*(word & 0xFFFFFFFF for word in separate), back]):
            file = os.path.join(folder, 'loop')
            write(file, loop(body, PUSHES, constant(SP, STACK_HIGH - 512)))
            told = followed([program, 'run', file], folder)
            counts.append(told[0] if told else None)
        if None in counts:
            return None
        rows.append((len(registers), *(f'{(it - counts[0]) / PUSHES:.1f}' for it in counts[1:])))
    return rows


def main():
    given = words_of_bench('Measures plans of interrupts and texts of devices.', 5).parse_args()
    program = built(given.program)
    print(f'Processor: {processor_name()}, load {os.getloadavg()[0]:.1f}.')
    with tempfile.TemporaryDirectory() as folder:
        image, plan = (os.path.join(folder, name) for name in ('image', 'plan'))
        write(image, loop([addi(6, 6, 1)], COMMITS // 3))
        rows = []
        for what, (text, status) in plans_of_8_mib().items():
            write(plan, text)
            took = least([program, 'run', '--plan', plan, '--steps', '0', image], status, given.repeats)
            rows.append((what, len(text), text.count(b'\n') - 1, f'{took * 1000:.0f}'))
        table(('plan', 'bytes', 'interrupts', 'ms to read'), rows, 1)
        rows = []
        for mib in (1, 2, 4, 8):
            texts, took = (devices_of(mib << 20), answers_of(mib << 20)), []
            for text in texts:
                write(plan, text)
                took.append(least([program, 'run', '--devices', plan, '--steps', '0', image], SPENT, given.repeats))
            rows.append((mib, texts[0].count(b'\n') - 1, *(f'{it * 1000:.0f}' for it in took)))
        table(('MiB of a text', 'devices', 'ms to read', 'ms to read one line of answers'), rows)
        rows = []
        obj = os.path.join(folder, 'object')
        write(obj, shared_loop(COMMITS // 3))
        for count in PLANS:
            write(plan, plan_of(count))
            both = running(program, ['run', '--plan', plan, image], given.repeats)
            shared, words = [], ['share', '--out', os.path.join(folder, 'out'), '--plan', plan, obj]
            for cell in (b'', b' s%08x:05' % DATA_AT):
                write(plan, shared_plan_of(count, cell))
                shared.append(running(program, words, given.repeats)[1])
            rows.append((count, *(f'{it * 1000:.1f}' for it in (*both, *shared))))
        table((f'interrupts in {COMMITS:,} commits', 'ms to read', 'ms to run', '`share`', '`share`, a cell each'), rows)
        rows = pushes(program, folder)
        if rows is None:
            print('\nvalgrind is not installed: pushes are not counted.')
        else:
            table(('registers', 'instructions of a push', 'of the stores and the addi'), rows)


if __name__ == '__main__':
    main()
