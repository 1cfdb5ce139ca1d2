#!/usr/bin/env python3
"""Runs frames of every list, size and kind under interrupts, and compares what they do with their objects.

    fuzz/frame_plans.py [--seed S] [--count N] [--keep FOLDER] [PROGRAM]

PROGRAM is build/zcld if none is given. A case is fixed by the seed and its number: an object of functions that save registers in
any order, change them, and restore them. Some or all of this may be pushes and pops in the object already. It goes to both links
and `trace`, and each image to `run` under a plan that interrupts after each access of each push and pop, with bytes written
below sp. Checked are:

- images, certificate and report are those that `plain_link.py`, `zc_link.py` and `size_report.py` make, byte for byte, and the
  run of the image of `zc` comes to each push and pop that was asked for;
- the trace writes what `symbolic_machine.py` does, and exits as it does, and so do both runs under their plans.

The status is 1 if a check failed. FOLDER then has the files of those cases.
"""
import argparse
import os
import random
import sys
import tempfile
import time

sys.path[:0] = (os.path.join(os.path.dirname(os.path.abspath(__file__)), os.pardir, it) for it in ('scripts', 'models'))

from compressed_code import compress
from groups import LISTS
from made_frames import ENDINGS, GOES_ON, Saved, sizes
from plain_link import plain
from size_report import left_by_zc
from symbolic_machine import trace
from zc_machine import SAVED, Machine, plan_of
from zcld_tools import programs
from zcld_tools.files import read, write
from zcld_tools.instructions import (A0, A1, A2, A7, ECALL, EXIT_WORDS, RA, RET, SP, T0, WRITE_CALL, ZERO, addi, constant, jal,
                                     sw)
from zcld_tools.objects import object_with
from zcld_tools.programs import Failed

STEPS = 100_000
KEPT = SAVED[1:]


# ---- objects


def written(offset, size):
    """A write of bytes from sp on."""
    return addi(A0, ZERO, 1), addi(A1, SP, offset), addi(A2, ZERO, size), addi(A7, ZERO, WRITE_CALL), ECALL


def numbers(rng, registers):
    """Each of these registers gets a number."""
    return [word for register in registers for word in constant(register, rng.getrandbits(32))]


def add_function(rng, text, frame, called):
    """Adds a function that saves registers in a frame, changes them, calls another function if there is one, writes what is in
    its frame, and restores them. Gives where it starts."""
    number, size, ending = frame
    saved = Saved(number, size)
    low = min(saved.places.values())
    room = min(low, 4 * rng.randrange(5))
    start = text.words(*saved.stores(rng), *numbers(rng, saved.places))
    for at in range(low - room, low, 4):
        text.words(*numbers(rng, (T0,)), sw(T0, SP, at))
    if called is not None:
        text.words(jal(RA, called - len(text.content)))
    text.words(*written(low - room, room), *written(low + 4, size - low - 4), addi(A0, ZERO, rng.randrange(1, 99)),
               *saved.loads(rng, ending))
    if ending == GOES_ON:
        text.words(addi(A0, A0, 1), RET)
    return start


def made_object(rng, frames):
    """An object of functions with these frames, each of which calls the one before it. Its start calls the last, writes the
    registers that functions keep, and exits. It may be compressed."""
    made, text = object_with()
    called = None
    for frame in frames:
        called = add_function(rng, text, frame, called)
    made.symbols[0].value = text.words(*numbers(rng, KEPT), addi(SP, SP, -4 * rng.randrange(32)))
    text.words(jal(RA, called - len(text.content)))
    registers = T0, A0, *KEPT
    text.words(addi(T0, SP), addi(SP, SP, -4 * len(registers)), *(sw(it, SP, 4 * k) for k, it in enumerate(registers)))
    text.words(*written(0, 4 * len(registers)), addi(A0, ZERO, len(frames)), *EXIT_WORDS)
    if rng.random() < 0.5:
        compress(rng, [made], [made], has_slips=False)
    return made.bytes()


# ---- plans


def bytes_near(rng, pointer):
    """Bytes that an interrupt writes below sp, and some above it, which aren't written."""
    return [(pointer + rng.randrange(rng.choice((-2048, -64, -8, -8)), 2), rng.randrange(256)) for _ in range(8)]


def interrupts_of(rng, image):
    """Interrupts of an image's run: after each access of its pushes and pops, in any order, and before some other commits. Gives
    how many pushes and pops there are, too."""
    machine, interrupts, frames, status = Machine(image, b''), [], 0, None
    while status is None:
        frame, pointer = machine.frame(), machine.registers[SP]
        done = [[]] * (rng.random() < 0.3)
        if frame:
            order = rng.sample(range(len(frame.registers)), len(frame.registers))
            done = [order[:count] for count in range(len(order) + 1)]
        interrupts += [(machine.commits, accesses, bytes_near(rng, pointer)) for accesses in done]
        frames += frame is not None
        status = machine.commit()
    return interrupts, frames


# ---- cases


class Case:
    """An object of up to three frames, the last of them of a list, a kind and a range of sizes by the case's number; its images;
    and a plan of interrupts for each."""

    def __init__(self, seed, number):
        rng = random.Random(f'{seed} {number}')
        asked = LISTS[number % 12], ENDINGS[number // 12 % 5], number // 12 % 3
        rows = [(rng.choice(LISTS), rng.choice(ENDINGS), rng.randrange(3)) for _ in range(rng.randrange(3))] + [asked]
        frames = [(row, rng.choice(sizes(row)[range_of_sizes]), ending) for row, ending, range_of_sizes in rows]
        self.what = ', '.join('list {} in {} with ending {}'.format(*frame) for frame in frames)
        self.file = made_object(rng, frames)
        (self.plain, self.length), self.left = plain([self.file]), left_by_zc([self.file])
        self.plans, self.found, self.wanted = {}, {}, 2 * len(frames)
        for link, image in (('plain', self.plain), ('zc', self.left.image)):
            interrupts, self.found[link] = interrupts_of(rng, image)
            self.plans[link] = plan_of(interrupts)


def check(program, case, folder):
    """Makes the calls of a case, in a folder."""
    names = {name: os.path.join(folder, name) for name in ('file', 'plain', 'zc', 'cert', 'plan')}
    write(names['file'], case.file)
    linked = programs.run([program, 'plain', '--out', names['plain'], names['file']])
    if linked != (0, b'plain text %d\n' % case.length, b'') or read(names['plain']) != case.plain:
        raise Failed(f'plain ends with {linked}, or the image is another')
    linked = programs.run([program, 'zc', '--out', names['zc'], '--cert', names['cert'], names['file']])
    if linked != (0, case.left.report, b'') or (read(names['zc']), read(names['cert'])) != case.left[:2]:
        raise Failed(f'zc ends with {linked}, or the image or the certificate is another')
    if case.found['zc'] != case.wanted:
        raise Failed(f'the run comes to {case.found["zc"]} pushes and pops, and not to {case.wanted}')
    traced = programs.run([program, 'trace', '--steps', str(STEPS), names['file']])
    out, err, line = trace([case.file], b'', STEPS)
    if traced[1:] != (out, err + line + b'\n') or b'exited ' not in traced.err:
        raise Failed(f'trace ends with {traced}, and the model with {line}')
    for link, plan in case.plans.items():
        write(names['plan'], plan)
        ran = programs.run([program, 'run', '--plan', names['plan'], '--steps', str(STEPS), names[link]])
        if ran != traced:
            raise Failed(f'trace ends with {traced}, but run of the image of {link} with {ran}')


def keep(folder, seed, number, case):
    """Writes the files of a case."""
    os.makedirs(folder, exist_ok=True)
    for name, data in (('o', case.file), *((f'{link}.plan', plan) for link, plan in case.plans.items())):
        write(os.path.join(folder, f'frames-{seed}-{number}.{name}'), data)


def main():
    arguments = argparse.ArgumentParser(description='Runs frames of every list, size and kind under interrupts.')
    arguments.add_argument('program', nargs='?', default=programs.BUILT)
    arguments.add_argument('--seed', type=int, default=1)
    arguments.add_argument('--count', type=int, default=1000)
    arguments.add_argument('--keep', default=os.path.join('build', 'fuzz'))
    given = arguments.parse_args()
    program, wrong, interrupts, begun = programs.built(given.program), 0, 0, time.monotonic()
    own = 0
    with tempfile.TemporaryDirectory() as folder:
        for number in range(given.count):
            case = Case(given.seed, number)
            interrupts += sum(plan.count(b'cut ') for plan in case.plans.values())
            own += case.found['plain']
            try:
                check(program, case, folder)
            except Failed as why:
                wrong += 1
                keep(given.keep, given.seed, number, case)
                print(f'WRONG: case {number}, {case.what}: {why}')
    print(f'seed {given.seed}: {2 * given.count} runs under {interrupts} interrupts in {time.monotonic() - begun:.0f} s; '
          f'{own} pushes and pops that were made were those of objects')
    print(f'{wrong} wrong')
    return wrong > 0


if __name__ == '__main__':
    sys.exit(main())
