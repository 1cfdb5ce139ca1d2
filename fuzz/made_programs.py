#!/usr/bin/env python3
"""Takes programs that `make` generates through the other commands.

    fuzz/made_programs.py [--seed S] [--count N] [--keep FOLDER] [PROGRAM]

PROGRAM is build/zcld if none is given. A case is fixed by the seed and its number: a number of 64 bits, and up to 1,600 functions.
`make --out` writes its objects, `zc` links them, and `run` executes the image. Checked are:

- the objects are those that made_load.py makes, and the report of `zc` has the sizes and the net of the summary;
- the image writes what the summary says and exits with 0 within the commits that it says, and not within one less; it does so
  under the plan of the number too, and `trace` of the objects within the steps that it says;
- of some cases, the summary is that of the models, byte for byte.

The status is 1 if a check failed. FOLDER then has the files of those cases.
"""
import argparse
import os
import random
import sys
import tempfile
import time

sys.path[:0] = (os.path.join(os.path.dirname(os.path.abspath(__file__)), os.pardir, it) for it in ('scripts', 'models'))

from made_load import MOST_FUNCTIONS, RUNS, made_objects, made_plan, read_summary, summary
from zcld_tools import programs
from zcld_tools.files import read_all, write, write_list
from zcld_tools.programs import Failed

# The lines of a summary that the report of `zc` has too.
SIZES = ('plain text', 'zc text', 'net')
# Each case in this many is compared with the models, if it has at most this many functions.
MODELLED, MOST_MODELLED = 10, 400


class Case:
    """A number and how many functions are made from it."""

    def __init__(self, seed, index):
        rng = random.Random(f'{seed} {index}')
        self.number = rng.choice((rng.getrandbits(64), rng.getrandbits(12), (1 << 64) - 1 - rng.getrandbits(8)))
        self.count = rng.choice((rng.randrange(20), rng.randrange(200), rng.randrange(MOST_FUNCTIONS + 1)))
        self.is_modelled = index % MODELLED == 0 and self.count <= MOST_MODELLED
        self.objects = made_objects(self.number, self.count)
        self.what = f'make {self.number} {self.count}'

    def words(self):
        return str(self.number), str(self.count)


def must_end(what, ended, wanted):
    if ended != wanted:
        raise Failed(f'{what}: {str(ended)[:200]} in place of {str(wanted)[:200]}')


def check(program, case, folder):
    """Makes the calls of a case, in a folder. Gives how many commits its image makes."""
    def run(*words):
        return programs.run([program, *words], cwd=folder)
    made = run('make', '--out', 'p', *case.words())
    must_end('make', (made.status, made.err), (0, b''))
    said = read_summary(made.out)
    if case.is_modelled:
        must_end('the summary', made.out, summary(case.number, case.count))
    names = [f'p{k}.o' for k in range(len(case.objects))]
    if read_all(os.path.join(folder, name) for name in names) != case.objects:
        raise Failed('make writes other objects')
    linked = run('zc', '--out', 'out', '--cert', 'cert', *names)
    must_end('zc', (linked.status, linked.err), (0, b''))
    for name in SIZES:
        if f'{name} {said[name]}' not in linked.out.decode().splitlines():
            raise Failed(f'the summary has {name} {said[name]}, but zc reports {linked.out[:200]}')
    write(os.path.join(folder, 'plan'), made_plan(case.number))
    written, status = said['zc'].split()
    if {said[name] for name in RUNS} != {said['zc']} or len(written) != 8 or status != '0':
        raise Failed(f'the machines end differently: {made.out}')
    for words, count in ((('run', 'out'), 'commits'), (('run', '--plan', 'plan', 'out'), 'commits'), (('trace', *names), 'steps')):
        for less, end in ((0, (0, bytes.fromhex(written), b'exited 0\n')), (1, (127, bytes.fromhex(written), b'spent\n'))):
            steps = int(said[count]) - less
            must_end(f'{words[0]} with {steps} {count}', run(words[0], '--steps', str(steps), *words[1:]), end)
    return int(said['commits'])


def main():
    arguments = argparse.ArgumentParser(description='Takes programs that `make` generates through the other commands.')
    arguments.add_argument('program', nargs='?', default=programs.BUILT)
    arguments.add_argument('--seed', type=int, default=1)
    arguments.add_argument('--count', type=int, default=300)
    arguments.add_argument('--keep', default=os.path.join('build', 'fuzz'))
    given = arguments.parse_args()
    program, wrong, functions, commits, begun = programs.built(given.program), 0, 0, 0, time.monotonic()
    for index in range(given.count):
        case = Case(given.seed, index)
        functions += case.count
        with tempfile.TemporaryDirectory() as folder:
            try:
                commits += check(program, case, folder)
            except Failed as why:
                wrong += 1
                os.makedirs(given.keep, exist_ok=True)
                write_list(given.keep, case.objects, f'made-{given.seed}-{index}-{{}}.o')
                print(f'WRONG: case {index}, {case.what}: {why}')
    print(f'seed {given.seed}: {given.count} programs of {functions} functions, {commits} commits, '
          f'in {time.monotonic() - begun:.0f} s')
    print(f'{wrong} wrong')
    return wrong > 0


if __name__ == '__main__':
    sys.exit(main())
