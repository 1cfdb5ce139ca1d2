#!/usr/bin/env python3
"""Measures `make`, and how long the command line takes to read.

    bench/load.py [--repeats R] [--before BEFORE] [PROGRAM]        PROGRAM is build/zcld if none is given

`make` generates objects of up to 1,600 functions, links them both ways and runs them on both machines; with PREFIX it writes them
as well. The command line is read in calls that do little else: with no words, with words that spell no command, with a file that
doesn't exist, and with many names of such files. With BEFORE, another program of zcld, these calls are made by it too. Each call
is made R times, all in turn and in an order that changes. A time is the processor's for a whole process, the least of the R;
memory is the most that it held; instructions of the processor are counted by `valgrind --tool=callgrind`, if it is installed.
"""
import os
import shutil
import sys
import tempfile

sys.path.insert(0, os.path.join(os.path.dirname(os.path.abspath(__file__)), os.pardir, 'scripts'))

from machine import followed
from zcld_tools.measured import Call, Runs, milliseconds, table, words_of_bench
from zcld_tools.programs import built

NUMBER, FUNCTIONS = '7', (0, 300, 1600)
USAGE, UNREAD = 120, 122
MANY = 10_000


def calls_of_make(program, folder):
    """Calls of `make`, without PREFIX and with it."""
    calls = {}
    for count in FUNCTIONS:
        calls[f'make {NUMBER} {count}'] = Call([program, 'make', NUMBER, str(count)])
    prefix = os.path.join(folder, 'p')
    calls[f'make --out p {NUMBER} {FUNCTIONS[-1]}'] = Call([program, 'make', '--out', prefix, NUMBER, str(FUNCTIONS[-1])])
    return calls


def calls_of_words(program, folder):
    """Calls that read words and do little else."""
    none = os.path.join(folder, 'none')
    return {'no words': Call([program], USAGE), 'frob': Call([program, 'frob'], USAGE),
            'run image plan, no option': Call([program, 'run', 'image', 'plan'], USAGE),
            'a file that is missing': Call([program, 'run', none], UNREAD),
            f'{MANY:,} files that are missing': Call([program, 'trace', *[none] * MANY], UNREAD)}


def rows_of(calls, folder):
    for what, call in calls.items():
        told = followed(call.words, folder)
        yield what, milliseconds(call.processor), call.peak(), f'{told[0]:,}' if told else ''


def main():
    words = words_of_bench('Measures `make`, and how long the command line takes to read.', 20)
    words.add_argument('--before')
    given = words.parse_args()
    with tempfile.TemporaryDirectory() as folder:
        made = calls_of_make(built(given.program), folder)
        read = {'a process that does nothing (true)': Call([shutil.which('true') or 'true']),
                **calls_of_words(built(given.program), folder)}
        before = {f'{what}, before': call for what, call in calls_of_words(built(given.before), folder).items()} if given.before else {}
        Runs((*made.values(), *read.values(), *before.values()), given.repeats).say()
        print('Times are the processor\'s milliseconds for a whole process, the least of all calls; memory is in KiB.')
        for head, calls in (('generated programs', made), ('words', {**read, **before})):
            table((head, 'ms', 'KiB', 'instructions'), rows_of(calls, folder), 1)


if __name__ == '__main__':
    main()
