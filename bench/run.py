#!/usr/bin/env python3
"""Measures the program on straight code of growing size.

    bench/run.py [--repeats R] [PROGRAM]        PROGRAM is build/zcld if none is given

Objects are made by rule, linked with `zc`, and run with `run` (the image) and `trace` (the object). Each
call is made R times, all calls in turn and in an order that changes, so that the machine's load and caches meet
all of them alike. A time is that of a whole process, from its start to its end: the least of the R, since other
work on the machine only adds to it. A rate comes from the difference of two lower quartiles, since that of two leasts
hangs on two single calls. Standard input is empty.

Straight code ends after as many steps as it has words, so most of a short run is start-up. It is measured by
itself, with an image of three words, and what a file costs before its first step with `--steps 0`.
"""
import os
import shutil
import struct
import sys
import tempfile

sys.path.insert(0, os.path.join(os.path.dirname(os.path.abspath(__file__)), os.pardir, 'scripts'))

from zcld_tools.elf import HEADER, PROGRAM_HEADER
from zcld_tools.files import read, write
from zcld_tools.instructions import A0, EXIT_WORDS, T0, ZERO, addi
from zcld_tools.measured import Call, Runs, milliseconds, table, words_of_bench
from zcld_tools.objects import object_with
from zcld_tools.programs import built

SPENT = 127
START_UP = 3
SIZES = (1024, 4096, 16384)
DATA = (1, 4)
MIB = 1 << 20

# A difference of two times that is below this, in seconds, tells nothing.
NOISE = 0.0001


def straight(words, last=EXIT_WORDS):
    """So many words: `addi x5,x5,1` (stays a word) and `li x6,k` (becomes c.li) in turn, then `li a0,0` and the last ones."""
    last = (addi(A0, ZERO), *last) if last else ()
    return [addi(6, ZERO, k % 64 - 32) if k % 2 else addi(T0, T0, 1) for k in range(words - len(last))] + [*last]


def made_object(words):
    """An object with the code as section 1, where `_start` is."""
    return object_with(*words)[0].bytes()


def with_zeroed_data(image, size):
    """The image with this many zeroed bytes of data: the memory size of its second segment."""
    changed = bytearray(image)
    struct.pack_into('<I', changed, HEADER + PROGRAM_HEADER + 20, size)
    return bytes(changed)


def lower_quartile(times):
    return sorted(times)[len(times) // 4]


def rate(count, call, start_up):
    """Millions a second beyond start-up, by the processor's time, or `-` where that is lost in the noise."""
    more = lower_quartile(call.processor) - lower_quartile(start_up.processor)
    return f'{count / more / 1e6:.1f}' if more > NOISE else '-'


def measure(program, repeats, folder):
    sizes = (START_UP, *SIZES)
    calls = {}
    files = {}
    for words in sizes:
        obj, image, out, cert = (os.path.join(folder, f'{words}.{kind}') for kind in ('o', 'elf', 'out', 'cert'))
        write(obj, made_object(straight(words)))
        Call([program, 'zc', '--out', image, '--cert', cert, obj], 0).make()
        files[words] = (os.path.getsize(obj), os.path.getsize(image))
        # The link that is measured writes to files of its own, so that no run reads what was written just before.
        calls[words] = {'zc': Call([program, 'zc', '--out', out, '--cert', cert, obj], 0)}
        for name, file in (('run', image), ('trace', obj)):
            calls[words][name] = Call([program, name, file], 0)
            calls[words][f'{name} --steps 0'] = Call([program, name, '--steps', '0', file], SPENT)
    calls['process'] = {'true': Call([shutil.which('true') or 'true'], 0)}
    image = read(os.path.join(folder, f'{START_UP}.elf'))
    for size in DATA:
        data = os.path.join(folder, f'data{size}.elf')
        write(data, with_zeroed_data(image, size * MIB))
        calls['data', size] = {'run': Call([program, 'run', data], 0)}
    return calls, files, Runs((call for by_name in calls.values() for call in by_name.values()), repeats)


def report_sizes(calls, files, peaks):
    heads = ('words', 'object, bytes', 'image, bytes', *(f'{name}, {what}' for name in ('zc', 'run', 'trace')
                                                          for what in ('clock', 'processor', 'KiB')))
    rows = []
    for words, (obj, image) in files.items():
        cells = [words, obj, image]
        for name in ('zc', 'run', 'trace'):
            call = calls[words][name]
            cells += [milliseconds(call.wall), milliseconds(call.processor), peaks[words][name]]
        rows.append(cells)
    table(heads, rows)


def report_rates(calls):
    print()
    print('Millions a second, by the processor: beyond the time of 3 words, so with the larger file\'s reading, and')
    print('beyond the time of the same file with --steps 0, so without it. By lower quartiles; a difference below')
    print(f'{NOISE * 1000} ms is `-`.')
    small = calls[START_UP]
    rows = []
    for words in SIZES:
        more = words - START_UP
        rows.append((words, rate(more, calls[words]['zc'], small['zc']),
                     *(rate(count, calls[words][name], start_up)
                       for name in ('run', 'trace')
                       for count, start_up in ((more, small[name]), (words, calls[words][f'{name} --steps 0'])))))
    table(('words', 'zc, words', 'run, commits with reading', 'run, commits', 'trace, steps with reading',
           'trace, steps'), rows)


def report_start_up(calls, peaks):
    print()
    print('Start-up: run makes all bytes of data and stack first, and the stack has 1 MiB.')
    small = calls[START_UP]
    rows = [('a process that does nothing (true)', calls['process']['true'], peaks['process']['true'])]
    rows += [(f'{name}, {START_UP} words', small[name], peaks[START_UP][name]) for name in ('zc', 'trace', 'run')]
    rows += [(f'run, {START_UP} words and {size} MiB of zeroed data', calls['data', size]['run'],
              peaks['data', size]['run']) for size in DATA]
    table(('call', 'clock', 'processor', 'KiB'),
          [(what, milliseconds(call.wall), milliseconds(call.processor), peak) for what, call, peak in rows])


def report(calls, files, runs):
    runs.say()
    print('Times are milliseconds of a whole process, the least of all calls: by the clock, and of the processor')
    print('(user and system). Memory is the most that a process held, in KiB, and `None` where GNU time is missing.')
    print('The clock of zc includes that two files are written and take the names of those that stood there.')
    peaks = {key: {name: call.peak() for name, call in by_name.items()} for key, by_name in calls.items()}
    report_sizes(calls, files, peaks)
    report_rates(calls)
    report_start_up(calls, peaks)


def main():
    given = words_of_bench('Measures the program on straight code of growing size.', 200).parse_args()
    with tempfile.TemporaryDirectory() as folder:
        report(*measure(built(given.program), given.repeats, folder))


if __name__ == '__main__':
    main()
