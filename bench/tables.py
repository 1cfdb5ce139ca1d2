#!/usr/bin/env python3
"""Measures jump tables: how long a certificate takes to judge, and what choosing a table costs `zc`.

    bench/tables.py [--repeats R] [--before BEFORE] [PROGRAM]        PROGRAM is build/zcld if none is given

Certificates of about 8 MiB are judged by `check`: with as many targets as there is room for, and with a bad line at the end.
Objects of 240 KiB of code are linked by `zc`: each word a far jump to a target of its own, of which none is worth a slot, and
jumps and calls to 300 targets, which fill a table. With BEFORE, another program of zcld, its links are made as well.
Instructions of the processor are counted by `valgrind --tool=callgrind`, if it is installed. Each call is made R times, and a
time is the least of the processor's.
"""
import os
import sys
import tempfile

sys.path.insert(0, os.path.join(os.path.dirname(os.path.abspath(__file__)), os.pardir, 'scripts'))

from machine import followed, least
from zcld_tools.files import read, write
from zcld_tools.instructions import EXIT_WORDS, RA, ZERO, jal
from zcld_tools.measured import processor_name, table, words_of_bench
from zcld_tools.objects import object_with
from zcld_tools.programs import built

LIMIT, BAD = 8 << 20, 125
JUMPS, JUMPS_TO_FEW, FEW = 65_000, 60_000, 300


def certificates_of_8_mib():
    lines, size, k = [b'zcld certificate 1\n'], 64, 0
    while size < LIMIT - 64:
        lines.append(b'saving %d 1 %d %d %d\n' % (k % 256, 4 * k, k % 7, k % 5))
        size += len(lines[-1])
        k += 1
    text = b''.join(lines)
    return {'not the best': text + b'price 0 0 0\nnet 0\nend\n', 'a bad line at the end': text + b'price 0 0 0\nnet 00\nend\n'}


def far_jumps():
    """Each word jumps to another one, half the code away."""
    half = JUMPS // 2
    return [jal(ZERO, 4 * (half if k < half else -half)) for k in range(JUMPS)]


def jumps_to_few():
    """Two thirds are calls, and all lead to the first or the last words."""
    words = []
    for k in range(JUMPS_TO_FEW):
        target = k * 7919 % FEW
        at = target if k > JUMPS_TO_FEW // 3 else JUMPS_TO_FEW - 1 - target
        words.append(jal(RA if target % 3 else ZERO, 4 * (at - k)))
    return words


def main():
    words = words_of_bench('Measures jump tables.', 5)
    words.add_argument('--before')
    given = words.parse_args()
    programs = {'zcld': built(given.program), **({'before': given.before} if given.before else {})}
    print(f'Processor: {processor_name()}, load {os.getloadavg()[0]:.1f}.')
    with tempfile.TemporaryDirectory() as folder:
        image, cert, made = (os.path.join(folder, name) for name in ('image', 'cert', 'made.o'))
        rows = []
        for what, text in certificates_of_8_mib().items():
            write(cert, text)
            took = least([programs['zcld'], 'check', cert], BAD, given.repeats)
            rows.append((what, len(text), text.count(b'\n'), f'{took * 1000:.0f}'))
        table(('certificate', 'bytes', 'lines', 'ms'), rows, 1)
        rows = []
        for what, code in {'far jumps': far_jumps(), 'jumps to few': jumps_to_few()}.items():
            write(made, object_with(*code, *EXIT_WORDS)[0].bytes())
            for name, program in programs.items():
                call = [program, 'zc', '--out', image, '--cert', cert, made]
                took = least(call, 0, given.repeats)
                count, told = followed(call, folder), read(cert)
                rows.append((what, name, told.count(b'saving'), told.count(b'slot'), f'{took * 1000:.1f}',
                             f'{count[0]:,}' if count else ''))
        table(('code', 'program', 'targets', 'slots', 'ms', 'instructions'), rows, 2)


if __name__ == '__main__':
    main()
