#!/usr/bin/env python3
"""Measures `zc` on chains of branches, which take as many rounds as there are branches.

    bench/chains.py [--repeats R] [--before BEFORE]... [PROGRAM]        PROGRAM is build/zcld if none is given

The layout starts with the shortest forms, and each round gives the next longer one to what doesn't reach. In each chain but
the first, a branch reaches just so unless the one next to it in the chain has grown, so each round makes one branch longer
(two, if the chain grows from both ends), and a layout that looked at all code in each round would take seconds. Each object
is linked R times, all in turn, in an order that changes; by BEFORE, an earlier program of zcld, as well. A time is the
processor's for a whole process: the least of the R. Memory is the most that a process held, as GNU time tells it. A ratio
above 1 says that the earlier program took longer, or held more.

    bench/chains.py --model COUNT

counts the rounds of chains of COUNT words by the model in models/zc_link.py, and doesn't run the program.
"""
import os
import sys
import tempfile

sys.path.insert(0, os.path.join(os.path.dirname(os.path.abspath(__file__)), os.pardir, 'scripts'))
sys.path[:0] = (os.path.join(os.path.dirname(os.path.abspath(__file__)), os.pardir, it) for it in ('fuzz', 'models'))

import zc_link
from links import NOW, compared, heads_of, programs_of, text_size, words_with_before
from object_faults import Object
from run import made_object
from zcld_tools.files import write
from zcld_tools.images import TEXT_AT
from zcld_tools.instructions import A0, NOP, T0, ZERO, branch, lui
from zcld_tools.measured import Call, Runs, table

COUNTS = (16384, 32768, 65535)
# A word that has no short form: lui with an upper part that the short form can't hold.
LONG = lui(T0, 0x40000)
BEQ = 0


def short_to(words):
    """A branch that has a short form, over this many words."""
    return branch(BEQ, A0, ZERO, 4 * words)


def just_so(count):
    """Each branch leads over the next 126, and the last one farther: each round makes 126 longer."""
    return [short_to(127)] * (count - 401) + [short_to(200)] + [NOP] * 400


def forward(count):
    """Branches to the 65th word after them; each 64th word is short and stays so. At the end all others are long."""
    ends = count - 65
    return [NOP if k % 64 == 0 else short_to(65) if k < ends else LONG for k in range(count)]


def backward(count):
    """Branches to the 65th word before them; each 65th word is short and stays so. At the start all others are long."""
    return [NOP if k % 65 == 0 else LONG if k < 65 else short_to(-65) for k in range(count)]


def from_both_ends(count):
    """One half backward, the other forward."""
    return backward(count // 2) + forward(count - count // 2)


CHAINS = {'just so': just_so, 'forward': forward, 'backward': backward, 'from both ends': from_both_ends}


def counted(count):
    """The rounds of each chain of this many words, by the model."""
    rows = []
    for name, chain in CHAINS.items():
        link = zc_link.Zc([Object(made_object(chain(count)))])
        link.image()
        rows.append([name, f'{count:,}', f'{link.rounds:,}', f'{link.end - TEXT_AT:,}'])
    table(['chain', 'words', 'rounds', 'text, bytes'], rows)


def measured(programs, repeats):
    with tempfile.TemporaryDirectory() as folder:
        rows = []
        for name, chain in CHAINS.items():
            for count in COUNTS:
                base = os.path.join(folder, str(len(rows)))
                write(base + '.o', made_object(chain(count)))
                rows.append((name, f'{4 * count:,}', base + '.' + NOW, {
                    who: Call([program, 'zc', '--out', f'{base}.{who}', '--cert', f'{base}.{who}.cert', base + '.o'])
                    for who, program in programs.items()}))
        Runs((call for row in rows for call in row[-1].values()), repeats).say()
        print('Times are the processor\'s milliseconds for a whole process, the least of all calls. Memory is the most that a '
              'process held.')
        cells = []
        for name, code, image, calls in rows:
            peaks = {who: call.peak() for who, call in calls.items()}
            cells.append([name, code, f'{text_size(image):,}', *(it for who in calls for it in compared(calls, who, peaks))])
        beside = [head for name in list(programs)[1:] for head in heads_of(name)]
        table(['chain', 'code, bytes', 'text, bytes', 'zc, ms', 'KiB', *beside], cells)


def main():
    arguments = words_with_before('Measures `zc` on chains of branches.', 5)
    arguments.add_argument('--model', type=int, metavar='COUNT', help='count the rounds of chains of COUNT words, by the model')
    given = arguments.parse_args()
    if given.model:
        counted(given.model)
        return
    measured(programs_of(given), given.repeats)


if __name__ == '__main__':
    main()
