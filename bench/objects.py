#!/usr/bin/env python3
"""Measures `zc` on lists of objects, on many symbols and sections, and on names of both that share bytes.

    bench/objects.py [--repeats R] [PROGRAM]        PROGRAM is build/zcld if none is given

Objects are made by rule: straight code of `addi`, an exit in the first, data that files hold and zeroed data, and global
names. Each list is linked R times by `zc`, and R times by `ld -r` of GNU binutils for RISC-V, if it is installed, which reads
and merges the same objects but gives no code an address. All calls are made in turn, in an order that changes. A time is that
of a whole process: the least of the R. Memory is the most that a process held, as GNU time tells it.
"""
import os
import sys
import tempfile

sys.path.insert(0, os.path.join(os.path.dirname(os.path.abspath(__file__)), os.pardir, 'scripts'))

from run import straight
from zcld_tools import programs
from zcld_tools.elf import DATA_FLAGS, NOBITS, PROGBITS
from zcld_tools.files import write_list
from zcld_tools.instructions import EXIT_WORDS, words_of
from zcld_tools.measured import Call, Runs, milliseconds, table, words_of_bench
from zcld_tools.objects import Written

# Code, data and zeroed data of each of several objects, in bytes, and names.
PER_OBJECT = (1000, 4096, 8192, 40)


def add_code(made, size, name=b'.text', last=()):
    """Adds a section of straight code to an object."""
    section = made.section(name)
    section.words(*straight(size // 4, last))
    return section


def add_start(made, size):
    """The same, where `_start` is, and which exits."""
    section = add_code(made, size, last=EXIT_WORDS)
    made.symbol(b'_start', home=section)


def add_data(made, content, name=b'.data'):
    section = made.section(name, PROGBITS, DATA_FLAGS)
    section.content += content
    return section


def made_objects(count):
    """So many objects of one size, with `_start` in the first."""
    code, data, zeros, names = PER_OBJECT
    objects = []
    for i in range(count):
        made = Written()
        if i == 0:
            add_start(made, code)
        else:
            add_code(made, code)
        held = add_data(made, bytes(range(256)) * (data // 256))
        made.section(b'.bss', NOBITS, DATA_FLAGS, size=zeros)
        for k in range(names):
            made.symbol(b'name_%d_%d' % (i, k), home=held, value=4 * k)
        objects.append(made.bytes())
    return objects


def with_data(content):
    """An object that exits and has data; and that section."""
    made = Written()
    add_start(made, 1000)
    return made, add_data(made, content)


def made_symbols(count):
    """One object of this many global names."""
    made, held = with_data(bytes(4096))
    for k in range(count - 1):
        made.symbol(b'name_%d' % k, home=held, value=k % 4096)
    return [made.bytes()]


def letters(count):
    return bytes(97 + k * k % 26 for k in range(count))


def made_endings(count):
    """One object of this many global names, all but one of which are endings of one name of 2 MB."""
    made, held = with_data(bytes(4096))
    length = 2000000
    made.symbol_names.add(b'_start')
    start = made.symbol_names.add(letters(length))
    for k in range(count - 1):
        made.symbol(start + k * (length // (count - 1)), home=held, value=k % 4096)
    return [made.bytes()]


def made_sections(count):
    """One object of this many sections, with those of symbols and names: code and data in turn, of 8 bytes each."""
    made = Written()
    add_start(made, 12)
    for k in range(count - 5):
        if k % 2:
            add_code(made, 8, b'.text.%d' % k)
        else:
            add_data(made, words_of(k, k), b'.data.%d' % k)
    return [made.bytes()]


def made_section_endings(count):
    """One object of code and this many sections of data, whose names are endings of one name of 3.8 MB."""
    length = 3800000
    made = Written()
    start = made.section_names.add(letters(length))
    add_start(made, 12)
    for k in range(count):
        add_data(made, words_of(k, k), start + k * (length // count))
    return [made.bytes()]


def made_sections_in_each(count):
    """256 objects of this many sections each, with those of symbols and names: of a zeroed byte each, and one of code in the
    first."""
    first, other = Written(), Written()
    add_start(first, 12)
    for made in (first, other):
        while len(made.sections) < count - 4:
            made.section(b'.bss', NOBITS, DATA_FLAGS, size=1)
    return [first.bytes(), *[other.bytes()] * 255]


# All objects together may have 32 MiB. So many have 256 objects of 3,274 sections each, and those of more are refused.
ROWS = ((made_objects, 'objects', (1, 16, 256)), (made_symbols, 'symbols', (10, 1000, 100000)),
        (made_endings, 'endings', (60000,)), (made_sections, 'sections', (10, 4096)),
        (made_section_endings, 'section endings', (400, 4090)),
        (made_sections_in_each, 'sections in each of 256 objects', (3274, 4096)))
# The list that is refused, with the status.
REFUSED = {('sections in each of 256 objects', 4096): 121}
# GNU ld reads each name whole, so it stands beside no row of names that share bytes, and it doesn't refuse what `zc` does.
ZC_ALONE = ('endings', 'section endings')


def calls_of(program, linker, folder):
    """The calls of each row: of `zc`, and of GNU ld or none, with the bytes of the objects."""
    calls = {}
    for make, what, counts in ROWS:
        for count in counts:
            paths = write_list(folder, make(count), f'{what}{count}_{{}}.o')
            out, cert, merged = (os.path.join(folder, f'{what}{count}.{kind}') for kind in ('elf', 'cert', 'merged'))
            status = REFUSED.get((what, count), 0)
            is_alone = not linker or what in ZC_ALONE or status
            calls[what, count] = (
                Call([program, 'zc', '--out', out, '--cert', cert, *paths], status),
                None if is_alone else Call([linker, *programs.FORMAT, '-r', '-o', merged, *paths]),
                sum(map(os.path.getsize, paths)))
    return calls


def report(calls, linker):
    print('Times are milliseconds of a whole process, the least of all calls: by the clock, and of the processor.')
    print(f'Memory is the most that a process held, in KiB. Beside `zc` stands {os.path.basename(linker)} -r.' if linker else
          'Memory is the most that a process held, in KiB. There is no GNU ld for RISC-V here to stand beside `zc`.')
    rows = []
    for (what, count), (link, merge, size) in calls.items():
        cells = [f'{count} {what}', size]
        for call in (link, merge):
            cells += [milliseconds(call.wall), milliseconds(call.processor), call.peak()] if call else ['-'] * 3
        rows.append(cells)
    table(('list', 'bytes', *(f'{name}, {what}' for name in ('zc', 'ld -r') for what in ('clock', 'processor', 'KiB'))), rows)


def main():
    given = words_of_bench('Measures `zc` on lists of objects, and on many symbols, sections and names that share bytes.',
                           40).parse_args()
    linker = programs.found(*programs.GNU_LINKERS)
    with tempfile.TemporaryDirectory() as folder:
        calls = calls_of(programs.built(given.program), linker, folder)
        Runs((call for pair in calls.values() for call in pair[:2] if call), given.repeats).say()
        report(calls, linker)


if __name__ == '__main__':
    main()
