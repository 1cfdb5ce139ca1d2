#!/usr/bin/env python3
"""Compares the plain link of `plain_link.py` with GNU ld's, byte for byte.

    fuzz/against_ld.py FILE...

Both link the files with the same order of sections, in the memory of docs/FORMATS.md, and GNU ld without relaxation. Compared
are the entry, the code and the data. Names of sections must tell them apart in a file. GNU ld gets copies of the files: without
flags to merge strings, and without relocations of branches, jumps and calls to weak names without definition, whose words the
plain link copies. In paddings GNU ld has the `c.nop` after the `nop`s, and so has what it is compared with. The status is 1 if
they differ.

    fuzz/against_ld.py --seed S --count N

does so with lists of objects by chance (`made_objects.py`) that have no fault.
"""
import argparse
import os
import random
import struct
import sys
import tempfile

sys.path[:0] = (os.path.join(os.path.dirname(os.path.abspath(__file__)), os.pardir, it) for it in ('scripts', 'models'))

from made_objects import made_list
from object_data import ABSENT, class_of
from object_faults import Object
from object_items import CALLS, WAYS, first_fault
from plain_link import Plain
from zcld_tools import programs
from zcld_tools.elf import MERGE, NONE, STRINGS
from zcld_tools.files import read, read_all, write, write_list
from zcld_tools.images import DATA_AT, STACK_HIGH, TEXT_AT


class Differs(Exception):
    """Two links that aren't the same."""


class Turned(Plain):
    """The plain link with paddings as GNU ld writes them."""

    def padding(self, place, item):
        made = super().padding(place, item)
        return made[len(made) % 4:] + made[:len(made) % 4]


def linker():
    return programs.found(*programs.GNU_LINKERS, *programs.LLVM_LINKERS)


def inputs(objects, paths, wanted):
    """Lines of the linker's script for sections, in their order."""
    for read, path in zip(objects, paths):
        for k, section in enumerate(read.sections):
            if read.kept[k] and wanted(read, k, section):
                yield f'KEEP("{os.path.abspath(path)}"("{read.name_of(section).decode()}"))'


def script(objects, paths, commons):
    """A linker's script that lays code and data out as the plain link does."""
    lines = ['ENTRY(_start)', f'__stack_top = {STACK_HIGH:#x};', 'SECTIONS {', f'.text {TEXT_AT:#x} : {{ . = ALIGN(4);',
             *(line for it in inputs(objects, paths, lambda read, k, _: read.is_code(k)) for line in ('. = ALIGN(4);', it)), '}',
             f'.data {DATA_AT:#x} : {{']
    for kind in range(5):
        lines.append('. = ALIGN(16);')
        lines += {2: ['"__global_pointer$" = . + 0x800;'], 3: ['__bss_start = .;']}.get(kind, [])
        lines += inputs(objects, paths, lambda read, k, s, kind=kind: not read.is_code(k) and class_of(read, s) == kind)
    # Common symbols have room, but GNU ld doesn't take them in the order of their names' first sight.
    lines += ['. = ALIGN(16);', *(f'. = ALIGN({max(1, align)}); "{name.decode()}" = .; . += {size};'
                                   for name, (size, align) in commons.items()), '_end = .; }', '/DISCARD/ : { *(*) } }']
    return '\n'.join(lines)


def copied(data, i, symbols):
    """The object without what GNU ld alone does."""
    read, changed = symbols.objects[i], bytearray(data)
    for k, section in enumerate(read.sections):
        struct.pack_into('<I', changed, read.table + 40 * k + 8, section.flags & ~(MERGE | STRINGS))
        for at in range(section.at, section.at + section.size, 12) if section in read.kept_relas() else ():
            _, info, addend = struct.unpack_from('<IIi', data, at)
            if info & 255 in (*WAYS, *CALLS) and symbols.resolve(i, info >> 8, addend)[0] == ABSENT:
                struct.pack_into('<I', changed, at + 4, info & ~255 | NONE)
    return changed


def linked_file(program, files, symbols):
    """The file that another linker writes."""
    with tempfile.TemporaryDirectory() as folder:
        order, out = (os.path.join(folder, name) for name in ('script', 'out'))
        paths = write_list(folder, [copied(data, i, symbols) for i, data in enumerate(files)])
        write(order, script(symbols.objects, paths, symbols.names.common).encode())
        try:
            programs.told([program, *programs.FORMAT, '--no-relax', '--allow-multiple-definition', '-o', out, *paths, '-T',
                           order])
        except programs.Failed as why:
            raise Differs(str(why)) from None
        return read(out)


def linked(program, files, symbols):
    """The entry, the code and the data that another linker writes."""
    data = linked_file(program, files, symbols)
    read = Object(data)
    by_name = {read.name_of(section): section for section in read.sections}
    return struct.unpack_from('<I', data, 24)[0], *(by_name[name].content if name in by_name else b''
                                                    for name in (b'.text', b'.data'))


def compare(program, files):
    """The bytes of code and of data, which are the same."""
    plain = Turned([Object(data) for data in files])
    entry, text, data = linked(program, files, plain.code.symbols)
    if entry != plain.addresses[plain.code.entry()]:
        raise Differs(f'the entry is {entry:#x}')
    for what, at, mine, other in (('code', TEXT_AT, plain.text(), text), ('data', DATA_AT, plain.data(), data)):
        if what == 'code' and len(mine) != len(other):
            raise Differs(f'{len(mine)} bytes of code, and {len(other)}')
        for k in range(0, len(mine), 4):
            if mine[k:k + 4] != other[k:k + 4].ljust(len(mine[k:k + 4]), b'\0'):
                raise Differs(f'{what} at {at + k:#x}: {mine[k:k + 4].hex()} and {other[k:k + 4].hex()}')
    return len(text), len(plain.data())


def compare_made(program, seed, count):
    same = 0
    for number in range(count):
        files = made_list(random.Random(f'{seed} {number}'), is_odd=False)
        if first_fault(files):
            raise Differs(f'case {number} has a fault: {first_fault(files)}')
        try:
            compare(program, files)
            same += 1
        except Differs as why:
            print(f'case {number}: {why}')
    print(f'{same} of {count} are linked alike')
    return same < count


def main():
    arguments = argparse.ArgumentParser(description='Compares the plain link with that of GNU ld.')
    arguments.add_argument('files', nargs='*')
    arguments.add_argument('--seed', type=int, default=1)
    arguments.add_argument('--count', type=int, default=0)
    given = arguments.parse_args()
    program = linker()
    if program is None:
        sys.exit('there is no linker for RISC-V')
    if given.files:
        try:
            print('the same {} bytes of code, and {} of data'.format(*compare(program, read_all(given.files))))
        except Differs as why:
            sys.exit(str(why))
    return compare_made(program, given.seed, given.count) if given.count else 0


if __name__ == '__main__':
    sys.exit(main())
