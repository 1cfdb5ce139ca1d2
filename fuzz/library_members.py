#!/usr/bin/env python3
"""Links each object of archives by itself, with a start that defines what it needs, and counts what the program says of them.

    fuzz/library_members.py [--program PROGRAM] ARCHIVE...

PROGRAM is build/zcld if none is given. For each archive are printed how many objects it has, how many of them have compressed
code, and how many are linked or refused, by the line, with the names of those that are refused. `plain` and `zc` must say the same
of each: the status is 1 if they don't.
"""
import argparse
import collections
import os
import sys
import tempfile

sys.path[:0] = (os.path.join(os.path.dirname(os.path.abspath(__file__)), os.pardir, it) for it in ('scripts', 'models'))

from object_faults import Object, object_fault
from zcld_tools import programs
from zcld_tools.elf import GLOBAL, UNDEF
from zcld_tools.files import read, write_list
from zcld_tools.instructions import A0, EXIT_WORDS, ZERO, addi
from zcld_tools.objects import object_with

MAGIC, HEADER = b'!<arch>\n', 60


def members(data):
    """The name and the bytes of each file of an archive (System V gABI, "Archive File")."""
    at, names = len(MAGIC), b''
    while at + HEADER <= len(data):
        name, size = data[at:at + 16].rstrip(), int(data[at + 48:at + 58])
        content = data[at + HEADER:at + HEADER + size]
        at += HEADER + size + size % 2
        if name == b'//':
            names = content
        elif name != b'/':
            start = int(name[1:]) if name[1:].isdigit() else None
            yield (name if start is None else names[start:names.index(b'\n', start)]).rstrip(b'/').decode(), content


def start_for(data):
    """An object with `_start`, and with each name that another one needs."""
    made, text = object_with(addi(A0, ZERO), *EXIT_WORDS)
    if object_fault(data) is None:
        for _, name, _, _, bind, home in Object(data).named_symbols():
            if bind == GLOBAL and home == UNDEF:
                made.symbol(name, home=text)
    return made.bytes()


def line(program, folder, data):
    """What both links say of an object with its start: nothing if they take it."""
    paths = write_list(folder, [start_for(data), data])
    ended = [programs.run([program, link, '--out', os.path.join(folder, 'out'), *more, *paths])
             for link, more in (('plain', ()), ('zc', ('--cert', os.path.join(folder, 'cert'))))]
    lines = {it.err.decode(errors='replace').strip() for it in ended}
    if len(lines) > 1 or ended[0].status != ended[1].status:
        raise programs.Failed(f'plain ends with {ended[0]}, and zc with {ended[1]}')
    return lines.pop()


def main():
    arguments = argparse.ArgumentParser(description='Links each object of archives by itself.')
    arguments.add_argument('archives', nargs='+')
    arguments.add_argument('--program', default=programs.BUILT)
    given = arguments.parse_args()
    program, wrong = programs.built(given.program), 0
    for path in given.archives:
        found, short = collections.defaultdict(list), 0
        with tempfile.TemporaryDirectory() as folder:
            for name, data in members(read(path)):
                short += data[36] & 1
                try:
                    found[line(program, folder, data)].append(name)
                except programs.Failed as why:
                    wrong += 1
                    print(f'WRONG: {path}, {name}: {why}')
        print(f'{path}: {sum(map(len, found.values()))} objects, {short} with compressed code')
        for said, names in sorted(found.items(), key=lambda row: -len(row[1])):
            print(f'{len(names):6} {said or "linked"}' + (f': {" ".join(names)}' if said else ''))
    print(f'{wrong} wrong')
    return wrong > 0


if __name__ == '__main__':
    sys.exit(main())
