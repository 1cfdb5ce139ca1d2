#!/usr/bin/env python3
"""Objects without the sections of code that nothing reaches, by the System V gABI and the RISC-V ELF psABI.

    models/section_gc.py PREFIX FILE...

writes the objects of the files under PREFIX0.o and so on, and prints how much of their code is kept, or prints their first fault.
A program needs the section that it starts in, all data, the sections of code that stay as they are, and the code that relocations
of these lead to, and so on. The model is independent of the program, so that both can be compared.
"""
import os
import sys

sys.path.insert(0, os.path.join(os.path.dirname(os.path.abspath(__file__)), os.pardir, 'scripts'))

from object_data import CODE
from object_faults import Object
from object_items import Code, without_fault
from object_parts import Rewritten, relocations
from zcld_tools.files import write
from zcld_tools.images import STANDARD


def needed(code):
    """The sections that the program needs, each by its object's index and its own."""
    found = {(i, k) for i, read in enumerate(code.objects) for k in range(read.count) if read.kept[k] and not read.is_code(k)}
    found |= {code.entry()[:2], *code.fixed}
    todo = list(found)
    while todo:
        i, k = todo.pop()
        for _, symbol, _, addend in relocations(code.objects[i], k):
            target = code.symbols.resolve(i, symbol, addend)
            if target[0] == CODE and target[1:3] not in found:
                found.add(target[1:3])
                todo.append(target[1:3])
    return found


class Cleaned(Rewritten):
    """What is left of an object."""

    def __init__(self, data, i, wanted):
        super().__init__(data)
        self.empty = {k for k in self.code if (i, k) not in wanted}
        self.make()

    def part(self, k):
        return (1, 0, b'', []) if k in self.empty else super().part(k)

    def extent(self, home, value, size):
        return (0, 0) if home in self.empty else (value, size)


def collected(files, memory=STANDARD, names=()):
    """What is left of each of the files in a memory map, if sections of these names stay."""
    wanted = needed(Code([Object(data) for data in files], memory, names))
    return [Cleaned(data, i, wanted) for i, data in enumerate(files)]


def lines(left):
    """The lines that say how many sections of code are kept, and how many bytes, of all."""
    sizes = [(it.read.sections[k].size, k not in it.empty) for it in left for k in it.code]
    kept = [size for size, is_kept in sizes if is_kept]
    return b'sections %d of %d\ncode %d of %d\n' % (len(kept), len(sizes), sum(kept), sum(size for size, _ in sizes))


def main():
    prefix, *paths = sys.argv[1:]
    left = collected(without_fault(paths))
    for i, it in enumerate(left):
        write(f'{prefix}{i}.o', it.bytes())
    sys.stdout.buffer.write(lines(left))


if __name__ == '__main__':
    main()
