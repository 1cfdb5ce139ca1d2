#!/usr/bin/env python3
"""Objects in which equal ends of functions stand once, by the System V gABI and the RISC-V ELF psABI.

    models/tail_merge.py PREFIX FILE...

writes the objects of the files under PREFIX0.o and so on, and prints how many tails were removed and how many bytes that saves, or
prints their first fault. The model is independent of the program, so that both can be compared.

A tail is a run of items that ends with a `jalr` that keeps no link. None of its items has a relocation; none but the last is a
branch, a jump or `auipc`. Where a tail stands a second time in a section, and no basic block begins inside it, a jump to the first
one takes its place, if that has fewer bytes.
"""
import bisect
import itertools
import os
import sys
from typing import NamedTuple

sys.path.insert(0, os.path.join(os.path.dirname(os.path.abspath(__file__)), os.pardir, 'scripts'))

from groups import leaders
from halfwords import short_form
from object_data import CODE
from object_faults import Object
from object_items import Code, without_fault
from object_parts import Rewritten, relocations
from zcld_tools.elf import ALIGN
from zcld_tools.files import write
from zcld_tools.images import STANDARD
from zcld_tools.instructions import (ZERO, halves_of, is_auipc, is_branch, is_jalr, jal, with_branch, with_jump, words_of)

JUMP = 4


class CodeItem(NamedTuple):
    """An item of a section: where it stands, how many bytes it has, its instruction's word if it is one without a relocation
    that doesn't lead anywhere, in a section that may change, and whether a basic block begins there."""

    offset: int
    size: int
    word: int
    begins: bool

    def ends_tail(self):
        return self.word is not None and is_jalr(self.word) and self.word >> 7 & 31 == ZERO

    def goes_on(self):
        """Whether it can stand in a tail before the end."""
        return self.word is not None and not is_jalr(self.word) and not is_auipc(self.word)

    def end(self):
        return self.offset + self.size


class Hosts:
    """The ends that stay, as a tree of their tails' words from behind. Each word goes with the first end that has it there."""

    def __init__(self):
        self.behind = {}

    def add(self, items, number):
        """Adds an end, by its items from behind and its number."""
        behind = self.behind
        for item in items:
            _, behind = behind.setdefault(item.word, (number, {}))

    def longest(self, items):
        """The end with the longest tail that is equal to these items, and how many items that has."""
        behind, host, count = self.behind, None, 0
        for count, item in enumerate(items):
            if item.word not in behind:
                return host, count
            host, behind = behind[item.word]
        return host, count + 1


def from_behind(items, end):
    """The items of the longest tail of an end, the last one first."""
    yield items[end]
    yield from itertools.takewhile(CodeItem.goes_on, reversed(items[:end]))


def up_to_leader(items):
    """Items up to the first one at which a basic block begins."""
    for item in items:
        yield item
        if item.begins:
            return


class Tail(NamedTuple):
    """A tail that is removed, and the equal one of its host."""

    items: list
    host: list

    def start(self):
        return self.items[0].offset

    def end(self):
        return self.items[-1].end()


class Shared:
    """What becomes of the code of a section: which tails are removed, and where offsets go."""

    def __init__(self, items):
        self.items, self.tails, hosts = items, [], Hosts()
        for number in (k for k, item in enumerate(items) if item.ends_tail()):
            host, count = hosts.longest(up_to_leader(from_behind(items, number)))
            tail = items[number + 1 - count:number + 1]
            if sum(item.size for item in tail) > JUMP:
                self.tails.append(Tail(tail, items[host + 1 - count:host + 1]))
            else:
                hosts.add(from_behind(items, number), number)
        self.starts = [tail.start() for tail in self.tails]
        self.saved = [0, *itertools.accumulate(tail.end() - tail.start() - JUMP for tail in self.tails)]
        self.at_host = {item.offset: host.offset for tail in self.tails for item, host in list(zip(*tail))[1:]}
        self.edges = {item.offset for item in items} | {items[-1].end() if items else 0}

    def down(self, offset):
        """Where an offset goes: with what stands there, and from inside a tail to behind the jump."""
        begun = bisect.bisect_left(self.starts, offset)
        if begun and offset < self.tails[begun - 1].end():
            return self.starts[begun - 1] + JUMP - self.saved[begun - 1]
        return offset - self.saved[begun]

    def found(self, offset):
        """Where what stands at an offset is found, at its host if need be."""
        return self.down(self.at_host.get(offset, offset))

    def pieces(self, own):
        """The bytes of the items that stay, each by `own`, and of the jumps."""
        inside, jumps = set(self.at_host), dict(zip(self.starts, self.tails))
        for item in self.items:
            if item.offset in jumps:
                to = self.down(jumps[item.offset].host[0].offset)
                yield words_of(jal(ZERO, to - self.down(item.offset)))
            elif item.offset not in inside:
                yield own(item)


class Merged(Rewritten):
    """An object whose code shares equal tails."""

    def __init__(self, data, i, code, shared):
        super().__init__(data)
        self.i, self.code_of_all, self.shared = i, code, shared
        self.make()

    def part(self, k):
        align, size, content, entries = super().part(k)
        if k not in self.code:
            return align, size, content, [self.relocation(None, *entry) for entry in entries]
        shared = self.shared[self.i, k]
        content = b''.join(shared.pieces(lambda item: self.own_bytes(k, item)))
        return align, len(content), content, [self.relocation(shared, *entry) for entry in entries]

    def own_bytes(self, k, item):
        """The bytes of an item that stays. A branch or jump without relocation leads as far as it must now."""
        place = self.i, k, item.offset
        own, shared = self.code_of_all.item(place), self.shared[self.i, k]
        if item.offset in self.code_of_all.parts[self.i, k].at or own.kind not in ('Branch', 'Jump'):
            return self.read.sections[k].content[item.offset:item.end()]
        distance = shared.found(own.target[3]) - shared.down(item.offset)
        word = (with_branch if is_branch(own.words[0]) else with_jump)(own.words[0], distance)
        return words_of(word) if own.half is None else halves_of(short_form(word))

    def relocation(self, shared, offset, symbol, kind, addend):
        """A relocation of a section, which leads to the same place. That an ALIGN has a symbol means nothing."""
        target = self.code_of_all.symbols.resolve(self.i, symbol, addend)
        if target[0] == CODE and kind != ALIGN:
            home = self.shared[target[1:3]]
            addend = home.found(target[3]) - home.down(target[3] - addend)
        return shared.down(offset) if shared else offset, symbol, kind, addend

    def extent(self, home, value, size):
        if home not in self.code:
            return value, size
        shared = self.shared[self.i, home]
        is_whole = value in shared.edges and value + size in shared.edges
        return shared.down(value), shared.down(value + size) - shared.down(value) if is_whole else 0


def shared_code(code):
    """What becomes of each section of code, by its object's index and its own."""
    blocks, made = leaders(code), {}
    for place, part in code.code_parts():
        items = []
        for offset, size in part.starts.items():
            item = code.item((*place, offset))
            word = item.words[0] if item.kind == 'Op' and place not in code.fixed else None
            items.append(CodeItem(offset, size, word, (*place, offset) in blocks))
        made[place] = Shared(items)
    return made


def merged(files, memory=STANDARD, names=()):
    """The objects of the files with equal tails shared, in a memory map, but for those in sections of these names."""
    code = Code([Object(data) for data in files], memory, names)
    shared = shared_code(code)
    return [Merged(data, i, code, shared) for i, data in enumerate(files)]


def lines(made):
    """The lines that say how many tails were removed from all objects, and how many bytes fewer these have."""
    shared = list(made[0].shared.values())
    return b'tails %d\nbytes %d\n' % (sum(len(it.tails) for it in shared), sum(it.saved[-1] for it in shared))


def main():
    prefix, *paths = sys.argv[1:]
    made = merged(without_fault(paths))
    for i, it in enumerate(made):
        write(f'{prefix}{i}.o', it.bytes())
    sys.stdout.buffer.write(lines(made))


if __name__ == '__main__':
    main()
