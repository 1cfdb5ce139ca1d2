#!/usr/bin/env python3
"""Measures `plain` and `zc` on lists of objects with many relocations, beside GNU ld and LLD.

    bench/links.py [--repeats R] [--before BEFORE]... [PROGRAM]        PROGRAM is build/zcld if none is given

Objects are made by rule: code that calls functions and uses data of other objects in each way that compilers do, with a
relocation for nearly every word, and tables of addresses in data. Some lists have compressed code, each twice as many objects as
the one before. Each list is linked R times by `zcld plain` and `zcld zc`, and R times by each other linker for RISC-V that is
installed, without relaxation beside `plain` and with it beside `zc`. The last list is one for `zc` alone: a chain of branches,
each of which reaches just so over the next ones, so that each round of the layout makes but a few longer. With BEFORE, another
program of zcld, its calls are made as well, for lists that it takes, and the images must be the same; there may be several. All
calls are made in turn, in an order that changes. A time is the processor's for a whole process: the least of the R. A ratio above
1 says that the other linker took longer, or held more. Memory is the most that a process held, as GNU time tells it.
"""
import filecmp
import os
import sys
import tempfile

sys.path.insert(0, os.path.join(os.path.dirname(os.path.abspath(__file__)), os.pardir, 'scripts'))

from zcld_tools import programs
from zcld_tools.elf import (BRANCH, CALL, DATA_FLAGS, FUNCTION_TYPE, HI20, JAL, LO12_I, LO12_S, LOCAL, PCREL_HI20,
                            PCREL_LO12_I, PCREL_LO12_S, PROGBITS, RELAX, RVC, RVC_BRANCH, RVC_JUMP, R_32)
from zcld_tools.files import read, write_list
from zcld_tools.images import DATA_AT, TEXT_AT, text_of
from zcld_tools.instructions import A0, A1, EXIT_WORDS, NOP, RA, T0, T1, ZERO, addi, auipc, branch, jal, jalr, lui, lw, sw
from zcld_tools.measured import Call, Runs, milliseconds, table, words_of_bench
from zcld_tools.objects import Written, object_with

# Who is asked: this program, an earlier one, and other linkers.
NOW, BEFORE = 'zcld', 'before'
LINKERS = {'GNU ld': programs.GNU_LINKERS, 'LLD': programs.LLVM_LINKERS}
# Of each list: how many objects, the words of code and of tables of each, and whether there are hints for relaxation.
LISTS = ((16, 256, 3072, False), (16, 4080, 64, False), (128, 504, 64, False), (256, 252, 64, False), (256, 252, 64, True))
# The same of lists of compressed objects.
COMPRESSED = tuple((count, 115, 64, True) for count in (32, 64, 128, 256))
# A piece of a function: this many words, and one relocation for nearly each of them. And what a piece of compressed code has more:
# `c.addi a0,1`, `c.mv a1,a0`, `c.lw a0,0(a0)` and `c.sw a0,0(a0)`, and its branch and its jump, `c.bnez a0` and `c.jal`.
PIECE, HALVES, C_BNEZ, C_JAL = 16, (0x0505, 0x85AA, 0x4108, 0xC108), 0xE101, 0x2001
NUMBERS, SPENT = 64, 127


class Object:
    """An object of a list: its functions, and a table of addresses."""

    def __init__(self, number, count, words, hints):
        self.number, self.count, self.hints = number, count, hints
        self.made, self.known = Written(), {}
        self.text = self.made.section(b'.text')
        if number == 0:
            self.made.symbol(b'_start', home=self.text)
        for k in range((words - 3) // PIECE):
            self.add_piece(k)
        self.text.words(addi(A0, ZERO), *EXIT_WORDS)
        self.text.words(*[NOP] * (words - len(self.text.content) // 4))
        held = self.made.section(b'.data', PROGBITS, DATA_FLAGS)
        held.words(*range(NUMBERS))
        self.define(b'numbers_%d' % number, held, 0)

    def define(self, name, section, value, **how):
        symbol = self.named(name)
        symbol.home, symbol.value = section, value
        for key, it in how.items():
            setattr(symbol, key, it)

    def named(self, name):
        if name not in self.known:
            self.known[name] = self.made.symbol(name)
        return self.known[name]

    def function(self, k):
        """The function k of another object, as each object has as many."""
        return self.named(b'function_%d_%d' % ((self.number * 7 + k * 13 + 1) % self.count, k))

    def numbers(self, k):
        return self.named(b'numbers_%d' % ((self.number * 5 + k * 11 + 3) % self.count))

    def reloc(self, kind, symbol, addend, *words):
        at = self.text.reloc(kind, symbol, addend, words)
        if self.hints and kind not in (BRANCH, JAL):
            self.text.reloc(RELAX, None)
            self.text.relocs[-1].offset = at

    def add_piece(self, k):
        """A function of 16 words with 14 relocations."""
        start = len(self.text.content)
        self.define(b'function_%d_%d' % (self.number, k), self.text, start, kind=FUNCTION_TYPE, size=4 * PIECE)
        numbers, at = self.numbers(k), 4 * (k % NUMBERS)
        self.reloc(HI20, numbers, at, lui(T0))
        self.reloc(LO12_I, numbers, at, addi(T1, T0))
        for kind, last in ((PCREL_LO12_I, lw(A0, T0)), (PCREL_LO12_S, sw(A0, T0))):
            label = self.made.symbol(b'.L%d_%d' % (k, kind), home=self.text, value=len(self.text.content), bind=LOCAL)
            self.reloc(PCREL_HI20, numbers, at, auipc(T0))
            self.reloc(kind, label, 0, last)
        self.reloc(HI20, numbers, at, lui(T0))
        self.reloc(LO12_S, numbers, at, sw(T1, T0))
        self.reloc(CALL, self.function(k), 0, auipc(RA), jalr(RA, RA))
        self.add_ways(k)
        self.reloc(HI20, self.function(k), 0, lui(T0))
        self.reloc(LO12_I, self.function(k), 0, jalr(RA, T0))
        self.reloc(CALL, self.function(k), 0, auipc(RA), jalr(RA, RA))

    def add_ways(self, k):
        """A branch in the function and a jump to another one."""
        self.reloc(BRANCH, self.named(b'function_%d_%d' % (self.number, k)), 0, branch(1, A0, A1))
        self.reloc(JAL, self.function(k), 0, jal(RA))

    def add_table(self, words, functions):
        held = self.made.section(b'.data.rel', PROGBITS, DATA_FLAGS)
        for k in range(words):
            held.reloc(R_32, self.function(k % functions) if k % 2 else self.numbers(k), 4 * (k % 8) * (1 - k % 2), (0,))

    def relocs(self):
        return sum(len(section.relocs) for section in self.made.sections)


class CompressedObject(Object):
    """The same with compressed code."""

    def __init__(self, *how):
        super().__init__(*how)
        self.made.flags, self.text.align = RVC, 2

    def add_ways(self, k):
        """Instructions of two bytes, with a branch and a jump in the function."""
        own = self.named(b'function_%d_%d' % (self.number, k))
        self.text.halves(*HALVES)
        for kind, half in ((RVC_BRANCH, C_BNEZ), (RVC_JUMP, C_JAL)):
            self.text.reloc(kind, own, 0, halves=(half,))


def made_list(make, count, words, table_words, hints):
    """The files of a list, and how many bytes of code and relocations they have."""
    objects = [make(i, count, words, hints) for i in range(count)]
    for it in objects:
        it.add_table(table_words, (words - 3) // PIECE)
    return [it.made.bytes() for it in objects], sum(len(it.text.content) for it in objects), sum(it.relocs() for it in objects)


def chain():
    """The most code that there may be: branches of which each leads over the next 126, and the last one farther."""
    made, text = object_with()
    count = 0x10000 - 1 - 400
    text.words(*[branch(0, A0, ZERO, 4 * 127)] * (count - 1), branch(0, A0, ZERO, 4 * 200), *[NOP] * 400)
    return made.bytes(), len(text.content)


def linkers():
    """The linkers that are installed, with the words before those of a call."""
    found = {name: programs.found(*names) for name, names in LINKERS.items()}
    where = f'-Ttext={TEXT_AT:#x}', f'-Tdata={DATA_AT:#x}'
    return {name: [path, *programs.FORMAT, *where] for name, path in found.items() if path}


class Listed:
    """A list that is linked: what it has, and the calls and the small images, by who is asked."""

    def __init__(self, what, paths, base, mine, others):
        self.what, self.plain, self.small, self.images = what, {}, {}, {}
        for name, program in mine.items():
            out, self.images[name] = f'{base}.{name}.plain', f'{base}.{name}.zc'
            self.plain[name] = Call([program, 'plain', '--out', out, *paths])
            self.small[name] = Call([program, 'zc', '--out', self.images[name], '--cert', f'{base}.{name}.cert', *paths])
        for name, words in others.items():
            out, self.images[name] = f'{base}.{name[-2:]}', f'{base}.{name[-2:]}.relaxed'
            self.plain[name] = Call([*words, '--no-relax', '-o', out, *paths])
            self.small[name] = Call([*words, '-o', self.images[name], *paths])
        self.same = [(f'{base}.{NOW}.{kind}', f'{base}.{name}.{kind}') for name in mine for kind in ('plain', 'zc', 'cert')]

    def calls(self):
        return [*self.plain.values(), *self.small.values()]

    def compare(self):
        """Ends this if programs of zcld didn't write the same."""
        for now, before in self.same:
            if not filecmp.cmp(now, before, shallow=False):
                sys.exit(f'{self.what[0]}: {os.path.basename(now)} isn\'t {os.path.basename(before)}')


def takers(mine, paths):
    """The programs that take objects: earlier ones take no compressed code."""
    return {name: program for name, program in mine.items()
            if programs.run([program, 'trace', '--steps', '0', *paths]).status == SPENT}


def lists_of(mine, others, folder):
    """The lists, and the chain, which no other linker makes smaller."""
    made = [(made_list(Object, *row), f'{row[0]} objects' + (', with hints' if row[3] else ''), others) for row in LISTS]
    made += [(made_list(CompressedObject, *row), f'{row[0]} compressed objects', others) for row in COMPRESSED]
    data, code = chain()
    made.append((([data], code, 0), 'a chain of branches', {}))
    lists = []
    for number, ((files, code, relocs), what, beside) in enumerate(made):
        paths = write_list(folder, files, f'{number}_{{}}.o')
        base = os.path.join(folder, str(number))
        lists.append(Listed((what, code, relocs, sum(map(len, files))), paths, base, takers(mine, paths), beside))
    return lists


def text_size(path):
    """The bytes of code of an image."""
    return len(text_of(read(path)))


def ratio(other, mine):
    return f'{other / mine:.2f}' if other and mine else None


def compared(calls, name, peaks):
    """The time and the memory of a call, and their ratios to those of this program, if it is another's."""
    cells = [milliseconds(calls[name].processor), peaks[name]]
    if name != NOW:
        cells += [ratio(min(calls[name].processor), min(calls[NOW].processor)), ratio(peaks[name], peaks[NOW])]
    return cells


def heads_of(name, text=()):
    return [f'{name}, ms', 'KiB', 'ratio', 'of KiB', *text]


def report(lists, names, kind):
    """A table of the calls of one kind: this program's, and beside them those of others."""
    text, rows = ['text'] if kind == 'small' else [], []
    for it in lists:
        calls = getattr(it, kind)
        peaks, cells = {name: call.peak() for name, call in calls.items()}, [*it.what]
        for name in (NOW, *names):
            if name in calls:
                cells += compared(calls, name, peaks) + [text_size(it.images[name])] * len(text)
            else:
                cells += [''] * len(heads_of(name, text))
        rows.append(cells)
    heads = ['list', 'code, bytes', 'relocations', 'files, bytes', f'{"zc" if text else "plain"}, ms', 'KiB', *text]
    table(heads + [head for name in names for head in heads_of(name, text)], rows)


def programs_of(given):
    """The programs that the words name, by who is asked: this one, BEFORE, and then BEFORE with a number from 2 on."""
    names = [BEFORE, *(f'{BEFORE} {k + 2}' for k in range(len(given.before)))]
    return {NOW: programs.built(given.program), **dict(zip(names, map(programs.built, given.before)))}


def words_with_before(description, repeats):
    """The words of a bench that measures an earlier program too."""
    arguments = words_of_bench(description, repeats)
    arguments.add_argument('--before', action='append', default=[],
                           help='an earlier program of zcld, to be measured beside this one')
    return arguments


def main():
    given = words_with_before('Measures `plain` and `zc` on lists of objects with many relocations.', 40).parse_args()
    mine, others = programs_of(given), linkers()
    with tempfile.TemporaryDirectory() as folder:
        lists = lists_of(mine, others, folder)
        runs = Runs((call for it in lists for call in it.calls()), given.repeats)
        for it in lists if given.before else ():
            it.compare()
        runs.say()
        print('Times are the processor\'s milliseconds for a whole process, the least of all calls. Memory is the most that a '
              'process held. Text is in bytes.')
        names = [*list(mine)[1:], *others]
        told = [f'{name} ({mine[name] if name in mine else os.path.basename(others[name][0])})' for name in names]
        print(f'Beside `plain` and `zc` stand {", ".join(told) or "none"}.')
        report(lists, names, 'plain')
        report(lists, names, 'small')


if __name__ == '__main__':
    main()
