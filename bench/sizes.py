#!/usr/bin/env python3
"""Compares how long the text of programs is, as `zcld` links them and as others do.

    bench/sizes.py [--zlib FOLDER] [PROGRAM]        PROGRAM is build/zcld if none is given

The programs are those in examples/, and two larger ones in bench/sizes/: `library`, with what it needs of picolibc and libgcc,
which Debian has for RV32IM and for RV32IMAC (objects for Zcmp get that for RV32IMAC); and `pack`, over the sources of zlib in
FOLDER, as `apt-get source zlib` gives them. Each is compiled with -Os by GCC and by Clang, with hints for relaxation and each
function in a section of its own: for RV32IM, and with compressed code (C, Zcb, Zcmp) as far as the compiler has it. `zcld` and
the others link the same objects of RV32IM, the same ones with C, and the same ones with C, Zcb and Zcmp. GNU ld and LLD
relax, but where a column says otherwise. With `gc` they leave out the sections that nothing needs; for `zcld` GNU ld does
that before, in a link that keeps relocations (`ld -r --gc-sections`), or `zcld gc` does where a column says so. Where one says
`merge`, `zcld merge` shares equal ends of functions in a section before; in the columns with `one`, all functions of a file are in
one section, and in those with `save`, functions of libgcc save and restore registers for them (-msave-restore). One table has links
of `zc` for chips without some extensions. GNU ld and LLD
put constants after the text, and in the columns of far constants where `zcld` puts them. In those of GNU ld without gp nothing is
called `__global_pointer$`, so that it doesn't reach data by gp, and all data, constants too, lie where `zcld` puts them.

A figure is the bytes of all sections of code. What isn't installed is left out, and what a linker says of objects that it
doesn't take is printed. Each image that `zcld` makes is run, and must do what the compiler's objects do. If both come to an
instruction that their machines don't know, as of picolibc for RV32IMAC, or `trace` is stuck in `library`, that is printed.
"""
import os
import subprocess
import sys
import tempfile
from typing import NamedTuple

sys.path.insert(0, os.path.join(os.path.dirname(os.path.abspath(__file__)), os.pardir, 'scripts'))
sys.path[:0] = (os.path.join(os.path.dirname(os.path.abspath(__file__)), os.pardir, it) for it in ('fuzz', 'models'))

from object_faults import Object
from zcld_tools import TOP, programs
from zcld_tools.elf import ALLOC, EXECINSTR
from zcld_tools.files import read, write
from zcld_tools.images import DATA_AT, STACK_HIGH, TEXT_AT
from zcld_tools.measured import table, words_of_bench
from zcld_tools.programs import Failed, told

EXAMPLES, LARGER = (os.path.join(TOP, *it) for it in (('examples',), ('bench', 'sizes')))
# The layout of what GNU ld links without gp, but for the name that it gives to what gp holds.
OBJCOPIES, ARCHIVERS = (tuple(prefix + it for prefix in programs.PREFIXES) for it in ('objcopy', 'ar'))
# The member of libgcc that saves and restores registers.
SAVING_MEMBER = 'save-restore.o'
# Why `trace` may be stuck in the library.
KNOWN_CAUSES = (b'NoInstruction', b'ConditionUnknown')
SCRIPT, POINTER, OTHER_POINTER = os.path.join(TOP, 'fuzz', 'c_runtime', 'memory.ld'), '__global_pointer$', 'pointer'
FIRMWARE = os.path.join(EXAMPLES, 'firmware')
PLAIN, COMPRESSED, ZCB, ZCMP = 'rv32im', 'rv32imc', 'rv32imc_zcb', 'rv32im_zca_zcb_zcmp'
# The same with all functions of a file in one section.
ONE, ONE_COMPRESSED = 'rv32im -fno-function-sections', 'rv32imc -fno-function-sections'
# And with calls of libgcc that save and restore registers.
SAVING = ONE + ' -msave-restore'
USUAL = ('-Os', '-mabi=ilp32', '-ffreestanding', '-fno-pic', '-ffunction-sections', '-fdata-sections', '-w')
# What each compiler is called, of which the first that is installed is taken, and its own words. GCC would make a call of
# memset of the loop in memset.
COMPILERS = {'GCC': (('riscv64-unknown-elf-gcc',), ('-fno-tree-loop-distribute-patterns',)),
             'Clang': (('clang-19', 'clang'), ('--target=riscv32-unknown-elf',))}
LINKERS, WITHOUT_GP = {'ld': programs.GNU_LINKERS, 'LLD': ('ld.lld-19', 'ld.lld')}, 'ld without gp'
# What both linkers are told of the memory. LLD uses gp if it is told so, and GNU ld by itself.
MEMORY = (f'-Ttext={TEXT_AT:#x}', f'-Tdata={DATA_AT:#x}', f'--defsym=__stack_top={STACK_HIGH:#x}')
WORDS = {'ld': (), 'LLD': ('--relax-gp',)}
ZLIB = [name + '.c' for name in ('adler32', 'crc32', 'deflate', 'inffast', 'inflate', 'inftrees', 'trees', 'zutil')]
# Where Debian has picolibc, for which of its targets libraries are made, and what each compiler is told to find its headers.
PICOLIBC = '/usr/lib/picolibc/riscv64-unknown-elf'
MULTILIBS = {PLAIN: 'rv32im', ONE: 'rv32im', SAVING: 'rv32im', COMPRESSED: 'rv32imac', ONE_COMPRESSED: 'rv32imac', ZCMP: 'rv32imac'}
HEADERS = {'GCC': ('--specs=picolibc.specs',), 'Clang': (f'-isystem{PICOLIBC}/include',)}
INPUT = b''.join(b'%d.%de%d\n' % (k * 7919 % 211, k, k % 5 - 2) for k in range(1, 20))


class Listed(NamedTuple):
    """A program: its name, its C files, the words for the compiler, whether it needs picolibc, and the input of its run."""

    name: str
    sources: list
    words: tuple = ()
    has_library: bool = False
    given: bytes = b''


def listed(zlib):
    """The programs."""
    for name in ('monitor', 'events', 'numbers'):
        folder = os.path.join(EXAMPLES, name)
        sources = sorted(os.path.join(folder, it) for it in os.listdir(folder) if it.endswith('.c'))
        path = os.path.join(folder, 'input')
        yield Listed(name, sources, (f'-I{FIRMWARE}',), given=read(path) if os.path.exists(path) else b'')
    yield Listed('library', [os.path.join(LARGER, 'library.c')], (), True, INPUT)
    if zlib:
        sources = [os.path.join(LARGER, 'pack.c'), *(os.path.join(zlib, it) for it in ZLIB)]
        yield Listed('pack', sources, ('-DZ_SOLO', f'-I{zlib}'), given=read(os.path.abspath(__file__)))


# ---- objects


class Compiler:
    """A compiler: its name, its command, and its version."""

    def __init__(self, name):
        self.name, (commands, self.words) = name, COMPILERS[name]
        self.command = programs.found(*commands)

    def version(self):
        return told([self.command, '--version']).splitlines()[0]

    def compiled(self, program, target, folder):
        """The objects of a program, with its start. With what it needs of a library they are merged into one."""
        os.makedirs(folder)
        paths = []
        support = [] if program.has_library else [os.path.join(FIRMWARE, 'support.c')]
        for source in (os.path.join(FIRMWARE, 'start.s'), *support, *program.sources):
            paths.append(os.path.join(folder, os.path.basename(source)[:-2] + '.o'))
            words = HEADERS[self.name] if program.has_library else program.words
            told([self.command, *self.words, *USUAL, *target_words(target), *words, '-c', source, '-o', paths[-1]])
        if program.has_library:
            merge(os.path.join(folder, 'merged.o'), *paths, *self.libraries(target))
            return [os.path.join(folder, 'merged.o')]
        if target == SAVING:
            paths.append(os.path.join(folder, SAVING_MEMBER))
            words = [programs.found(*ARCHIVERS), 'p', self.libraries(target)[-2], SAVING_MEMBER]
            write(paths[-1], subprocess.run(words, check=True, capture_output=True).stdout)
        return paths

    def libraries(self, target):
        """The archives of picolibc and of GCC."""
        gcc = programs.found(*COMPILERS['GCC'][0])
        of_gcc = told([gcc, f'-march={MULTILIBS[target]}', '-mabi=ilp32', '-print-libgcc-file-name']).strip()
        files = [os.path.join(PICOLIBC, 'lib', MULTILIBS[target], 'ilp32', name) for name in ('libc.a', 'libm.a')]
        return ['--start-group', *files, of_gcc, '--end-group']

    def has(self, program, target):
        """Whether it can make these objects: picolibc and GCC's library are installed for a target that has them."""
        is_there = os.path.isdir(PICOLIBC) and programs.found(*COMPILERS['GCC'][0])
        if (program.has_library or target == SAVING) and (target not in MULTILIBS or not is_there):
            return False
        words = [self.command, *self.words, *target_words(target), '-mabi=ilp32', '-c', '-x', 'c', os.devnull, '-o', os.devnull]
        return programs.run(words).status == 0


def target_words(target):
    """What a compiler is told of a target."""
    return f'-march={target}'.split()


# ---- links


def merge(out, *words):
    """Merges objects by GNU ld, which keeps their relocations."""
    told([programs.found(*programs.GNU_LINKERS), *programs.FORMAT, '-r', '-e', '_start', '-o', out, *words])


def code_size(path):
    """The bytes of all sections of code."""
    wanted = ALLOC | EXECINSTR
    return sum(section.size for section in Object(read(path)).sections if section.flags & wanted == wanted)


class Links:
    """Links of the objects of one program and one compiler."""

    def __init__(self, program, zcld, folder):
        self.program, self.zcld, self.folder, self.said, self.traced = program, zcld, folder, [], {}

    def path(self, name):
        return os.path.join(self.folder, name)

    def other(self, linker, objects, *words):
        """The text that another linker makes of objects, or none if it isn't there or doesn't take them."""
        command = programs.found(*LINKERS[linker])
        if command is None:
            return None
        try:
            told([command, *programs.FORMAT, *MEMORY, *WORDS[linker], *words, '-o', self.path('other'), *objects])
        except Failed as why:
            self.said.append(f'{self.program.name}, {linker} {" ".join(words)}: {str(why)[-300:]}')
            return None
        return code_size(self.path('other'))

    def without_gp(self, objects, *words):
        """The text that GNU ld makes of objects in which nothing is called as it calls what gp holds."""
        script, out, renamed = self.path('memory.ld'), self.path('other'), [self.path(f'{k}.o') for k in range(len(objects))]
        write(script, read(SCRIPT).replace(POINTER.encode(), OTHER_POINTER.encode()))
        for path, copy in zip(objects, renamed):
            told([programs.found(*OBJCOPIES), f'--redefine-sym={POINTER}={OTHER_POINTER}', path, copy])
        told([programs.found(*programs.GNU_LINKERS), *programs.FORMAT, '-T', script, *words, '-o', out, *renamed])
        return code_size(out)

    def gathered(self, objects):
        """The objects as one, without the sections that nothing needs."""
        merge(self.path('gathered.o'), '--gc-sections', *objects)
        return [self.path('gathered.o')]

    def collected(self, objects):
        """The objects without the sections of code that nothing reaches, in their order."""
        told([self.zcld, 'gc', '--out', self.path('collected'), *objects])
        return [self.path(f'collected{k}.o') for k in range(len(objects))]

    def merged(self, objects):
        """The objects with equal ends of functions shared, in their order."""
        told([self.zcld, 'merge', '--out', self.path('merged'), *objects])
        return [self.path(f'merged{k}.o') for k in range(len(objects))]

    def ended(self, command, *files):
        """How a run of these files ends."""
        return programs.run([self.zcld, command, '--steps', '1000000000', *files], self.program.given)

    def trace(self, *given):
        """How the compiler's objects end, which are traced once."""
        if given not in self.traced:
            self.traced[given] = self.ended('trace', *given)
        return self.traced[given]

    def by_zcld(self, link, given, paths, *options):
        """The text that `plain` or `zc` makes of objects with options of a chip, whose image does what those do that the compiler
        gave."""
        out = self.path(link)
        told([self.zcld, link, *options, '--out', out, *(['--cert', self.path('cert')] if link == 'zc' else []), *paths])
        ran, traced = self.ended('run', out), self.trace(*given)
        if ran != traced or not ran.err.startswith(b'exited '):
            ended = f'{self.program.name}, {link}: run ends with {ran}, and trace with {traced}'
            is_known = traced.err.startswith(b'stuck ') and traced.err.split()[-1] in KNOWN_CAUSES and ran.out.startswith(traced.out)
            if not (self.program.has_library and is_known):
                raise Failed(ended)
            if ended not in self.said:
                self.said.append(ended)
        return code_size(out)

    def figure(self, objects, linker, *words):
        """The text of a column."""
        if objects is None:
            return None
        if linker == WITHOUT_GP:
            return self.without_gp(objects, *words)
        if linker not in LINKERS:
            before, given = {OWN: self.collected, SHARED: self.merged, GC: self.gathered}, objects
            for word in filter(before.get, words):
                objects = before[word](objects)
            return self.by_zcld(linker, given, objects, *(word for word in words if word not in before))
        return self.other(linker, objects, *words)


# The columns of the tables: the head, who links, the objects' target, and words. Those of `zc` say what leaves out sections before
# it, `ld -r` or `zcld gc`, that `zcld merge` shares equal ends of functions before it, or which extensions the chip has.
GC, OWN, SHARED = '--gc-sections', 'zcld gc', 'zcld merge'
FAR = f'--section-start=.rodata={DATA_AT:#x}', f'-Tdata={DATA_AT + 0x80000:#x}'
SAME = (('`plain`', 'plain', PLAIN), ('`zc`', 'zc', PLAIN), ('GNU ld, no relaxation', 'ld', PLAIN, '--no-relax'),
        ('GNU ld', 'ld', PLAIN), ('LLD', 'LLD', PLAIN), ('gc, `zc`', 'zc', PLAIN, GC), ('gc, GNU ld', 'ld', PLAIN, GC),
        ('gc, LLD', 'LLD', PLAIN, GC))
SHORT = (('`plain`', 'plain', COMPRESSED), ('`zc`', 'zc', COMPRESSED),
         ('GNU ld, no relaxation', 'ld', COMPRESSED, '--no-relax'), ('GNU ld without gp', WITHOUT_GP, COMPRESSED),
         ('GNU ld', 'ld', COMPRESSED), ('LLD', 'LLD', COMPRESSED), ('gc, `zc`', 'zc', COMPRESSED, GC),
         ('gc, GNU ld without gp', WITHOUT_GP, COMPRESSED, GC), ('gc, GNU ld', 'ld', COMPRESSED, GC),
         ('gc, LLD', 'LLD', COMPRESSED, GC))
TODAY = (('`zc`', 'zc', PLAIN), ('C: `zc`', 'zc', COMPRESSED), ('gc, `zc`', 'zc', PLAIN, GC),
         ('gc, C: `zc`', 'zc', COMPRESSED, GC), ('gc, C: GNU ld', 'ld', COMPRESSED, GC),
         ('gc, C: the same, far constants', 'ld', COMPRESSED, GC, *FAR),
         ('gc, C: LLD', 'LLD', COMPRESSED, GC), ('gc, Zcb: LLD', 'LLD', ZCB, GC), ('gc, Zcb and Zcmp: LLD', 'LLD', ZCMP, GC))
NO_GP = '--no-relax-gp'
FRAMES = (('`zc`, RV32IM', 'zc', PLAIN), ('`zc`, C', 'zc', COMPRESSED), ('`zc`, Zcmp', 'zc', ZCMP), ('GNU ld, C', 'ld', COMPRESSED),
          ('LLD without gp, Zcmp', 'LLD', ZCMP, NO_GP), ('LLD with gp, Zcmp', 'LLD', ZCMP), ('gc, `zc`, RV32IM', 'zc', PLAIN, GC),
          ('gc, `zc`, C', 'zc', COMPRESSED, GC), ('gc, `zc`, Zcmp', 'zc', ZCMP, GC), ('gc, GNU ld, C', 'ld', COMPRESSED, GC),
          ('gc, LLD without gp, Zcmp', 'LLD', ZCMP, GC, NO_GP), ('gc, LLD with gp, Zcmp', 'LLD', ZCMP, GC))
COLLECTED = (('`zc`', 'zc', PLAIN), ('`gc`, `zc`', 'zc', PLAIN, OWN), ('`ld -r`, `zc`', 'zc', PLAIN, GC),
             ('`ld -r`, `gc`, `zc`', 'zc', PLAIN, GC, OWN), ('C: `zc`', 'zc', COMPRESSED), ('C: `gc`, `zc`', 'zc', COMPRESSED, OWN),
             ('C: `ld -r`, `zc`', 'zc', COMPRESSED, GC))
MERGED = (('`zc`', 'zc', PLAIN), ('`merge`, `zc`', 'zc', PLAIN, SHARED), ('one: `zc`', 'zc', ONE),
          ('one: `merge`, `zc`', 'zc', ONE, SHARED), ('C: `zc`', 'zc', COMPRESSED),
          ('C: `merge`, `zc`', 'zc', COMPRESSED, SHARED), ('one, C: `zc`', 'zc', ONE_COMPRESSED),
          ('one, C: `merge`, `zc`', 'zc', ONE_COMPRESSED, SHARED))
BOTH = tuple((head + names, 'zc', target, *words) for head, target in (('one: ', ONE), ('one, save: ', SAVING))
             for names, words in (('`zc`', ()), ('`merge`, `zc`', (SHARED,)), ('`gc`, `zc`', (OWN,)), ('`gc`, `merge`, `zc`', (OWN, SHARED))))
CHIPS = (('all', 'zc', PLAIN), *((head, 'zc', PLAIN, f'--extensions={word}') for head, word in (
    ('without Zcmt', 'zca_zcb_zcmp'), ('without Zcmp', 'zca_zcb_zcmt'), ('without Zcb', 'zca_zcmp_zcmt'), ('Zca and Zcb', 'zca_zcb'),
    ('Zca alone', 'zca'))))
TABLES = SAME, SHORT, TODAY, COLLECTED, MERGED, BOTH, CHIPS, FRAMES


def measured(zcld, zlib, room):
    """The rows of each table, and what linkers said of objects that they didn't take."""
    tables, said = [[] for _ in TABLES], []
    for compiler in filter(lambda it: it.command, map(Compiler, COMPILERS)):
        for program in listed(zlib):
            targets = [it for it in (PLAIN, ONE, SAVING, COMPRESSED, ONE_COMPRESSED, ZCB, ZCMP) if compiler.has(program, it)]
            if targets:
                folder = os.path.join(room, f'{compiler.name}-{program.name}')
                objects = {it: compiler.compiled(program, it, os.path.join(folder, it)) for it in targets}
                links = Links(program, zcld, folder)
                for rows, columns in zip(tables, TABLES if ZCMP in targets else TABLES[:-1]):
                    found = [links.figure(objects.get(target), linker, *words) for _, linker, target, *words in columns]
                    rows.append([program.name, compiler.name, *(f'{it:,}' if it else '' for it in found)])
                said += links.said
    return tables, said


def show(tables, said):
    for columns, rows in zip(TABLES, tables):
        table(['Program', 'Compiler', *(head for head, *_ in columns)], rows, left=2)
    for line in said:
        print(f'\n{line}')


def main():
    words = words_of_bench('Compares how long the text of programs is, as `zcld` links them and as others do.', 1)
    words.add_argument('--zlib', help='the folder of the sources of zlib')
    given = words.parse_args()
    for compiler in filter(lambda it: it.command, map(Compiler, COMPILERS)):
        print(compiler.version())
    for linker in filter(None, (programs.found(*names) for names in LINKERS.values())):
        print(told([linker, '--version']).splitlines()[0])
    with tempfile.TemporaryDirectory() as room:
        show(*measured(programs.built(given.program), given.zlib and os.path.abspath(given.zlib), room))


if __name__ == '__main__':
    main()
