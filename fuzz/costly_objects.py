#!/usr/bin/env python3
"""Makes lists of objects that cost more than others of their size, and measures what the commands take for them.

    fuzz/costly_objects.py [--only NAME]... [--keep FOLDER] [--stacks] [PROGRAM]...

PROGRAM is build/zcld if none is given. For each list it prints by command, and by program if there are several, how the call
ended, and the processor's seconds and the most memory in MiB that it took, if that is more than this script takes. There are
no limits: docs/MEASURES.md has the figures, and fuzz/hostile_inputs.py makes the same calls under limits, for the lists that
stay below them. With --keep the objects stay in a folder, and with --stacks the least stack is looked for with which a call
ends by itself, without an environment.
"""
import argparse
import os
import random
import resource
import subprocess
import sys
import tempfile

sys.path[:0] = (os.path.join(os.path.dirname(os.path.abspath(__file__)), os.pardir, it) for it in ('scripts', 'models'))

from zcld_tools import programs
from zcld_tools.elf import (ABS, DATA_FLAGS, GLOBAL, HEADER, INFO_LINK, NO_TYPE, PROGBITS, RELA, RELAX, RELOCATABLE, RELOCATION, R_32,
                            STRTAB, SYMBOL, SYMTAB, UNDEF, Part, file_header, laid, relocation_entry, section_headers, symbol_entry)
from zcld_tools.files import write
from zcld_tools.instructions import A0, EXIT_WORDS, ZERO, addi
from zcld_tools.objects import object_with

# The most bytes of an object.
LIMIT = 4 << 20
INFO = GLOBAL << 4 | NO_TYPE


def start():
    """An object that exits."""
    return object_with(addi(A0, ZERO, 3), *EXIT_WORDS)[0].bytes()


def file_of(parts, content, offsets):
    """An object of parts at these offsets of its content; its sections have no names."""
    content += bytes(-len(content) % 4)
    made = file_header(RELOCATABLE, HEADER + len(content), len(parts) + 1, len(parts)) + content + section_headers(parts, offsets)
    assert len(made) <= LIMIT, len(made)
    return made


def object_of(*parts):
    """An object of parts that follow one another."""
    parts = [*parts, Part(0, STRTAB, 0, b'\0', None, 1)]
    return file_of(parts, *laid(parts, HEADER))


def symbols_and_names(table, names, link):
    """The last two sections of an object, its table of symbols and that of their names, whose number is `link`."""
    return Part(0, SYMTAB, 0, bytes(SYMBOL) + b''.join(table), None, 4, link, 1, SYMBOL), Part(0, STRTAB, 0, names, None, 1)


def endings(count, last):
    """A table of `count` names, each of which is an ending of the one before; it begins at 0 with an empty one."""
    return b'\0' + b'a' * (count - 1) + last + b'\0'


# ---- lists of objects


def shared_hints(tables=2040, hints=335_000):
    """An object of many sections of data, whose tables of relocations are the same bytes: hints for relaxation, which ask for
    nothing."""
    entries = relocation_entry(0, 0, RELAX, 0) * hints
    data, table_at = Part(0, PROGBITS, DATA_FLAGS, b'', 4, 4), HEADER + 4
    parts = [data] * tables
    parts += [Part(0, RELA, INFO_LINK, b'', len(entries), 4, 2 * tables + 1, k + 1, RELOCATION) for k in range(tables)]
    parts += [Part(0, SYMTAB, 0, b'', SYMBOL, 4, 2 * tables + 2, 1, SYMBOL), Part(0, STRTAB, 0, b'', 1, 1)]
    offsets = [HEADER] * tables + [table_at] * tables + [table_at + len(entries), HEADER]
    return [file_of(parts, bytes(4) + entries + bytes(SYMBOL), offsets), start()]


def many_files(count):
    """Files as long as an object may be, far more than may be linked."""
    return [object_of(Part(0, PROGBITS, 0, bytes(LIMIT - 400), None, 1))] * count


def ending_names(files=8, symbols=246_000):
    """Two million symbols, each with a name of its own. The names of an object are endings of one another."""
    def object_with_names(number):
        table = [symbol_entry(1 + k, 0, 0, INFO, ABS) for k in range(symbols)]
        return object_of(*symbols_and_names(table, endings(symbols, bytes([ord('A') + number])), 2))
    return [*map(object_with_names, range(files)), start()]


def random_words(files=8, words=126_000):
    """A million words of data, each with a relocation that names a random symbol, in random order. Half of the symbols of an
    object are undefined there, and defined in another."""
    rng, half = random.Random(1), words // 2

    def object_with_words(number):
        own, other = (endings(half, bytes([ord('A') + k % files])) for k in (number, number + 1))
        table = [symbol_entry(1 + k, 0, 0, INFO, 1) for k in range(half)]
        table += [symbol_entry(len(own) + 1 + k, 0, 0, INFO, UNDEF) for k in range(half)]
        rng.shuffle(table)
        places = rng.sample(range(words), words)
        entries = b''.join(relocation_entry(4 * at, rng.randrange(words) + 1, R_32, at) for at in places)
        return object_of(Part(0, PROGBITS, DATA_FLAGS, bytes(4 * words), None, 4),
                         Part(0, RELA, INFO_LINK, entries, None, 4, 3, 1, RELOCATION), *symbols_and_names(table, own + other, 4))
    return [*map(object_with_words, range(files)), start()]


# By their names; those of the first part take more than 2 s or 300 MB.
BEYOND = {'shared hints': shared_hints}
WITHIN = {'an exit': lambda: [start()], '256 files of 4 MiB': lambda: many_files(256), '601 files of 4 MiB': lambda: many_files(601), 'ending names': ending_names,
          'words in random order': random_words}


# ---- calls


def write_list(folder, files):
    """Writes a list of objects, each of them once, and gives their names."""
    names = {}
    for data in files:
        if id(data) not in names:
            names[id(data)] = f'{len(names)}.o'
            write(os.path.join(folder, names[id(data)]), data)
    return [names[id(data)] for data in files]


def measured(program, words, folder, stack=None):
    """How a call ended, its line, and what it took."""
    def limited():
        if stack:
            resource.setrlimit(resource.RLIMIT_STACK, (stack << 10, resource.RLIM_INFINITY))
            resource.setrlimit(resource.RLIMIT_CORE, (0, 0))
    with subprocess.Popen([program, *words], cwd=folder, env={} if stack else None, stdin=subprocess.DEVNULL,
                          stdout=subprocess.DEVNULL, stderr=subprocess.PIPE, preexec_fn=limited) as process:
        line = process.stderr.read()
        _, status, usage = os.wait4(process.pid, 0)
        process.returncode = os.waitstatus_to_exitcode(status)
    return process.returncode, line, usage.ru_utime + usage.ru_stime, usage.ru_maxrss / 1024


def least_stack(program, words, folder):
    """The least stack in KiB with which each of some calls ends by itself."""
    low, high = 8, 8 << 10
    while low < high:
        middle = (low + high) // 2
        if all(measured(program, words, folder, middle)[0] >= 0 for _ in range(5)):
            high = middle
        else:
            low = middle + 1
    return low


def commands_on(names):
    return [['plain', '--out', 'plain', *names], ['zc', '--out', 'out', '--cert', 'cert', *names], ['trace', *names], ['run', 'out'],
            ['make', '7', '100']]


def main():
    arguments = argparse.ArgumentParser(description='Measures commands on objects that cost much.')
    arguments.add_argument('program', nargs='*', default=[programs.BUILT])
    arguments.add_argument('--only', action='append', help='a list by its name')
    arguments.add_argument('--keep', metavar='FOLDER')
    arguments.add_argument('--stacks', action='store_true')
    given = arguments.parse_args()
    called = [programs.built(path) for path in given.program]
    with tempfile.TemporaryDirectory() as own:
        for name, made in (BEYOND | WITHIN).items():
            if given.only and name not in given.only:
                continue
            folder = os.path.join(given.keep or own, name.replace(' ', '_'))
            os.makedirs(folder, exist_ok=True)
            for words in commands_on(write_list(folder, made())):
                for program in called:
                    status, line, seconds, most = measured(program, words, folder)
                    stack = f', {least_stack(program, words, folder)} KiB of stack' if given.stacks else ''
                    end = line.decode('latin-1').strip() or f'status {status}'
                    print(f'{name:22} {words[0]:6} {end:24} {seconds:6.2f} s {most:6.0f} MiB{stack}', flush=True)


if __name__ == '__main__':
    main()
