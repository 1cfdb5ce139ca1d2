#!/usr/bin/env python3
"""Hands the program bad and odd files, and checks how each call ends.

    fuzz/fuzz.py [--seed S] [--count N] [--seconds T] [--only CASE] [--keep FOLDER] [PROGRAM]

PROGRAM is build/zcld if none is given. A case is fixed by the seed and its number: a list of files, which are
objects or an image, as they were made or with mutations, and what is odd about the call. Half of the lists are objects of code
and data with relocations (`made_objects.py`). Some objects are compressed. All files go to `zc`, `plain` and `trace`, the first
to `run`, and an image that was written to `run`. Checked are:

- the call ends, by no signal, within its time-out, with a status that has a name and a line of that name at the
  end of standard error; `run` and `trace` of files that are refused write nothing else, and links only their text: `zc`
  the report, and `plain` the text's length;
- it is an outcome that this command has;
- after `zc` ended with 0 the image and the certificate are there, and else no file is there or has changed, but
  for the image alone after a write fault or if memory ran out; so it is for the image of `plain`;
- the image, the certificate and the report of `zc` are those that `zc_link.py` and `size_report.py` make, and the image of
  `plain` the one of `plain_link.py`, byte for byte;
- `zc`, `plain` and `trace` refuse files exactly if they have a fault, and name the first (`object_items.py`);
- `trace` writes what `symbolic_machine.py` does, and ends as it does;
- if `trace` isn't stuck, `run` of each image writes what `trace` of the objects does, and ends as it does; if it is,
  `run` writes that and maybe more.

The status is 1 if a check failed. FOLDER then has the files of those cases.
"""
import argparse
import collections
import os
import random
import re
import struct
import sys
import tempfile
import time

sys.path[:0] = (os.path.join(os.path.dirname(os.path.abspath(__file__)), os.pardir, it) for it in ('scripts', 'models'))

from compressed_code import halves_for
from made_objects import made_list
from object_faults import NAMES as FAULTS, object_fault, told
from object_items import first_fault
from plain_link import plain as plain_of
from size_report import left_by_zc
from symbolic_machine import NAMES as WHYS, trace as trace_of
from zcld_tools import TOP, programs
from zcld_tools.elf import (ABS, ALIGN, CODE_FLAGS, COMMON, CONSTANT_FLAGS, DATA_FLAGS, HEADER, HI20, INFO_LINK, INIT_ARRAY,
                            MERGE, NOBITS, NONE, PCREL_HI20, PROGBITS, RELA, RELAX, RELOCATABLE, RVC, RVC_BRANCH, RVC_JUMP, R_32,
                            STRINGS, STRTAB, SYMTAB, TSO, UNDEF, Part, file_header, laid, relocation_entry, section_headers,
                            symbol_entry)
from zcld_tools.files import files_in, random_bytes, read, write, write_list
from zcld_tools.instructions import (A0, A1, A2, A7, EBREAK, ECALL, EXIT_WORDS, OPCODE_AUIPC, OPCODE_FENCE,
                                     OPCODE_IMMEDIATE, OPCODE_LUI, OPCODE_REGISTER, RA, READ_CALL, RET, SP, T0, WRITE_CALL,
                                     ZERO, addi, branch, halves_of, jal, load, store, words_of)
from zcld_tools.objects import Strings
from zcld_tools.programs import Failed as Wrong

STEPS = '2000'
# As many commits as an image may need for these steps.
COMMITS = str(64 * int(STEPS) + 3)
MIB = 1 << 20
MOST_MEMORY = 2048 * MIB
OBJECT_LIMIT = 4 * MIB
IMAGE_LIMIT = 8 * MIB

REASONS = (None, 'Illegal', 'BadAccess', 'Misaligned', 'Break', 'UnknownCall')

# For each outcome: its line, the status, and the commands that have it.
OUTCOMES = {
    'exited': (r'exited (?P<status>\d+)', None, ('run', 'trace')),
    'usage': (r'usage', 120, ('zc', 'plain', 'run', 'trace')),
    'refused': (r'refused \d+ (?P<number>\d+) (?P<name>\w+)(?s: .*)?', 121, ('zc', 'plain', 'trace')),
    'read fault': (r'read fault', 122, ('zc', 'plain', 'run', 'trace')),
    'write fault': (r'write fault', 123, ('zc', 'plain', 'run', 'trace')),
    'out of memory': (r'out of memory', 124, ('zc', 'plain', 'run', 'trace')),
    'bad image': (r'bad image [1-5]', 125, ('run',)),
    'stopped': (r'stopped (?P<number>\d+) (?P<name>\w+) [0-9a-f]{8}', 126, ('run',)),
    'stuck': (r'stuck \d+ \d+ \d+ (?P<number>\d+) (?P<name>\w+)', 126, ('trace',)),
    'spent': (r'spent', 127, ('run', 'trace')),
}
NAMES = {'refused': FAULTS, 'stopped': REASONS, 'stuck': WHYS}
LINKS = ('zc', 'plain')
# The outcomes after which the program itself may have written.
RUNS = ('exited', 'stopped', 'stuck', 'spent', 'write fault', 'out of memory')
# The outcomes after which a link may have written its text, or a part of it.
SHOWS = ('done', 'write fault', 'out of memory')

EDGES = (0, 1, 2, 3, 4, 5, 6, 7, 8, 9, 17, 39, 40, 41, 51, 52, 53, 0x7F, 0x80, 0xFF, 0xFFFE, 0xFFFF, 0x10000, 0x10001,
         0xFFFFF, 0x100000, 0x4FFFFF, 0x500000, 0x0FF00000, 0x10000000, 0x7FFFFFFF, 0x80000000, 0xFFFFFFD8, 0xFFFFFFFC,
         0xFFFFFFFE, 0xFFFFFFFF)
# Offset and size of each field: of the file header, a section header and a program header.
FILE_FIELDS = [(i, 1) for i in range(16)] + [(16, 2), (18, 2), (20, 4), (24, 4), (28, 4), (32, 4), (36, 4), (40, 2),
                                             (42, 2), (44, 2), (46, 2), (48, 2), (50, 2)]
SECTION_FIELDS = [(at, 4) for at in range(0, 40, 4)]
PROGRAM_FIELDS = [(at, 4) for at in range(0, 32, 4)]
SYMBOL_FIELDS = [(0, 4), (4, 4), (8, 4), (12, 1), (13, 1), (14, 2)]
RELOC_FIELDS = [(0, 4), (4, 4), (8, 4)]


# ---- code


def call_words(rng):
    """A read or a write, of bytes of the stack."""
    size = rng.choice((0, 1, 4, 5, 16))
    given = rng.choice((READ_CALL, READ_CALL, WRITE_CALL))
    return (addi(A7, ZERO, given), addi(A0, ZERO, rng.choice((0, 1, 1, 2)) if given == WRITE_CALL else 0),
            addi(A1, SP, rng.choice((0, 0, 4, -4, -16, 16))), addi(A2, rng.choice((ZERO, ZERO, ZERO, A0)), size), ECALL)


def straight_words(rng):
    """Code of `addi` and `ecall` in which an exit is likely, and sometimes isn't the end."""
    count = rng.choice((0, 1, 2, rng.randrange(40), rng.randrange(40), rng.randrange(1500)))
    few = rng.random() < 0.7
    words = [addi(SP, SP, -16)] if rng.random() < 0.5 else []
    for _ in range(count):
        to = rng.choice((ZERO, T0, 6, A0, A0, A7)) if few else rng.randrange(32)
        source = rng.choice((0, 0, 0, to)) if few else rng.randrange(32)
        value = rng.choice((-2048, -33, -32, -1, 0, 1, 31, 32, 93, 2047, rng.randrange(-2048, 2048)))
        words.append(addi(to, source, value))
    for _ in range(rng.choice((0, 0, 1, 2, 5))):
        words += call_words(rng)
    if rng.random() < 0.9:
        words += [addi(A0, ZERO, rng.choice((0, 3, 117, 118, 119, 127, 255, 256, -1, 2047)))] * rng.randrange(2)
        words += EXIT_WORDS
    return words


# The opcodes with a register that is written, as 7-bit opcode and, if it decides, funct3 and funct7.
OPS = ([(OPCODE_IMMEDIATE, f3, None) for f3 in (0, 2, 3, 4, 6, 7)]
       + [(OPCODE_IMMEDIATE, f3, f7) for f3, f7 in ((1, 0), (5, 0), (5, 32))]
       + [(OPCODE_REGISTER, f3, 0) for f3 in range(8)] + [(OPCODE_REGISTER, 0, 32), (OPCODE_REGISTER, 5, 32)]
       + [(OPCODE_REGISTER, f3, 1) for f3 in range(8)]
       + [(OPCODE_LUI, None, None), (OPCODE_AUIPC, None, None), (OPCODE_FENCE, 0, None)])


def any_word(rng):
    """A word of RV32IM, in few registers, near the stack pointer, with short ways to go; sometimes any word."""
    to, first, second = (rng.choice((ZERO, T0, A0, A0, A1, A2, A7)) for _ in range(3))
    near = rng.choice((0, 4, 8, 12, rng.randrange(-8, 20))) & 0xFFF
    which = rng.randrange(20)
    if which < 11:
        opcode, f3, f7 = rng.choice(OPS)
        word = rng.getrandbits(32) if rng.random() < 0.3 else near << 20
        word = word & ~0x01F00000 | second << 20 if opcode == OPCODE_REGISTER else word
        word = word & ~0xFE000000 | f7 << 25 if f7 is not None else word
        f3 = rng.randrange(8) if f3 is None else f3
        return word & 0xFFF00000 | first << 15 | f3 << 12 | to << 7 | opcode
    if which < 13:
        return load(rng.choice((0, 1, 2, 4, 5)), to, SP, near)
    if which < 15:
        return store(rng.randrange(3), second, SP, near)
    if which < 18:
        distance = 2 * rng.choice((2, 4, 6))
        return branch(rng.choice((0, 1, 4, 5, 6, 7)), first, second, distance + rng.choice((0, 0, 0, -32)))
    if which < 19:
        distance = rng.choice((8, 12, 2044, 6))
        return jal(rng.choice((ZERO, RA)), distance)
    return rng.choice((RET, ECALL, EBREAK, rng.getrandbits(32)))


def any_words(rng):
    """Code of RV32IM."""
    words = [addi(SP, SP, -32), *(addi(to, ZERO, rng.randrange(-40, 40)) for to in (T0, A0, A1, A2, A7))]
    words += [any_word(rng) for _ in range(rng.choice((3, 10, 10, 100)))]
    for _ in range(rng.choice((0, 0, 1))):
        words += call_words(rng)
    return words + [*EXIT_WORDS]


def mixed_code(rng, words):
    """The bytes of code that has 2 bytes for some of these words, and between them sometimes any halfword."""
    made, share = bytearray(), rng.choice((0.3, 0.7, 1))
    for word in words:
        halves = halves_for(word)
        made += halves_of(rng.choice(halves)) if halves and rng.random() < share else words_of(word)
        if rng.random() < 0.01:
            made += halves_of(rng.getrandbits(16))
    return bytes(made)


# ---- objects

SECTION_NAMES = (b'.text', b'.text.second', b'.data', b'.data.second', b'.sdata', b'.sdata.second', b'.bss', b'.sbss',
                 b'.sbss.second', b'.rodata', b'.init_array', b'.eh_frame', b'.comment', b'.rela', b'.symtab', b'.names')
SYMBOL_NAMES = (b'', b'_start', b'table', b'main', b'buffer', b'_end', b'_starts')


def names_of(names):
    """A table of strings with these names."""
    table = Strings()
    for name in names:
        table.add(name)
    return table


NAMES_OF_SECTIONS, NAMES_OF_SYMBOLS = names_of(SECTION_NAMES), names_of(SYMBOL_NAMES)
AT_EH_FRAME = NAMES_OF_SECTIONS.add(b'.eh_frame')


def part_of(name, *how, **more):
    """A section of this name."""
    return Part(NAMES_OF_SECTIONS.add(name), *how, **more)


def code_part(rng, is_straight, is_compressed):
    words = (straight_words if is_straight else any_words)(rng)
    content = mixed_code(rng, words) if is_compressed else words_of(*words)
    align = rng.choice((0, 1, 2, 4, 4, 4, 16) if rng.random() < 0.1 else (0, 1, 2, 4, 4, 4))
    return part_of(rng.choice((b'.text', b'.text', b'.text.second')), PROGBITS, CODE_FLAGS, content, align=align)


def data_part(rng):
    content = rng.choice((b'', b'hi\n', random_bytes(rng, rng.choice((1, 4, 7, 64)))))
    align = rng.choice((0, 1, 1, 2, 4, 4, 8, 16, 64, 4096))
    name, kind, flags = rng.choice((
        (b'.data', PROGBITS, DATA_FLAGS), (b'.data.second', PROGBITS, DATA_FLAGS), (b'.sdata', PROGBITS, DATA_FLAGS),
        (b'.sdata.second', PROGBITS, DATA_FLAGS), (b'.rodata', PROGBITS, CONSTANT_FLAGS),
        (b'.init_array', INIT_ARRAY, DATA_FLAGS), (b'.data', PROGBITS, DATA_FLAGS | MERGE), (b'.bss', NOBITS, DATA_FLAGS),
        (b'.sbss', NOBITS, DATA_FLAGS), (b'.sbss.second', NOBITS, DATA_FLAGS), (b'.sbss', NOBITS, CONSTANT_FLAGS),
        (b'.eh_frame', PROGBITS, CONSTANT_FLAGS), (b'.eh_frame', PROGBITS, CODE_FLAGS), (b'.comment', PROGBITS, MERGE | STRINGS)))
    if kind == NOBITS:
        return part_of(name, kind, flags, size=rng.choice((0, 1, 4, 100, 5000)), align=align)
    return part_of(name, kind, flags, content, align=align)


def symbols(rng, parts, is_first):
    """A table of symbols that are taken, with symbol 0; of the first object `_start` is most likely global code."""
    rows = [(b'', 0, 0, 0, 0)]
    if is_first and rng.random() < 0.95:
        code = [i for i, part in enumerate(parts) if part.flags == CODE_FLAGS and part.length() and part.name != AT_EH_FRAME]
        home = rng.choice(code) if code and rng.random() < 0.97 else rng.randrange(len(parts))
        size = parts[home].length()
        value = rng.choice((0, 0, 0, 0, 0, 0, 4, size, 2, 2)) if rng.random() < 0.2 else 0
        rows.append((b'_start', min(value, size), 0, rng.choice((1, 1, 1, 2)) << 4, home))
    for _ in range(rng.choice((0, 1, 2, 9))):
        home = rng.choice((rng.randrange(1, len(parts)) if len(parts) > 1 else 0, UNDEF, ABS, COMMON))
        value = {UNDEF: 0, ABS: rng.getrandbits(32), COMMON: rng.choice((0, 1, 4, 64, 4096))}.get(home)
        if value is None:
            value = rng.choice((0, parts[home].length()))
        bind = rng.choice((1, 2) if home == UNDEF else (0, 0, 1, 2, 2, 2))
        name = rng.choice(SYMBOL_NAMES if home != COMMON and rng.random() < 0.2 else (b'table', b'main', b'buffer', b'_end'))
        rows.append((name, value, rng.randrange(9), bind << 4 | rng.randrange(5), home))
    return b''.join(symbol_entry(NAMES_OF_SYMBOLS.add(name), *row) for name, *row in rows)


def made_object(rng, is_straight=True, is_first=True):
    """An object of code, with sections beside it that a compiler might add."""
    parts, is_compressed = [Part()], rng.random() < 0.4
    wanted = [code_part] * rng.choice((1, 1, 1, 2, 3) if is_first else (0, 1, 2))
    wanted += [data_part] * rng.choice((0, 0, 1, 3, 6, 60))
    if not is_first or rng.random() < 0.5:
        rng.shuffle(wanted)
    parts += [code_part(rng, is_straight, is_compressed) if make is code_part else data_part(rng) for make in wanted]
    table = symbols(rng, parts, is_first)
    given = len(parts)
    for _ in range(rng.choice((0, 0, 0, 1, 2)) if given > 1 else 0):
        kinds = (HI20, R_32, ALIGN, PCREL_HI20, RVC_BRANCH, RVC_JUMP)
        kind, step = rng.choice((NONE, RELAX)) if rng.random() < 0.8 else rng.choice(kinds), rng.choice((4, 4, 2))
        entries = b''.join(relocation_entry(step * k, rng.randrange(len(table) // 16), kind, 0)
                           for k in range(rng.choice((1, 1, 3))))
        about = rng.randrange(1, given)
        if all(part.info != about for part in parts):
            parts.append(part_of(b'.rela', RELA, INFO_LINK, entries, align=4, info=about, entry=12))
    parts = [part._replace(link=len(parts)) if part.kind == RELA else part for part in parts]
    parts += (part_of(b'.symtab', SYMTAB, 0, table, align=4, link=len(parts) + 2, entry=16),
              *(part_of(b'.names', STRTAB, 0, names.bytes, align=1) for names in (NAMES_OF_SECTIONS, NAMES_OF_SYMBOLS)))
    start = HEADER + rng.choice((0, 0, 4, 12))
    content, offsets = laid(parts[1:], start)
    flags = rng.choice((0, 0, TSO)) | (RVC if is_compressed else 0)
    header = file_header(RELOCATABLE, start + len(content), len(parts), len(parts) - 2, flags=flags)
    return header.ljust(start, b'\0') + content + section_headers(parts[1:], offsets)


# ---- mutations


def put(data, at, size, value):
    if 0 <= at <= len(data) - size:
        data[at:at + size] = (value & (1 << 8 * size) - 1).to_bytes(size, 'little')


def edge(rng, data, old):
    size = len(data)
    return rng.choice((rng.choice(EDGES), rng.choice(EDGES), size + rng.randrange(-41, 3), old + rng.choice((-1, 1)),
                       old ^ 1 << rng.randrange(32), rng.getrandbits(32)))


def flip(rng, data):
    for _ in range(rng.choice((1, 1, 2, 8, 64))):
        if data:
            data[rng.randrange(len(data))] ^= 1 << rng.randrange(8)


def change_field(rng, data, base, fields):
    at, size = rng.choice(fields)
    old = int.from_bytes(data[base + at:base + at + size], 'little')
    put(data, base + at, size, edge(rng, data, old))


def file_field(rng, data):
    change_field(rng, data, 0, FILE_FIELDS)


def section_field(rng, data):
    if len(data) >= 52:
        base, count = struct.unpack_from('<I', data, 32)[0], struct.unpack_from('<H', data, 48)[0]
        change_field(rng, data, base + 40 * rng.choice((1, rng.randrange(max(1, count)))), SECTION_FIELDS)


def entry_field(rng, data):
    """A field of a symbol or a relocation."""
    if object_fault(data) in (1, 2, 17):
        return
    base, count = struct.unpack_from('<I', data, 32)[0], struct.unpack_from('<H', data, 48)[0]
    headers = [struct.unpack_from('<10I', data, base + 40 * i) for i in range(count)]
    tables = [(at, size, fields) for _, kind, _, _, at, size, _, _, _, _ in headers
              for wanted, fields in ((SYMTAB, SYMBOL_FIELDS), (RELA, RELOC_FIELDS)) if kind == wanted and size]
    if tables:
        at, size, fields = rng.choice(tables)
        length = sum(width for _, width in fields)
        change_field(rng, data, at + length * rng.randrange(max(1, size // length)), fields)


def program_field(rng, data):
    if len(data) >= 52:
        base = struct.unpack_from('<I', data, 28)[0] or 52
        change_field(rng, data, base + 32 * rng.randrange(2), PROGRAM_FIELDS)


def change_word(rng, data):
    at = rng.choice((52, 116)) + 4 * rng.randrange(4)
    put(data, at, 4, rng.choice((addi(rng.randrange(32), rng.choice((0, rng.randrange(32))), rng.getrandbits(12)), ECALL,
                                 EBREAK, 0, 0xFFFFFFFF, 0x9002, rng.getrandbits(32))))


def change_half(rng, data):
    """Most likely one of code."""
    halves = 0, 0x0001, 0x9002, 0x8082, 0xA001, 0xC101, 0xB842, 0x4501, 0x4001, 0xFFFF
    put(data, 52 + 2 * rng.randrange(40), 2, rng.choice((*halves, rng.getrandbits(16))))


def turn_flag(_, data):
    """The flag of compressed code."""
    if len(data) >= 52:
        data[36] ^= RVC


def part(rng, data):
    at = rng.randrange(len(data) + 1)
    return at, min(len(data), at + rng.choice((1, 4, 12, 32, 40, rng.randrange(len(data) + 1))))


def truncate(rng, data):
    del data[rng.choice((rng.randrange(len(data) + 1), max(0, len(data) - rng.randrange(1, 50)))):]


def insert(rng, data):
    at, count = part(rng, data)[0], rng.choice((1, 2, 4, 40, 300))
    data[at:at] = rng.choice((bytes(count), random_bytes(rng, count), b'\xff' * count))


def remove(rng, data):
    at, end = part(rng, data)
    del data[at:end]


def double(rng, data):
    at, end = part(rng, data)
    to = rng.choice((end, len(data), part(rng, data)[0]))
    data[to:to] = data[at:end]


def overwrite(rng, data):
    at, end = part(rng, data)
    to = part(rng, data)[0]
    data[to:to + end - at] = data[at:end]


def lengthen(rng, data):
    """To a file at the limit of objects or images."""
    if rng.random() < 0.05:
        data.extend(bytes(max(0, rng.choice((OBJECT_LIMIT, IMAGE_LIMIT)) + rng.randrange(-1, 2) - len(data))))


MUTATIONS = (flip, file_field, section_field, section_field, section_field, entry_field, entry_field, program_field,
             change_word, change_half, turn_flag, truncate, insert, remove, double, overwrite, lengthen)


# ---- calls


class Ended:
    """How a call ended: its outcome, with the line, and what is on standard output and, before the line, on
    standard error."""

    def __init__(self, command, status, out, err):
        if status < 0:
            raise Wrong(f'{command}: signal {-status}')
        self.out, self.name, self.line, self.err = out, 'done', b'', err
        if (status, err) != (0, b'') or command not in LINKS:
            self.find(command, status, err)
        may_write = SHOWS if command in LINKS else RUNS
        if self.name not in may_write and self.out or (command in LINKS or self.name not in RUNS) and self.err:
            raise Wrong(f'{command}: {self.name}, but it wrote {self.out[:80]!r} and {self.err[:80]!r}')

    def find(self, command, status, err):
        text = err.decode('latin-1')
        for name, (pattern, usual, commands) in OUTCOMES.items():
            match = re.search(pattern + r'\n\Z', text)
            if match and command in commands and usual in (None, status):
                found = match.groupdict()
                if usual is None and (int(found['status']) > 255 or status != min(int(found['status']), 118)):
                    continue
                if name in NAMES and NAMES[name][int(found['number'])] != found['name']:
                    continue
                self.name, self.line, self.err = name, err[match.start():-1], err[:match.start()]
                self.what = found.get('name')
                return
        raise Wrong(f'{command}: status {status} with {err[:200]!r}')

    def told(self):
        """The outcome, and what it names."""
        if self.name == 'bad image':
            return self.line.decode('latin-1')
        return self.name + (' ' + self.what if self.name in NAMES else '')

    def __str__(self):
        return f'{self.line.decode("latin-1")!r} after {self.out[:40]!r} and {self.err[:40]!r}'


class Program:
    """The program, with the counts of how its calls ended."""

    def __init__(self, path):
        self.path = path
        self.counts = collections.Counter()
        self.slowest = 0.0
        self.least_memory = self.least()

    def ended(self, words, memory, given=b''):
        """The call's end, where the process may have so much memory."""
        begun = time.monotonic()
        try:
            return programs.run([self.path, *words], given, programs.in_memory(memory))
        finally:
            self.slowest = max(self.slowest, time.monotonic() - begun)

    def least(self):
        """The least memory with which the system can start the program at all, with 64 KiB to spare."""
        for memory in range(MIB, MOST_MEMORY, MIB // 16):
            if self.ended(('run',), memory).status == 120:
                return memory + MIB // 16
        raise Wrong('the program does not start')

    def call(self, command, *words, memory=MOST_MEMORY, given=b''):
        ended = Ended(command, *self.ended((command, *words), memory, given))
        self.counts[command, ended.told()] += 1
        return ended


class Case:
    """A list of files, how they were made, and what is odd about the call."""

    def __init__(self, seed, number, example, image):
        rng = random.Random(f'{seed} {number}')
        self.how, self.files = [], []
        if rng.random() < 0.5:
            self.take_linked(rng)
        else:
            self.take_made(rng, example, image)
        few = {'made': (0, 0, 1, 1, 1, 2, 3, 6), 'linked': (0, 0, 0, 1)}.get(self.how[0], (0, 1, 1, 1, 2, 3, 6))
        for _ in range(rng.choice(few)):
            i = rng.randrange(len(self.files))
            mutation = rng.choice(MUTATIONS)
            mutation(rng, self.files[i])
            self.how.append(f'{mutation.__name__} of {i}')
        self.files = [bytes(data) for data in self.files]
        if rng.random() < 0.002:
            self.files *= rng.choice((128, 257))
        self.odd = rng.choice(('no folder for OUT', 'no folder for CERT', 'no file', 'words', 'little memory')
                              + (None,) * 45)
        self.rng = rng
        self.stale = rng.random() < 0.5
        self.given = rng.choice((b'', b'input', random_bytes(rng, rng.randrange(40))))

    def take_linked(self, rng):
        """A list of objects with relocations."""
        self.files = [bytearray(data) for data in made_list(rng, rng.random() < 0.6)]
        self.how.append('linked')

    def take_made(self, rng, example, image):
        """A list that begins with the example, its image or another object, and goes on with objects."""
        is_straight = rng.random() < 0.5
        for i in range(rng.choice((1, 1, 1, 2, 2, 3, 6))):
            start = rng.choice(('example', 'image', 'image', 'made', 'made', 'made')) if i == 0 else 'made'
            data = {'example': example, 'image': image}.get(start) or made_object(rng, is_straight, i == 0)
            self.files.append(bytearray(data))
            self.how.append(start)

    def check(self, program, folder):
        names = write_list(folder, self.files)
        place = {name: os.path.join(folder, name) for name in ('out', 'cert', 'plain')}
        for name in place if self.stale else ():
            write(place[name], b'what was there')
        if self.odd == 'words':
            self.check_words(program, folder, names, place)
            return
        memory = MOST_MEMORY
        if self.odd == 'little memory':
            most = self.rng.choice((MIB // 4, MIB, 2 * MIB, 6 * MIB))
            memory = program.least_memory + most * self.rng.randrange(64) // 64
        if self.odd == 'no folder for OUT':
            place['out'] = place['plain'] = os.path.join(folder, 'none', 'out')
        elif self.odd == 'no folder for CERT':
            place['cert'] = os.path.join(folder, 'none', 'cert')
        elif self.odd == 'no file':
            os.remove(self.rng.choice(names))
        self.check_link(program, folder, names, place, memory)

    def check_words(self, program, folder, names, place):
        """Words that spell no command, such as steps that are no number or too many."""
        steps = self.rng.choice(('', '-1', '+1', '0x10', '1000000001', '18446744073709551616', '0' * 21, '1 '))
        words = self.rng.choice((('run',), ('trace',), ('trace', '--steps', steps, *names), ('run', names[0], names[0]),
                                 ('trace', *names, '-x'), ('run', '--steps', names[0]), ('zc', *names),
                                 ('zc', '--out', place['out'], *names), ('zc', '--out', place['out'], '--cert', place['cert']),
                                 ('zc', '--out', place['out'], '--cert', place['out'], *names), ('plain', *names),
                                 ('plain', '--out', place['plain']), ('plain', '--out', place['plain'], '-x', *names),
                                 ('plain', '--out', place['plain'], '--out', place['plain'], *names),
                                 ('plain', '--out', place['plain'], '--cert', place['cert'], *names),
                                 ('plain', '--steps', STEPS, '--out', place['plain'], *names),
                                 ('run', '--step', STEPS, names[0]), ('run', '-' + names[0]), ('run', '--help'),
                                 ('zc', '-h', *names), ('run', '--', names[0], names[0]), ('trace', '--'),
                                 ('plain', '--out', '--', *names), ('run', f'--steps={steps}', names[0]),
                                 ('zc', *names, f'--out={place["out"]}', '--cert', place['out'])))
        before = files_in(folder)
        if program.call(*words).name != 'usage':
            raise Wrong(f'{words}: not refused as usage')
        if files_in(folder) != before:
            raise Wrong('usage: a file changed')

    def check_link(self, program, folder, names, place, memory):
        before = files_in(folder)
        linked = program.call('zc', '--out', place['out'], '--cert', place['cert'], *names, memory=memory)
        after = files_in(folder)
        self.check_files(linked, before, after)
        fault = first_fault(self.files)
        plain = program.call('plain', '--out', place['plain'], *names, memory=memory)
        check_refusal('plain', plain, fault, ('done', 'write fault'))
        self.check_plain(plain, after, files_in(folder))
        traced = program.call('trace', '--steps', STEPS, *names, memory=memory, given=self.given)
        program.call('run', '--steps', STEPS, names[0], memory=memory, given=self.given)
        check_refusal('zc', linked, fault, ('done', 'write fault'))
        check_refusal('trace', traced, fault, ('exited', 'stuck', 'spent', 'write fault'))
        if traced.name in ('exited', 'stuck', 'spent'):
            check_trace(traced, *trace_of(self.files, self.given, int(STEPS)))
        if linked.name == 'done':
            self.check_image(program, traced, place['out'], memory, 'image')
        if plain.name == 'done':
            self.check_image(program, traced, place['plain'], memory, 'plain')

    def check_image(self, program, traced, image, memory, kind):
        """The image does what the objects do."""
        ran = program.call('run', '--steps', COMMITS, image, memory=memory, given=self.given)
        if 'out of memory' in (traced.name, ran.name):
            return
        if traced.name == 'spent':
            check_begins(traced, ran)
        else:
            check_runs(traced, ran)
        program.counts[kind, 'agrees' if traced.name not in ('stuck', 'spent') else f'trace is {traced.name}'] += 1

    def check_plain(self, plain, before, after):
        if plain.name == 'done' or plain.out:
            image, length = plain_of(self.files)
            if plain.name == 'done' and after.get('plain') != image:
                raise Wrong('plain: done, but the image is another')
            check_text('plain', plain, b'plain text %d\n' % length)
        self.check_others(plain, 'plain', ('plain',) if plain.name in SHOWS else (), before, after)

    def check_files(self, linked, before, after):
        if linked.name == 'done' or linked.out:
            left = left_by_zc(self.files)
            if linked.name == 'done' and after.get('out') != left.image:
                raise Wrong('zc: done, but the image is another')
            if linked.name == 'done' and after.get('cert') != left.certificate:
                raise Wrong('zc: done, but the certificate is another')
            check_text('zc', linked, left.report)
        written = {'done': ('out', 'cert'), 'write fault': ('out',), 'out of memory': ('out',)}.get(linked.name, ())
        self.check_others(linked, 'zc', written, before, after)

    def check_others(self, ended, command, written, before, after):
        """No file but those that may be written has changed."""
        before, after = ({name: data for name, data in files.items() if name not in written}
                         for files in (before, after))
        if before != after:
            raise Wrong(f'{command}: {ended.name}, but a file changed: {sorted(after)}')


def check_text(command, ended, text):
    """A link has written its text, or a part of it if it isn't done."""
    if not (ended.out == text if ended.name == 'done' else text.startswith(ended.out)):
        raise Wrong(f'{command}: {ended.name} with {ended.out[:200]!r} in place of {text[:200]!r}')


def check_refusal(command, ended, fault, accepted):
    """The files are refused exactly where they have a fault, and the first is named."""
    if ended.name in accepted and fault or ended.name == 'refused' and ended.line != told(fault):
        raise Wrong(f'{command} says {ended}, but the first fault is {told(fault)!r}')


def check_trace(traced, out, err, line):
    """The trace wrote and ended as the model does."""
    if (traced.out, traced.err, traced.line) != (out, err, line):
        raise Wrong(f'trace says {traced}, but the model {line!r} after {out[:40]!r} and {err[:40]!r}')


def check_begins(traced, ran):
    """The run wrote what the trace wrote, and maybe more."""
    if not (ran.out.startswith(traced.out) and ran.err.startswith(traced.err)):
        raise Wrong(f'trace says {traced}, but run {ran}')


def check_runs(traced, ran):
    """Both wrote the same and ended alike, or the trace is stuck and the run may go on."""
    if traced.name == 'stuck':
        check_begins(traced, ran)
    elif (traced.out, traced.err, traced.line) != (ran.out, ran.err, ran.line):
        raise Wrong(f'trace says {traced}, but run {ran}')


# ---- the run


def linked_example(program, example):
    with tempfile.TemporaryDirectory() as folder:
        out = os.path.join(folder, 'out')
        if program.call('zc', '--out', out, '--cert', os.path.join(folder, 'cert'), example).name != 'done':
            raise Wrong('the example is not linked')
        return read(out)


def keep(folder, seed, number, files):
    """Writes the files of a case, and gives the names of the first few."""
    os.makedirs(folder, exist_ok=True)
    return ' '.join(write_list(folder, files, f'seed-{seed}-case-{number}-{{}}')[:6])


def fuzz(program, given, example, image):
    wrong = made = 0
    end = time.monotonic() + given.seconds
    numbers = range(given.count) if given.only is None else (given.only,)
    for number in numbers:
        if time.monotonic() > end:
            break
        case = Case(given.seed, number, example, image)
        made += 1
        with tempfile.TemporaryDirectory() as folder:
            try:
                case.check(program, folder)
            except Wrong as reason:
                wrong += 1
                print(f'WRONG: case {number}, {", ".join(case.how)}, {case.odd}: {reason}; '
                      f'files: {keep(given.keep, given.seed, number, case.files)}')
    return made, wrong


def main():
    arguments = argparse.ArgumentParser(description='Hands the program bad and odd files, and checks how calls end.')
    arguments.add_argument('program', nargs='?', default=programs.BUILT)
    arguments.add_argument('--seed', type=int, default=1)
    arguments.add_argument('--count', type=int, default=1000)
    arguments.add_argument('--seconds', type=float, default=60)
    arguments.add_argument('--only', type=int, help='one case, by its number')
    arguments.add_argument('--keep', default=os.path.join('build', 'fuzz'))
    given = arguments.parse_args()
    program = Program(programs.built(given.program))
    example = os.path.join(TOP, 'examples', 'exit3.o')
    image = linked_example(program, example)
    begun = time.monotonic()
    made, wrong = fuzz(program, given, read(example), image)
    calls = sum(count for (command, _), count in program.counts.items() if command in ('zc', 'trace', 'run'))
    print(f'seed {given.seed}: {made} cases, {calls} calls in {time.monotonic() - begun:.0f} s, '
          f'the longest {program.slowest * 1000:.0f} ms')
    for (command, told), count in sorted(program.counts.items()):
        print(f'{command:6} {told:24} {count:8}')
    print(f'{wrong} wrong')
    return 1 if wrong else 0


if __name__ == '__main__':
    sys.exit(main())
