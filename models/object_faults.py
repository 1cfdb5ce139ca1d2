"""The faults of objects, and those between objects before their code is looked at, by the System V gABI.

`object_items.py` has the faults of code. Both are independent of the program, so that they can be compared with it.
"""
import struct
from typing import NamedTuple

from zcld_tools.elf import (ABS, ALIGN, ALLOC, COMMON, COMPRESSED, EXECINSTR, GROUP, HEADER, INIT_ARRAY, MAGIC, NOBITS, NULL,
                            PROGBITS, REL, RELA, RELOCATABLE, RISCV, RVC, SECTION_HEADER, STRTAB, SYMTAB, SYMTAB_SHNDX, TLS,
                            TSO, UNDEF, WRITE)

NAMES = (None, 'NotElf', 'Truncated', 'Flags', 'SectionKind', 'Alignment', 'CodeSize', 'BadName', 'BadSymbol',
         'Duplicate', 'Undefined', 'RelocKind', 'RelocPlace', 'LoPair', 'BadTarget', 'Range', 'NoEntry', 'TooLarge')

LINKER_NAMES = (b'__global_pointer$', b'__bss_start', b'_end', b'__stack_top')
# The types of sections that may lie in memory: these, and the arrays of functions that end and begin a program.
MEMORY = (PROGBITS, NOBITS, INIT_ARRAY, INIT_ARRAY + 1, INIT_ARRAY + 2)
# The types of sections that no object may have, and what they have.
UNLINKED = {REL: 'has relocations without addends', GROUP: 'is a group of sections', SYMTAB_SHNDX: 'has indices of sections'}
# The most bytes of an object, and the types of symbols that are never linked.
MOST_BYTES, THREAD_LOCAL, INDIRECT = 4 << 20, 6, 10


class Relocation:
    """A relocation: where it is in its section, its type, the index of the symbol that it names, and its addend."""

    def __init__(self, offset, info, addend):
        self.offset, self.symbol, self.kind, self.addend = offset, info >> 8, info & 255, addend


class Cause(NamedTuple):
    """A fault of an object: its number, why, and what it is about, as far as it is about one: the index of a section, an entry of
    its relocations, the index of a symbol, the name that the fault's line has, the index of another object, and an offset."""

    number: int
    why: str
    section: int = None
    entry: Relocation = None
    symbol: int = None
    name: bytes = None
    other: int = None
    offset: int = None


class Section:
    """A section header, with its content."""

    def __init__(self, data, at):
        (self.name, self.kind, self.flags, self.address, self.at, self.size, self.link, self.info, self.align,
         self.entry_size) = struct.unpack_from('<10I', data, at)
        self.has_content = self.kind not in (NULL, NOBITS)
        self.content = data[self.at:self.at + self.size] if self.has_content else b''
        self.is_truncated = self.has_content and self.at + self.size > len(data)


def string_at(table, at):
    """The name at an offset, or none if it has no end."""
    end = table.find(b'\0', at) if at < len(table) else -1
    return None if end < 0 else table[at:end]


def is_bad_alignment(align, most):
    return align & (align - 1) != 0 or align > most if align else False


class Object:
    """The sections and symbols of a file whose headers lie in it, and whether its code may have instructions of 2 bytes."""

    def __init__(self, data):
        self.is_compressed = bool(flags_of(data) & RVC)
        self.table, self.count, names = (struct.unpack_from(form, data, at)[0] for form, at in
                                         (('<I', 32), ('<H', 48), ('<H', 50)))
        self.sections = [Section(data, self.table + 40 * i) for i in range(self.count)]
        self.names = self.strings(names)
        self.tables = [s for s in self.sections if s.kind == SYMTAB]
        self.symbols = list(struct.iter_unpack('<IIIBBH', self.tables[0].content[:self.tables[0].size // 16 * 16])
                            ) if self.tables else []
        self.kept = [bool(s.flags & ALLOC) and self.name_of(s) != b'.eh_frame' for s in self.sections]

    def strings(self, i):
        """The strings of a section, or none."""
        return self.sections[i].content if i < self.count and self.sections[i].kind == STRTAB else None

    def name_of(self, section):
        return None if self.names is None else string_at(self.names, section.name)

    def kept_sections(self):
        return [s for s, kept in zip(self.sections, self.kept) if kept]

    def kept_relas(self):
        return [s for s in self.sections if s.kind == RELA and s.info < self.count and self.kept[s.info]]

    # what is wrong with it, lazily, so that what comes later is looked at only if nothing was found before

    def causes(self):
        """Its faults from 4 on, in their order."""
        yield from self.unlinked_sections()
        yield from self.bad_alignments()
        for k, s in enumerate(self.sections):
            if self.is_code(k) and s.size % self.unit():
                yield Cause(6, f'{s.size:,} bytes of code, which is no multiple of {self.unit()}', k)
        yield from self.bad_names()
        yield from self.bad_symbols()

    def unlinked_sections(self):
        """Each section that is never linked, and why."""
        if self.count == 0 and self.table != 0:
            yield Cause(4, 'there are no sections, but an offset for their headers')
        relocated = set()
        for k, s in enumerate(self.sections):
            if s.kind in UNLINKED:
                yield Cause(4, f'the section {UNLINKED[s.kind]}', k)
            if s.flags & COMPRESSED:
                yield Cause(4, 'the section is compressed', k)
            if s.kind == SYMTAB and (s is not self.tables[0] or s.entry_size != 16 or s.size % 16):
                yield Cause(4, 'a second table of symbols, or one whose entries do not have 16 bytes', k)
            if s.kind == RELA and s.info >= self.count:
                yield Cause(4, 'relocations of a section that does not exist', k)
            if self.kept[k]:
                yield from self.unlinked_kept(k)
            if s.kind == RELA and s.info < self.count and self.kept[s.info]:
                yield from self.unlinked_relocations(k, relocated)

    def unlinked_kept(self, k):
        """Why a kept section is never linked."""
        s = self.sections[k]
        if s.flags & TLS:
            yield Cause(4, 'the section is thread-local', k)
        if s.kind not in MEMORY:
            yield Cause(4, f'a section of the type {s.kind:#x} that would lie in memory', k)
        if s.flags & EXECINSTR and (s.flags & WRITE or s.kind != PROGBITS):
            yield Cause(4, 'code that can be written, or that is not PROGBITS', k)

    def unlinked_relocations(self, k, relocated):
        """Why the relocations of a kept section are never linked. `relocated` are those that had some before."""
        s = self.sections[k]
        if s.info in relocated:
            yield Cause(4, f'second relocations of section {s.info}', k)
        relocated.add(s.info)
        if s.entry_size != 12 or s.size % 12 or s.link >= self.count or self.sections[s.link].kind != SYMTAB:
            yield Cause(4, 'relocations whose entries do not have 12 bytes, or that do not use the table of symbols', k)

    def bad_alignments(self):
        """Each kept section and common symbol whose alignment is bad."""
        for k, s in enumerate(self.sections):
            most = 256 if s.flags & EXECINSTR else 4096
            if self.kept[k] and is_bad_alignment(s.align, most):
                yield Cause(5, f'aligned to {s.align:,}, which is above {most:,} or no power of two', k)
        for k, (_, value, _, _, _, home) in enumerate(self.symbols):
            if k and home == COMMON and is_bad_alignment(value, 4096):
                yield Cause(5, f'a common symbol aligned to {value:,}, which is above 4,096 or no power of two', symbol=k)

    def bad_names(self):
        """What has no name."""
        if self.count and self.names is None:
            yield Cause(7, 'there is no table with the names of the sections')
        strings = self.strings(self.tables[0].link) if self.tables else b''
        if strings is None:
            yield Cause(7, 'there is no table with the names of the symbols')
            return
        for k, s in enumerate(self.sections):
            if self.name_of(s) is None:
                yield Cause(7, "the section's name has no end", k)
        for k, symbol in enumerate(self.symbols):
            if string_at(strings, symbol[0]) is None:
                yield Cause(7, "the symbol's name has no end", symbol=k)

    def bad_symbols(self):
        """Each symbol that is bad, and each relocation of a kept section whose symbol doesn't exist."""
        for k in range(1, len(self.symbols)):
            why = self.why_bad_symbol(self.symbols[k])
            if why:
                yield Cause(8, why, symbol=k)
        for s in self.kept_relas():
            for row in struct.iter_unpack('<IIi', s.content):
                if row[1] >> 8 >= len(self.symbols):
                    yield Cause(8, 'a relocation names a symbol that does not exist', s.info, entry=Relocation(*row))

    def why_bad_symbol(self, symbol):
        """Why a symbol is bad, or none."""
        _, value, _, info, _, home = symbol
        bind, kind = info >> 4, info & 15
        is_inside = 0 < home < self.count
        return (f'its binding is {bind}, which is none of local, global and weak' if bind > 2 else
                'it is thread-local' if kind == THREAD_LOCAL else
                'it is an indirect function' if kind == INDIRECT else
                'it is local and undefined' if bind == 0 and home == UNDEF else
                'it is in a section that does not exist' if home >= self.count and home not in (ABS, COMMON) else
                f'it lies at {value:#x}, past the end of its section, which has {self.sections[home].size:#x} bytes'
                if is_inside and self.kept[home] and value > self.sections[home].size else None)

    def is_code(self, i):
        return self.kept[i] and bool(self.sections[i].flags & EXECINSTR)

    def relocations(self, is_code=False):
        """The relocations of kept sections, or of kept code alone: the symbol, the type and the addend."""
        for s in self.kept_relas():
            if not is_code or self.is_code(s.info):
                for _, info, addend in struct.iter_unpack('<IIi', s.content):
                    yield info >> 8, info & 255, addend

    def first_use(self, symbol):
        """The section of the first relocation of kept sections that names a symbol, that relocation, and the symbol."""
        for s in self.kept_relas():
            for row in struct.iter_unpack('<IIi', s.content):
                if row[1] >> 8 == symbol:
                    return s.info, Relocation(*row), symbol
        return None, None, symbol

    def unit(self):
        """The bytes of which all code consists."""
        return 2 if self.is_compressed else 4

    def code_room(self):
        """The most room that the code may take: instructions of 2 bytes may become ones of 4."""
        times = 2 if self.is_compressed else 1
        return (sum(times * s.size + max(4, s.align) for i, s in enumerate(self.sections) if self.is_code(i))
                + sum(1 << addend.bit_length() if 1 <= addend <= 255 else 256
                      for _, kind, addend in self.relocations(True) if kind == ALIGN))

    def data_room(self):
        """The most room that the data may take."""
        return (sum(s.size + max(1, s.align) for s in self.kept_sections() if not s.flags & EXECINSTR)
                + sum(size + max(1, value) for _, value, size, _, _, home in self.symbols[1:] if home == COMMON))

    def symbol_name(self, i):
        return string_at(self.strings(self.tables[0].link), self.symbols[i][0])

    def named_symbols(self):
        """Each symbol but symbol 0: its index, name, value, size, binding and home."""
        for i, (_, value, size, info, _, home) in enumerate(self.symbols):
            if i:
                yield i, self.symbol_name(i), value, size, info >> 4, home


def why_not_elf(data):
    """Why a file isn't a relocatable one of class 32 for RISC-V, or none."""
    if len(data) < HEADER:
        return f'it has {len(data)} bytes, fewer than the header of an ELF file'
    if data[:4] != MAGIC[:4]:
        return 'it is no ELF file'
    if data[:7] != MAGIC:
        return 'it is no ELF file for 32 bits, little-endian'
    kind, machine = struct.unpack_from('<2H', data, 16)
    if kind != RELOCATABLE:
        return f'it is no relocatable file: its type is {kind}'
    if machine != RISCV:
        return f'it is for another processor: its machine is {machine}'
    size, count = struct.unpack_from('<2H', data, 46)
    return f'its section headers have {size} bytes in place of {SECTION_HEADER}' if count and size != SECTION_HEADER else None


def flags_of(data):
    return struct.unpack_from('<I', data, 36)[0]


def object_cause(data):
    """The first fault of an object, or none."""
    if len(data) > MOST_BYTES:
        return Cause(17, f'it has {len(data):,} bytes, and at most {MOST_BYTES:,} are read')
    why = why_not_elf(data)
    if why:
        return Cause(1, why)
    table, count = struct.unpack_from('<I', data, 32)[0], struct.unpack_from('<H', data, 48)[0]
    if count > 4096:
        return Cause(17, f'it has {count:,} sections, and at most 4,096 are linked')
    if table + 40 * count > len(data):
        return Cause(2, 'its section headers pass its end')
    for k in range(count):
        if Section(data, table + 40 * k).is_truncated:
            return Cause(2, "the section's content passes the file's end", k)
    if flags_of(data) & ~(RVC | TSO):
        return Cause(3, f'its flags are {flags_of(data):#x}, which has others than RVC (0x1) and TSO (0x10)')
    return next(Object(data).causes(), None)


def object_fault(data):
    """The number of the first fault of an object, or none."""
    cause = object_cause(data)
    return cause and cause.number


# ---- faults between objects


def gather_cause(files):
    """The first fault of a list of files before their code is looked at, and the index of its object; or none."""
    if len(files) > 256:
        return 256, Cause(17, f'there are {len(files):,} objects, and at most 256 are linked')
    for i, data in enumerate(files):
        cause = object_cause(data)
        if cause is not None:
            return i, cause
    objects = [Object(data) for data in files]
    length = code = data = 0
    for i, read in enumerate(objects):
        length, code, data = length + len(files[i]), code + read.code_room(), data + read.data_room()
        for what, size, most in (('the files have', length, 32 << 20), ('code may take', code, 1 << 18),
                                 ('data may take', data + 96, 4 << 20)):
            if size > most:
                return i, Cause(17, f'up to this object {what} {size:,} bytes, and there is room for {most:,}')
    return second_definition(objects) or missing_definition(objects)


def row_of(found):
    """The object's index, the fault's number, and the name that its line has or none, of a fault that was found."""
    return found and (found[0], found[1].number, found[1].name)


def second_definition(objects):
    """The first symbol that is a second global definition of its name."""
    first = {}
    for i, read in enumerate(objects):
        for k, name, _, _, bind, home in read.named_symbols():
            if bind == 1 and home not in (UNDEF, COMMON):
                if name in first:
                    return i, Cause(9, 'the second global definition of this name', symbol=k, name=name, other=first[name])
                first[name] = i
    return None


def missing_definition(objects):
    """The first global symbol that a relocation uses and nothing defines."""
    defined = set(LINKER_NAMES)
    for read in objects:
        defined.update(name for _, name, _, _, bind, home in read.named_symbols()
                       if home == COMMON or home != UNDEF and bind)
    for i, read in enumerate(objects):
        used = {symbol for symbol, _, _ in read.relocations()}
        for k, name, _, _, bind, home in read.named_symbols():
            if k in used and bind == 1 and home == UNDEF and name not in defined:
                return i, Cause(10, 'a relocation needs this name, and no object defines it', *read.first_use(k), name=name)
    return None


def told(found):
    """The line of a refusal, or an empty one."""
    if found is None:
        return b''
    i, fault, name = found
    return f'refused {i} {fault} {NAMES[fault]}'.encode() + (b'' if name is None else b' ' + name)
