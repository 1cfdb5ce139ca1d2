"""Objects that are written again: the parts of one that is read, and the file that new parts come to (System V gABI, "Object
Files")."""
import struct

from object_faults import Object, flags_of
from zcld_tools.elf import (ABS, HEADER, INFO_LINK, LOCAL, NONE, RELA, RELAX, RELOCATABLE, RELOCATION, STRTAB, SYMBOL, SYMTAB,
                            UNDEF, Part, file_header, laid, relocation_entry, section_headers, symbol_entry)


def relocations(read, k):
    """The relocations of a section that ask for something: offset, symbol, type and addend."""
    for rela in read.kept_relas():
        if rela.info == k:
            for offset, info, addend in struct.iter_unpack('<IIi', rela.content):
                if info & 255 not in (NONE, RELAX):
                    yield offset, info >> 8, info & 255, addend


class Rewritten:
    """What is written of an object: its flags; of each kept section the name, type, flags, alignment, size, content and
    relocations; and of each symbol the name, value, size, binding, type and home.

    As it stands here all is as in the given object; `part` says how a section becomes another one, and `extent` where a symbol of a
    kept section goes.
    """

    def __init__(self, data):
        self.read, self.flags = Object(data), flags_of(data)
        self.kept = [k for k in range(self.read.count) if self.read.kept[k]]
        self.code = [k for k in self.kept if self.read.is_code(k)]
        self.numbers = {k: number for number, k in enumerate(self.kept, 1)}

    def make(self):
        """Makes the parts."""
        self.sections = [self.section(k) for k in self.kept]
        self.symbols = [self.symbol(k) for k in range(1, len(self.read.symbols))]

    def section(self, k):
        section = self.read.sections[k]
        return self.read.name_of(section), section.kind, section.flags, *self.part(k)

    def part(self, k):
        """The alignment, size, content and relocations of a kept section."""
        section = self.read.sections[k]
        return section.align, section.size, section.content, list(relocations(self.read, k))

    def symbol(self, k):
        _, value, size, info, _, home = self.read.symbols[k]
        if UNDEF < home < self.read.count:
            if self.read.kept[home]:
                value, size = self.extent(home, value, size)
                home = self.numbers[home]
            else:
                value, home = 0, ABS
        return self.read.symbol_name(k), value, size, info >> 4, info & 15, home

    def extent(self, home, value, size):
        """The value and size of a symbol of a kept section."""
        return value, size

    def bytes(self):
        """The file."""
        names = [name for name, *_ in self.sections]
        parts = [Part(0, kind, flags, content, size, align)
                 for _, kind, flags, align, size, content, _ in self.sections]
        relas = [(k, it) for k, it in enumerate(self.sections, 1) if it[6]]
        at_symbols = 1 + len(self.sections) + len(relas)
        for k, (name, *_, entries) in relas:
            names.append(b'.rela' + name)
            content = b''.join(relocation_entry(offset, symbol, kind, addend) for offset, symbol, kind, addend in entries)
            parts.append(Part(0, RELA, INFO_LINK, content, None, 4, at_symbols, k, RELOCATION))
        strings, at = table_of([name for name, *_ in self.symbols])
        entries = bytes(SYMBOL) + b''.join(symbol_entry(start, value, size, bind << 4 | kind, home)
                                           for start, (_, value, size, bind, kind, home) in zip(at, self.symbols))
        locals_end = max([1] + [k + 1 for k, it in enumerate(self.symbols, 1) if it[3] == LOCAL])
        names += [b'.symtab', b'.strtab', b'.shstrtab']
        parts += [Part(0, SYMTAB, 0, entries, None, 4, at_symbols + 1, locals_end, SYMBOL), Part(0, STRTAB, 0, strings, None, 1)]
        strings, at = table_of(names)
        parts.append(Part(0, STRTAB, 0, strings, None, 1))
        parts = [part._replace(name=start) for part, start in zip(parts, at)]
        content, offsets = laid(parts, HEADER)
        header = file_header(RELOCATABLE, HEADER + len(content), len(parts) + 1, len(parts), flags=self.flags)
        return header + content + section_headers(parts, offsets)


def table_of(names):
    """A table of names, each of which is there by itself, and the offset of each."""
    table, at = bytearray(b'\0'), []
    for name in names:
        at.append(len(table) if name else 0)
        table += name + b'\0' if name else b''
    return bytes(table), at
