"""Writes objects with sections, symbols and relocations (System V gABI, "Object Files"; RISC-V ELF psABI, "Relocations")."""
from zcld_tools.elf import (CODE_FLAGS, GLOBAL, HEADER, INFO_LINK, LOCAL, NOBITS, NO_TYPE, PROGBITS, RELA, RELOCATABLE,
                            RELOCATION, RVC, STRTAB, SYMBOL, SYMTAB, Part, file_header, laid, relocation_entry,
                            section_headers, symbol_entry)
from zcld_tools.instructions import halves_of, words_of


class Symbol:
    """A symbol. Its home is a section, ABS, COMMON, or none if it is undefined."""

    def __init__(self, name, home=None, value=0, bind=GLOBAL, kind=NO_TYPE, size=0):
        self.name, self.home, self.value, self.bind, self.kind, self.size = name, home, value, bind, kind, size


class Reloc:
    """A relocation. Without a symbol it goes by symbol 0."""

    def __init__(self, offset, kind, symbol, addend):
        self.offset, self.kind, self.symbol, self.addend = offset, kind, symbol, addend


class Section:
    """A section with its bytes, and its relocations. One without bytes in the file has a size alone."""

    def __init__(self, name, kind=PROGBITS, flags=CODE_FLAGS, align=4, size=0):
        self.name, self.kind, self.flags, self.align, self.size = name, kind, flags, align, size
        self.content, self.relocs = bytearray(), []

    def length(self):
        return self.size if self.kind == NOBITS else len(self.content)

    def words(self, *words):
        """Adds words, and returns where the first is."""
        return self.add(words_of(*words))

    def halves(self, *halves):
        """Adds halfwords, and returns where the first is."""
        return self.add(halves_of(*halves))

    def add(self, content):
        """Adds bytes, and gives where they begin."""
        at = len(self.content)
        self.content += content
        return at

    def reloc(self, kind, symbol, addend=0, words=(), halves=()):
        """Adds words, or halfwords, with a relocation at the first, and returns where they are."""
        at = self.halves(*halves) if halves else self.words(*words)
        self.relocs.append(Reloc(at, kind, symbol, addend))
        return at


class Strings:
    """A table of strings, in which each occurs once."""

    def __init__(self):
        self.bytes, self.at = bytearray(b'\0'), {b'': 0}

    def add(self, name):
        """The place of a string, which is added if it isn't there. A place is returned as it is."""
        if isinstance(name, int):
            return name
        if name not in self.at:
            self.at[name] = len(self.bytes)
            self.bytes += name + b'\0'
        return self.at[name]


class Written:
    """An object: its sections from 1 on, and its symbols from 1 on, local ones first. The sections of relocations come after
    the sections, in their order or in the other.

    A name of a symbol or a section is its bytes, or its place in the table of names: so several names can be endings of one
    that was added to the table before.
    """

    def __init__(self):
        self.sections, self.symbols, self.flags, self.is_reversed = [], [], 0, False
        self.symbol_names, self.section_names = Strings(), Strings()

    def section(self, *how, **more):
        self.sections.append(Section(*how, **more))
        return self.sections[-1]

    def symbol(self, *how, **more):
        self.symbols.append(Symbol(*how, **more))
        return self.symbols[-1]

    def bytes(self):
        symbols = sorted(self.symbols, key=lambda symbol: symbol.bind != LOCAL)
        parts = self.parts(symbols)
        content, offsets = laid(parts, HEADER)
        header = file_header(RELOCATABLE, HEADER + len(content), len(parts) + 1, len(parts), flags=self.flags)
        return header + content + section_headers(parts, offsets)

    def parts(self, symbols):
        """The sections as they are in the file: those of the object, and those of relocations, symbols and names."""
        relas = [(k, it) for k, it in enumerate(self.sections, 1) if it.relocs][::-1 if self.is_reversed else 1]
        at_symbols = 1 + len(self.sections) + len(relas)
        numbers = {id(symbol): k for k, symbol in enumerate(symbols, 1)}
        rows = [(it.name, Part(0, it.kind, it.flags, it.content, it.length(), it.align)) for it in self.sections]
        for k, it in relas:
            entries = b''.join(relocation_entry(reloc.offset, numbers.get(id(reloc.symbol), 0), reloc.kind, reloc.addend)
                               for reloc in it.relocs)
            rows.append((b'.rela' + it.name, Part(0, RELA, INFO_LINK, entries, None, 4, at_symbols, k, RELOCATION)))
        first_global = 1 + sum(it.bind == LOCAL for it in symbols)
        rows += [(b'.symtab', Part(0, SYMTAB, 0, self.table(symbols), None, 4, at_symbols + 1, first_global, SYMBOL)),
                 (b'.strtab', Part(0, STRTAB, 0, self.symbol_names.bytes, None, 1)),
                 (b'.shstrtab', Part(0, STRTAB, 0, self.section_names.bytes, None, 1))]
        # the table of names is whole once each section's name is in it
        return [part._replace(name=at) for at, (_, part) in zip([self.section_names.add(name) for name, _ in rows], rows)]

    def table(self, symbols):
        """The table of symbols, whose names this adds to theirs."""
        homes = {id(section): k for k, section in enumerate(self.sections, 1)}
        return bytes(SYMBOL) + b''.join(
            symbol_entry(self.symbol_names.add(it.name), it.value, it.size, it.bind << 4 | it.kind,
                         it.home if isinstance(it.home, int) else homes.get(id(it.home), 0)) for it in symbols)


def object_with(*words, name=b'_start'):
    """An object of code in `.text`, with a global name where it begins; its section and the symbol."""
    made = Written()
    text = made.section(b'.text')
    text.words(*words)
    made.symbol(name, home=text)
    return made, text


def compressed_with(code=b'', name=b'_start'):
    """The same of compressed code, by its bytes."""
    made, text = object_with(name=name)
    made.flags, text.align = RVC, 2
    text.content += code
    return made, text
