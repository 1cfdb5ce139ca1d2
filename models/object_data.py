"""Where data lies, and what symbols are, of objects without a fault of symbols (docs/FORMATS.md; RISC-V ELF psABI)."""
from zcld_tools.elf import ABS, COMMON, GLOBAL, NOBITS, UNDEF, WEAK, WRITE
from zcld_tools.images import STANDARD

READ_ONLY, DATA, SMALL_DATA, SMALL_ZERO, ZERO = range(5)
CODE, NUMBER, ABSENT, NOWHERE = 'code', 'number', 'absent', 'nowhere'


def aligned(at, align):
    return -(-at // max(1, align)) * max(1, align)


def is_of_kin(name, base):
    """Whether a section's name is this one, or begins with it and a dot."""
    return name == base or name.startswith(base + b'.')


def class_of(read, section):
    """The class of a section of data."""
    name = read.name_of(section)
    if section.kind == NOBITS:
        return SMALL_ZERO if is_of_kin(name, b'.sbss') else ZERO
    if not section.flags & WRITE:
        return READ_ONLY
    return SMALL_DATA if is_of_kin(name, b'.sdata') else DATA


class Names:
    """What defines each name: a global definition, common symbols, or the first weak definition."""

    def __init__(self, objects):
        self.strong, self.weak, self.common = {}, {}, {}
        for i, read in enumerate(objects):
            for _, name, value, size, bind, home in read.named_symbols():
                if home == COMMON:
                    most = self.common.get(name, (0, 0))
                    self.common[name] = max(size, most[0]), max(value, most[1])
                elif home != UNDEF and bind == GLOBAL:
                    self.strong.setdefault(name, (i, home, value))
                elif home != UNDEF and bind == WEAK:
                    self.weak.setdefault(name, (i, home, value))
        for name in self.strong:
            self.common.pop(name, None)

    def definition(self, name):
        """The object, home and value, where common has no object; or none."""
        if name in self.common:
            return None, COMMON, 0
        return self.strong.get(name) or self.weak.get(name)


class Data:
    """The address of each section of data, of each common name, and of the linker's names; and the bytes of files."""

    def __init__(self, objects, names, memory):
        self.sections, self.commons, starts = {}, {}, []
        data = [(class_of(read, s), i, k, s) for i, read in enumerate(objects) for k, s in enumerate(read.sections)
                if read.kept[k] and not read.is_code(k)]
        at, content, self.file_end = memory.data, [], memory.data
        for wanted in range(5):
            at = aligned(at, 16)
            starts.append(at)
            for kind, i, k, section in data:
                if kind == wanted:
                    at = aligned(at, section.align)
                    self.sections[i, k] = at
                    content.append((at - memory.data, section.content))
                    at += section.size
            if wanted == SMALL_DATA:
                self.file_end = at
        at = aligned(at, 16)
        for name, (size, align) in names.common.items():
            at = aligned(at, align)
            self.commons[name] = at
            at += size
        self.end = at
        self.linker = {b'__global_pointer$': starts[SMALL_DATA] + 0x800, b'__bss_start': starts[SMALL_ZERO], b'_end': at,
                       b'__stack_top': memory.stack_high}
        self.bytes = bytearray(self.file_end - memory.data)
        for start, part in content:
            self.bytes[start:start + len(part)] = part


class Symbols:
    """What the symbols of a list of objects are in a memory map."""

    def __init__(self, objects, memory=STANDARD):
        self.objects, self.names = objects, Names(objects)
        self.data = Data(objects, self.names, memory)

    def resolve(self, i, symbol, addend):
        """A place of code with its object, section and offset, a number, a number for what is absent, or nowhere."""
        if symbol == 0:
            return NUMBER, addend & 0xFFFFFFFF
        read = self.objects[i]
        _, value, _, info, _, home = read.symbols[symbol]
        if info >> 4 == 0 and home != COMMON:
            return self.at(i, home, value, addend)
        name = read.symbol_name(symbol)
        found = self.names.definition(name)
        if found is None and name in self.data.linker:
            return NUMBER, self.data.linker[name] + addend & 0xFFFFFFFF
        if found is None:
            return (ABSENT, addend & 0xFFFFFFFF) if info >> 4 == WEAK else (NOWHERE,)
        if found[1] == COMMON:
            return NUMBER, self.data.commons[name] + addend & 0xFFFFFFFF
        return self.at(*found, addend)

    def at(self, i, home, value, addend):
        if home == ABS:
            return NUMBER, value + addend & 0xFFFFFFFF
        if (i, home) in self.data.sections:
            return NUMBER, self.data.sections[i, home] + value + addend & 0xFFFFFFFF
        read = self.objects[i]
        is_inside = read.is_code(home) and 0 <= value + addend <= read.sections[home].size
        return (CODE, i, home, value + addend) if is_inside else (NOWHERE,)
