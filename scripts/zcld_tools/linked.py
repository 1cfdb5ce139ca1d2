"""Where sections and symbols of objects lie in an image that zcld linked, by its list of places (docs/FORMATS.md, "The image").

It uses the models, which must be among the folders that Python looks in."""
import bisect
import re
import struct
from typing import NamedTuple

from groups import groups_of, places_outside
from object_data import READ_ONLY, class_of
from object_faults import Object, Section
from zcld_tools.elf import (COMMON, DATA_TYPE, EXECUTABLE, FILE_TYPE, GLOBAL, HEADER, LOCAL, MAGIC, NOBITS, NO_TYPE, RISCV,
                            SECTION_HEADER, SECTION_TYPE, WEAK)
from zcld_tools.images import PLACES, STANDARD, MemoryMap
from zcld_tools.lines import Bad, read

# RISC-V ELF psABI, "Mapping Symbol"
MAPPING = re.compile(rb'\$(d|x|xrv32[a-z0-9_]*)(\..*)?')


# ---- the image


def is_image(data):
    """Whether a file is an executable for RISC-V whose sections lie in it (System V gABI, "ELF Header")."""
    if len(data) < HEADER or data[:7] != MAGIC or struct.unpack_from('<2H', data, 16) != (EXECUTABLE, RISCV):
        return False
    table, size, count = struct.unpack_from('<I10xHH', data, 32)
    return size == SECTION_HEADER and table + size * count <= len(data) and not any(
        Section(data, table + size * k).is_truncated for k in range(count))


class Image:
    """An image's list of places, as the address of each, whether it has symbols, the sizes of its sections, and the map of its
    code and data. An image doesn't say where the stack lies: in this map it lies above all memory, so that any data fit."""

    def __init__(self, path):
        data = read(path)
        if not is_image(data):
            raise Bad(f'{path}: no image')
        image = Object(data)
        lists = [section.content for section in image.sections if image.name_of(section) == PLACES]
        if len(lists) != 1 or len(lists[0]) % 12:
            raise Bad(f'{path}: no list of places')
        self.path = path
        self.places = {(i, k, offset): address for i, k, offset, address in struct.iter_unpack('<HHII', lists[0])}
        self.offsets = {}
        for i, k, offset in sorted(self.places):
            self.offsets.setdefault((i, k), []).append(offset)
        self.has_symbols = bool(image.tables)
        self.sizes = {image.name_of(section): section.size for section in image.sections}
        starts = {image.name_of(section): section.address for section in image.sections}
        text, data = starts.get(b'.text', STANDARD.text), starts.get(b'.data', STANDARD.data)
        self.memory = MemoryMap(text, data, stack_low=1 << 32, stack_high=1 << 32)

    def is_of(self, code):
        """Whether it has the places of this code, all or those outside groups, and as much data."""
        ends = {(*place, part.section.size) for place, part in code.code_parts()}
        listed, data = set(self.places), code.symbols.data
        return (listed in ({*code.places(), *ends}, {*places_outside(code, groups_of(code)), *ends})
                and self.sizes.get(b'.data', 0) == data.file_end - self.memory.data
                and self.sizes.get(b'.bss', 0) == data.end - data.file_end)

    def need(self, code):
        """Ends what is done if it isn't an image of this code."""
        if not self.is_of(code):
            raise Bad(f'{self.path}: not an image of these objects in this order')

    def length(self, i, k, start, end):
        """How many bytes of text correspond to a section of code from one offset to another, or to the first place after
        that which is listed. The first is listed."""
        offsets = self.offsets[i, k]
        behind = offsets[min(bisect.bisect_left(offsets, end), len(offsets) - 1)]
        return max(0, self.places[i, k, behind] - self.places[i, k, start])


# ---- symbols


class Symbol(NamedTuple):
    """A symbol of an image: its address, name, letter, binding, type, the image's section that it lies in, the object and the
    section that it comes from, and its size."""

    address: int
    name: bytes
    letter: str
    bind: int
    kind: int
    section: str
    home: tuple
    size: int


def is_shown(name, bind, kind, labels):
    """Whether a symbol has a name to show."""
    is_mapping = bind == LOCAL and kind == NO_TYPE and MAPPING.fullmatch(name)
    return name and kind not in (SECTION_TYPE, FILE_TYPE) and not is_mapping and (labels or not name.startswith(b'.L'))


def letter_of(letter, bind, kind):
    """The letter of a symbol, from that of what it names."""
    if bind == WEAK:
        return 'V' if kind == DATA_TYPE else 'W'
    return letter.lower() if bind == LOCAL else letter


class Symbols:
    """The symbols of an image, and how many lie at no listed place."""

    def __init__(self, image, code, labels=False):
        self.image, self.code, self.left_out, self.found, self.seen = image, code, 0, [], set()
        for i, part in enumerate(code.objects):
            for index, name, value, size, bind, home in part.named_symbols():
                kind = part.symbols[index][3] & 15
                if is_shown(name, bind, kind, labels):
                    self.take(Symbol(value, name, '', GLOBAL if home == COMMON else bind, kind, '', (i, home), size))
        self.found.sort()

    def take(self, symbol):
        """Takes a symbol of an object, whose address is its value so far, if the image has it."""
        if symbol.bind != LOCAL and not self.is_definition(symbol):
            return
        where = self.where(symbol)
        if where is not None:
            address, letter, section, size = where
            letter = letter_of(letter, symbol.bind, symbol.kind)
            self.found.append(symbol._replace(address=address, letter=letter, section=section, size=size))

    def is_definition(self, symbol):
        """Whether the link takes this definition of a name, and it is the first."""
        names, name, (i, home) = self.code.symbols.names, symbol.name, symbol.home
        if name in names.common:
            is_it = home == COMMON
        else:
            is_it = (i, home, symbol.address) == names.definition(name) and (symbol.bind == GLOBAL) == (name in names.strong)
        is_first = is_it and name not in self.seen
        if is_first:
            self.seen.add(name)
        return is_first

    def where(self, symbol):
        """The address, the letter of what lies there, the image's section, and the size in it; or none outside kept sections and
        places."""
        data, value, (i, home) = self.code.symbols.data, symbol.address, symbol.home
        if home == COMMON:
            return data.commons[symbol.name], 'B', '.bss', self.code.symbols.names.common[symbol.name][0]
        if (i, home) in data.sections:
            part = self.code.objects[i]
            section = part.sections[home]
            letter = 'B' if section.kind == NOBITS else 'R' if class_of(part, section) == READ_ONLY else 'D'
            return data.sections[i, home] + value, letter, '.bss' if letter == 'B' else '.data', symbol.size
        if (i, home) not in self.code.parts:
            return None
        if (i, home, value) not in self.image.places:
            self.left_out += 1
            return None
        size = self.image.length(i, home, value, value + symbol.size) if symbol.size else 0
        return self.image.places[i, home, value], 'T', '.text', size
