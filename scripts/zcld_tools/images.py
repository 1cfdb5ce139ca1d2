"""Writes images, as docs/FORMATS.md has them, and reads the segments of executables (System V gABI, "ELF Header")."""
import struct
from typing import NamedTuple

from zcld_tools.elf import (CODE_FLAGS, DATA_FLAGS, EXECUTABLE, EXECUTE, HEADER, LOAD, NOBITS, PROGBITS, PROGRAM_HEADER,
                            READABLE, STRTAB, WRITABLE, Part, file_header, laid, section_headers)


class Extensions(NamedTuple):
    """Which extensions a chip has beside Zca."""

    zcb: bool
    zcmp: bool
    zcmt: bool


EVERY = Extensions(True, True, True)


class MemoryMap(NamedTuple):
    """Where a program's memory lies: where its code and its data begin, and between which addresses its stack lies. And the
    extensions of the chip."""

    text: int
    data: int
    stack_low: int
    stack_high: int
    extensions: Extensions = EVERY


# The map that the program uses if it is told no other.
STANDARD = MemoryMap(0x10000, 0x100000, 0x0FF00000, 0x10000000)
TEXT_AT, DATA_AT, STACK_LOW, STACK_HIGH = STANDARD[:4]
# The name of each section of an image, and the flag of an image that may have short forms.
NAMES = b'\0.text\0.data\0.bss\0.zcld.places\0.shstrtab\0'
PLACES, COMPRESSED = b'.zcld.places', 1
PAGE = 4096


def name_at(name):
    """Where the name of an image's section is."""
    return NAMES.index(b'\0' + name + b'\0') + 1


def load_header(part, at, zero, flags, align):
    """The header of a segment that has the content of a part, and this many zeros after it."""
    size = len(part.content)
    return struct.pack('<8I', LOAD, at, part.address, part.address, size, size + zero, flags, align)


def executable(parts, zero, entry, flags=0, *, names=None, step=4):
    """A file whose first two parts are its text and its data, with this many zeros after the data. The parts are its sections
    too, if there is one of names, by its index."""
    start = HEADER + 2 * PROGRAM_HEADER
    content, offsets = laid(parts, start, step)
    loads = (load_header(parts[0], offsets[0], 0, READABLE | EXECUTE, step)
             + load_header(parts[1], offsets[1], zero, READABLE | WRITABLE, step))
    at, count, headers = 0, 0, b''
    if names is not None:
        at, count, headers = start + len(content), len(parts) + 1, section_headers(parts, offsets)
    return file_header(EXECUTABLE, at, count, names or 0, entry=entry, flags=flags, segments=2) + loads + content + headers


def image_bytes(text, places, data, zero, start, flags, memory=STANDARD):
    """The image of these bytes and places, and of this many zeros after the data."""
    listed = b''.join(struct.pack('<HHII', *place, address) for place, address in sorted(places.items()))
    parts = [Part(name_at(b'.text'), PROGBITS, CODE_FLAGS, text, align=4, address=memory.text),
             Part(name_at(b'.data'), PROGBITS, DATA_FLAGS, data, align=4, address=memory.data),
             Part(name_at(b'.bss'), NOBITS, DATA_FLAGS, b'', zero, 4, address=memory.data + len(data)),
             Part(name_at(PLACES), PROGBITS, 0, listed, align=4), Part(name_at(b'.shstrtab'), STRTAB, 0, NAMES, align=1)]
    return executable(parts, zero, start, flags, names=len(parts))


def image_in_pages(text, zero, start):
    """An executable of a text and this many zeroed bytes of data, without sections, which other machines map by pages."""
    return executable([Part(content=text, address=TEXT_AT), Part(address=DATA_AT)], zero, start, step=PAGE)


def listed_places(data):
    """The address of each place that an image lists."""
    start, (size, count) = struct.unpack_from('<I', data, 32)[0], struct.unpack_from('<2H', data, 46)
    headers = [struct.unpack_from('<6I', data, start + size * k) for k in range(count)]
    at, length = next((at, length) for name, _, _, _, at, length in headers if name == name_at(PLACES))
    return {(i, k, offset): address for i, k, offset, address in struct.iter_unpack('<HHII', data[at:at + length])}


class Segment(NamedTuple):
    """A segment that is loaded: its flags, its address, its bytes in the file, and its size in memory."""

    flags: int
    address: int
    content: bytes
    size: int


def segments(data):
    """The segments of an executable that are loaded, in their order."""
    start, (size, count) = struct.unpack_from('<I', data, 28)[0], struct.unpack_from('<2H', data, 42)
    headers = [struct.unpack_from('<8I', data, start + size * k) for k in range(count)]
    return [Segment(flags, address, data[at:at + length], memory)
            for kind, at, address, _, length, memory, flags, _ in headers if kind == LOAD]


def text_of(data):
    """The bytes of an executable's code: those of its segments that may be executed."""
    return b''.join(segment.content for segment in segments(data) if segment.flags & EXECUTE)
