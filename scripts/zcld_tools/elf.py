"""Numbers and records of ELF files of class 32 for RISC-V (System V gABI, "Object Files"; RISC-V ELF psABI)."""
import struct
from typing import NamedTuple

# Types of files, and the machine.
RELOCATABLE, EXECUTABLE, RISCV = 1, 2, 243
# Flags of a file: its code is compressed, and keeps the memory model TSO.
RVC, TSO = 0x01, 0x10
# How a little-endian file of class 32 begins.
MAGIC = b'\x7fELF\1\1\1'
# Sizes of records.
HEADER, PROGRAM_HEADER, SECTION_HEADER, SYMBOL, RELOCATION = 52, 32, 40, 16, 12

# Types of sections, and their flags.
NULL, PROGBITS, SYMTAB, STRTAB, RELA, NOBITS, REL, INIT_ARRAY, GROUP, SYMTAB_SHNDX = 0, 1, 2, 3, 4, 8, 9, 14, 17, 18
WRITE, ALLOC, EXECINSTR, MERGE, STRINGS, INFO_LINK, TLS, COMPRESSED = 1, 2, 4, 0x10, 0x20, 0x40, 0x400, 0x800
CODE_FLAGS, DATA_FLAGS, CONSTANT_FLAGS = ALLOC | EXECINSTR, ALLOC | WRITE, ALLOC

# Of symbols: bindings, types, and the special values of a section's index.
LOCAL, GLOBAL, WEAK = range(3)
NO_TYPE, DATA_TYPE, FUNCTION_TYPE, SECTION_TYPE, FILE_TYPE = range(5)
UNDEF, ABS, COMMON = 0, 0xFFF1, 0xFFF2

# Types of segments, and their flags.
LOAD = 1
EXECUTE, WRITABLE, READABLE = 1, 2, 4

# Types of relocations (RISC-V ELF psABI, "Relocations").
NONE, R_32, BRANCH, JAL, CALL, CALL_PLT, GOT_HI20, PCREL_HI20, PCREL_LO12_I, PCREL_LO12_S = 0, 1, 16, 17, 18, 19, 20, 23, 24, 25
HI20, LO12_I, LO12_S, ADD32, SUB32, ALIGN, RVC_BRANCH, RVC_JUMP, RELAX = 26, 27, 28, 35, 39, 43, 44, 45, 51
# The name of each type of relocation, by its number.
RELOCATION_NAMES = {
    **dict(enumerate('NONE 32 64 RELATIVE COPY JUMP_SLOT TLS_DTPMOD32 TLS_DTPMOD64 TLS_DTPREL32 TLS_DTPREL64 TLS_TPREL32 '
                     'TLS_TPREL64 TLSDESC'.split())),
    **dict(enumerate('BRANCH JAL CALL CALL_PLT GOT_HI20 TLS_GOT_HI20 TLS_GD_HI20 PCREL_HI20 PCREL_LO12_I PCREL_LO12_S HI20 '
                     'LO12_I LO12_S TPREL_HI20 TPREL_LO12_I TPREL_LO12_S TPREL_ADD ADD8 ADD16 ADD32 ADD64 SUB8 SUB16 SUB32 SUB64 '
                     'GOT32_PCREL'.split(), 16)),
    **dict(enumerate('ALIGN RVC_BRANCH RVC_JUMP RVC_LUI'.split(), 43)),
    **dict(enumerate('RELAX SUB6 SET6 SET8 SET16 SET32 32_PCREL IRELATIVE PLT32 SET_ULEB128 SUB_ULEB128 TLSDESC_HI20 '
                     'TLSDESC_LOAD_LO12 TLSDESC_ADD_LO12 TLSDESC_CALL'.split(), 51))}


def file_header(kind, sections_at, sections, names, *, entry=0, flags=0, segments=0):
    """The header of a file, whose program headers, if it has some, follow it."""
    return struct.pack('<16sHHIIIIIHHHHHH', MAGIC, kind, RISCV, 1, entry, HEADER if segments else 0, sections_at, flags, HEADER,
                       PROGRAM_HEADER if segments else 0, segments, SECTION_HEADER, sections, names)


def symbol_entry(name, value, size, info, home):
    """A symbol of a table, whose info is its binding and type."""
    return struct.pack('<IIIBBH', name, value & 0xFFFFFFFF, size & 0xFFFFFFFF, info, 0, home)


def relocation_entry(offset, symbol, kind, addend):
    return struct.pack('<3I', offset & 0xFFFFFFFF, symbol << 8 | kind, addend & 0xFFFFFFFF)


class Part(NamedTuple):
    """A section as it is in a file. Its name is a place in the table of names, and its size that of the content if none is
    given."""

    name: int = 0
    kind: int = NULL
    flags: int = 0
    content: bytes = b''
    size: int = None
    align: int = 0
    link: int = 0
    info: int = 0
    entry: int = 0
    address: int = 0

    def length(self):
        return len(self.content) if self.size is None else self.size

    def header(self, at):
        return struct.pack('<10I', self.name, self.kind, self.flags, self.address, at, self.length(), self.link, self.info,
                           self.align, self.entry)


def laid(parts, start, step=4):
    """The bytes of parts that follow one another in a file, from an offset on, and the offset of each. An offset and the
    part's address leave the same rest by the step, as loaders ask for it."""
    content, offsets = bytearray(), []
    for part in parts:
        content += bytes((part.address - start - len(content)) % step)
        offsets.append(start + len(content))
        content += part.content
    return content + bytes(-(start + len(content)) % 4), offsets


def section_headers(parts, offsets):
    """The headers of the sections of a file, from section 0 on, which is none."""
    return b''.join((Part().header(0), *(part.header(at) for part, at in zip(parts, offsets))))
