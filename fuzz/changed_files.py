"""An object of three instructions and its image, each cut off or with one field changed, and the fault that is named then.

A field is told by its place in the file and its type (System V gABI, "Object Files"). The object has its code at 52, symbols at
64, names of symbols at 96 and of sections at 104, and from 140 on the headers of sections: none, `.text`, `.symtab`, `.strtab`
and `.shstrtab`. The image has its program headers from 52 on, its places at 128, and the headers of sections from 220 on.
"""
import struct

BYTE, HALF, WORD = '<B', '<H', '<I'

OBJECTS = (
    ('another magic number', 0, BYTE, 0, '1 NotElf'),
    ('section headers of 39 bytes', 46, HALF, 39, '1 NotElf'),
    ('section headers far out', 32, WORD, 0xFFFFFFF0, '2 Truncated'),
    ('code far out', 196, WORD, 0xFFFFFFFC, '2 Truncated'),
    ('an unknown flag', 36, BYTE, 2, '3 Flags'),
    ('section headers, but no sections', 48, HALF, 0, '4 SectionKind'),
    ('code of zeros', 184, WORD, 8, '4 SectionKind'),
    ('code that can be written', 188, WORD, 7, '4 SectionKind'),
    ('code that is compressed', 188, WORD, 0x806, '4 SectionKind'),
    ('a part of a symbol', 240, WORD, 31, '4 SectionKind'),
    ('code aligned to 3', 212, WORD, 3, '5 Alignment'),
    ('code aligned to 512', 212, WORD, 512, '5 Alignment'),
    ('a part of a word of code', 200, WORD, 10, '6 CodeSize'),
    ('a last name of sections without its zero', 136, BYTE, 0x78, '7 BadName'),
    ('a name past the table', 80, WORD, 8, '7 BadName'),
    ('names of symbols in no table of names', 264, WORD, 1, '7 BadName'),
    ('a symbol in a section that is not there', 94, HALF, 0xFFFF, '8 BadSymbol'),
    ('a symbol past the code', 84, WORD, 13, '8 BadSymbol'),
    ('a symbol far out', 84, WORD, 0xFFFFFFFF, '8 BadSymbol'),
    ('a symbol of an unknown binding', 92, BYTE, 0x30, '8 BadSymbol'),
    ('more than 4,096 sections', 48, HALF, 0x1105, '17 TooLarge'),
    ('a start that is data', 188, WORD, 2, '16 NoEntry'),
    ('a start at the end of the code', 84, WORD, 12, '16 NoEntry'),
    ('a start within a word', 84, WORD, 2, '16 NoEntry'),
    # both tables of names are one, where the name of the start is `.text`: tables may overlap
    ('the start by a name of a section', 276, WORD, 104, '16 NoEntry'),
)

IMAGES = (
    ('another magic number', 3, BYTE, 0x47, 1),
    ('an object', 16, HALF, 1, 1),
    ('another machine', 18, HALF, 0xF2, 1),
    ('an unknown flag', 36, WORD, 2, 1),
    ('program headers far out', 28, WORD, 0xFFFFFFFF, 2),
    ('text past the end of the file', 68, WORD, 0x20A, 2),
    ('text with less memory than bytes', 72, WORD, 9, 3),
    ('text into the data', 72, WORD, 0xFFFFFFFF, 3),
    ('text that can be written', 76, WORD, 7, 3),
    ('text below its place', 60, WORD, 0, 3),
    ('an odd entry', 24, WORD, 0x00010001, 3),
    ('an entry past the text', 24, WORD, 0x0001000C, 3),
    ('data over all memory', 104, WORD, 0xFFFFFFFF, 3),
    ('a part of a place', 400, WORD, 47, 4),
    ('the same place twice', 144, WORD, 0, 4),
    ('a place below the text', 172, WORD, 0x0000000A, 4),
    ('a place in the data', 172, WORD, 0x0010000A, 4),
    ('a place above the start of data', 136, WORD, 0x00200000, 4),
)


def changed(data, at, form, value):
    """A file with a field changed."""
    made = bytearray(data)
    struct.pack_into(form, made, at, value)
    return bytes(made)


def changed_objects(data):
    """Each change of the object: what it is, the file, and its fault by number and name."""
    yield 'the first 51 bytes', data[:51], '1 NotElf'
    yield 'without the last byte', data[:-1], '2 Truncated'
    for what, at, form, value, fault in OBJECTS:
        yield what, changed(data, at, form, value), fault


def changed_images(data):
    """Each change of the image: what it is, the file, and the number of its fault."""
    yield 'the first 51 bytes', data[:51], 1
    yield 'the first 100 bytes', data[:100], 2
    yield 'without the last byte', data[:-1], 2
    for what, at, form, value, fault in IMAGES:
        yield what, changed(data, at, form, value), fault
