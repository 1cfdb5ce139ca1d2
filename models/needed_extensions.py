#!/usr/bin/env python3
"""Which extensions the code of an image needs, by its halfwords.

    models/needed_extensions.py IMAGE OBJ...

prints how many halfwords of each extension the image of these objects has, how many words, and how many bytes are copied or
hold an address. Code is read on from each place that the image lists to the next one (docs/FORMATS.md, "The image"), and a halfword
is told by the opcodes that its extension adds (halfwords.py). So this is independent of the program and of what it chooses.
"""
import collections
import os
import struct
import sys

sys.path.insert(0, os.path.join(os.path.dirname(os.path.abspath(__file__)), os.pardir, 'scripts'))

from halfwords import extension_of
from object_faults import Object
from object_items import Code
from zcld_tools.elf import EXECUTE
from zcld_tools.files import read, read_all
from zcld_tools.images import PLACES, Extensions, segments
from zcld_tools.linked import Image

# The kinds of items that are copied in any section, an object's own pushes and pops among them, or that hold an address.
UNREAD = 'Raw', 'RawShort', 'RawPair', 'Word'
NAMES = 'zca', *Extensions._fields


def listed_places(image):
    """The places that an image lists, each with its address, in their order."""
    parts = Object(image)
    content, = (section.content for section in parts.sections if parts.name_of(section) == PLACES)
    return [((i, k, offset), address) for i, k, offset, address in struct.iter_unpack('<HHII', content)]


def halves_in(text):
    """The halfwords of a stretch of code, and None for each word."""
    at = 0
    while at < len(text):
        half = int.from_bytes(text[at:at + 2], 'little')
        yield None if half & 3 == 3 else half
        at += 4 if half & 3 == 3 else 2


def counted(image, code):
    """How many halfwords of each extension, words, and bytes that are no code to the link the image of this code has."""
    text, = (segment for segment in segments(image) if segment.flags & EXECUTE)
    places, found = listed_places(image), collections.Counter()
    found['table'] = places[0][1] - text.address
    for (place, start), (behind, end) in zip(places, places[1:]):
        if place[:2] != behind[:2]:
            continue
        if place[:2] in code.fixed or code.item(place).kind in UNREAD:
            found['unread'] += end - start
            continue
        for half in halves_in(text.content[start - text.address:end - text.address]):
            found['words' if half is None else extension_of(half) or 'zca'] += 1
    return found


def needed(image, code):
    """The extensions beside Zca that an image needs, apart from what is copied. A table needs Zcmt."""
    found = counted(image, code)
    return Extensions(bool(found['zcb']), bool(found['zcmp']), bool(found['zcmt'] or found['table']))


def main():
    path, *paths = sys.argv[1:]
    image = Image(path)
    code = Code([Object(data) for data in read_all(paths)], image.memory)
    image.need(code)
    found = counted(read(path), code)
    for name in (*NAMES, 'words', 'unread', 'table'):
        print(name, found[name])


if __name__ == '__main__':
    main()
