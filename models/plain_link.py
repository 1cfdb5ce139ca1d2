"""The plain image of a list of objects without a fault, as docs/FORMATS.md and the RISC-V ELF psABI have it.

    models/plain_link.py OUT FILE...

writes the image of the files under OUT, or says their first fault. It is independent of the program, so that both can be
compared.
"""
import os
import struct
import sys

sys.path.insert(0, os.path.join(os.path.dirname(os.path.abspath(__file__)), os.pardir, 'scripts'))

from halfwords import short_form
from object_data import CODE
from object_faults import Object
from object_items import Code, without_fault
from zcld_tools.files import write
from zcld_tools.images import COMPRESSED, STANDARD, image_bytes
from zcld_tools.instructions import NOP, SHORT_NOP, halves_of, with_branch, with_high, with_jump, with_low, words_of


class Plain:
    """The plain link of code without a fault."""

    def __init__(self, objects, memory=STANDARD, names=()):
        self.memory, self.code = memory, Code(objects, memory, names)
        self.addresses, self.end = self.layout()

    def layout(self):
        """The address of each place, and where the text ends."""
        return self.code.plain_layout()

    def value(self, target):
        """The number that a target is."""
        return self.addresses[target[1:]] if target[0] == CODE else target[1]

    def distance(self, place, target):
        return self.value(target) - self.addresses[place]

    def low_of_pair(self, place, item):
        """The distance from the high part that a low part names."""
        high = item.target[1:]
        return self.distance(high, self.code.item(high).target)

    def word(self, place, item):
        """What is written of an item of one word."""
        word, = item.words
        return {'Op': lambda: word,
                'Raw': lambda: word,
                'Word': lambda: self.value(item.target) & 0xFFFFFFFF,
                'Hi': lambda: with_high(word, self.value(item.target)),
                'Lo': lambda: with_low(word, self.value(item.target)),
                'PcHi': lambda: with_high(word, self.distance(place, item.target)),
                'PcLo': lambda: with_low(word, self.low_of_pair(place, item)),
                'Branch': lambda: with_branch(word, self.distance(place, item.target)),
                'Jump': lambda: with_jump(word, self.distance(place, item.target))}[item.kind]()

    def padding(self, place, item):
        """The padding of an ALIGN."""
        size = -self.addresses[place] % item.target
        return halves_of(SHORT_NOP) * (size % 4 // 2) + words_of(NOP) * (size // 4)

    def item_bytes(self, place, item):
        """The bytes that are written of an item."""
        if item.kind == 'Align':
            return self.padding(place, item)
        if item.kind == 'RawPair':
            return words_of(*item.words)
        if item.kind == 'Call':
            distance = self.distance(place, item.target)
            return words_of(with_high(item.words[0], distance), with_low(item.words[1], distance))
        if item.half is None:
            return words_of(self.word(place, item))
        # what has 2 bytes is copied, unless its distance may be another
        return halves_of(short_form(self.word(place, item)) if item.kind in ('Branch', 'Jump') else item.half)

    def places(self):
        """The places of what is written, in their order."""
        return self.code.places()

    def front(self):
        """The bytes before all code."""
        return b''

    def text(self):
        """The bytes of the text, with zeros between sections."""
        text = bytearray(self.front())
        for place in self.places():
            text += bytes(self.addresses[place] - self.memory.text - len(text))
            text += self.item_bytes(place, self.code.item(place))
        return bytes(text) + bytes(self.end - self.memory.text - len(text))

    def data(self):
        """The bytes of data in the file, with each word that names something."""
        data = bytearray(self.code.symbols.data.bytes)
        for at, target in self.code.addresses_in_data():
            struct.pack_into('<I', data, at, self.value(target) & 0xFFFFFFFF)
        return bytes(data)

    def length(self):
        """How many bytes of text there are."""
        return self.end - self.memory.text

    def start(self):
        """The address at which a run begins."""
        return self.addresses[self.code.entry()]

    def flags(self):
        """The flags of the image."""
        return COMPRESSED if any(read.is_compressed for read in self.code.objects) else 0

    def image(self):
        data = self.code.symbols.data
        return image_bytes(self.text(), self.addresses, self.data(), data.end - data.file_end, self.start(), self.flags(),
                           self.memory)


def plain(files, memory=STANDARD):
    """The plain image of files without a fault, and how many bytes of text it has."""
    made = Plain([Object(data) for data in files], memory)
    return made.image(), made.length()


def main():
    image, length = plain(without_fault(sys.argv[2:]))
    write(sys.argv[1], image)
    print('plain text', length)


if __name__ == '__main__':
    main()
