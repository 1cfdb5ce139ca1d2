"""The image that `zc` makes of a list of objects without a fault, as docs/FORMATS.md and the RISC-V ELF psABI have it.

    models/zc_link.py OUT FILE...

writes the image of the files under OUT, and prints the certificate of its jump table; or it says their first fault. It is independent
of the program, so that both can be compared. A group (groups.py) is a piece of a fixed size, and what is inside
one has no address. The table (tables.py) is the best one (certificates.py) for the layout without one, and then all sizes are
settled anew. In sections of given names all stays as in the object. What is printed of the sizes is in size_report.py.
"""
import os
import sys
from typing import NamedTuple

sys.path.insert(0, os.path.join(os.path.dirname(os.path.abspath(__file__)), os.pardir, 'scripts'))

from certificates import Certificate, best, write_certificate
from groups import FROM_SAVED, TO_SAVED, groups_of, places_outside
from halfwords import has_half, short_form
from object_data import CODE, aligned
from object_faults import Object
from object_items import REACHES, without_fault
from plain_link import Plain
from tables import Table, savings_of, table_half
from zc_machine import POP, POPRET, POPRETZ, PUSH
from zcld_tools.files import write
from zcld_tools.images import COMPRESSED, STANDARD
from zcld_tools.instructions import OPCODE_JAL, halves_of, with_branch, with_high, with_jump, with_low, words_of

# The sizes of what isn't read, and none of padding, whose size is that of its place.
COPIED = {'Align': [], 'RawPair': [8], 'RawShort': [2]}
# The sizes that a branch or jump of a section that stays as it is would grow to, if it didn't reach.
LONGER = {'Branch': (4, 8), 'Jump': (4,)}


class Zc(Plain):
    """The link of code without a fault that makes it smaller, but for sections of these names, with a table."""

    def __init__(self, objects, table=Table(), memory=STANDARD, names=()):
        self.table, self.groups, self.items, self.sizes, self.rounds = table, {}, {}, {}, 0
        super().__init__(objects, memory, names)

    # forms

    def forms(self, place, item):
        """The sizes that an item may take, or the group that starts with it, the shortest first; of padding none."""
        if place in self.groups:
            return [len(self.groups[place].code)]
        if place in self.table.through:
            return [2]
        if item.kind in COPIED:
            return COPIED[item.kind]
        if self.is_fixed(place):
            return self.kept_forms(place, item)
        word = item.words[0]
        if item.kind == 'Branch':
            return [2, 4, 8] if short_form(with_branch(word, 0)) is not None else [4, 8]
        if item.kind == 'Jump':
            return [2, 4] if short_form(with_jump(word, 0)) is not None else [4]
        if item.kind == 'Call':
            return [2, 4] if short_form(self.call_word(item, 0)) is not None else [4]
        if item.kind == 'Op':
            return [self.size_of(word)]
        if item.kind in ('Hi', 'Lo') and item.target[0] != CODE:
            return [self.size_of((with_high if item.kind == 'Hi' else with_low)(word, item.target[1]))]
        return [4]

    def is_fixed(self, place):
        """Whether a place is in a section that stays as it is."""
        return place[:2] in self.code.fixed

    def kept_forms(self, place, item):
        """The size that an item has in its object, and the longer ones of a branch or jump."""
        i, k, offset = place
        own = self.code.parts[i, k].starts[offset]
        return [own, *(size for size in LONGER.get(item.kind, ()) if size > own)]

    def size_of(self, word):
        """The size of an instruction that doesn't depend on addresses of code: 2 bytes if the chip has such a halfword."""
        half = short_form(word)
        return 4 if half is None or not has_half(self.memory.extensions, half) else 2

    def call_word(self, item, distance):
        """A call as one `jal`."""
        return with_jump(OPCODE_JAL | item.words[1] & 0xF80, distance)

    # layout

    def addresses_now(self):
        """The address of each place at the sizes so far, and where the text ends."""
        addresses, at = {}, self.memory.text + self.table.size
        for (i, k), part in self.code.code_parts():
            at = aligned(at, part.section.align if part.section.align > 4 else 4 if (i, k) in self.code.fixed else 2)
            for place in ((i, k, offset) for offset in part.starts):
                if place in self.items:
                    addresses[place] = at
                    item = self.items[place]
                    at = aligned(at, item.target) if item.kind == 'Align' else at + self.sizes[place]
            addresses[i, k, part.section.size] = at
        return addresses, at

    def fits(self, place, item, addresses):
        reach = REACHES.get(item.kind, {}).get(self.sizes[place])
        return reach is None or reach[0] <= addresses[item.target[1:]] - addresses[place] <= reach[1]

    def layout(self):
        self.groups = groups_of(self.code)
        self.items = {place: self.code.item(place) for place in places_outside(self.code, self.groups)}
        forms = {place: self.forms(place, item) for place, item in self.items.items() if item.kind != 'Align'}
        self.sizes = {place: sizes[0] for place, sizes in forms.items()}
        grow = [place for place in forms if self.items[place].kind in REACHES and place not in self.table.through]
        while True:
            self.rounds += 1
            addresses, end = self.addresses_now()
            longer = [place for place in grow if not self.fits(place, self.items[place], addresses)]
            if not longer:
                return addresses, end
            for place in longer:
                self.sizes[place] = forms[place][forms[place].index(self.sizes[place]) + 1]

    # text

    def places(self):
        return self.items

    def front(self):
        return self.table.code(self.memory.text, self.addresses, super().start()) if self.table.size else b''

    def flags(self):
        return COMPRESSED

    def start(self):
        return self.table.stub_at(self.memory.text) if self.table.size else super().start()

    def item_bytes(self, place, item):
        if place in self.groups:
            return self.groups[place].code
        if place in self.table.through:
            return halves_of(table_half(self.table.through[place]))
        if item.kind in COPIED or self.is_fixed(place) and item.kind not in LONGER:
            return super().item_bytes(place, item)
        size = self.sizes[place]
        if item.kind == 'Branch' and size == 8:
            over = with_branch(item.words[0] ^ 1 << 12, 8)
            return words_of(over, with_jump(OPCODE_JAL, self.distance(place, item.target) - 4))
        word = self.call_word(item, self.distance(place, item.target)) if item.kind == 'Call' else self.word(place, item)
        return halves_of(short_form(word)) if size == 2 else words_of(word)

    # counts

    def counts(self):
        """How many items there are, items that are written by themselves in two bytes, branches of eight, groups of each kind,
        and jumps and calls through the table."""
        forms = [group.form for group in self.groups.values()]
        sizes = [(item.kind, self.sizes.get(place)) for place, item in self.items.items()
                 if place not in self.groups and place not in self.table.through]
        return {'items': len([*self.code.places()]), 'short': sum(size == 2 for _, size in sizes),
                'long': sizes.count(('Branch', 8)), 'push': forms.count(PUSH),
                'pop': sum(form in (POP, POPRET, POPRETZ) for form in forms),
                'move': sum(form in (TO_SAVED, FROM_SAVED) for form in forms), 'table': len(self.table.through)}


class Linked(NamedTuple):
    """The link of some files, with its table: what a table could save, and the certificate of this one, the best."""

    link: Zc
    savings: list
    certificate: Certificate

    def certificate_text(self):
        return write_certificate(self.savings, self.certificate)


def link_of(files, memory=STANDARD, names=()):
    """The link of files without a fault, with the best table."""
    objects = [Object(data) for data in files]
    link = Zc(objects, memory=memory, names=names)
    savings = savings_of(link)
    certificate = best(savings)
    if certificate.slots:
        link = Zc(objects, Table(link, savings, certificate.slots), memory, names)
    return Linked(link, savings, certificate)


def zc(files, memory=STANDARD, names=()):
    """The image of files without a fault, how many bytes of text it has, and the text of its certificate."""
    linked = link_of(files, memory, names)
    return linked.link.image(), linked.link.length(), linked.certificate_text()


def main():
    image, _, certificate = zc(without_fault(sys.argv[2:]))
    write(sys.argv[1], image)
    print(certificate.decode(), end='')


if __name__ == '__main__':
    main()
