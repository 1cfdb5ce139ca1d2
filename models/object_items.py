"""The items of code, and the faults of relocations and of the plain layout (RISC-V ELF psABI, "Relocations").

    models/object_items.py FILE...

lists the items of the files, or says their first fault. It is independent of the program, so that both can be compared.
"""
import functools
import os
import struct
import sys

sys.path.insert(0, os.path.join(os.path.dirname(os.path.abspath(__file__)), os.pardir, 'scripts'))

from expansions import expanded
from halfwords import Instruction
from object_data import ABSENT, CODE, NOWHERE, NUMBER, Symbols, aligned, is_of_kin
from object_faults import Cause, Object, Relocation, gather_cause, row_of, told
from zcld_tools.elf import (ALIGN, BRANCH, CALL, CALL_PLT, HI20, JAL, LO12_I, LO12_S, NOBITS, NONE, PCREL_HI20,
                            PCREL_LO12_I, PCREL_LO12_S, RELA, RELAX, RVC_BRANCH, RVC_JUMP, R_32)
from zcld_tools.files import read_all
from zcld_tools.images import STANDARD
from zcld_tools.instructions import (EBREAK, ECALL, OPCODE_FENCE, OPCODE_IMMEDIATE, OPCODE_LOAD, OPCODE_REGISTER,
                                     branch_distance, is_auipc, is_branch, is_jal, is_jalr, is_lui, is_store, jal_distance)

WITHOUT_FIELD = (NONE, RELAX)
CALLS, LOW_OF_PAIR = (CALL, CALL_PLT), (PCREL_LO12_I, PCREL_LO12_S)
# These change instructions of 2 bytes: where an object isn't compressed, an entry of such a type is a fault, but its field counts.
OF_TWO_BYTES = (RVC_BRANCH, RVC_JUMP)
WAYS = {BRANCH: 'Branch', RVC_BRANCH: 'Branch', JAL: 'Jump', RVC_JUMP: 'Jump'}
# How far what leads somewhere reaches by its size, back and forth; the longest form always does.
REACHES = {'Branch': {2: (-256, 254), 4: (-4096, 4094)}, 'Jump': {2: (-2048, 2046)}, 'Call': {2: (-2048, 2046)}}
FIELDS = {R_32: 4, BRANCH: 4, JAL: 4, CALL: 8, CALL_PLT: 8, PCREL_HI20: 4, PCREL_LO12_I: 4, PCREL_LO12_S: 4, HI20: 4,
          LO12_I: 4, LO12_S: 4, RVC_BRANCH: 2, RVC_JUMP: 2}
KIND_FAULT, PLACE_FAULT, PAIR_FAULT, TARGET_FAULT, RANGE_FAULT, ENTRY_FAULT, SIZE_FAULT = 11, 12, 13, 14, 15, 16, 17


# ---- words and halfwords (RISC-V unprivileged manual, "RV32I" and "RVC Instruction Set Listings")


def takes_low_i(word):
    """addi, a load, or jalr."""
    return (word & 0x707F == OPCODE_IMMEDIATE or word & 0x7F == OPCODE_LOAD and word >> 12 & 7 in (0, 1, 2, 4, 5)
            or is_jalr(word))


def is_known(word):
    """A word of RV32IM that an item is made of: all but `csrrw`."""
    opcode, f3, f7 = word & 0x7F, word >> 12 & 7, word >> 25
    if opcode == OPCODE_IMMEDIATE:
        return f3 not in (1, 5) or f7 == 0 or f3 == 5 and f7 == 0x20
    if opcode == OPCODE_REGISTER:
        return f7 in (0, 1) or f7 == 0x20 and f3 in (0, 5)
    return (is_branch(word) or is_jal(word) or takes_low_i(word) or is_lui(word) or is_auipc(word) or is_store(word)
            or word & 0x707F == OPCODE_FENCE or word in (ECALL, EBREAK))


def is_short_branch(half):
    """c.beqz or c.bnez."""
    return half & 3 == 1 and half >> 13 in (6, 7)


def is_short_jump(half):
    """c.j or c.jal."""
    return half & 3 == 1 and half >> 13 in (1, 5)


@functools.cache
def word_of(half):
    """The normal form of the word that a halfword expands to, or none."""
    word = expanded(half)
    return None if word is None else Instruction(word).normal_form()


KINDS = {BRANCH: is_branch, JAL: is_jal, PCREL_HI20: is_auipc, HI20: is_lui, PCREL_LO12_I: takes_low_i, LO12_I: takes_low_i,
         PCREL_LO12_S: is_store, LO12_S: is_store, RVC_BRANCH: is_short_branch, RVC_JUMP: is_short_jump}


# ---- entries


class Entry(Relocation):
    """A relocation of a section, with the size of its field, and the fault of its type or its place, and why it has that."""

    def __init__(self, offset, info, addend):
        super().__init__(offset, info, addend)
        self.size = max(0, addend) if self.kind == ALIGN else FIELDS.get(self.kind, 0)
        self.overlaps = False
        self.fault = self.why = None

    def mark(self, fault, why):
        """Gives it a fault, if there is a reason for it."""
        if why:
            self.fault, self.why = fault, why


def mark_overlaps(entries):
    """Marks each entry whose field has a byte of another's."""
    fields = sorted((entry for entry in entries if entry.size), key=lambda entry: entry.offset)
    end = -1
    for before, entry in zip([None, *fields], fields):
        if entry.offset < end:
            entry.overlaps = True
        if before and entry.offset < before.offset + before.size:
            before.overlaps = True
        end = max(end, entry.offset + entry.size)


class Part:
    """A kept section, with its entries in their order. Those that have a bad type or place are marked."""

    def __init__(self, read, k):
        self.section, self.is_code = read.sections[k], read.is_code(k)
        self.is_compressed, self.unit = read.is_compressed, read.unit()
        self.entries = [Entry(*row) for s in read.sections if s.kind == RELA and s.info == k
                        for row in struct.iter_unpack('<IIi', s.content)]
        mark_overlaps(self.entries)
        for entry in self.entries:
            entry.mark(KIND_FAULT, self.why_bad_kind(entry))
            if not entry.fault:
                entry.mark(PLACE_FAULT, self.why_bad_place(entry))
        self.at = {entry.offset: entry for entry in self.entries if entry.fault is None and entry.kind not in WITHOUT_FIELD}
        self.high = {entry.offset for entry in self.entries if entry.kind == PCREL_HI20
                     and is_auipc(self.word(entry.offset))}
        self.starts = self.found_starts() if self.is_code else {}
        if self.is_code:
            self.mark_strays()

    def number(self, at, size):
        """What this many bytes are, or 0 if they aren't all there."""
        content = self.section.content
        return int.from_bytes(content[at:at + size], 'little') if at + size <= len(content) else 0

    def word(self, at):
        return self.number(at, 4)

    def half(self, at):
        return self.number(at, 2)

    def why_bad_kind(self, entry):
        """Why an entry's type is bad, or none."""
        if entry.kind not in (NONE, RELAX, ALIGN, *FIELDS):
            return 'a relocation of this type is not linked'
        if not self.is_code and entry.kind not in (NONE, R_32, RELAX):
            return 'in data only whole addresses are linked'
        if entry.kind in OF_TWO_BYTES and not self.is_compressed:
            return 'this type is for instructions of 2 bytes, and the object is not compressed'
        return None

    def why_bad_place(self, entry):
        """Why an entry's place is bad, or none."""
        if entry.kind in WITHOUT_FIELD:
            return None
        at = entry.offset
        if at + entry.size > self.section.size:
            return f'it changes {entry.size} bytes, which pass the end of the section'
        if entry.overlaps:
            return 'another relocation changes one of its bytes'
        if self.is_code and at % self.unit:
            return f'in this code it must be at a multiple of {self.unit}'
        if entry.kind == ALIGN:
            is_bad = not 1 <= entry.addend <= 255 or entry.addend % self.unit != 0
            return f'its addend must be from 1 to 255, and a multiple of {self.unit}' if is_bad else None
        if entry.kind in CALLS:
            first, second = self.word(at), self.word(at + 4)
            is_call = is_auipc(first) and is_jalr(second) and second >> 15 & 31 == first >> 7 & 31
            return None if is_call else f'{first:08x} {second:08x} is no `auipc` with a `jalr` by its register'
        found = self.number(at, entry.size)
        if entry.kind in KINDS and not KINDS[entry.kind](found):
            return f'{found:0{2 * entry.size}x} is not an instruction that it is for'
        return None

    def found_starts(self):
        """The size of each item, by the offset where it starts."""
        starts, at = {}, 0
        while at < self.section.size:
            entry = self.at.get(at)
            starts[at] = entry.size if entry else self.own_size(at)
            at += starts[at]
        return starts

    def own_size(self, at):
        """The size of an item without a relocation."""
        is_long = self.half(at) & 3 == 3 and at + 4 <= self.section.size
        return 4 if is_long or not self.is_compressed else 2

    def mark_strays(self):
        """Marks each entry that isn't at an item's start, though nothing else is wrong with its place."""
        for at in self.at.keys() - self.starts.keys():
            self.at.pop(at).mark(PLACE_FAULT, 'no instruction starts there')

    def spelled(self, at):
        """The words of an item, and its halfword if it has 2 bytes. The word is then the normal form of what this expands to, if
        it expands to one."""
        size = self.starts[at]
        if size != 2:
            return [self.word(it) for it in range(at, at + size, 4)], None
        word = word_of(self.half(at))
        return [] if word is None else [word], self.half(at)


# ---- items


class Item:
    """What is at a place of code: its kind, its words as they are, what it names, and its halfword if it has 2 bytes: then its
    word is the normal form of what this expands to."""

    def __init__(self, kind, words, target=None, half=None):
        self.kind, self.words, self.target, self.half = kind, words, target, half


def raw_item(words, half):
    """An item that is copied unread."""
    return Item('Raw', words) if half is None else Item('RawShort', [], None, half)


class Code:
    """The code of a list of objects without a fault between objects, in a memory map, with the sections of code that stay as they
    are: those of these names, or of names that begin with one of them and a dot."""

    def __init__(self, objects, memory=STANDARD, names=()):
        self.objects, self.memory, self.names, self.symbols = objects, memory, names, Symbols(objects, memory)
        self.parts = {(i, k): Part(read, k) for i, read in enumerate(objects) for k in range(read.count) if read.kept[k]}
        self.fixed = {place for place, part in self.code_parts()
                      if any(is_of_kin(objects[place[0]].name_of(part.section), name) for name in names)}

    def code_parts(self):
        return ((place, part) for place, part in self.parts.items() if part.is_code)

    def places(self):
        """The place of each item, in their order."""
        return ((i, k, offset) for (i, k), part in self.code_parts() for offset in part.starts)

    def is_start_or_end(self, i, k, offset):
        part = self.parts[i, k]
        return offset in part.starts or offset == part.section.size

    # what is wrong with a relocation

    def entry_cause(self, i, k, entry):
        """The fault of an entry, or none."""
        fault, why = entry.fault, entry.why
        if not fault and entry.kind not in WITHOUT_FIELD:
            if entry.kind in LOW_OF_PAIR and not self.has_high(i, k, entry):
                fault, why = PAIR_FAULT, 'it has an addend, or its symbol is not at an `auipc` under PCREL_HI20 in this section'
            else:
                why = self.why_bad_target(entry, self.symbols.resolve(i, entry.symbol, entry.addend))
                fault = why and TARGET_FAULT
        return Cause(fault, why, k, entry, entry.symbol) if fault else None

    def why_bad_target(self, entry, target):
        """Why an entry may not lead to a target, or none."""
        if target[0] == NOWHERE:
            return 'it leads to what is not linked, or out of its section'
        if target[0] == CODE and not self.is_start_or_end(*target[1:]):
            return f'it leads to byte {target[3]:#x} of section {target[2]} of object {target[1]}, where no instruction starts'
        is_number = target[0] == NUMBER and entry.kind in (*WAYS, *CALLS)
        return f'a branch, jump or call leads to {target[1]:#x}, which is data or a number' if is_number else None

    def has_high(self, i, k, entry):
        """Whether the symbol of a low part is the place of the high one."""
        target = self.symbols.resolve(i, entry.symbol, 0)
        return entry.addend == 0 and target[:3] == (CODE, i, k) and target[3] in self.parts[i, k].high

    # items

    def item(self, place):
        i, k, offset = place
        part = self.parts[i, k]
        entry = part.at.get(offset)
        if entry is not None and entry.kind == ALIGN:
            return Item('Align', [], 1 << entry.addend.bit_length())
        words, half = part.spelled(offset)
        if entry is None:
            return self.plain_item(place, words, half)
        target = self.symbols.resolve(i, entry.symbol, entry.addend)
        if entry.kind in CALLS:
            return Item('RawPair' if target[0] == ABSENT else 'Call', words, target)
        if entry.kind in WAYS:
            return raw_item(words, half) if target[0] == ABSENT else Item(WAYS[entry.kind], words, target, half)
        kind = {R_32: 'Word', HI20: 'Hi', LO12_I: 'Lo', LO12_S: 'Lo', PCREL_HI20: 'PcHi'}.get(entry.kind, 'PcLo')
        return Item(kind, words, target)

    def plain_item(self, place, words, half):
        """An item without a relocation."""
        i, k, offset = place
        if not words or not is_known(words[0]):
            return raw_item(words, half)
        word, = words
        if not (is_branch(word) or is_jal(word)):
            return Item('Op', words, None, half)
        to = offset + (branch_distance(word) if is_branch(word) else jal_distance(word))
        if self.is_start_or_end(i, k, to):
            return Item('Branch' if is_branch(word) else 'Jump', words, (CODE, i, k, to), half)
        return raw_item(words, half)

    # data

    def addresses_in_data(self):
        """Each word of data that names something: its offset from the start of data, and what it names."""
        for (i, k), part in self.parts.items():
            if not part.is_code and part.section.kind != NOBITS:
                start = self.symbols.data.sections[i, k] - self.memory.data
                for entry in part.entries:
                    if entry.kind == R_32:
                        yield start + entry.offset, self.symbols.resolve(i, entry.symbol, entry.addend)

    # the plain layout

    def plain_layout(self):
        """The address of each item and of each section's end, and where the text ends."""
        addresses, at = {}, self.memory.text
        for (i, k), part in self.code_parts():
            at = aligned(at, max(4, part.section.align))
            for offset, size in part.starts.items():
                addresses[i, k, offset] = at
                entry = part.at.get(offset)
                is_align = entry is not None and entry.kind == ALIGN
                at = aligned(at, 1 << entry.addend.bit_length()) if is_align else at + size
            addresses[i, k, part.section.size] = at
        return addresses, at

    def entry(self):
        """The place of `_start`, or none if no item starts there."""
        found = self.symbols.names.definition(b'_start')
        if found is None or found[0] is None or found[:2] not in self.parts or found[2] not in self.parts[found[:2]].starts:
            return None
        return found

    def far_branch(self):
        """The first branch or jump that doesn't reach in the plain layout, or that leads out of a section that stays as it is: its
        object, and the fault; or none."""
        addresses, _ = self.plain_layout()
        for place in self.places():
            item = self.item(place)
            reach = REACHES.get(item.kind, {}).get(4 if item.half is None else 2)
            why = reach and self.why_out_of_reach(place, item.target[1:], addresses, reach)
            if why:
                i, k, offset = place
                entry = self.parts[i, k].at.get(offset)
                return i, Cause(RANGE_FAULT, why, k, entry, entry and entry.symbol, offset=offset)
        return None

    def why_out_of_reach(self, place, to, addresses, reach):
        """Why what stands at a place may not lead to another, or none."""
        distance = addresses[to] - addresses[place]
        if not reach[0] <= distance <= reach[1]:
            return f'its target is {distance:,} bytes away, and it reaches from {reach[0]:,} to {reach[1]:,}'
        return 'its target is in another section, and its own is fixed' if place[:2] in self.fixed and to[:2] != place[:2] else None

    def cause(self):
        """The first fault, and the index of its object; or none."""
        data_end, low = self.symbols.data.end, self.memory.stack_low
        if data_end > low:
            return 0, Cause(SIZE_FAULT, f'data end at {data_end:08x}, above the low end of the stack at {low:08x}')
        for (i, k), part in self.parts.items():
            for entry in part.entries:
                cause = self.entry_cause(i, k, entry)
                if cause:
                    return i, cause
        if self.entry() is None:
            found = self.symbols.names.definition(b'_start')
            if found is None:
                return 0, Cause(ENTRY_FAULT, 'no object has a global or weak `_start`')
            return 0, Cause(ENTRY_FAULT, '`_start` is not at the start of an instruction of code', other=found[0])
        return self.far_branch()


def first_cause(files, memory=STANDARD, names=()):
    """The first fault of a list of files, and the index of its object; or none."""
    return gather_cause(files) or Code([Object(data) for data in files], memory, names).cause()


def first_fault(files, memory=STANDARD, names=()):
    """The first fault of a list of files: the object's index, the fault's number, and the name of a symbol or none; or none."""
    return row_of(first_cause(files, memory, names))


def without_fault(paths):
    """The bytes of files. If they have a fault, this script ends with its line."""
    files = read_all(paths)
    found = first_fault(files)
    if found:
        sys.exit(told(found).decode('latin-1'))
    return files


def main():
    code = Code([Object(data) for data in without_fault(sys.argv[1:])])
    addresses, _ = code.plain_layout()
    for place in code.places():
        item = code.item(place)
        half = '' if item.half is None else f'{item.half:04x} '
        print(*place, f'{addresses[place]:08x}', item.kind, half + ' '.join(f'{word:08x}' for word in item.words), item.target or '')


if __name__ == '__main__':
    main()
