"""Writes the code of objects in instructions of 2 and of 4 bytes, as compilers do for targets with compressed code.

The objects have instructions of 4 bytes alone, as the other scripts here make them. A part of those that have short
forms gets one of 2 bytes, which may be one that no assembler writes; and branches and jumps with a relocation get its
short type, where they reach. Of what saves registers and restores them, and of pairs of moves, a part becomes a push, a pop or
a move, as compilers write them that are told of Zcmp; the rest is left for `zc` to find. Symbols, relocations and distances lead
to the same instructions as before. Between them something is slipped in now and then: what changes nothing, and where no run
comes to, halfwords and words that are no instructions.

In odd lists a push or a pop may have a relocation, or a jump through a table, which objects don't have, may be in its place.
"""
import bisect
import functools

import object_items
from groups import groups_of
from halfwords import Instruction, short_form
from object_faults import Object
from object_items import CALLS, REACHES, WAYS, WITHOUT_FIELD, first_fault, word_of
from tables import table_half
from zc_machine import POPRET, POPRETZ
from zcld_tools.elf import (ALIGN, BRANCH, EXECINSTR, GLOBAL, HI20, JAL, LO12_I, PCREL_HI20, PCREL_LO12_I, RVC, RVC_BRANCH,
                            RVC_JUMP)
from zcld_tools.instructions import (A2, A3, A4, A5, OPCODE_IMMEDIATE, OPCODE_LUI, OPCODE_REGISTER, S0, S1, SHORT_NOP,
                                     ZERO, branch_distance, halves_of, is_branch, is_jal, is_jalr, jal_distance,
                                     with_branch, with_jump, words_of)
from zcld_tools.objects import Reloc, Section

SHORT = {BRANCH: RVC_BRANCH, JAL: RVC_JUMP}
# All jumps of 2 bytes reach in code of this many bytes. In sections longer than these nothing is slipped in, so that no
# branch leads too far because of it.
NEAR, MOST_WITH_SLIPS = 1800, 2048
# In longer code no push, pop or move is looked for.
MOST_WITH_GROUPS = 16384
# Registers in which the programs that are made here have numbers alone.
OF_NUMBERS = S0, S1, A2, A3, A4, A5
# Words outside RV32IM.
UNREAD_WORDS = 0xFFFFFFFF, 0x01751073, 0x0000000B


# ---- halfwords


@functools.cache
def halves_by_words():
    """All halfwords of Zca and Zcb, by the normal forms of what they stand for."""
    found = {}
    for half in range(1 << 16):
        if word_of(half) is not None:
            found.setdefault(word_of(half), []).append(half)
    return found


def halves_for(word):
    """The halfwords that do what a word does, hints too."""
    return halves_by_words().get(Instruction(word).normal_form(), ())


def is_idle(word):
    """Whether an instruction changes nothing but the program counter."""
    opcode, f3, to, source = word & 0x7F, word >> 12 & 7, word >> 7 & 31, word >> 15 & 31
    if to == ZERO:
        return opcode in (OPCODE_IMMEDIATE, OPCODE_REGISTER, OPCODE_LUI)
    # a shift by 0 gives nothing that is known where it doesn't shift a number
    is_by_zero = opcode == OPCODE_IMMEDIATE and to == source and word >> 20 & 0xBFF == 0
    return is_by_zero and (f3 == 0 or f3 in (1, 5) and to in OF_NUMBERS)


@functools.cache
def idle_halves():
    return [half for word, halves in halves_by_words().items() if is_idle(word) for half in halves]


@functools.cache
def unread_halves():
    """Halfwords that are copied unread, and don't begin a word."""
    return [half for half in range(1 << 16) if half & 3 != 3 and word_of(half) is None]


# ---- sections


class Piece:
    """An item of code: where it stood, its bytes, and its relocation if it has one. And how it is written: whether as a
    branch or jump of 2 bytes, what is slipped in before it, and whether that is a padding. Or a group of items, of which the
    bytes are those of the push, the pop or the move that is written for it."""

    def __init__(self, at, content, entry):
        self.at, self.content, self.entry = at, content, entry
        self.is_group, self.is_short, self.slipped, self.is_padded = False, False, b'', False
        # where a branch or jump leads in its section
        self.to = None
        self.leaves = self.is_last()

    def word(self):
        return int.from_bytes(self.content, 'little')

    def is_way(self):
        """Whether it is a branch or jump, with its own relocation or none."""
        is_it = len(self.content) == 4 and not self.is_group and (is_branch(self.word()) or is_jal(self.word()))
        return is_it and (self.entry is None or self.entry.kind in SHORT)

    def is_last(self):
        """Whether no run goes on from it to what follows it."""
        is_read = self.entry is None or self.entry.kind in (JAL, LO12_I, PCREL_LO12_I)
        return (is_read and len(self.content) == 4 and (is_jal(self.word()) or is_jalr(self.word()))
                and self.word() >> 7 & 31 == ZERO)

    def size(self):
        return 2 if self.is_short else len(self.content)

    def way(self, distance):
        """The word of a branch or jump over a distance."""
        return with_branch(self.word(), distance) if is_branch(self.word()) else with_jump(self.word(), distance)


class Code:
    """A section of code that is written anew."""

    def __init__(self, rng, section):
        self.rng, self.section, self.length = rng, section, len(section.content)
        self.pieces = list(self.found_pieces())
        self.starts = [piece.at for piece in self.pieces]
        self.ends = {*self.starts, self.length}
        # where pieces and the end are in what is written
        self.places = {}

    def found_pieces(self):
        entries = {it.offset: it for it in self.section.relocs if it.kind not in WITHOUT_FIELD}
        at = 0
        while at < self.length:
            entry = entries.get(at)
            kind = entry.kind if entry else None
            size = entry.addend if kind == ALIGN else 8 if kind in CALLS else 4
            yield Piece(at, bytes(self.section.content[at:at + size]), entry)
            at += size

    # what becomes of the pieces

    def join(self, groups, share):
        """Makes one piece of each of a share of these groups, which are given by the places of their first items."""
        joined, left = [], 0
        for piece in self.pieces:
            if left:
                left -= 1
                continue
            group = groups.get(piece.at)
            if group and self.rng.random() < share:
                left = group.items - 1
                piece.is_group, piece.content, piece.leaves = True, group.code, group.form in (POPRET, POPRETZ)
            joined.append(piece)
        self.pieces = joined
        self.starts = [piece.at for piece in joined]
        self.ends = {*self.starts, self.length}

    def spoil(self, must_exit):
        """Gives some pushes, pops and moves a relocation, or puts a jump through a table in their place, at which a run that must
        exit would be stuck."""
        for piece in self.pieces:
            which = self.rng.random()
            if piece.is_group and which < 0.05:
                kind = self.rng.choice((RVC_BRANCH, RVC_JUMP, BRANCH, JAL, HI20, PCREL_HI20, LO12_I, *CALLS))
                self.section.relocs.append(Reloc(piece.at, kind, None, 0))
            elif piece.is_group and which < 0.1 and not must_exit:
                piece.content = halves_of(table_half(self.rng.randrange(256)))

    def choose(self, share, is_near, is_odd):
        """Chooses pieces that are written in 2 bytes, a share of those that may be."""
        for piece in self.pieces:
            if piece.is_group:
                continue
            if piece.is_way():
                self.choose_way(piece, share, is_near)
            elif piece.entry is None:
                self.choose_halfword(piece, share)
            elif piece.entry.kind == ALIGN and (not is_odd or self.rng.random() < 0.5):
                # as much as it may have to take
                piece.content += halves_of(SHORT_NOP)
                piece.entry.addend += 2

    def choose_way(self, piece, share, is_near):
        """A branch or jump has 2 bytes where it leads in this section, or is a jump and all code is near."""
        if piece.entry is None:
            to = piece.at + (branch_distance if is_branch(piece.word()) else jal_distance)(piece.word())
        else:
            symbol = piece.entry.symbol
            to = symbol.value + piece.entry.addend if symbol and symbol.home is self.section else None
        piece.to = to if to in self.ends else None
        may_be = piece.to is not None or piece.entry is not None and piece.entry.kind == JAL and is_near
        piece.is_short = may_be and short_form(piece.way(0)) is not None and self.rng.random() < share

    def choose_halfword(self, piece, share):
        halves = halves_for(piece.word())
        if halves and self.rng.random() < share:
            usual = short_form(piece.word())
            is_usual = usual is not None and self.rng.random() < 0.8
            piece.content = halves_of(usual if is_usual else self.rng.choice(halves))

    def slip(self):
        """Slips something in before some pieces. No padding comes under a branch or jump without a relocation, or
        with an addend, since other linkers don't change these where the padding takes less room."""
        spans = [sorted((piece.at, piece.to)) for piece in self.pieces
                 if piece.to is not None and (piece.entry is None or piece.entry.addend)]
        leaves = False
        for piece in self.pieces:
            which = self.rng.random()
            if which < 0.015:
                piece.slipped = halves_of(self.rng.choice(idle_halves()))
            elif which < 0.02 and not any(low < piece.at <= high for low, high in spans):
                piece.slipped, piece.is_padded = halves_of(SHORT_NOP), True
            elif which < 0.15 and leaves:
                word = self.rng.choice((*UNREAD_WORDS, self.rng.getrandbits(32) | 3))
                piece.slipped = self.rng.choice((halves_of(self.rng.choice(unread_halves())), words_of(word)))
            leaves = piece.leaves

    def settle(self, must_reach):
        """Gives each piece its place. What doesn't reach in 2 bytes is written in 4; with a relocation, only if it must
        reach."""
        while True:
            at = 0
            for piece in self.pieces:
                at += len(piece.slipped)
                self.places[piece.at] = at
                at += piece.size()
            self.places[self.length] = at
            far = [piece for piece in self.pieces
                   if piece.is_short and (must_reach or piece.entry is None) and not self.reaches(piece)]
            if not far:
                return
            for piece in far:
                piece.is_short = False

    def reaches(self, piece):
        if piece.to is None:
            return True
        low, high = REACHES[WAYS[BRANCH if is_branch(piece.word()) else JAL]][2]
        return low <= self.places[piece.to] - self.places[piece.at] <= high

    # what is written

    def moved(self, offset):
        """The new offset of what was at an offset."""
        if offset in self.ends or not self.starts:
            return self.places.get(offset, offset)
        piece = self.pieces[bisect.bisect(self.starts, offset) - 1]
        return self.places[piece.at] + (0 if piece.is_group else offset - piece.at)

    def write(self):
        """Writes the pieces, and moves the relocations."""
        self.section.content[:] = b''.join(piece.slipped + self.written(piece) for piece in self.pieces)
        for it in self.section.relocs:
            it.offset = self.moved(it.offset)
        for piece in self.pieces:
            if piece.is_short and piece.entry is not None:
                piece.entry.kind = SHORT[piece.entry.kind]
            if piece.is_padded:
                self.section.align = max(4, self.section.align)
                self.section.relocs.append(Reloc(self.places[piece.at] - 2, ALIGN, None, 2))
        self.section.relocs.sort(key=lambda it: it.offset)

    def written(self, piece):
        if piece.entry is not None and piece.is_short:
            return halves_of(short_form(piece.way(0)))
        if piece.entry is None and piece.to is not None:
            word = piece.way(self.places[piece.to] - self.places[piece.at])
            return halves_of(short_form(word)) if piece.is_short else words_of(word)
        return piece.content


# ---- objects


def is_code(section):
    return bool(section.flags & EXECINSTR)


def room(read):
    """How many bytes the code of an object may come to take."""
    return sum(len(section.content) + max(4, section.align) + 256 * sum(it.kind == ALIGN for it in section.relocs)
               for section in read.sections if is_code(section))


def addends(objects, codes):
    """The relocations that name a place in this code by an addend: each with its symbol, the code, and the place."""
    strong = {it.name: it for read in objects for it in read.symbols
              if it.bind == GLOBAL and isinstance(it.home, Section)}
    for reloc in (it for read in objects for section in read.sections for it in section.relocs):
        symbol = reloc.symbol
        if symbol is not None and symbol.home is None:
            symbol = strong.get(symbol.name)
        code = codes.get(id(symbol.home)) if symbol is not None else None
        if code and reloc.addend and 0 <= symbol.value + reloc.addend <= code.length:
            yield reloc, symbol, code, symbol.value + reloc.addend


def move_symbols(objects, codes):
    for symbol in (it for read in objects for it in read.symbols):
        code = codes.get(id(symbol.home))
        if code:
            end = code.moved(symbol.value + symbol.size)
            symbol.value = code.moved(symbol.value)
            symbol.size = max(0, end - symbol.value)


def groups_in(objects):
    """The groups of objects without a fault, by their sections and then by the places of their first items."""
    files, found = [read.bytes() for read in objects], {}
    if first_fault(files) is None:
        for (i, k, offset), group in groups_of(object_items.Code([Object(data) for data in files])).items():
            found.setdefault(id(objects[i].sections[k - 1]), {})[offset] = group
    return found


def compress(rng, objects, chosen, is_odd=False, must_exit=False, has_slips=True):
    """Writes the code of the chosen ones of some objects anew. Of odd ones branches and jumps may not reach, and runs may be stuck
    unless they must exit."""
    is_near, must_reach = sum(map(room, objects)) <= NEAR, not is_odd or rng.random() < 0.9
    codes = {id(section): Code(rng, section) for read in chosen for section in read.sections if is_code(section)}
    share = rng.choice((0, 0.5, 0.9, 1))
    groups = groups_in(objects) if share and sum(map(room, objects)) <= MOST_WITH_GROUPS else {}
    for read in chosen:
        read.flags |= RVC
    for section, code in codes.items():
        code.join(groups.get(section, {}), share)
        if is_odd:
            code.spoil(must_exit)
        code.choose(rng.choice((0, 0.3, 0.8, 1, 1)), is_near, is_odd)
        if has_slips and code.length <= MOST_WITH_SLIPS:
            code.slip()
        code.settle(must_reach)
    named = list(addends(objects, codes))
    for code in codes.values():
        code.write()
    move_symbols(objects, codes)
    for reloc, symbol, code, place in named:
        reloc.addend = code.moved(place) - symbol.value


def compress_some(rng, objects, is_odd=False, must_exit=False):
    """Writes the code of none of some objects anew, of all of them, or of some."""
    which = rng.randrange(4)
    if which:
        compress(rng, objects, [read for read in objects if which < 3 or rng.random() < 0.5], is_odd, must_exit)
