"""Groups: items of code that one instruction of Zcmp can replace, or two instructions (RISC-V Zc specification 1.0, "Zcmp").

    models/groups.py FILE...

lists the groups of the files, or says their first fault. It is independent of the program, so that both can be compared.

A group is a push, a pop, a pop that returns, one that sets a0 to 0 too, or two moves between a0 and a1 and two of s0 to s7. No
item of it has a relocation, and no basic block begins at one but the first. Groups are taken from the left in each section that
may change, and of those that start at one item that with the most items. An item of 2 bytes has the word that its halfword expands
to, in its normal form, so `c.mv` is a move, as `addi` is, and `add` isn't.
"""
import os
import struct
import sys
from typing import NamedTuple

sys.path.insert(0, os.path.join(os.path.dirname(os.path.abspath(__file__)), os.pardir, 'scripts'))

from halfwords import short_form
from object_data import CODE
from object_faults import Object
from object_items import WITHOUT_FIELD, Code, without_fault
from zc_machine import LIST_FORMS, POP, POPRET, POPRETZ, PUSH, SAVED, Frame
from zcld_tools.elf import FUNCTION_TYPE, LOCAL, UNDEF
from zcld_tools.instructions import A0, A1, RET, S0, S1, SP, ZERO, addi, is_jalr, low_part, lw, sw, words_of

# The register lists; how many times 16 bytes a halfword moves sp by beyond a list's own; and the most bytes of a frame.
LISTS, MORE, MOST_FRAME = range(4, 16), range(4), 2032
BITS = {form: which for which, form in LIST_FORMS.items()}
TO_SAVED, FROM_SAVED = 'cm.mvsa01', 'cm.mva01s'
# The registers that moves name, by their codes.
MOVED = S0, S1, *range(18, 24)

# What comes before the stores or loads of each form, and after them.
MOVE_SP, CLEAR = 'addi sp,sp', addi(A0, ZERO)
SHAPES = ((PUSH, (MOVE_SP,), ()), (POP, (), (MOVE_SP,)), (POPRET, (), (MOVE_SP, RET)), (POPRETZ, (CLEAR,), (MOVE_SP, RET)),
          (POPRETZ, (), (CLEAR, MOVE_SP, RET)), (POPRETZ, (), (MOVE_SP, CLEAR, RET)))
MOST_ITEMS = 3 + len(SAVED)


class Group(NamedTuple):
    """A group: its form, how many items it has, and the bytes that are written for them."""

    form: str
    items: int
    code: bytes


# ---- halfwords


def frame_half(form, number, more):
    """A push or pop of a list."""
    return 5 << 13 | BITS[form] << 8 | number << 4 | more << 2 | 2


def move_half(form, first, second):
    """A move between a0 and the first, and a1 and the second of registers by their codes."""
    return 5 << 13 | 3 << 10 | first << 7 | (1 if form == TO_SAVED else 3) << 5 | second << 2 | 2


# ---- what words come to


def frame_code(form, number, size):
    """The bytes that are written for the push or pop of a list with a frame of this many bytes: a halfword, and after a push or before a
    pop an instruction that moves sp by what is left."""
    own = Frame(form, number, 0).size
    more = min(MORE[-1], (size - own) // 16)
    rest = size - own - 16 * more
    half = struct.pack('<H', frame_half(form, number, more))
    if rest == 0:
        return half
    word = addi(SP, SP, -rest if form == PUSH else rest)
    short = short_form(word)
    other = words_of(word) if short is None else struct.pack('<H', short)
    return half + other if form == PUSH else other + half


def slots(form, number, size):
    """The stores or loads of a list in a frame of this many bytes."""
    access = sw if form == PUSH else lw
    return [access(register, SP, size - 4 * (j + 1)) for j, register in enumerate(Frame(form, number, 0).registers)]


def frame_in(words, form, before, behind, number):
    """The push or pop of a list that words begin with, or none."""
    frame, around = Frame(form, number, 0), before + behind
    end = len(before) + len(frame.registers)
    accesses, others = words[len(before):end], words[:len(before)] + words[end:end + len(behind)]
    if len(others) < len(around):
        return None
    moved = others[around.index(MOVE_SP)]
    size = low_part(moved) * (-1 if form == PUSH else 1)
    is_frame = moved == addi(SP, SP, low_part(moved)) and size % 16 == 0 and frame.size <= size <= MOST_FRAME
    is_whole = others == [moved if word == MOVE_SP else word for word in around]
    if not (is_frame and is_whole and sorted(accesses) == sorted(slots(form, number, size))):
        return None
    return Group(form, end + len(behind), frame_code(form, number, size))


def all_moves():
    """Each pair of moves, as words in any order."""
    for first, register in enumerate(MOVED):
        for second, other in enumerate(MOVED):
            rows = [(FROM_SAVED, addi(A0, register), addi(A1, other))]
            rows += [(TO_SAVED, addi(register, A0), addi(other, A1))] if first != second else []
            for form, *words in rows:
                yield frozenset(words), Group(form, 2, struct.pack('<H', move_half(form, first, second)))


MOVES = dict(all_moves())
# The words that groups begin with.
STARTS = {CLEAR, *(word for pair in MOVES for word in pair), *(addi(SP, SP, -size) for size in range(16, MOST_FRAME + 1, 16)),
          *(lw(register, SP, offset) for register in SAVED for offset in range(0, MOST_FRAME, 4))}


def group_in(words):
    """The group of most items that words begin with, or none."""
    if not words or words[0] not in STARTS:
        return None
    found = [MOVES.get(frozenset(words[:2])), *(frame_in(words, *shape, number) for shape in SHAPES for number in LISTS)]
    return max(filter(None, found), key=lambda group: group.items, default=None)


# ---- all code


def ends_block(item):
    """Whether a basic block ends with an item."""
    return item.kind in ('Branch', 'Jump', 'Call') or item.kind in ('Op', 'Lo', 'PcLo') and is_jalr(item.words[0])


def targets(code):
    """What relocations, branches and jumps name."""
    for (i, _), part in code.parts.items():
        for entry in part.entries:
            if entry.kind not in WITHOUT_FIELD:
                yield code.symbols.resolve(i, entry.symbol, entry.addend)
    for place in code.places():
        yield code.item(place).target


def places_of_symbols(code):
    """The places of global and weak symbols, and of functions."""
    for i, read in enumerate(code.objects):
        for index, _, value, _, bind, home in read.named_symbols():
            is_known = bind != LOCAL or read.symbols[index][3] & 15 == FUNCTION_TYPE
            if is_known and UNDEF < home < read.count and read.is_code(home):
                yield i, home, value


def leaders(code):
    """The places where basic blocks begin."""
    found = {(*place, 0) for place, _ in code.code_parts()} | set(places_of_symbols(code))
    found.update(target[1:] for target in targets(code) if isinstance(target, tuple) and target[0] == CODE)
    for i, k, offset in code.places():
        if ends_block(code.item((i, k, offset))):
            found.add((i, k, offset + code.parts[i, k].starts[offset]))
    return found


def run_from(places, words, blocks, at):
    """The words from an index on, up to where a basic block begins or one has a relocation."""
    end = at
    while end < min(len(words), at + MOST_ITEMS) and words[end] is not None and (end == at or places[end] not in blocks):
        end += 1
    return words[at:end]


def groups_of(code):
    """The groups of all code, by the places of their first items. For a chip without Zcmp there are none."""
    if not code.memory.extensions.zcmp:
        return {}
    blocks, found = leaders(code), {}
    for (i, k), part in code.code_parts():
        places = [(i, k, offset) for offset in part.starts]
        items = [code.item(place) for place in places]
        words = [item.words[0] if item.kind == 'Op' and (i, k) not in code.fixed else None for item in items]
        at = 0
        while at < len(places):
            group = group_in(run_from(places, words, blocks, at))
            if group:
                found[places[at]] = group
            at += group.items if group else 1
    return found


def places_outside(code, groups):
    """The place of each item, in their order, but those inside a group: only these have an address in an image."""
    left = 0
    for place in code.places():
        if left == 0:
            left = groups[place].items if place in groups else 1
            yield place
        left -= 1


def main():
    for place, group in groups_of(Code([Object(data) for data in without_fault(sys.argv[1:])])).items():
        print(*place, group.form, group.items, group.code.hex())


if __name__ == '__main__':
    main()
