"""The jump table of an image, as far as its layout doesn't matter: which jumps and calls one could serve, how many lead to
each target, which targets it has, and what comes before all code (RISC-V Zc specification 1.0, "Zcmt").

A table is a list of slots, each a target or None. A jump goes through the first slot below 32 that has its target, a
call through the first one from 32 on, and takes 2 bytes then. The table and a stub of 12 bytes stand in front of all
code. All of this is said apart from the program, so that both can be compared.
"""
import struct

from certificates import LOW_SLOTS, Saving
from zcld_tools.instructions import JVT, RA, T0, ZERO, csr, jal, lui, with_high, words_of

STUB_SIZE = 12


def table_half(slot):
    """A jump or call through a slot."""
    return 5 << 13 | slot << 2 | 2


def swap_jvt(to, source):
    """A register gets what jvt was, and jvt what another is."""
    return csr(1, to, JVT, source)


def link_register(item):
    """The register that a jump or call puts its return address in."""
    return item.words[-1] >> 7 & 31


def sites_of(link):
    """The jumps and calls of a link without a table that one could serve, by their places: register and target."""
    return {place: (link_register(item), item.target[1:]) for place, item in link.items.items()
            if item.kind in ('Jump', 'Call') and link.sizes[place] == 4 and link_register(item) in (ZERO, RA)
            and not link.is_fixed(place)}


def savings_of(link):
    """The targets of these jumps and calls, in their order, with how many of each lead there. A chip without Zcmt saves nothing."""
    if not link.memory.extensions.zcmt:
        return []
    found = {}
    for register, target in sites_of(link).values():
        found.setdefault(target, [0, 0])[register] += 1
    return [Saving(*target, *counts) for target, counts in sorted(found.items())]


class Table:
    """The targets of slots, and which slot each jump and call goes through that has one."""

    def __init__(self, link=None, savings=(), slots=()):
        self.targets = [savings[slot - 1][:3] if slot else None for slot in slots]
        found = {place: self.slot_of(*site) for place, site in sites_of(link).items()} if slots else {}
        self.through = {place: slot for place, slot in found.items() if slot is not None}
        self.size = 4 * len(slots) + STUB_SIZE if slots else 0

    def slot_of(self, register, target):
        """The first slot of a jump or call in its part, or None."""
        part = range(LOW_SLOTS) if register == ZERO else range(LOW_SLOTS, len(self.targets))
        return next((slot for slot in part if slot < len(self.targets) and self.targets[slot] == target), None)

    def stub_at(self, text):
        """Where the stub is in a text: a run begins there if there is a table."""
        return text + 4 * len(self.targets)

    def code(self, text, addresses, start):
        """The addresses of the slots, and the stub, which sets jvt to the first of them and goes on to the start."""
        slots = struct.pack(f'<{len(self.targets)}I', *(addresses[it] if it else 0 for it in self.targets))
        set_jvt = with_high(lui(T0), text), swap_jvt(ZERO, T0)
        return slots + words_of(*set_jvt, jal(ZERO, start - self.stub_at(text) - 8))
