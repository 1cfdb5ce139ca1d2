"""Small programs for `zc` with a jump table, and one that has none since it would save nothing (RISC-V Zc specification 1.0,
"Zcmt").

Each calls its functions, and jumps to them with a return address that it sets itself. They add up in a0 what shows which of them
were called in which order, and the exit has that as its status.
"""
from compressed_code import compress_some
from zc_examples import XORI
from zcld_tools.elf import ALIGN, BRANCH, CALL, HI20, JAL, LO12_I, LOCAL
from zcld_tools.instructions import (A0, CALL_WORDS, EXIT_WORDS, RA, RET, SP, T0, ZERO, add, addi, branch, jal, jalr, lui, lw,
                                     sw)
from zcld_tools.objects import Written, object_with

# Code that no jump of two bytes leads over.
FAR = [XORI] * 600


class Program:
    """An object of calls and jumps, and after it one of the functions to which they lead."""

    def __init__(self, functions, frames=(), align=4):
        self.first, self.text = object_with(addi(A0, ZERO, 0))
        self.names = [self.first.symbol(b'f%d' % k) for k in range(functions)]
        self.last = Written()
        text = self.last.section(b'.text', align=align)
        text.words(*FAR)
        for k in range(functions):
            self.last.symbol(b'f%d' % k, home=text, value=len(text.content))
            body = add(T0, A0, A0), add(A0, A0, T0), addi(A0, A0, k % 31 + 1)
            if k in frames:
                body = addi(SP, SP, -16), sw(RA, SP, 12), *body, lw(RA, SP, 12), addi(SP, SP, 16)
            text.words(*body, RET)

    def label(self, more=0):
        """A symbol this many bytes after the code so far."""
        return self.first.symbol(b'', home=self.text, value=len(self.text.content) + more, bind=LOCAL)

    def call(self, function):
        self.text.reloc(CALL, self.names[function], 0, CALL_WORDS)

    def jump(self, function, link=ZERO):
        """A jump to a function, which returns after it. What it puts in a link register isn't used."""
        back = self.label(12)
        self.text.reloc(HI20, back, 0, (lui(RA),))
        self.text.reloc(LO12_I, back, 0, (addi(RA, RA),))
        self.text.reloc(JAL, self.names[function], 0, (jal(link),))

    def files(self, rng=None):
        """The files of the program, with the exit. By chance some are compressed."""
        self.text.words(*EXIT_WORDS)
        if rng:
            compress_some(rng, [self.first, self.last])
        return [self.first.bytes(), self.last.bytes()]


def with_sites(jumps, calls, **how):
    """A program whose function k is jumped to and called so often, by turns."""
    made = Program(max(len(jumps), len(calls)), **how)
    for turn in range(max((*jumps, *calls))):
        for numbers, add_site in ((jumps, made.jump), (calls, made.call)):
            for k, number in enumerate(numbers):
                if turn < number:
                    add_site(k)
    return made.files()


def branch_over(count):
    """A branch over this many jumps, which is never taken."""
    made = Program(1)
    made.text.reloc(BRANCH, made.label(4 + 12 * count), 0, (branch(1, A0, ZERO),))
    for _ in range(count):
        made.jump(0)
    return made.files()


def nearer(count):
    """A loop whose end reaches its start by two bytes only once jumps between them go through the table, with this many jumps
    back: a single one has no slot, and more have one and go through it though they would reach."""
    made = Program(1)
    begin, end = made.label(), made.label(4 + 172 * 12 + 4 * count)
    made.text.reloc(BRANCH, end, 0, (branch(1, A0, ZERO),))
    for _ in range(172):
        made.jump(0)
    for _ in range(count):
        made.text.reloc(JAL, begin, 0, (jal(ZERO),))
    return made.files()


def other_register():
    """Jumps that no slot serves, since they put a return address in t0."""
    made = Program(1)
    for _ in range(30):
        made.jump(0, T0)
    return made.files()


def address_taken():
    """A function that is called by its address too, between jumps to it that go through the table."""
    made = Program(1)
    for turn in range(10):
        made.jump(0)
        if turn % 4 == 1:
            made.text.reloc(HI20, made.names[0], 0, (lui(T0),))
            made.text.reloc(LO12_I, made.names[0], 0, (addi(T0, T0),))
            made.text.words(jalr(RA, T0))
    return made.files()


def aligned():
    """Padding in the code, which the table shifts, and functions at a multiple of 256."""
    made = Program(2, align=256)
    made.text.align = 16
    for _ in range(12):
        made.jump(0)
        made.text.reloc(ALIGN, None, 12, [0xFFFFFFFF] * 3)
        made.call(1)
    return made.files()


def rows():
    """What each program is, its files, and the slots and the net of its certificate, worked out by hand."""
    holes = [0] * 32
    return (('50 calls of one function', with_sites((), (50,)), [], 0),
            ('calls', with_sites((), (30, 50, 4)), [*holes, 2, 1, 3], 16),
            ('jumps', with_sites((10, 3, 2), ()), [1, 2], 6),
            ('both parts', with_sites((40, 7), (90,)), [1, 2, *holes[2:], 1], 130),
            ('frames', with_sites((9, 9, 0), (0, 60, 60), frames=(0, 1)), [1, 2, *holes[2:], 2, 3], 128),
            ('full parts', with_sites([10] * 33, [0] * 33 + [10] * 226), [*range(1, 33), *range(34, 258)], 4084),
            ('a branch that is short by the table', branch_over(22), [1], 28),
            ('a jump that is short by the table', nearer(1), [2], 328),
            ('jumps that would be short, but go through the table', nearer(20), [2, 1], 364),
            ('another register', other_register(), [], 0), ('an address taken', address_taken(), [1], 4),
            ('aligned code', aligned(), [1], 8))


def random_program(rng):
    """A program with functions that are jumped to and called often or seldom."""
    functions = rng.choice((1, 2, 5, 34, 60))
    weights = [rng.choice((1, 1, 3, 20)) for _ in range(functions)]
    made = Program(functions, [k for k in range(functions) if rng.random() < 0.3], rng.choice((1, 2, 4, 4, 16, 256)))
    made.text.align = rng.choice((2, 4, 4, 64))
    jumps = rng.choice((0, 0.3, 1))
    for _ in range(rng.choice((10, 60, 300))):
        k, = rng.choices(range(functions), weights)
        (made.jump if rng.random() < jumps else made.call)(k)
        if rng.random() < 0.1:
            made.text.words(add(A0, A0, T0))
    return made.files(rng)
