"""Makes lists of objects by chance whose branches, jumps and calls lead as far as their forms reach and farther.

Each program goes on forward from its start to its exit, so that it ends. A branch that leads back is never taken. Some objects
are compressed (compressed_code.py).
"""
from compressed_code import compress_some
from zc_examples import XORI
from zcld_tools.elf import ALIGN, BRANCH, CALL, JAL, LOCAL
from zcld_tools.instructions import (A0, A1, A4, EXIT_WORDS, RA, S0, S1, SP, T0, T1, ZERO, addi, auipc, branch, jal, jalr, lw,
                                     of_format_r, sw)
from zcld_tools.objects import Written

# `xor a1,a1,a0` and `sub a0,a0,a1`.
OPERATIONS = of_format_r(0, 4, A1, A1, A0), of_format_r(0x20, 0, A0, A0, A1)
# Words that one instruction can replace, or two: two moves, and a push and a pop.
FUSED = (addi(S0, A0), addi(S1, A1)), (addi(SP, SP, -16), sw(RA, SP, 12), lw(RA, SP, 12), addi(SP, SP, 16))
# How many items back or forth a branch or jump leads: near, at the ends of what the forms reach, and beyond.
STEPS = (1, 3, 30, 62, 63, 64, 126, 127, 128, 129, 500, 510, 511, 512, 513, 600, 680, 750)
FAR_STEPS = (*STEPS, 900, 1000, 1020, 1022, 1023, 1024, 1100)


class Section:
    """A section of code that is being made. Each of its items may be a target."""

    def __init__(self, rng, read, number):
        self.rng, self.read = rng, read
        self.section = read.section(b'.text.%d' % number)
        self.section.align = rng.choice((1, 2, 4, 4, 4, 4, 8, 16, 64, 256))
        self.starts, self.waiting = [], []

    def target(self):
        """A symbol in this section whose place is known later."""
        return self.read.symbol(b'', home=self.section, bind=LOCAL)

    def start(self):
        """Begins an item, and gives its place to the branches and jumps that wait for it."""
        at = len(self.section.content)
        self.starts.append(at)
        for symbol in [symbol for left, symbol in self.waiting if left == 0]:
            symbol.value = at
        self.waiting = [(left - 1, symbol) for left, symbol in self.waiting if left]

    def forward(self, steps=STEPS):
        """A place some items on."""
        symbol = self.target()
        self.waiting.append((self.rng.choice(steps), symbol))
        return symbol

    def back(self):
        symbol = self.target()
        symbol.value = self.starts[-min(len(self.starts), self.rng.choice(STEPS))]
        return symbol

    def add(self):
        """Adds an item."""
        self.start()
        kind, rng = self.rng.randrange(40), self.rng
        if kind == 0:
            # always taken, or never
            self.section.reloc(BRANCH, self.forward(), 0, (branch(rng.choice((0, 1)), ZERO, ZERO),))
        elif kind == 1:
            # of a register that holds what the items before came to
            self.section.reloc(BRANCH, self.forward(), 0, (branch(rng.choice((0, 1, 4, 5, 6, 7)), A0, rng.choice((ZERO, T0))),))
        elif kind == 2:
            self.section.reloc(JAL, self.forward(FAR_STEPS), 0, (jal(rng.choice((ZERO, RA, T1))),))
        elif kind == 3:
            link = rng.choice((RA, RA, T1))
            self.section.reloc(CALL, self.forward(FAR_STEPS), 0, (auipc(link), jalr(link, link)))
        elif kind == 4:
            self.section.reloc(BRANCH, self.back(), 0, (branch(1, ZERO, ZERO),))
        elif kind == 5:
            self.section.reloc(BRANCH, self.back(), 0, (branch(1, A4, A4),))
        elif kind == 6 and rng.random() < 0.3:
            bytes_asked = rng.choice((4, 12, 28, 60))
            self.section.reloc(ALIGN, None, bytes_asked, [0xFFFFFFFF] * (bytes_asked // 4))
        elif kind == 7:
            self.section.words(*rng.choice(FUSED))
        elif kind < 20:
            self.section.words(addi(A0, A0, rng.choice((1, 31, 100))))
        else:
            self.section.words(rng.choice((XORI, addi(T0, ZERO, 7), *OPERATIONS)))

    def add_edge(self):
        """Adds a branch that reaches just so as code is written, over a padding that may take more bytes once code is smaller."""
        rng, count = self.rng, self.rng.choice((1019, 1020, 1021, 1022))
        symbol, ask = self.target(), rng.choice((4, 12, 28))
        self.start()
        self.section.reloc(BRANCH, symbol, 0, (branch(rng.choice((0, 1)), A0, rng.choice((T0, A0))),))
        before = rng.randrange(1, 5)
        for i in range(count):
            if i == before:
                self.start()
                self.section.reloc(ALIGN, None, ask, [0xFFFFFFFF] * (ask // 4))
            self.start()
            self.section.words(XORI)
        symbol.value = len(self.section.content)
        self.start()
        self.section.words(XORI)

    def end(self, way_on=None):
        """Adds what the last branches and jumps wait for, and goes on to a function, or exits."""
        self.start()
        at = self.starts[-1]
        for _, symbol in self.waiting:
            symbol.value = at
        self.waiting = []
        if way_on is None:
            self.section.words(*EXIT_WORDS)
        else:
            self.section.reloc(CALL, way_on, 0, (auipc(T1), jalr(ZERO, T1)))


def far_list(rng):
    """The files of a list of objects. Each section goes on to the next one."""
    objects = [Written() for _ in range(rng.choice((1, 1, 2, 3)))]
    many = rng.choice((1, 2, 3, 5))
    homes = [objects[number * len(objects) // many] for number in range(many)]
    for number, read in enumerate(homes):
        section = Section(rng, read, number)
        read.symbol(b'part%d' % number if number else b'_start', home=section.section)
        if number == 0:
            section.start()
            section.section.words(addi(A0, ZERO, 1), addi(T0, ZERO, 2), addi(A1, ZERO, 3), addi(A4, ZERO, 4))
        section.start()
        section.section.words(XORI)
        for _ in range(rng.choice((20, 200, 700, 1300))):
            section.add()
        if rng.random() < 0.3:
            section.add_edge()
        section.end(read.symbol(b'part%d' % (number + 1)) if number + 1 < many else None)
    compress_some(rng, objects, rng.random() < 0.2, must_exit=True)
    return [read.bytes() for read in objects]
