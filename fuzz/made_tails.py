"""Makes lists of objects by chance whose functions end alike.

Most lists are programs that run to their end: `_start` calls functions, whose last instructions are those of a few tails, or nearly.
Some tails begin with an `ecall`, which writes a word or exits. What keeps a tail from being removed, or only a part of it, comes in
now and then: a place inside it that a branch, a word of data or a symbol names, a relocation, a padding, or an instruction that
doesn't go on. Functions lie in one section or in several, and none, some or all objects are compressed (compressed_code.py). An odd
list has something in it that is most likely a fault, or a run is stuck on it.
"""
from compressed_code import compress_some
from made_objects import make_odd
from zcld_tools.elf import (ALIGN, BRANCH, CALL, DATA_FLAGS, FUNCTION_TYPE, GLOBAL, HI20, JAL, LOCAL, LO12_I, NO_TYPE, PCREL_HI20,
                            PCREL_LO12_I, PROGBITS, RELAX, R_32, WEAK)
from zcld_tools.instructions import (A0, A1, A2, A5, A7, CALL_WORDS, ECALL, EXIT_CALL, EXIT_WORDS, NOP, RA, RET, S0, SP, T0, T1,
                                     WRITE_CALL, ZERO, add, addi, auipc, branch, immediate, jal, jalr, load, lui, lw, sw)
from zcld_tools.objects import Written

SUM = A5
# A function's frame, and what its tail restores.
ENTER, LEAVE = (addi(SP, SP, -16), sw(RA, SP, 12), sw(S0, SP, 8)), (lw(S0, SP, 8), lw(RA, SP, 12), addi(SP, SP, 16), RET)
WORK = (addi(SUM, SUM, 1), addi(SUM, SUM, 5), addi(SUM, SUM, 999), immediate(4, SUM, SUM, 5), immediate(1, SUM, SUM, 1),
        immediate(7, SUM, SUM, -2), add(SUM, SUM, S0), add(S0, SUM, ZERO), addi(S0, SUM), lui(S0, 1), lui(S0, 0x12345))
# What an `ecall` does with what `_start` sets: writes to one of both streams, or exits.
CALLS = addi(A0, ZERO, 1), addi(A0, ZERO, 2), addi(A7, ZERO, EXIT_CALL)


class Program:
    """A list of objects that is being made: the tails that its functions have, and the functions' names."""

    def __init__(self, rng):
        self.rng = rng
        self.objects = [Written() for _ in range(rng.choice((1, 1, 2)))]
        self.tails = [(*rng.choices(WORK, k=rng.randrange(5)), *LEAVE) for _ in range(rng.choice((1, 2, 3)))]
        if rng.random() < 0.5:
            self.tails.append((ECALL, *self.tails[0]))
        self.count = rng.choice((2, 3, 5, 8))
        self.sections, self.known, self.inside = {}, {}, []
        self.names = 0

    def named(self, read, name, **how):
        """The symbol of a name in an object."""
        if (id(read), name) not in self.known:
            self.known[id(read), name] = read.symbol(name, **how)
        return self.known[id(read), name]

    def section_of(self, read):
        """A section for a function: most often the one that has others."""
        made = self.sections.setdefault(id(read), [])
        if not made or self.rng.random() < 0.15:
            made.append(read.section(b'.text.%d' % len(made), align=self.rng.choice((1, 2, 4, 4, 16, 256))))
        return self.rng.choice(made[-2:])

    def label(self, read, section, **how):
        """A symbol for the place that comes next."""
        self.names += 1
        how = {'bind': LOCAL, 'value': len(section.content), **how}
        return read.symbol(b'.L%d' % self.names, home=section, **how)


class Function:
    """A function that is being made, and the way that its tail is made."""

    def __init__(self, program, read, index):
        self.program, self.rng, self.read, self.index = program, program.rng, read, index
        self.section = program.section_of(read)

    def at(self):
        return len(self.section.content)

    def pair(self, symbol, addend, words):
        """An address in a register, and the word behind it."""
        if self.rng.random() < 0.5:
            self.section.reloc(HI20, symbol, addend, (lui(T0),))
            self.section.reloc(LO12_I, symbol, addend, (addi(T0, T0),))
        else:
            label = self.program.label(self.read, self.section)
            self.section.reloc(PCREL_HI20, symbol, addend, (auipc(T0),))
            self.section.reloc(PCREL_LO12_I, label, 0, (addi(T0, T0),))
        self.section.words(*words)

    def call(self):
        """A call of a later function."""
        if self.index + 1 < self.program.count:
            later = self.program.named(self.read, b'f%d' % self.rng.randrange(self.index + 1, self.program.count))
            which = self.rng.randrange(3)
            if which == 0:
                self.pair(later, 0, (jalr(RA, T0),))
            else:
                self.section.reloc(*((CALL, later, 0, CALL_WORDS), (JAL, later, 0, (jal(RA),)))[which - 1])

    def compare(self):
        """A branch over some words, which the sum decides."""
        words = self.rng.choices(WORK, k=self.rng.randrange(1, 4))
        way = branch(self.rng.choice((0, 1, 4, 5)), SUM, ZERO, 4 + 4 * len(words))
        if self.rng.random() < 0.5:
            self.section.words(way)
        else:
            self.section.reloc(BRANCH, self.program.label(self.read, self.section), 4 + 4 * len(words), (way,))
        self.section.words(*words)

    def take(self):
        """The address of a place that is known, which nothing but a comparison uses."""
        places = [(symbol, addend) for read, symbol, addend in self.program.inside if read is self.read]
        if places:
            self.pair(*self.rng.choice(places), (branch(0, T0, ZERO, 8), addi(SUM, SUM, 3)))

    def body(self):
        for _ in range(self.rng.randrange(4)):
            self.rng.choice((self.call, self.call, self.compare, self.take,
                             lambda: self.section.words(*self.rng.choices(WORK, k=2))))()

    def tail(self):
        """A tail, of which some words may be others, and in which something may come between."""
        words, rng = list(self.program.rng.choice(self.program.tails)), self.rng
        if words[0] == ECALL:
            self.section.words(rng.choice((*CALLS[:2] * 3, CALLS[2])))
        elif rng.random() < 0.3:
            words[:rng.randrange(len(words) - len(LEAVE) + 1)] = rng.choices(WORK, k=rng.randrange(3))
        start, at = self.at(), rng.randrange(len(words)) if rng.random() < 0.5 else None
        for k, word in enumerate(words):
            if k == at:
                self.between(word)
            self.section.words(word)
        self.sized(start)
        if rng.random() < 0.1:
            self.align()

    def between(self, word):
        """What may stand in a tail: a place that something names, a relocation or a padding."""
        which, section = self.rng.randrange(7), self.section
        if which < 3:
            kind = self.rng.choice((NO_TYPE, FUNCTION_TYPE))
            label = self.program.label(self.read, section, kind=kind, bind=self.rng.choice((LOCAL, LOCAL, GLOBAL, WEAK)))
            self.program.inside.append((self.read, label, 0))
        elif which == 3:
            # not taken, so that a run goes on
            section.words(branch(1, ZERO, ZERO, 4 * self.rng.randrange(1, 3)))
        elif which == 4:
            self.program.inside.append((self.read, self.program.label(self.read, section, value=0), self.at()))
        elif which == 5:
            section.reloc(RELAX, None)
        else:
            self.align()

    def align(self):
        most = self.rng.choice((8, 8, 16, 64))
        self.section.align = max(self.section.align, most)
        self.section.reloc(ALIGN, None, most - 4, [NOP] * (most // 4 - 1))

    def sized(self, start):
        """Symbols of some bytes from somewhere in what was made."""
        for _ in range(self.rng.choice((0, 0, 1, 2))):
            value = start + self.rng.randrange(-2, self.at() - start + 1, 1 if self.rng.random() < 0.1 else 2)
            size = self.rng.choice((0, self.at() - value, 4 * self.rng.randrange(4), self.rng.randrange(40)))
            self.program.label(self.read, self.section, value=max(0, value), size=size, kind=self.rng.choice((NO_TYPE, 1)))

    def make(self):
        start = self.at()
        self.section.words(*ENTER)
        self.body()
        usable = [(symbol, addend) for read, symbol, addend in self.program.inside
                  if read is self.read and symbol.home is self.section]
        which = self.rng.random()
        if usable and which < 0.2:
            symbol, addend = self.rng.choice(usable)
            self.section.reloc(JAL, symbol, addend, (jal(ZERO),))
        elif usable and which < 0.4:
            symbol, addend = self.rng.choice(usable)
            self.section.words(jal(ZERO, symbol.value + addend - self.at()))
        else:
            self.tail()
        symbol = self.program.named(self.read, b'f%d' % self.index)
        symbol.home, symbol.value, symbol.size, symbol.kind = self.section, start, self.at() - start, FUNCTION_TYPE


def add_start(program):
    """`_start`, which sets what a write needs, calls some functions, writes the sum and exits."""
    read, rng = program.objects[0], program.rng
    section = program.section_of(read)
    read.symbol(b'_start', home=section, value=len(section.content))
    section.words(addi(SUM, ZERO, rng.randrange(2048)), addi(S0, ZERO, rng.randrange(2048)), addi(SP, SP, -16), sw(S0, SP),
                  addi(A1, SP), addi(A2, ZERO, 4), addi(A7, ZERO, WRITE_CALL))
    for _ in range(rng.choice((1, 2, 4))):
        section.reloc(CALL, program.named(read, b'f%d' % rng.randrange(program.count)), 0, CALL_WORDS)
    section.words(sw(SUM, SP), addi(A0, ZERO, 1), addi(A7, ZERO, WRITE_CALL), ECALL, load(4, A0, SP), *EXIT_WORDS)


def add_words(program):
    """Words of data that name places inside of tails, and functions."""
    for read in program.objects:
        places = [(symbol, addend) for owner, symbol, addend in program.inside if owner is read]
        places.append((program.named(read, b'f0'), 0))
        section = read.section(b'.data', PROGBITS, DATA_FLAGS)
        for _ in range(program.rng.randrange(4)):
            section.reloc(R_32, *program.rng.choice(places), (0,))


def tails_list(rng, is_odd):
    """The files of a list of objects."""
    program = Program(rng)
    is_first = rng.random() < 0.5
    if is_first:
        add_start(program)
    for index in rng.sample(range(program.count), program.count):
        Function(program, rng.choice(program.objects), index).make()
    if not is_first:
        add_start(program)
    add_words(program)
    compress_some(rng, program.objects, is_odd)
    if is_odd:
        make_odd(program)
    return [read.bytes() for read in program.objects]
