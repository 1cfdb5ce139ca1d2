"""Makes lists of objects by chance whose code and data have relocations of all kinds.

Most lists are programs that run to their end: functions call later ones in each way that compilers do, and work on data in each
way. They save registers and restore them, and move some, in ways that one instruction may replace (made_frames.py), or that
only look so. None, some or all objects of a list are compressed then (compressed_code.py). An odd list has something in it that is
no fault of the objects' form, but most likely one of their relocations or layout.
"""
import struct

from compressed_code import compress_some, is_code
from groups import MOVED
from halfwords import short_form
from made_frames import ENDINGS, GOES_ON, made_frame, slip_between
from object_faults import LINKER_NAMES
from object_items import OF_TWO_BYTES
from zcld_tools.elf import (ABS, ADD32, ALIGN, ALLOC, BRANCH, CALL, CALL_PLT, CODE_FLAGS, COMMON, CONSTANT_FLAGS,
                            DATA_FLAGS, DATA_TYPE, FUNCTION_TYPE, GLOBAL, GOT_HI20, HI20, INIT_ARRAY, JAL, LO12_I, LO12_S,
                            LOCAL, NOBITS, NONE, NO_TYPE, PCREL_HI20, PCREL_LO12_I, PCREL_LO12_S, PROGBITS, RELAX, RVC, RVC_BRANCH,
                            RVC_JUMP, R_32, SECTION_TYPE, SUB32, TSO, WEAK)
from zcld_tools.instructions import (A0, A1, A2, A5, A7, CALL_WORDS, ECALL, EXIT_WORDS, NOP, RA, READ_CALL, SHORT_NOP, SP, T0, T1,
                                     T2, T3, WRITE_CALL, ZERO, add, addi, auipc, branch, halves_of, immediate, is_store, jal,
                                     jalr, load, low_part, lui, lw, of_format_r, store, sw, with_low)
from zcld_tools.objects import Reloc, Written
from zc_machine import SAVED

# The register in which a program adds up what it comes to, and those that functions keep. All are numbers.
SUM, KEPT = A5, SAVED[1:]

# ---- data

DATA_SECTIONS = ((b'.data', PROGBITS, DATA_FLAGS), (b'.sdata', PROGBITS, DATA_FLAGS), (b'.rodata', PROGBITS, CONSTANT_FLAGS),
                 (b'.bss', NOBITS, DATA_FLAGS), (b'.sbss', NOBITS, DATA_FLAGS), (b'.init_array', INIT_ARRAY, DATA_FLAGS))
WORDS = 8


class Program:
    """A list of objects that is being made: its functions, and the names of its numbers, tables and of nothing."""

    def __init__(self, rng, is_odd, function_with):
        self.rng, self.is_odd, self.function_with = rng, is_odd, function_with
        self.objects = [Written() for _ in range(rng.choice((1, 2, 2, 3, 5)))]
        self.functions = [b'f%d' % i for i in range(rng.choice((1, 2, 4, 8)))]
        self.homes = [rng.randrange(len(self.objects)) for _ in self.functions]
        self.numbers, self.tables, self.known = [], [], {}
        self.sections = 0
        self.names = 0

    def named(self, read, name, **how):
        """The symbol of a name in an object: the one that defines it there, or an undefined one."""
        if (id(read), name) not in self.known:
            self.known[id(read), name] = read.symbol(name, **how)
        return self.known[id(read), name]

    def new_section(self, read, name, kind, flags, **how):
        self.sections += 1
        return read.section(name + b'.%d' % self.sections, kind, flags, **how)

    def new_name(self, start):
        self.names += 1
        return start + b'%d' % self.names

    def add_shared(self):
        """Numbers that each object can use."""
        section = self.new_section(self.objects[0], b'.data', PROGBITS, DATA_FLAGS)
        section.words(*range(WORDS))
        self.named(self.objects[0], b'shared', home=section, kind=DATA_TYPE)
        self.numbers.append((None, b'shared', True))

    def add_numbers(self, read):
        """A section of words that are numbers, with a name, or a common or absolute one."""
        rng = self.rng
        name = self.new_name(b'n')
        which = rng.randrange(8)
        if which == 0:
            for it in (read, rng.choice(self.objects)):
                self.named(it, name, home=COMMON, value=rng.choice((4, 16, 64)), size=rng.choice((4 * WORDS, 200)),
                           kind=DATA_TYPE)
            self.numbers.append((None, name, True))
            return
        name_of_section, kind, flags = rng.choice(DATA_SECTIONS)
        align = rng.choice((4, 4, 8, 64))
        section = self.new_section(read, name_of_section, kind, flags, align=align, size=4 * WORDS)
        if kind != NOBITS:
            section.words(*(rng.getrandbits(32) for _ in range(WORDS)))
        how = {'home': section, 'kind': DATA_TYPE, 'size': 4 * WORDS}
        if which == 1:
            read.symbol(name, bind=LOCAL, **how)
            self.numbers.append((read, read.symbols[-1], flags != CONSTANT_FLAGS))
        elif which == 2:
            read.symbol(b'', bind=LOCAL, home=section, kind=SECTION_TYPE)
            self.numbers.append((read, read.symbols[-1], flags != CONSTANT_FLAGS))
        else:
            bind = WEAK if which == 3 else GLOBAL
            self.named(read, name, bind=bind, **how)
            if which == 3 and rng.random() < 0.5:
                other = rng.choice(self.objects)
                again = self.new_section(other, b'.data', PROGBITS, DATA_FLAGS)
                again.words(*range(WORDS))
                self.named(other, name, bind=rng.choice((GLOBAL, WEAK)), home=again, kind=DATA_TYPE)
            self.numbers.append((None, name, True))

    def add_table(self, read):
        """A section of words that name functions, numbers, nothing, or what the linker defines."""
        rng = self.rng
        name_of_section, kind, flags = rng.choice(DATA_SECTIONS[:3])
        section = self.new_section(read, name_of_section, kind, flags, align=rng.choice((4, 16)))
        name = self.new_name(b't')
        self.named(read, name, home=section, kind=DATA_TYPE, size=4 * WORDS)
        held = []
        for _ in range(WORDS):
            which = rng.randrange(8)
            if which < 4:
                function = rng.randrange(len(self.functions))
                section.reloc(R_32, self.named(read, self.functions[function]), 0, (rng.choice((0, rng.getrandbits(32))),))
                held.append(function)
                continue
            held.append(None)
            symbol = (self.number_symbol(read)[0] if which == 4 else self.named(read, b'missing', bind=WEAK) if which == 5 else
                      None if which == 6 else self.named(read, rng.choice(LINKER_NAMES)))
            section.reloc(R_32, symbol, rng.choice((0, 0, 4, -4, 0x12345)), (0,))
        self.tables.append((name, held))

    def number_symbol(self, read, must_change=False):
        """A symbol of words that are numbers, as it is seen from an object, and an offset in it."""
        usable = [it for it in self.numbers if it[0] in (None, read) and (it[2] or not must_change)]
        owner, name, _ = self.rng.choice(usable)
        return (self.named(read, name) if owner is None else name), 4 * self.rng.randrange(WORDS)


# ---- code


class Function:
    """A function that is being made, in a section of code."""

    def __init__(self, program, read, section, index):
        self.program, self.rng, self.read, self.section, self.index = program, program.rng, read, section, index

    def label(self, name=None):
        return self.read.symbol(name or self.program.new_name(b'.L'), home=self.section, value=len(self.section.content),
                                bind=LOCAL)

    def place(self, label):
        label.value = len(self.section.content)

    def relax(self):
        """A hint that a linker may pass over."""
        if self.rng.random() < 0.3:
            self.section.reloc(RELAX, None)
            self.section.relocs[-1].offset -= 4

    def pair(self, to, symbol, addend, last):
        """An upper part, absolute or from the program counter, and a last word with the lower part."""
        section = self.section
        lower = (LO12_S, PCREL_LO12_S) if is_store(last) else (LO12_I, PCREL_LO12_I)
        if self.rng.random() < 0.5:
            section.reloc(HI20, symbol, addend, (lui(to),))
            self.relax()
            section.reloc(lower[0], symbol, addend, (last,))
            self.relax()
        else:
            label = self.label()
            section.reloc(PCREL_HI20, symbol, addend, (auipc(to),))
            self.relax()
            if self.rng.random() < 0.3:
                section.words(addi(SUM, SUM, 1))
            section.reloc(lower[1], label, 0, (last,))
            self.relax()

    def start_up(self):
        """What a program begins with, once registers have numbers."""

    # the ways to call

    def call(self):
        later = range(self.index + 1, len(self.program.functions))
        if not later:
            return
        symbol = self.program.named(self.read, self.program.functions[self.rng.choice(later)])
        which = self.rng.randrange(6)
        if which < 2:
            self.section.reloc(self.rng.choice((CALL, CALL_PLT)), symbol, 0, CALL_WORDS)
        elif which == 2:
            self.section.reloc(JAL, symbol, 0, (jal(RA),))
        elif which == 3:
            self.pair(T0, symbol, 0, jalr(RA, T0))
        elif which == 4:
            self.pair(T0, symbol, 0, addi(T1, T0))
            self.section.words(jalr(RA, T1))
        else:
            self.call_by_table(later)

    def call_by_table(self, later):
        usable = [(name, k) for name, held in self.program.tables for k, function in enumerate(held) if function in later]
        if usable:
            name, k = self.rng.choice(usable)
            self.pair(T0, self.program.named(self.read, name), 4 * k, lw(T1, T0))
            self.section.words(jalr(RA, T1))

    def call_nothing(self):
        """A call of a weak name without definition, if it is defined."""
        symbol = self.program.named(self.read, b'missing', bind=WEAK)
        self.section.reloc(HI20, symbol, 0, (lui(T0),))
        self.section.reloc(LO12_I, symbol, 0, (addi(T0, T0),))
        end = self.label()
        self.section.reloc(BRANCH, end, 0, (branch(0, T0, ZERO),))
        self.section.reloc(CALL, symbol, 0, CALL_WORDS)
        self.section.reloc(JAL, symbol, 0, (jal(RA),))
        self.section.reloc(BRANCH, symbol, 0, (branch(1, T0, T1),))
        self.place(end)

    # work

    def work(self):
        value = self.rng.randrange(-2048, 2048)
        self.section.words(self.rng.choice((addi(SUM, SUM, value), immediate(4, SUM, SUM, value),
                                            immediate(1, SUM, SUM, 1), immediate(3, T0, SUM, value))))

    def load_number(self):
        symbol, addend = self.program.number_symbol(self.read)
        self.pair(T0, symbol, addend, self.rng.choice((lw(T1, T0), load(4, T1, T0))))
        self.section.words(add(SUM, SUM, T1))

    def store_number(self):
        if any(it[2] and it[0] in (None, self.read) for it in self.program.numbers):
            symbol, addend = self.program.number_symbol(self.read, must_change=True)
            self.pair(T0, symbol, addend, sw(SUM, T0))

    def take_address(self):
        names = [*LINKER_NAMES, b'missing', b'absolute']
        name = self.rng.choice(names)
        symbol = self.program.named(self.read, name, **({'bind': WEAK} if name == b'missing' else {}))
        self.pair(T0, symbol, self.rng.choice((0, 0, 0x7FF, 0x800, -0x801)), addi(T1, T0))
        self.section.words(add(SUM, SUM, T1))

    def write_number(self):
        symbol, addend = self.program.number_symbol(self.read)
        self.pair(A1, symbol, addend, addi(A1, A1))
        self.section.words(addi(A0, ZERO, self.rng.choice((1, 2))), addi(A2, ZERO, 4), addi(A7, ZERO, WRITE_CALL), ECALL)

    def read_input(self):
        if any(it[2] and it[0] in (None, self.read) for it in self.program.numbers):
            symbol, _ = self.program.number_symbol(self.read, must_change=True)
            self.pair(A1, symbol, 0, addi(A1, A1))
            self.section.words(addi(A0, ZERO, 0), addi(A2, ZERO, 8), addi(A7, ZERO, READ_CALL), ECALL, add(SUM, SUM, A0))

    def skip(self):
        """A branch over words, with a relocation or without; the condition is one of numbers or of the address of code."""
        skipped = self.rng.randrange(4)
        f3 = self.rng.choice((0, 1, 4, 5, 6, 7))
        first = SUM
        if self.rng.random() < 0.3:
            symbol = self.program.named(self.read, self.rng.choice(self.program.functions))
            self.pair(T2, symbol, 0, addi(T2, T2))
            f3, first = self.rng.choice((0, 1)), T2
        if self.rng.random() < 0.5:
            self.section.words(branch(f3, first, ZERO, 4 + 4 * skipped))
        else:
            self.section.reloc(BRANCH, self.label(), 4 + 4 * skipped, (branch(f3, first, ZERO),))
        for _ in range(skipped):
            self.work()

    def take_function(self, to, later=False):
        """The address of a function in a register, or of a later one; false if there is none."""
        names = self.program.functions[self.index + 1:] if later else self.program.functions
        if names:
            self.pair(to, self.program.named(self.read, self.rng.choice(names)), 0, addi(to, to))
        return bool(names)

    def compare(self):
        """A branch by two addresses of code, one of which may be a label that is placed later."""
        self.take_function(T1)
        if self.rng.random() < 0.7:
            self.take_function(T2)
            self.section.words(branch(self.rng.choice((0, 1)), T1, T2, 8))
        else:
            end = self.label()
            self.pair(T2, end, 0, addi(T2, T2))
            self.section.words(branch(self.rng.choice((0, 1)), T2, T1, 8))
            self.place(end)
        self.work()

    def test_address(self):
        """Whether an address of code is 0, as numbers."""
        self.take_function(T0)
        copy = self.rng.choice((addi(T1, T0), add(T1, T0, ZERO), add(T1, ZERO, T0)))
        is_zero, is_not_zero = immediate(3, T2, T1, 1), of_format_r(0, 3, T2, ZERO, T1)
        self.section.words(copy, is_zero, add(SUM, SUM, T2), is_not_zero, add(SUM, SUM, T2))

    def keep_address(self):
        """An address of code that is stored, by words or bytes, and called."""
        if not self.take_function(T0, later=True):
            return
        self.section.words(addi(SP, SP, -16), sw(T0, SP, 4))
        if self.rng.random() < 0.5:
            for k in range(4):
                self.section.words(load(4, T1, SP, 4 + k), store(0, T1, SP, 8 + k))
            self.section.words(lw(T1, SP, 8))
        else:
            self.section.words(lw(T1, SP, 4))
        self.section.words(addi(SP, SP, 16), jalr(RA, T1))

    def jump_over(self):
        """A jump over words that are no instructions."""
        end = self.label()
        if self.rng.random() < 0.5:
            self.section.reloc(JAL, end, 0, (jal(ZERO, self.rng.choice((0, 4, 100))),))
        else:
            self.section.words(jal(ZERO, 8))
            self.section.reloc(R_32, self.word_symbol(), 0, (0,))
            self.place(end)
            return
        for _ in range(self.rng.randrange(4)):
            if self.rng.random() < 0.5:
                self.section.reloc(R_32, self.word_symbol(), self.rng.choice((0, 0, 4)), (self.rng.getrandbits(32),))
            else:
                self.section.words(self.rng.choice((0, 0xFFFFFFFF, 0x01751073, 0x0000000B, jal(ZERO, 0x80000), jal(ZERO, 2))))
        self.place(end)

    def word_symbol(self):
        return self.rng.choice((None, self.program.number_symbol(self.read)[0],
                                self.program.named(self.read, self.rng.choice(self.program.functions))))

    def align(self):
        most = self.rng.choice((8, 8, 16, 32, 256))
        if not self.program.is_odd:
            self.section.align = max(self.section.align, most)
        self.section.reloc(ALIGN, None, most - 4, [NOP] * (most // 4 - 1))

    def loop(self):
        self.section.words(addi(T3, ZERO, self.rng.randrange(1, 5)))
        start = self.label()
        is_aligned = self.rng.random() < 0.3
        if is_aligned:
            self.align()
        self.work()
        self.section.words(addi(T3, T3, -1))
        if self.rng.random() < 0.5 or is_aligned and not self.program.is_odd:
            self.section.reloc(BRANCH, start, 0, (branch(1, T3, ZERO),))
        else:
            self.section.words(branch(1, T3, ZERO, start.value - len(self.section.content)))

    def far(self):
        """A jump over more words than a branch reaches, or a branch over as many as it reaches."""
        count = self.rng.choice((1022, 1022, 1100))
        end = self.label()
        if count == 1022:
            self.section.reloc(BRANCH, end, 0, (branch(0, ZERO, ZERO),))
        else:
            self.section.reloc(JAL, end, 0, (jal(ZERO),))
        self.section.words(*[addi(SUM, SUM, 1)] * count)
        self.place(end)

    # frames and moves

    def add_words(self, words):
        """Adds words that belong together, of which most do. Otherwise another word is among them, one has a relocation, or
        a basic block begins there."""
        rng, which = self.rng, self.rng.randrange(10)
        begins = under = None
        if which == 0:
            slip_between(rng, words)
        elif which == 1:
            under = rng.choice([k for k, word in enumerate(words) if word & 0xFFFFF != addi(SP, SP)])
        elif which == 2:
            begins = rng.randrange(1, len(words))
            beginning = self.beginning()
        for k, word in enumerate(words):
            if k == begins:
                self.place(beginning)
            if k == under and word >> 15 & 31 == SP:
                self.section.reloc(LO12_S if is_store(word) else LO12_I, None, low_part(word), (with_low(word, 0),))
            else:
                self.section.words(word)
            self.relax()

    def beginning(self):
        """A symbol that is placed later: one to which a branch leads that isn't taken, one that others may use, or a label that
        nothing leads to."""
        rng = self.rng
        name = self.program.new_name(b'middle')
        kind = rng.choice((NO_TYPE, FUNCTION_TYPE))
        symbol = self.read.symbol(name, home=self.section, bind=rng.choice((LOCAL, LOCAL, GLOBAL, WEAK)), kind=kind)
        if rng.random() < 0.5:
            self.section.reloc(rng.choice((BRANCH, BRANCH, NONE)), symbol, 0, (branch(1, ZERO, ZERO, 8),))
        return symbol

    def use_kept(self):
        """Changes some of the registers that functions keep."""
        for register in self.rng.sample((RA, *KEPT), self.rng.randrange(1, 5)):
            self.section.words(addi(register, ZERO, self.rng.randrange(2048)))

    def keep(self):
        """Saves registers, uses them, and restores them."""
        saved = made_frame(self.rng, self.rng.random() < 0.7)
        self.add_words(saved.stores(self.rng))
        self.use_kept()
        self.add_words(saved.loads(self.rng, GOES_ON))
        self.section.words(add(SUM, SUM, self.rng.choice(KEPT)))

    def add_function(self, count):
        """The words of a function, which uses registers that it keeps."""
        saved = made_frame(self.rng, self.rng.random() < 0.7)
        self.add_words(saved.stores(self.rng))
        self.body(count)
        self.use_kept()
        self.add_words(saved.loads(self.rng, self.rng.choice([it for it in ENDINGS if it != GOES_ON])))

    def inner_function(self):
        """A function in the midst of another, and a call of it."""
        end = self.label()
        self.section.reloc(JAL, end, 0, (jal(ZERO),))
        start = self.label()
        self.add_function(0)
        self.place(end)
        self.section.reloc(JAL, start, 0, (jal(RA),))
        self.section.words(add(SUM, SUM, A0))

    def move(self):
        """Moves between a0 and a1 and registers that functions keep, of which most are pairs."""
        rng = self.rng
        registers = [rng.choice(MOVED if rng.random() < 0.9 else KEPT) for _ in range(2)]
        self.section.words(addi(A0, SUM, rng.randrange(2048)), addi(A1, SUM, rng.randrange(2048)))
        for _ in range(rng.choice((1, 1, 2))):
            words = [addi(register, it) for register, it in zip(registers, (A0, A1))]
            if rng.random() < 0.5:
                words = [addi(it, register) for register, it in zip(registers, (A0, A1))]
            rng.shuffle(words)
            if rng.random() < 0.1:
                # the first is made or not
                self.section.words(branch(rng.choice((0, 1, 4, 5)), SUM, ZERO, 8))
            self.add_words(words)
            rng.shuffle(registers)
        self.section.words(*(add(SUM, SUM, it) for it in (*registers, A0, A1)))

    # what a run may get stuck on

    def strange(self):
        """Code that no compiler makes: its parts don't belong together, or it takes an address of code for something else."""
        section, rng = self.section, self.rng
        function = self.program.named(self.read, rng.choice(self.program.functions))
        other = rng.choice((function, self.program.named(self.read, rng.choice(self.program.functions)),
                            self.program.number_symbol(self.read)[0]))
        which = rng.randrange(5)
        if which == 0:
            last = rng.choice((addi(T1, T0), lw(T1, T0), jalr(RA, T0), sw(T1, T0)))
            section.reloc(HI20, function, 0, (lui(rng.choice((T0, T0, T1, SP))),))
            section.words(*rng.choice(((), (addi(T0, T0),), (addi(T0, T0, 4),), (add(T0, ZERO, T1),))))
            section.reloc(LO12_S if is_store(last) else LO12_I, other, 0, (last,))
        elif which == 1:
            label = self.label()
            section.reloc(PCREL_HI20, other, 0, (auipc(T0),))
            section.words(*rng.choice(((), (addi(T0, T0),), (addi(T0, T0, 4),), (auipc(T0),))))
            section.reloc(PCREL_LO12_I, label, 0, (rng.choice((addi(T1, T0), lw(T1, T0), jalr(RA, T0))),))
        elif which == 2:
            temporary, to = rng.choice((ZERO, RA, T0, SP)), rng.choice((ZERO, RA, T2, SP))
            section.reloc(CALL, function, 0, (auipc(temporary), jalr(to, temporary)))
        elif which == 3:
            self.take_function(T0)
            by_halves = (addi(SP, SP, -16), sw(T0, SP), load(1, T1, SP), addi(SP, SP, 16))
            section.words(*rng.choice((by_halves, (sw(T0, SP, -4), lw(T1, SP, -4)), (auipc(T1),), (addi(SP, T0),),
                                       (add(T1, T0, T0),))))
        else:
            section.reloc(LO12_I, None, 0x1000 * rng.randrange(3), (addi(T1, rng.choice((T0, T1, SUM))),))
        section.words(*rng.choice((
            (), (), (add(SUM, SUM, T1),), (jalr(RA, T1),), (jalr(RA, T1, 4),), (branch(0, T1, ZERO, 8), NOP),
            (branch(1, T1, T0, 8), NOP), (branch(4, T1, T0, 8), NOP), (addi(A7, T1), ECALL),
            (immediate(3, T1, T1, 1), add(SUM, SUM, T1)))))

    def ways(self):
        """What may be added; each stands there as often as it weighs."""
        return (self.work, self.load_number, self.store_number, self.take_address, self.write_number, self.read_input,
                self.skip, self.jump_over, self.align, self.loop, self.call, self.call, self.call_nothing,
                self.compare, self.test_address, self.keep_address, self.keep, self.keep, self.inner_function,
                self.inner_function, self.move, self.move, self.move)

    def body(self, count):
        ways = self.ways()
        for _ in range(count):
            self.rng.choice(ways)()
        if self.rng.random() < 0.03:
            self.far()
        if self.program.is_odd and self.rng.random() < 0.15:
            self.strange()

    def make(self):
        self.add_function(self.rng.choice((1, 3, 6)))


def add_start(program):
    """`_start`, which calls functions, writes the sum and exits."""
    read, rng = program.objects[0], program.rng
    section = program.new_section(read, b'.text', PROGBITS, CODE_FLAGS)
    if rng.random() < 0.3:
        section.words(NOP, NOP)
    read.symbol(b'_start', home=section, value=len(section.content), bind=rng.choice((GLOBAL, GLOBAL, WEAK)))
    made = program.function_with(program, read, section, -1)
    section.words(*(addi(register, ZERO, rng.randrange(2048)) for register in (SUM, A0, *KEPT)))
    made.start_up()
    made.body(rng.choice((2, 5)))
    made.call()
    section.words(addi(SP, SP, -16), sw(SUM, SP), addi(A0, ZERO, 1), addi(A1, SP), addi(A2, ZERO, 4),
                  addi(A7, ZERO, WRITE_CALL), ECALL, addi(A0, SUM), *EXIT_WORDS)


def add_functions(program):
    shared = {}
    for index, (name, home) in enumerate(zip(program.functions, program.homes)):
        read = program.objects[home]
        align = program.rng.choice((1, 2, 4, 4, 4, 16, 256))
        section = shared.get(home) or program.new_section(read, b'.text', PROGBITS, CODE_FLAGS, align=align)
        if program.rng.random() < 0.5:
            shared[home] = section
        start = len(section.content)
        program.function_with(program, read, section, index).make()
        symbol = program.named(read, name)
        symbol.home, symbol.value, symbol.size, symbol.kind = section, start, len(section.content) - start, FUNCTION_TYPE


def add_dropped(program):
    """A section that isn't linked, with relocations that linked ones don't have."""
    rng = program.rng
    read = rng.choice(program.objects)
    name, flags = rng.choice(((b'.debug_info', 0), (b'.eh_frame', CONSTANT_FLAGS)))
    section = read.section(name, PROGBITS, flags)
    section.content += bytes(32)
    for offset in range(0, 32, 4):
        symbol = rng.choice((None, *read.symbols))
        for kind in (ADD32, SUB32) if rng.random() < 0.5 else (rng.choice((R_32, HI20, 60)),):
            section.relocs.append(Reloc(offset, kind, symbol, 0))


# ---- what is odd


def any_reloc(program):
    """An object, a section and a relocation."""
    found = [(read, section, reloc) for read in program.objects for section in read.sections for reloc in section.relocs]
    return program.rng.choice(found) if found else None


def odd_reloc(program, read, section, reloc):
    """Changes a relocation."""
    rng = program.rng
    which = rng.randrange(10)
    if which == 0:
        reloc.kind = rng.choice((NONE, R_32, 2, BRANCH, JAL, CALL, CALL_PLT, GOT_HI20, PCREL_HI20, PCREL_LO12_I, PCREL_LO12_S,
                                 HI20, LO12_I, LO12_S, ADD32, SUB32, ALIGN, *OF_TWO_BYTES, RELAX, 57, 192, 255))
    elif which == 1:
        reloc.offset += rng.choice((-8, -4, -2, -1, 1, 2, 4, 8, 4096))
    elif which == 2:
        reloc.addend = rng.choice((0, 1, 2, 3, 4, 8, 12, 60, 252, 253, 255, 256, 260, -1, -4, 0x7FFFFFFF, -0x80000000,
                                   reloc.addend + 4))
    elif which == 3:
        reloc.symbol = rng.choice((None, *read.symbols))
    elif which == 4:
        again = Reloc(reloc.offset, reloc.kind, reloc.symbol, reloc.addend)
        section.relocs.insert(rng.randrange(len(section.relocs) + 1), again)
    elif which == 5:
        rng.shuffle(section.relocs)
    elif which == 6 and section.kind == PROGBITS and 0 <= reloc.offset <= len(section.content) - 4:
        word, = struct.unpack_from('<I', section.content, reloc.offset)
        word = rng.choice((word ^ 1 << rng.randrange(32), rng.getrandbits(32), NOP))
        struct.pack_into('<I', section.content, reloc.offset, word)
    elif which == 7:
        other = rng.choice(section.relocs)
        reloc.offset, other.offset = other.offset, reloc.offset
    elif which == 8:
        short = Reloc(reloc.offset + rng.randrange(-3, 10), rng.choice(OF_TWO_BYTES), reloc.symbol, 0)
        section.relocs.insert(rng.randrange(len(section.relocs) + 1), short)
    else:
        section.relocs.append(Reloc(reloc.offset + rng.choice((-4, 0, 4)),
                                    rng.choice((R_32, ALIGN, CALL, RELAX, RVC_BRANCH, 99)),
                                    rng.choice((None, *read.symbols)), rng.choice((0, 4, 8, 12, 300))))


def odd_symbol(program):
    """Changes a symbol."""
    rng = program.rng
    symbol = rng.choice(rng.choice([read for read in program.objects if read.symbols]).symbols)
    which = rng.randrange(5)
    if which == 0:
        symbol.value += rng.choice((-4, 1, 2, 4, 8))
    elif which == 1:
        symbol.bind = rng.choice((LOCAL, GLOBAL, WEAK))
    elif which == 2:
        symbol.home = rng.choice((ABS, COMMON, None, *rng.choice(program.objects).sections))
    elif which == 3:
        symbol.name = rng.choice((b'_start', b'missing', b'f0', b'', b'_end'))
    else:
        symbol.value = rng.choice((0, 1, 4, 0xFFFFFFFF))


def odd_section(program):
    """Changes a section: it is dropped, cut, longer, or aligned in another way."""
    rng = program.rng
    section = rng.choice(rng.choice([read for read in program.objects if read.sections]).sections)
    which = rng.randrange(5)
    if which == 0:
        section.flags &= ~ALLOC
    elif which == 1:
        del section.content[max(0, len(section.content) - 4 * rng.randrange(1, 4)):]
    elif which == 2:
        section.align = rng.choice((0, 1, 2, 8, 16, 64, 256))
    elif which == 3:
        section.name = rng.choice((b'.eh_frame', b'.sdata', b'.text', b'.sbss.x'))
    else:
        section.content[0:0] = bytes(4 * rng.randrange(3))


def odd_halfword(program):
    """Changes a halfword of code, adds one, or leaves one out, most often in a compressed object."""
    rng = program.rng
    found = [section for read in program.objects for section in read.sections
             if is_code(section) and section.content and (read.flags & RVC or rng.random() < 0.2)]
    if not found:
        return
    content = rng.choice(found).content
    at = rng.choice((len(content), *[2 * rng.randrange(len(content) // 2) for _ in range(4)]))
    half = halves_of(rng.choice((0, SHORT_NOP, 0x9002, 0xB842, 0xA002, 0xFFFF, 0x0013, rng.getrandbits(16))))
    content[at:at + rng.choice((0, 2, 2))] = rng.choice((b'', half, half))


def odd_flags(program):
    """Says that the code of an object is compressed which isn't, or the other way round; or has an unknown flag."""
    program.rng.choice(program.objects).flags ^= program.rng.choice((RVC, RVC, RVC, RVC, RVC, RVC, TSO, 2))


def odd_branch(program):
    """A branch as far as it reaches or a bit farther, forwards or backwards."""
    rng = program.rng
    read = rng.choice(program.objects)
    section = rng.choice([it for it in read.sections if it.flags == CODE_FLAGS] or [None])
    if section is None:
        return
    if read.flags & RVC and rng.random() < 0.7:
        odd_short_way(rng, read, section)
        return
    count = rng.choice((1022, 1023, 1024))
    if rng.random() < 0.5:
        label = read.symbol(b'.Lfar', home=section, value=len(section.content) + 4 + 4 * count, bind=LOCAL)
        section.reloc(BRANCH, label, 0, (branch(0, A0, A1),))
        section.words(*[NOP] * count)
    else:
        label = read.symbol(b'.Lfar', home=section, value=len(section.content), bind=LOCAL)
        section.words(*[NOP] * count)
        section.reloc(BRANCH, label, 0, (branch(0, A0, A1),))


def odd_short_way(rng, read, section):
    """The same of a branch or jump of 2 bytes."""
    kind, word, reach = rng.choice(((RVC_BRANCH, branch(rng.choice((0, 1)), A0, ZERO), 128),
                                    (RVC_JUMP, jal(rng.choice((ZERO, RA))), 1024)))
    label = read.symbol(b'.Lfar', home=section, value=len(section.content), bind=LOCAL)
    count = reach + rng.choice((0, 1))
    is_forward = rng.random() < 0.5
    if is_forward:
        count -= 2
        label.value += 2 + 2 * count
    else:
        section.halves(*[SHORT_NOP] * count)
    section.reloc(kind, label)
    section.halves(short_form(word))
    if is_forward:
        section.halves(*[SHORT_NOP] * count)


def make_odd(program):
    for _ in range(program.rng.choice((1, 1, 1, 2, 4))):
        which = program.rng.randrange(16)
        found = any_reloc(program)
        if which < 8 and found:
            odd_reloc(program, *found)
        else:
            ways = odd_section, odd_branch, odd_symbol, odd_symbol, odd_halfword, odd_halfword, odd_halfword, odd_flags
            ways[which % 8](program)


def made_program(rng, is_odd, function_with=Function):
    """The objects of a list that is made, and what they have; by what makes a function."""
    program = Program(rng, is_odd, function_with)
    program.named(program.objects[-1], b'absolute', home=ABS, value=rng.getrandbits(32))
    program.add_shared()
    for _ in range(rng.choice((1, 3, 6))):
        program.add_numbers(rng.choice(program.objects))
    for _ in range(rng.choice((0, 1, 2))):
        program.add_table(rng.choice(program.objects))
    if rng.random() < 0.5:
        add_start(program)
        add_functions(program)
    else:
        add_functions(program)
        add_start(program)
    if rng.random() < 0.2:
        add_dropped(program)
    compress_some(rng, program.objects, is_odd)
    for read in program.objects:
        read.is_reversed = rng.random() < 0.3
    if is_odd:
        make_odd(program)
    return program


def made_list(rng, is_odd):
    """The files of a list of objects."""
    return [read.bytes() for read in made_program(rng, is_odd).objects]
