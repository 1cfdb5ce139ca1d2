"""Small lists of objects with relocations, and what a plain link makes of them or refuses (RISC-V ELF psABI, "Relocations")."""
from object_items import OF_TWO_BYTES
from zcld_tools.elf import (ABS, ADD32, ALIGN, BRANCH, CALL, CALL_PLT, COMMON, CONSTANT_FLAGS, DATA_FLAGS, GOT_HI20, HI20,
                            JAL, LO12_I, LO12_S, LOCAL, NOBITS, PCREL_HI20, PCREL_LO12_I, PCREL_LO12_S, PROGBITS, RELAX,
                            R_32, SUB32, WEAK)
from zcld_tools.instructions import (A0, A1, A2, A7, CALL_WORDS, ECALL, EXIT_WORDS, NOP, RA, READ_CALL, RET, SP, T0,
                                     WRITE_CALL, ZERO, add, addi, auipc, branch, immediate, jal, jalr, lui, lw, sw)
from zcld_tools.objects import Written, object_with

# ---- programs


def hello():
    """A function in another object writes `hi`, and the exit has the status 0."""
    start, text = object_with()
    text.reloc(CALL, start.symbol(b'main'), 0, CALL_WORDS)
    text.words(*EXIT_WORDS)
    main, text = object_with(addi(SP, SP, -16), sw(RA, SP, 12), addi(A0, ZERO, 1), name=b'main')
    message = main.section(b'.rodata', PROGBITS, CONSTANT_FLAGS, align=1)
    message.content += b'hi\n'
    symbol = main.symbol(b'msg', home=message, bind=LOCAL)
    text.reloc(HI20, symbol, 0, (lui(A1),))
    text.reloc(LO12_I, symbol, 0, (addi(A1, A1),))
    text.words(addi(A2, ZERO, 3), addi(A7, ZERO, WRITE_CALL), ECALL, addi(A0, ZERO, 0), lw(RA, SP, 12), addi(SP, SP, 16),
               RET)
    return [start.bytes(), main.bytes()]


def echo():
    """Up to four bytes of the input are written."""
    made, text = object_with(addi(A0, ZERO, 0))
    buffer = made.section(b'.bss', NOBITS, DATA_FLAGS, size=4)
    text.reloc(HI20, made.symbol(b'buffer', home=buffer, bind=LOCAL), 0, (lui(A1),))
    text.words(addi(A2, ZERO, 4), addi(A7, ZERO, READ_CALL), ECALL, addi(A2, A0), addi(A0, ZERO, 1), addi(A7, ZERO, WRITE_CALL),
               ECALL, addi(A0, ZERO, 0), *EXIT_WORDS)
    return [made.bytes()]


def jump_table():
    """An exit with 7, 1,100 words that are never reached, and 20 jumps to the exit, of which the first is `_start`."""
    made = Written()
    text = made.section(b'.text')
    text.words(addi(A0, ZERO, 7), *EXIT_WORDS, *[0x05D54513] * 1100)
    made.symbol(b'_start', home=text, value=len(text.content))
    for _ in range(20):
        text.words(jal(ZERO, -len(text.content)))
    return [made.bytes()]


def linker_names():
    """Words of data that hold the linker's names are written; and those words, worked out by hand.

    The data of both objects: 3 and 14 bytes that are read only, from 0x100000 on; the five words, from 0x100020 on; 5 bytes of
    small data and 1 more, from 0x100040 on; 6 bytes of small zeroed data, from 0x100050 on, and 20 more, from 0x100060 on; 7
    of zeroed data, from 0x100080 on; and 9 that are common, from 0x100090 on. The stack ends at 0x10000000.
    """
    made, text = object_with()
    data = made.section(b'.data', PROGBITS, DATA_FLAGS)
    text.reloc(HI20, made.symbol(b'words', home=data, bind=LOCAL), 0, (lui(A1),))
    text.reloc(LO12_I, made.symbols[-1], 0, (addi(A1, A1),))
    text.words(addi(A2, ZERO, 20), addi(A0, ZERO, 1), addi(A7, ZERO, WRITE_CALL), ECALL, addi(A0, ZERO, 0), *EXIT_WORDS)
    rows = ((b'__global_pointer$', 0, 0x100840), (b'__bss_start', 0, 0x100050), (b'_end', 0, 0x100099),
            (b'__stack_top', 0, 0x10000000), (b'_end', 7, 0x1000A0))
    for name, addend, _ in rows:
        data.reloc(R_32, made.symbol(name), addend, (0,))
    made.symbol(b'common', home=COMMON, value=4, size=9)
    second = Written()
    for it, name, kind, flags, align, size in (
            (made, b'.rodata', PROGBITS, CONSTANT_FLAGS, 1, 3), (made, b'.sdata', PROGBITS, DATA_FLAGS, 4, 5),
            (made, b'.sbss', NOBITS, DATA_FLAGS, 4, 6), (made, b'.bss', NOBITS, DATA_FLAGS, 8, 7),
            (second, b'.rodata', PROGBITS, CONSTANT_FLAGS, 1, 14), (second, b'.sdata.more', PROGBITS, DATA_FLAGS, 1, 1),
            (second, b'.sbss.more', NOBITS, DATA_FLAGS, 16, 20)):
        section = it.section(name, kind, flags, align, size)
        section.content += bytes(size if kind == PROGBITS else 0)
    return [made.bytes(), second.bytes()], [word for _, _, word in rows]


def calls_of_sum():
    """Two calls of `sum(0)`, which `examples/sections.c` has, and the function that this calls, which adds 30 to its 7. The
    second call adds the 2 that is constant and the 1 that the first left in a common symbol: the status is 40."""
    made, text = object_with()
    called = made.symbol(b'sum')
    for _ in range(2):
        text.words(addi(A0, ZERO, 0))
        text.reloc(CALL, called, 0, CALL_WORDS)
    text.words(*EXIT_WORDS)
    made.symbol(b'elsewhere', home=text, value=text.words(addi(A0, A0, 30), RET))
    return made.bytes()


# ---- what is refused, with the line


def refused_one(kind, words=(NOP,), addend=0, offset=0, value=0, home=None, bind=LOCAL, behind=8):
    """An object with one relocation of code, by a symbol at a value in the code or of another home."""
    made, text = object_with(*words, *[NOP] * behind)
    symbol = made.symbol(b'it', home=text if home is None else home, value=value, bind=bind)
    text.reloc(kind, symbol, addend)
    text.relocs[-1].offset = offset
    return made


def refused_data(kind, offset=0, size=8):
    """An object with one relocation of data."""
    return data_with(size, (offset, kind))


def data_with(size, *rows):
    """An object with relocations of data: the offset and the type."""
    made, _ = object_with(*EXIT_WORDS)
    data = made.section(b'.data', PROGBITS, DATA_FLAGS)
    data.content += bytes(size)
    for offset, kind in rows:
        data.reloc(kind, made.symbols[0])
        data.relocs[-1].offset = offset
    return made


def with_relocs(words, *rows):
    """An object of code with relocations: the offset, the type, the value of a local symbol (ALIGN has none) and the addend."""
    made, text = object_with(*words)
    for offset, kind, value, addend in rows:
        symbol = None if kind == ALIGN else made.symbol(b'.L%d' % len(made.symbols), home=text, value=value, bind=LOCAL)
        text.reloc(kind, symbol, addend)
        text.relocs[-1].offset = offset
    return made


def dropped():
    """An object that names a place in a section that is dropped."""
    made, text = object_with()
    debug = made.section(b'.debug', PROGBITS, 0)
    debug.content += bytes(4)
    text.reloc(HI20, made.symbol(b'it', home=debug, bind=LOCAL), 0, (lui(T0),))
    return made


def of_two_sections():
    """An object with a bad target in its code and a bad type in its data, whose relocations come first."""
    made = refused_data(ADD32)
    made.sections[0].reloc(HI20, made.symbols[0], 2, (lui(T0),))
    made.is_reversed = True
    return made


OTHER_BASE = (auipc(RA), jalr(RA, T0))
PAIR = (auipc(T0), addi(T0, T0))
BEQ = branch(0, A0, A1)


def far(count, is_back=False):
    """A branch over this many words."""
    words = (*[NOP] * count, BEQ) if is_back else (BEQ, *[NOP] * count, NOP)
    return with_relocs(words, (4 * count, BRANCH, 0, 0) if is_back else (0, BRANCH, 4 * count + 4, 0))


def other(made):
    """The object with `_start` under another name."""
    made.symbols[0].name = b'other'
    return made


def start_at(made, value, home=None):
    made.symbols[0].value = value
    made.symbols[0].home = made.symbols[0].home if home is None else home
    return made


def of_kind():
    """RelocKind."""
    unknown = (2, 15, GOT_HI20, 21, 29, ADD32, SUB32, 42, *OF_TWO_BYTES, 46, 57, 255)
    return ([(f'type {kind}', refused_one(kind)) for kind in unknown]
            + [(f'type {kind} in data', refused_data(kind)) for kind in (HI20, CALL, ALIGN, ADD32, *OF_TWO_BYTES)])


def beside_two_bytes():
    """RelocKind: fields beside the 2 bytes of a type that only compressed objects may have, and overlaps of which that entry is the
    first."""
    rows = []
    for kind in OF_TWO_BYTES:
        rows += [
            (f'type {kind} over the end', refused_one(kind, offset=35)), (f'type {kind} far out', refused_one(kind, offset=-1)),
            (f'type {kind} twice', with_relocs((NOP,), (2, kind, 0, 0), (2, kind, 0, 0))),
            (f'type {kind} before a word', with_relocs((NOP, lui(T0)), (4, HI20, 0, 0), (2, kind, 0, 0))),
            (f'type {kind} behind a word', with_relocs((lui(T0), NOP), (0, HI20, 0, 0), (4, kind, 0, 0))),
            (f'type {kind} behind a call', with_relocs((*CALL_WORDS, NOP), (0, CALL, 0, 0), (8, kind, 0, 0))),
            (f'type {kind} behind ALIGN', with_relocs((NOP,) * 4, (0, ALIGN, 0, 12), (12, kind, 0, 0))),
            (f'type {kind} with a hint', with_relocs((NOP,), (0, RELAX, 0, 0), (0, kind, 0, 0))),
            (f'type {kind} far out, and a word at 0', with_relocs((lui(T0),), (0, HI20, 0, 0), (-1, kind, 0, 0))),
            (f'type {kind} in a word, as the first', with_relocs((lui(T0),), (2, kind, 0, 0), (0, HI20, 0, 0))),
            (f'type {kind} before a word of data', data_with(8, (3, R_32), (1, kind))),
            (f'type {kind} behind a word of data', data_with(8, (1, R_32), (5, kind))),
            (f'type {kind} in a word of data, as the first', data_with(8, (2, kind), (0, R_32))),
        ]
    return rows


def over_two_bytes():
    """RelocPlace: the first entry's field overlaps the 2 bytes of a type that only compressed objects may have."""
    rows = []
    for kind in OF_TWO_BYTES:
        rows += [
            (f'type {kind} at a word', with_relocs((lui(T0),), (0, HI20, 0, 0), (0, kind, 0, 0))),
            (f'type {kind} at the end of a word', with_relocs((lui(T0), NOP), (0, HI20, 0, 0), (3, kind, 0, 0))),
            (f'type {kind} from before a word', with_relocs((NOP, lui(T0)), (4, HI20, 0, 0), (3, kind, 0, 0))),
            (f'type {kind} at the end of a call', with_relocs((*CALL_WORDS, NOP), (0, CALL, 0, 0), (6, kind, 0, 0))),
            (f'type {kind} at the end of ALIGN', with_relocs((NOP,) * 4, (0, ALIGN, 0, 12), (10, kind, 0, 0))),
            (f'type {kind} in a word of data', data_with(8, (0, R_32), (3, kind))),
            (f'type {kind} from before a word of data', data_with(8, (1, R_32), (0, kind))),
        ]
    return rows


def of_place():
    """RelocPlace."""
    return [
        ('a word over the end', refused_one(R_32, offset=36)),
        ('a word in part over the end', refused_data(R_32, offset=5)),
        ('a word far out', refused_one(R_32, offset=0xFFFFFFFC)),
        ('a call over the end', refused_one(CALL, offset=32)),
        ('an odd offset', refused_one(R_32, offset=2)),
        ('lui for a branch', refused_one(BRANCH, (lui(T0),))), ('a branch for jal', refused_one(JAL, (BEQ,))),
        ('auipc for HI20', refused_one(HI20, (auipc(T0),))), ('lui for PCREL_HI20', refused_one(PCREL_HI20, (lui(T0),))),
        ('a store for LO12_I', refused_one(LO12_I, (sw(T0, T0),))), ('a load for LO12_S', refused_one(LO12_S, (lw(T0, T0),))),
        ('xori for LO12_I', refused_one(LO12_I, (immediate(4, T0, T0),))),
        ('lui for PCREL_LO12_I', with_relocs((auipc(T0), lui(T0)), (0, PCREL_HI20, 0, 0), (4, PCREL_LO12_I, 0, 0))),
        ('addi for PCREL_LO12_S', with_relocs(PAIR, (0, PCREL_HI20, 0, 0), (4, PCREL_LO12_S, 0, 0))),
        ('a call of two nops', refused_one(CALL)), ('a call with another base', refused_one(CALL_PLT, OTHER_BASE)),
        ('two entries for a word', with_relocs((lui(T0),), (0, HI20, 0, 0), (0, HI20, 0, 0))),
        ('an entry in a call', with_relocs(CALL_WORDS, (0, CALL, 0, 0), (4, LO12_I, 0, 0))),
        ('an entry in ALIGN', with_relocs((NOP,) * 4, (0, ALIGN, 0, 12), (8, R_32, 0, 0))),
        ('ALIGN with 0', refused_one(ALIGN)), ('ALIGN with 6', refused_one(ALIGN, addend=6)),
        ('ALIGN with 256', refused_one(ALIGN, addend=256, behind=80)), ('ALIGN with -4', refused_one(ALIGN, addend=-4)),
    ]


def of_pair():
    """LoPair."""
    return [
        ('an addend', with_relocs(PAIR, (0, PCREL_HI20, 0, 0), (4, PCREL_LO12_I, 0, 4))),
        ('no upper part', with_relocs(PAIR, (4, PCREL_LO12_I, 0, 0))),
        ('another place', with_relocs(PAIR, (0, PCREL_HI20, 0, 0), (4, PCREL_LO12_I, 4, 0))),
        ('an absolute upper part', with_relocs((lui(T0), addi(T0, T0)), (0, HI20, 0, 0), (4, PCREL_LO12_I, 0, 0))),
        ('a number', refused_one(PCREL_LO12_I, (addi(T0, T0),), home=ABS)),
    ]


def of_target():
    """BadTarget."""
    return [
        ('before the code', refused_one(HI20, (lui(T0),), addend=-4)),
        ('after the code', refused_one(HI20, (lui(T0),), addend=40)),
        ('in a word', refused_one(HI20, (lui(T0),), value=2)), ('in a word, by the addend', refused_one(R_32, addend=2)),
        ('in a call', with_relocs((*CALL_WORDS, NOP), (0, CALL, 8, 0), (8, R_32, 4, 0))),
        ('jal into a call', with_relocs((*CALL_WORDS, jal(ZERO)), (0, CALL, 8, 0), (8, JAL, 4, 0))),
        ('in a padding', with_relocs((NOP,) * 4, (0, ALIGN, 0, 12), (12, R_32, 8, 0))),
        ('a section that is dropped', dropped()),
        ('a branch to a number', refused_one(BRANCH, (BEQ,), home=ABS)),
        ('jal to a number', refused_one(JAL, (jal(RA),), home=ABS)),
        ('a call of a number', refused_one(CALL, CALL_WORDS, home=ABS)),
        ('a call of a common symbol', refused_one(CALL, CALL_WORDS, home=COMMON, value=4, bind=1)),
    ]


def of_range():
    """Range."""
    return [('4,096 forwards', far(1023)), ('4,100 backwards', far(1025, True)),
            ('a padding that grows', with_relocs((branch(0, A0, A1, 4092), *[NOP] * 1030), (4, ALIGN, 0, 8)))]


def of_entry():
    """NoEntry."""
    data = refused_data(R_32)
    data.symbols[0].home = data.sections[1]
    ends = [object_with(*EXIT_WORDS)[0] for _ in range(4)]
    return [('no name', other(ends[0])), ('data', data), ('a number', start_at(ends[1], 0, ABS)),
            ('the end', start_at(ends[2], 8)), ('in a word', start_at(ends[3], 2)),
            ('in a call', start_at(with_relocs((*CALL_WORDS, NOP), (0, CALL, 8, 0)), 4))]


def in_order():
    """Lists with several faults, and the line of the first."""
    kind, place, target = refused_one(GOT_HI20), refused_one(BRANCH), refused_one(HI20, (lui(T0),), value=2)
    missing, _ = object_with(*EXIT_WORDS, name=b'g')
    missing.sections[0].reloc(R_32, missing.symbol(b'nothing'))
    missing.sections[0].relocs[-1].offset = 0
    return [
        ('a type before its place', [refused_one(GOT_HI20, offset=3)], '0 11 RelocKind'),
        ('entries in their order', [with_relocs((lui(T0), NOP), (0, HI20, 2, 0), (4, GOT_HI20, 0, 0))], '0 14 BadTarget'),
        ('entries in their order, not by offset', [with_relocs((lui(T0), NOP), (4, BRANCH, 0, 0), (0, GOT_HI20, 0, 0))],
         '0 12 RelocPlace'),
        ('an overlap, at the first of both',
         [with_relocs((lui(T0), NOP), (0, HI20, 0, 0), (4, GOT_HI20, 0, 0), (0, HI20, 0, 0))], '0 12 RelocPlace'),
        ('an overlap, at the second of both',
         [with_relocs((*CALL_WORDS, NOP), (4, LO12_I, 0, 0), (8, GOT_HI20, 0, 0), (0, CALL, 0, 0))], '0 12 RelocPlace'),
        ('a pair before its target', [refused_one(PCREL_LO12_I, (addi(T0, T0),), value=2)], '0 13 LoPair'),
        ('a place before a pair', [refused_one(PCREL_LO12_I, (lui(T0),), value=2, addend=4)], '0 12 RelocPlace'),
        ('sections in their order', [of_two_sections()], '0 14 BadTarget'),
        ('objects in their order', [target, other(refused_one(GOT_HI20))], '0 14 BadTarget'),
        ('the second object', [object_with(*EXIT_WORDS)[0], other(refused_one(GOT_HI20))], '1 11 RelocKind'),
        ('a name without definition before a type', [kind, missing], '1 10 Undefined nothing'),
        ('two definitions before a type', [kind, place], '1 9 Duplicate _start'),
        ('a bad symbol before a type', [kind, other(refused_one(R_32, value=100))], '1 8 BadSymbol'),
        ('a type before no entry', [other(refused_one(GOT_HI20))], '0 11 RelocKind'),
        ('no entry before a far branch', [other(far(1023))], '0 16 NoEntry'),
        ('a target before a far branch', [far(1023), other(refused_one(HI20, (lui(T0),), value=2))], '1 14 BadTarget'),
        ('a far branch of the second object', [object_with(*EXIT_WORDS)[0], other(far(1023))], '1 15 Range'),
    ]


def refusals():
    """Each list that is refused: what it is, its files, and the line."""
    for fault, make in (('11 RelocKind', of_kind), ('11 RelocKind', beside_two_bytes), ('12 RelocPlace', of_place),
                        ('12 RelocPlace', over_two_bytes), ('13 LoPair', of_pair), ('14 BadTarget', of_target),
                        ('15 Range', of_range), ('16 NoEntry', of_entry)):
        for what, made in make():
            yield f'{fault}, {what}', [made.bytes()], f'refused 0 {fault}'
    for what, objects, line in in_order():
        yield what, [made.bytes() for made in objects], f'refused {line}'


# ---- what is linked though it is odd


def absent():
    """A weak name without definition in each of its uses."""
    made, text = object_with(jal(ZERO, 24))
    symbol = made.symbol(b'missing', bind=WEAK)
    for kind, words in ((BRANCH, (BEQ,)), (JAL, (jal(RA),)), (CALL, CALL_WORDS), (R_32, (0xFFFFFFFF,))):
        text.reloc(kind, symbol, 0, words)
    text.reloc(HI20, symbol, 0, (lui(A0),))
    text.reloc(LO12_I, symbol, 5, (addi(A0, A0),))
    text.words(*EXIT_WORDS)
    return made


def words():
    """Words of code that have a number, the address of data and those of code."""
    made, text = object_with(jal(ZERO, 20))
    data = made.section(b'.data', PROGBITS, DATA_FLAGS)
    data.content += bytes(8)
    held = made.symbol(b'held', home=data, bind=LOCAL)
    for symbol, addend in ((None, 7), (held, 4), (made.symbols[0], 0), (made.symbols[0], 32)):
        text.reloc(R_32, symbol, addend, (0xFFFFFFFF,))
    text.words(addi(A0, ZERO, 6), *EXIT_WORDS)
    return made


def padded():
    """A loop with a padding in it, whose branch has no relocation."""
    made, text = object_with(NOP, addi(T0, ZERO, 3), addi(T0, T0, -1))
    text.align = 64
    text.reloc(ALIGN, None, 60, [0xFFFFFFFF] * 15)
    text.words(branch(1, T0, ZERO, -64), addi(A0, ZERO, 9), *EXIT_WORDS)
    return made


def names():
    """Names that several objects define: a global definition counts before common, that before weak ones, and the first of
    these; a local one in its object alone; and that of an object before the linker's."""
    first, text = object_with(addi(A0, ZERO, 0))
    for name, value in ((b'strong', 1), (b'weak', 4)):
        first.symbol(name, home=ABS, value=value, bind=WEAK)
    first.symbol(b'common', home=COMMON, value=4, size=4)
    first.symbol(b'_end')
    for symbol in first.symbols[1:3] + first.symbols[4:]:
        text.reloc(HI20, symbol, 0, (lui(T0),))
        text.reloc(LO12_I, symbol, 0, (addi(T0, T0),))
        text.words(add(A0, A0, T0))
    text.reloc(HI20, first.symbols[3], 0, (lui(T0),))
    text.reloc(LO12_I, first.symbols[3], 0, (lw(T0, T0),))
    text.words(add(A0, A0, T0), *EXIT_WORDS)
    second, _ = object_with(*EXIT_WORDS, name=b'other')
    second.symbol(b'strong', home=ABS, value=9)
    second.symbol(b'strong', home=ABS, value=30, bind=LOCAL)
    second.symbol(b'weak', home=ABS, value=70, bind=WEAK)
    second.symbol(b'common', home=ABS, value=2, bind=WEAK)
    second.symbol(b'_end', home=ABS, value=20)
    return [first, second]


def hints():
    """RELAX anywhere, also out of the section."""
    made, text = object_with(addi(A0, ZERO, 4), *EXIT_WORDS)
    for offset in (0, 1, 1000):
        text.reloc(RELAX, made.symbols[0], 99)
        text.relocs[-1].offset = offset
    return made


def accepted():
    """What is linked: what it is, its files, and the status of its run, or none if it doesn't end."""
    return [('as far as a branch reaches', [far(1022).bytes()], None),
            ('as far back as it reaches', [far(1024, True).bytes()], None),
            ('a weak name without definition', [absent().bytes()], 5), ('a padding', [padded().bytes()], 9),
            ('words of code', [words().bytes()], 6), ('hints', [hints().bytes()], 4),
            ('names', [made.bytes() for made in names()], 33)]
