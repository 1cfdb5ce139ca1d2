"""Small lists of objects whose code is compressed, alone and together with others, and what the links make of them or refuse (RISC-V
unprivileged manual, "C Extension for Compressed Instructions"; RISC-V ELF psABI, "Relocations")."""
import itertools
from typing import NamedTuple

from assembled import short_code, with_distance
from halfwords import short_form
from zcld_tools.elf import (ABS, ALIGN, BRANCH, CALL, CALL_PLT, DATA_FLAGS, HI20, JAL, LO12_I, LO12_S, LOCAL, NONE,
                            PCREL_HI20, PCREL_LO12_I, PCREL_LO12_S, PROGBITS, RELAX, RVC_BRANCH, RVC_JUMP, R_32, WEAK)
from zcld_tools.instructions import (A0, A1, CALL_WORDS, EBREAK, EXIT_WORDS, NOP, RA, RET, S0, S1, SHORT_NOP, SP, T0, T1,
                                     T2, ZERO, add, addi, auipc, branch, halves_of, jal, jalr, lui, lw, sw, words_of)
from zcld_tools.objects import compressed_with, object_with

# A branch of a0 against 0 and jumps, which lead nowhere yet.
BEQZ, BNEZ, J, CALL_OF_RA = branch(0, A0, ZERO), branch(1, A0, ZERO), jal(ZERO), jal(RA)
C_BEQZ, C_BNEZ, C_J, C_JAL = map(short_form, (BEQZ, BNEZ, J, CALL_OF_RA))
# A shift of t0 by 0, which is a hint: no other halfword does the same.
HINT = 0x0282
# How most programs here end, with their status.
STATUS = 5
EXIT = short_code(addi(A0, ZERO, STATUS), *EXIT_WORDS)


def nops(count):
    return halves_of(*[SHORT_NOP] * count)


# ---- to the byte


def written():
    """What it is, code, and the bytes that `zc` writes for it. `plain` copies it."""
    moves = bytes.fromhex('ae84' '2a84')
    return (
        ('nothing', b'', ''), ('two moves', moves, '26ac'),
        ('two moves, of which one is a word', moves[:2] + words_of(addi(S0, A0)), '26ac'),
        ('two moves as sums in words', words_of(add(S1, ZERO, A1), add(S0, ZERO, A0)), 'ae84' '2a84'),
        ('two moves, of which one is a sum in a word', moves[:2] + words_of(add(S0, A0, ZERO)), 'ae84' '2a84'),
        ('a push', bytes.fromhex('4111' '26c6' '22c4' '06c2'), '62b8'),
        ('a push with a word', bytes.fromhex('4111') + words_of(sw(S1, SP, 12)) + bytes.fromhex('22c4' '06c2'), '62b8'),
        ('a sum in a word', words_of(add(S0, S1, S0)), '2694'), ('an upper part', words_of(lui(T0, 64)), 'b7020400'),
        ('0 more, which is a copy', bytes.fromhex('0104'), '2284'),
        ('a lower stack pointer', bytes.fromhex('7d71' '3971'), '4111' '3971'),
        ('a shift by 0', halves_of(HINT), '93920200'), ('a copy to x0', bytes.fromhex('2a80'), '13000500'),
        ('a sum to x0', bytes.fromhex('2a90'), '13000500'), ('1 more in x0', bytes.fromhex('0500'), '13001000'),
        ('a number for x0', bytes.fromhex('7d50'), '1300f0ff'), ('an upper part for x0', bytes.fromhex('7d70'), '37f0ffff'))


def sections():
    """An object with sections of 2, 6, 10 and 2 bytes; its text by `plain`, where each begins at a multiple of 4; and its text by
    `zc`."""
    made, text = compressed_with(nops(1))
    for name, code in ((b'.text.b', nops(3)), (b'.text.c', EXIT), (b'.text.d', nops(1))):
        text = made.section(name, align=2)
        text.content += code
        if code is EXIT:
            made.symbols[0].home = text
    parts = nops(1), nops(3), EXIT, nops(1)
    return made, b''.join(part + bytes(-len(part) % 4) for part in parts)[:-2], b''.join(parts)


def aligned(addend):
    """An object with a padding between instructions, and the text that both links make of it. What is in the padding is no
    instruction."""
    before = nops(addend // 2 % 4)
    made, text = compressed_with(before)
    text.reloc(ALIGN, None, addend, halves=[0xFFFF] * (addend // 2))
    text.content += EXIT
    size = -len(before) % (1 << addend.bit_length())
    return made, before + nops(size % 4 // 2) + words_of(*[NOP] * (size // 4)) + EXIT


# ---- how far branches and jumps of 2 bytes lead


class Reach(NamedTuple):
    """A branch or jump: the type of its relocation, its word, what makes it go, over how many halfwords it leads on and back at
    most, and its bytes then."""

    kind: int
    word: int
    before: bytes
    on: int
    back: int
    bytes_on: str
    bytes_back: str


REACHES = {'c.beqz': Reach(RVC_BRANCH, BEQZ, short_code(addi(A0, ZERO)), 126, 128, '7dcd', '01d1'),
           'c.bnez': Reach(RVC_BRANCH, BNEZ, short_code(addi(A0, ZERO, 1)), 126, 128, '7ded', '01f1'),
           'c.j': Reach(RVC_JUMP, J, b'', 1022, 1024, 'fdaf', '01b0'),
           'c.jal': Reach(RVC_JUMP, CALL_OF_RA, b'', 1022, 1024, 'fd2f', '0130')}


def labelled(made, text, at):
    """A label in code."""
    return made.symbol(b'.L%d' % len(made.symbols), home=text, value=at, bind=LOCAL)


def over(reach, count):
    """A branch or jump over this many halfwords, under its relocation; and where it is."""
    made, text = compressed_with(reach.before)
    target = labelled(made, text, len(reach.before) + 2 + 2 * count)
    at = text.reloc(reach.kind, target, 0, halves=(short_form(reach.word),))
    text.content += nops(count) + EXIT
    return made, at


def back_over(reach, count):
    """The same back over this many halfwords, of which the first are the exit. The program begins after them."""
    code = EXIT + nops(count - len(EXIT + reach.before) // 2)
    made, text = compressed_with(code + reach.before)
    made.symbols[0].value = len(code)
    return made, text.reloc(reach.kind, labelled(made, text, 0), 0, halves=(short_form(reach.word),))


def over_padding(reach, first, count):
    """The same without a relocation, over this many halfwords and a padding of 4 bytes that takes 6, after this many halfwords."""
    made, text = compressed_with(nops(first) + reach.before)
    text.content += short_code(with_distance(reach.word, 2 + 2 * count + 4)) + nops(count)
    text.reloc(ALIGN, None, 4, halves=[SHORT_NOP] * 2)
    text.content += EXIT
    return made


def over_hints(reach, count):
    """The same over this many halfwords that `zc` writes as words."""
    made, text = compressed_with(reach.before + short_code(with_distance(reach.word, 2 + 2 * count)))
    text.halves(*[HINT] * count)
    text.content += EXIT
    return made


def to_another(count):
    """A jump to a function of another object, over this many halfwords."""
    first, text = compressed_with()
    text.reloc(RVC_JUMP, first.symbol(b'function'), 0, halves=(C_J,))
    text.content += nops(count)
    second, _ = compressed_with(EXIT, b'function')
    return [first.bytes(), second.bytes()]


def hinted():
    """What it is, the object, and what `zc` writes for its branch or jump: in 2 bytes as long as it reaches over the words."""
    beqz, jump = REACHES['c.beqz'], REACHES['c.j']
    return (('c.beqz over 63 hints', over_hints(beqz, 63), beqz.before + bytes.fromhex('7dcd')),
            ('c.beqz over 64 hints', over_hints(beqz, 64), beqz.before + words_of(branch(0, A0, ZERO, 260))),
            ('c.j over 511 hints', over_hints(jump, 511), bytes.fromhex('fdaf')),
            ('c.j over 512 hints', over_hints(jump, 512), words_of(jal(ZERO, 2052))))


# ---- what is linked, and how its run ends


def each_type():
    """Each type of relocation at an offset that is no multiple of 4."""
    made, text = compressed_with(nops(1))
    data = made.section(b'.data', PROGBITS, DATA_FLAGS)
    data.words(STATUS - 2, 0)
    held, function = made.symbol(b'held', home=data, bind=LOCAL), made.symbol(b'function', home=text)
    text.reloc(HI20, held, 4, (lui(T0),))
    text.reloc(LO12_I, held, 4, (addi(T1, T0),))
    text.reloc(LO12_S, held, 4, (sw(T1, T0),))
    for kind, last in ((PCREL_LO12_I, lw(A0, T2)), (PCREL_LO12_S, sw(A0, T2))):
        high = labelled(made, text, len(text.content))
        text.reloc(PCREL_HI20, held, 0, (auipc(T2),))
        text.reloc(kind, high, 0, (last,))
    for kind in (CALL, CALL_PLT):
        text.reloc(kind, function, 0, CALL_WORDS)
    for kind, words, halves in ((BRANCH, (branch(0, ZERO, ZERO),), ()), (JAL, (J,), ()), (RVC_JUMP, (), (C_J,)),
                                (RVC_BRANCH, (), (C_BNEZ,))):
        label = labelled(made, text, 0)
        text.reloc(kind, label, 0, words, halves)
        text.reloc(R_32, made.symbols[0], 0, (0,))
        label.value = len(text.content)
    text.reloc(ALIGN, None, 6, halves=[0xFFFF] * 3)
    for kind in (NONE, RELAX):
        text.reloc(kind, None)
        text.relocs[-1].offset = 1
    text.content += short_code(*EXIT_WORDS)
    function.value = len(text.content)
    text.content += short_code(addi(A0, A0, 1), RET)
    return made


def absent():
    """A branch and jumps of 2 bytes to a weak name without definition, over which a jump leads."""
    made, text = compressed_with(short_code(jal(ZERO, 8)))
    symbol = made.symbol(b'missing', bind=WEAK)
    for kind, half in ((RVC_BRANCH, C_BEQZ), (RVC_JUMP, C_J), (RVC_JUMP, C_JAL)):
        text.reloc(kind, symbol, 0, halves=(half,))
    text.content += EXIT
    return made


# Programs by hand: what it is, the code in halfwords and words, its relocations, and the status, which is worked out by the
# manual. A relocation has an offset, a type, the offset of the label that it names, if it names one, and an addend.
BY_HAND = (
    ('c.li', '450d 05d00893 00000073', (), 3),
    ('a loop with c.add and c.bnez', '4501 4595 952e 15fd fdf5 05d00893 00000073', (), 15),
    ('c.jal and a function that keeps ra', '2029 05d00893 00000073 1141 c606 4515 40b2 0141 8082', (), 5),
    ('c.lbu, c.not and c.zext.b', '001007b7 83e8 9d75 9d61 05d00893 00000073', (), 0x5B),
    ('c.lw, c.sw and c.lbu', '001007b7 43cc c38c 83c8 05d00893 00000073', (), 6),
    ('a branch of 4 bytes behind one of 2', '0001 00000463 0000 0000 450d 05d00893 00000073', (), 3),
    ('hints', '450d 4015 0501 802e 0005 05d00893 00000073', (), 3),
    ('a padding of 2 bytes', '450d 0001 05d00893 00000073', ((2, ALIGN, None, 2),), 3),
    ('a padding of 6 bytes', '450d 0000 0000 0000 05d00893 00000073', ((2, ALIGN, None, 6),), 3),
    ('c.j over a halfword', 'a001 0000 450d 05d00893 00000073', ((0, RVC_JUMP, 4, 0),), 3),
    ('c.beqz over a halfword', '4501 c101 0000 450d 05d00893 00000073', ((2, RVC_BRANCH, 6, 0),), 3),
    ('c.jalr to an address', '000007b7 00078793 9782 05d00893 00000073 450d 8082', ((0, HI20, 18, 0), (4, LO12_I, 18, 0)), 3))
# What the programs by hand find at the start of data.
HELD = bytes((1, 2, 3, 0xA4, 5, 6, 7, 8))


def bytes_of(digits):
    """The bytes of halfwords and words in hexadecimal."""
    return b''.join(int(it, 16).to_bytes(len(it) // 2, 'little') for it in digits.split())


def by_hand():
    """What it is, the files, and the status of the run."""
    for what, code, relocs, status in BY_HAND:
        made = with_relocs(bytes_of(code), *relocs)
        made.section(b'.data', PROGBITS, DATA_FLAGS).content += HELD
        yield what, [made.bytes()], status


def calls():
    """The same of calls of a function of another object, in 8 bytes and by one jump. Each object is compressed or not, and the
    function isn't the first thing in its section."""
    for is_far, *which in itertools.product((False, True), repeat=3):
        first, second = (Part(name, is_short) for name, is_short in zip((b'_start', b'function'), which))
        if is_far:
            first.call(b'function')
        else:
            first.lead(JAL, CALL_OF_RA, first.made.symbol(b'function'))
        first.add(addi(A0, A0, 1), *EXIT_WORDS)
        second.add(EBREAK)
        second.made.symbols[0].value = len(second.text.content)
        second.add(addi(A0, ZERO, 2), RET)
        yield f'{"a call" if is_far else "a jump"}, compressed {which}', [it.made.bytes() for it in (first, second)], 3


def accepted():
    """What it is, the files, and the status of the run."""
    yield from by_hand()
    yield from calls()
    for name, reach in REACHES.items():
        yield f'{name} as far as it reaches', [over(reach, reach.on)[0].bytes()], STATUS
        yield f'{name} as far back as it reaches', [back_over(reach, reach.back)[0].bytes()], STATUS
    yield 'c.beqz over a padding', [over_padding(REACHES['c.beqz'], 0, 123).bytes()], STATUS
    yield 'c.j over a padding', [over_padding(REACHES['c.j'], 1, 1019).bytes()], STATUS
    yield 'a jump to another object', to_another(1021), STATUS
    yield 'each type of relocation', [each_type().bytes()], STATUS
    yield 'a weak name without definition', [absent().bytes()], STATUS


def stuck():
    """What it is, an object that both links take, at which offset `trace` of it is stuck, and the number of why."""
    halves = 0x0000, 0x9002, 0x2000, 0x6000, 0x8C60, 0x9C01, 0x9065, 0xA002, 0xA0FE, 0xAC22, 0xB832, 0xBE02
    rows = [(f'the halfword {half:04x}', compressed_with(halves_of(half) + EXIT)[0], 0, 8) for half in halves]
    last, _ = compressed_with(EXIT + halves_of(0x0013))
    last.symbols[0].value = len(EXIT)
    weak, text = compressed_with()
    text.reloc(RVC_JUMP, weak.symbol(b'missing', bind=WEAK), 0, halves=(C_J,))
    code = {'a jump into a word': short_code(jal(ZERO, 4)) + words_of(NOP),
            'a branch into a word': short_code(branch(0, A0, ZERO, 4)) + words_of(NOP),
            'a branch of 4 bytes into a word': words_of(branch(0, A0, A1, 6), NOP), 'jvt': words_of(0x01729073)}
    ways = {'a branch to the end': (short_code(branch(0, A0, ZERO, 2)), 0, 2),
            'a jump to the end': (short_code(jal(ZERO, 2)), 2, 8)}
    return (*rows, ('half a word at the end', last, len(EXIT), 8), ('a jump to a weak name without definition', weak, 0, 8),
            *((what, compressed_with(it)[0], 0, 8) for what, it in code.items()),
            *((what, compressed_with(it)[0], at, why) for what, (it, at, why) in ways.items()))


# ---- what is refused


# Of each type of relocation code of its kind.
KINDS = {R_32: words_of(NOP), BRANCH: words_of(branch(0, A0, A1)), JAL: words_of(J), CALL: words_of(*CALL_WORDS),
         CALL_PLT: words_of(*CALL_WORDS), PCREL_HI20: words_of(auipc(T0)), PCREL_LO12_I: words_of(addi(T0, T0)),
         PCREL_LO12_S: words_of(sw(T0, T0)), HI20: words_of(lui(T0)), LO12_I: words_of(lw(T0, T0)),
         LO12_S: words_of(sw(T0, T0)), ALIGN: nops(2), RVC_BRANCH: halves_of(C_BNEZ), RVC_JUMP: halves_of(C_JAL)}
# Types of which code of any kind may be, and those of which code of the second type may be too.
ANY, ALSO = (R_32, ALIGN), ((PCREL_LO12_I, LO12_I), (LO12_I, PCREL_LO12_I), (PCREL_HI20, CALL), (PCREL_HI20, CALL_PLT))
# Halfwords that are nearly of the kind of a type: the short forms of an upper part, a sum, a load, a store and returns. And a
# push, a pop that returns and two moves, of which no type is the kind.
SHORT = {'c.lui': 0x6285, 'c.addi': 0x0285, 'c.lw': 0x4108, 'c.sw': 0xC108, 'c.jr': 0x8082, 'c.jalr': 0x9082, 'c.li': 0x4501,
         'cm.push': 0xB842, 'cm.popret': 0xBE42, 'cm.mva01s': 0xAC62}


def with_relocs(code, *rows):
    """An object of compressed code with relocations: the offset, the type, a local symbol's value or none, and the addend."""
    made, text = compressed_with(code)
    for offset, kind, value, addend in rows:
        text.reloc(kind, None if value is None else labelled(made, text, value), addend)
        text.relocs[-1].offset = offset
    return made


def with_one(kind, code, offset, value=0):
    return with_relocs(code, (offset, kind, value, 4 if kind == ALIGN else 0))


def of_kind():
    """RelocKind."""
    data = []
    for kind in (RVC_BRANCH, RVC_JUMP, HI20):
        made, _ = compressed_with(EXIT)
        made.section(b'.data', PROGBITS, DATA_FLAGS).reloc(kind, made.symbols[0], 0, (0x20012001,))
        data.append((f'type {kind} in data', made))
    return [*data, *((f'type {kind}', with_one(kind, nops(4), 2)) for kind in (2, 35, 46, 57))]


def of_place():
    """RelocPlace."""
    rows = [(f'ALIGN with {addend}', with_relocs(nops(200), (2, ALIGN, None, addend)))
            for addend in (-4, -2, -1, 0, 1, 3, 5, 253, 255, 256, 258)]
    for kind, code in KINDS.items():
        rows += [(f'type {kind} {what}', made) for what, made in misplaced(kind, code)]
    return [*rows, ('a call by another register', with_one(CALL, nops(1) + words_of(auipc(RA), jalr(RA, T0)), 2)),
            ('a jump of 2 bytes in a call', with_relocs(words_of(*CALL_WORDS), (0, CALL, 0, 0), (4, RVC_JUMP, 0, 0))),
            ('a jump of 2 bytes and a word', with_relocs(halves_of(C_J) + nops(2), (0, RVC_JUMP, 0, 0), (0, R_32, 0, 0)))]


def misplaced(kind, code):
    """An entry of a type where no instruction begins, at an odd offset, over the end, far out, twice, or at code of another
    kind."""
    behind = nops(8)
    others = {f'type {other}': it for other, it in KINDS.items()
              if kind not in ANY and other not in ANY and it != code and (kind, other) not in ALSO}
    others.update((name, halves_of(half)) for name, half in SHORT.items() if kind not in ANY)
    return [('in a word', with_one(kind, halves_of(0x0013) + code + behind, 2)),
            ('at an odd offset', with_one(kind, code + behind, 1)), ('over the end', with_one(kind, nops(4) + code[:-2], 8)),
            ('far out', with_one(kind, code + behind, 0xFFFFFFFE)),
            ('twice', with_relocs(code + behind, *[(0, kind, 0, 4 if kind == ALIGN else 0)] * 2)),
            *((f'at {name}', with_one(kind, nops(1) + it + behind, 2)) for name, it in others.items())]


def of_pair():
    """LoPair."""
    pair = nops(1) + words_of(auipc(T0), addi(T0, T0))
    return [('another label', with_relocs(pair, (2, PCREL_HI20, 0, 0), (6, PCREL_LO12_I, 0, 0))),
            ('an addend', with_relocs(pair, (2, PCREL_HI20, 0, 0), (6, PCREL_LO12_I, 2, 2)))]


def of_target():
    """BadTarget."""
    code = words_of(lui(T0)) + halves_of(C_BEQZ, C_J)
    numbers = []
    for kind, at in ((RVC_BRANCH, 4), (RVC_JUMP, 6)):
        made, text = compressed_with(code)
        text.reloc(kind, made.symbol(b'number', home=ABS, value=4))
        text.relocs[-1].offset = at
        numbers.append((f'type {kind} to a number', made))
    return [*numbers, *((f'type {kind} into a word', with_relocs(code, (at, kind, 2, 0)))
                        for kind, at in ((HI20, 0), (RVC_BRANCH, 4), (RVC_JUMP, 6))),
            ('into a halfword', with_relocs(code, (6, RVC_JUMP, 5, 0))),
            ('behind the code', with_relocs(code, (6, RVC_JUMP, 0, 10))),
            ('into a padding', with_relocs(nops(3) + halves_of(C_J), (0, ALIGN, None, 4), (6, RVC_JUMP, 2, 0))),
            ('into a call', with_relocs(words_of(*CALL_WORDS) + halves_of(C_J), (0, CALL, 8, 0), (8, RVC_JUMP, 4, 0)))]


def of_range():
    """Range."""
    rows = [(f'{name} on', over(reach, reach.on + 1)[0]) for name, reach in REACHES.items()]
    rows += [(f'{name} back', back_over(reach, reach.back + 1)[0]) for name, reach in REACHES.items()]
    return [*rows, ('c.beqz over a padding', over_padding(REACHES['c.beqz'], 3, 124)),
            ('c.j over a padding', over_padding(REACHES['c.j'], 0, 1020)),
            ('a branch of 4 bytes', with_relocs(words_of(branch(0, A0, A1)) + nops(2047), (0, BRANCH, 4096, 0)))]


def of_entry():
    """NoEntry."""
    rows = []
    for what, value in (('in a word', 2), ('at the end', 10), ('at an odd offset', 1)):
        made, _ = compressed_with(words_of(NOP) + nops(3))
        made.symbols[0].value = value
        rows.append((what, made))
    return rows


def of_size():
    """CodeSize."""
    return [(f'{size} bytes', compressed_with(bytes(size))[0]) for size in (1, 3, 5, 7, 4095)]


def in_order():
    """Lists with several faults, and the line of the first."""
    other, _ = compressed_with(b'\0\0\0', b'other')
    plain, text = object_with(*EXIT_WORDS, name=b'other')
    text.reloc(RVC_JUMP, plain.symbols[0], 0, halves=(C_J, SHORT_NOP))
    far, _ = over(REACHES['c.j'], 1023)
    far.symbols[0].name = b'other'
    in_word = with_relocs(words_of(0x20010013, lui(T0)), (2, RVC_JUMP, 0, 0), (4, HI20, 2, 0))
    return [('code of 3 bytes before a place', [with_one(RVC_JUMP, nops(2), 0), other], '1 6 CodeSize'),
            ('a type that only compressed code has, in the second', [compressed_with(EXIT)[0], plain], '1 11 RelocKind'),
            ('an entry in a word before a target', [in_word], '0 12 RelocPlace'),
            ('no entry before a far jump', [far], '0 16 NoEntry'),
            ('a far jump of the second object', [object_with(*EXIT_WORDS)[0], far], '1 15 Range')]


def refusals():
    """Each list that is refused: what it is, its files, and the line."""
    for fault, make in (('6 CodeSize', of_size), ('11 RelocKind', of_kind), ('12 RelocPlace', of_place), ('13 LoPair', of_pair),
                        ('14 BadTarget', of_target), ('15 Range', of_range), ('16 NoEntry', of_entry)):
        for what, made in make():
            yield f'{fault}, {what}', [made.bytes()], f'refused 0 {fault}'
    for what, objects, line in in_order():
        yield what, [made.bytes() for made in objects], f'refused {line}'
    yield 'a far jump to another object', to_another(1022), 'refused 0 15 Range'


# ---- lists of both kinds of objects


class Part:
    """An object of a program, whose code is compressed or not."""

    def __init__(self, name, is_compressed):
        self.made, self.text = (compressed_with if is_compressed else object_with)(name=name)
        self.is_compressed = is_compressed

    def add(self, *words):
        self.text.content += short_code(*words) if self.is_compressed else words_of(*words)

    def lead(self, kind, word, symbol):
        """A branch or jump under its relocation, whose short form has another type."""
        if self.is_compressed:
            self.text.reloc({BRANCH: RVC_BRANCH, JAL: RVC_JUMP}[kind], symbol, 0, halves=(short_form(word),))
        else:
            self.text.reloc(kind, symbol, 0, (word,))

    def call(self, name):
        self.text.reloc(CALL, self.made.symbol(name), 0, CALL_WORDS)


def first_part(is_compressed):
    """The start, which calls a function and jumps to the end."""
    part = Part(b'_start', is_compressed)
    part.add(addi(A0, ZERO, 1))
    part.call(b'first')
    part.lead(JAL, J, part.made.symbol(b'finish'))
    return part.made


def second_part(is_compressed):
    """A function that calls another one, with a branch that isn't taken and a jump into what else would be left out."""
    part = Part(b'first', is_compressed)
    part.add(addi(SP, SP, -16), sw(RA, SP, 12))
    part.call(b'second')
    end, last = (part.made.symbol(name, home=part.text, bind=LOCAL) for name in (b'.Lend', b'.Llast'))
    part.lead(BRANCH, BEQZ, end)
    part.lead(JAL, J, last)
    part.add(addi(A0, ZERO, 0))
    last.value = len(part.text.content)
    part.add(addi(A0, A0, 8))
    end.value = len(part.text.content)
    part.add(lw(RA, SP, 12), addi(SP, SP, 16), RET)
    return part.made


def third_part(is_compressed):
    """A function that adds a word of data, and the end."""
    part = Part(b'second', is_compressed)
    data = part.made.section(b'.data', PROGBITS, DATA_FLAGS)
    data.words(33)
    held = part.made.symbol(b'held', home=data, bind=LOCAL)
    part.text.reloc(HI20, held, 0, (lui(T0),))
    part.text.reloc(LO12_I, held, 0, (lw(T0, T0),))
    part.add(add(A0, A0, T0), RET)
    part.made.symbol(b'finish', home=part.text, value=len(part.text.content))
    part.add(*EXIT_WORDS)
    return part.made


MIXED_STATUS = 42


def mixed():
    """Programs of three objects, each of which is compressed or not, in each order: which are, the order, and the files."""
    for which in itertools.product((False, True), repeat=3):
        files = [make(is_compressed).bytes() for make, is_compressed in zip((first_part, second_part, third_part), which)]
        for order in itertools.permutations(range(3)):
            yield which, order, [files[k] for k in order]


def data_alone():
    """An object of compressed code that has none, but data."""
    made, _ = compressed_with(name=b'nothing')
    made.sections.clear()
    made.symbols.clear()
    made.section(b'.data', PROGBITS, DATA_FLAGS).words(1)
    return made.bytes()
