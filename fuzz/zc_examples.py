"""Small objects for `zc` whose branches and jumps lie at the ends of what their forms reach, and what becomes of them (RISC-V
unprivileged manual, "Control Transfer Instructions", of RV32I and of the C extension)."""
from zcld_tools.elf import ABS, ALIGN, BRANCH, CALL, HI20, LO12_I, LOCAL, PCREL_HI20, PCREL_LO12_I
from zcld_tools.instructions import (A0, A1, CALL_WORDS, ECALL, EXIT_WORDS, NOP, RET, T0, ZERO, addi, auipc, branch,
                                     immediate, jal, jalr, lui, lw)
from zcld_tools.objects import object_with

# `xori a0,a0,93`, which has no short form.
XORI = immediate(4, A0, A0, 93)


def over(word, count):
    """A branch or jump over this many `addi x0,x0,0`, and where it leads an `ecall`."""
    made, _ = object_with(word, *[NOP] * count, ECALL)
    return made


def back(word, count):
    """So many `addi x0,x0,0`, and a branch or jump to the first."""
    made, _ = object_with(*[NOP] * count, word)
    return made


def two_rounds():
    """A jump that grows, and with it the branch before it, which reached as long as the jump was short."""
    made, _ = object_with(branch(0, A0, ZERO, 508), jal(ZERO, 4096), *[NOP] * 1023, ECALL)
    return made


def aligned_long_branch():
    """A branch that is long since the padding after it is settled with it."""
    made, text = object_with(NOP, NOP)
    text.align = 16
    target = made.symbol(b'target', home=text, value=12 + 4 + 12 + 4 * 1021, bind=LOCAL)
    text.reloc(BRANCH, target, 0, (branch(0, A0, A1),))
    text.words(XORI)
    text.reloc(ALIGN, None, 12, [0xFFFFFFFF] * 3)
    text.words(*[XORI] * 1021, ECALL)
    return made


def short_nop():
    """A padding of 6 bytes: `c.nop` and `addi x0,x0,0`."""
    made, text = object_with(NOP)
    text.align = 8
    text.reloc(ALIGN, None, 4, (0xFFFFFFFF,))
    text.words(addi(A0, ZERO, 7), *EXIT_WORDS)
    return made


def calls():
    """A call that takes 2 bytes, one with another register, which takes 4, and one of a far function."""
    made, text = object_with()
    near = made.symbol(b'near', home=text, value=24 + 8, bind=LOCAL)
    far = made.symbol(b'far', home=text, value=24 + 12 + 4 * 1200, bind=LOCAL)
    text.reloc(CALL, near, 0, CALL_WORDS)
    text.reloc(CALL, near, 0, (auipc(T0), jalr(T0, T0)))
    text.reloc(CALL, far, 0, CALL_WORDS)
    text.words(ECALL, ECALL, RET, *[XORI] * 1200, RET)
    return made


def parts():
    """Upper and lower parts of a number that has short forms, of data, and of code, by its address and by the way there."""
    made, text = object_with()
    small = made.symbol(b'small', home=ABS, value=0x3004)
    here = made.symbols[0]
    text.reloc(HI20, small, 0, (lui(A0),))
    text.reloc(LO12_I, small, 0, (addi(A0, A0),))
    text.reloc(LO12_I, small, 0, (lw(A1, A0),))
    text.reloc(HI20, here, 0, (lui(A0),))
    text.reloc(LO12_I, here, 0, (addi(A0, A0),))
    high = made.symbol(b'high', home=text, value=len(text.content), bind=LOCAL)
    text.reloc(PCREL_HI20, here, 0, (auipc(A0),))
    text.reloc(PCREL_LO12_I, high, 0, (addi(A0, A0),))
    text.words(addi(A0, ZERO, 5), *EXIT_WORDS)
    return made


def forms():
    """What it is, the object, and the bytes that are written for it, by their offsets in the text."""
    branches = [(f'beqz over {count}', over(branch(0, A0, ZERO, 4 * count + 4), count), {0: written})
                for count, written in ((126, '7dcd'), (127, '63010510'))]
    jumps = [(f'j over {count}', over(jal(ZERO, 4 * count + 4), count), {0: written})
             for count, written in ((1022, 'fdaf'), (1023, '6f003000'))]
    backwards = [(f'j back over {count}', back(jal(ZERO, -4 * count), count), {2 * count: written})
                 for count, written in ((1024, '01b0'), (1025, '6ff0efff'))]
    return [*branches, *jumps, *backwards,
            ('two rounds', two_rounds(), {0: '63010510', 4: '6f003000', 2054: '73000000'}),
            ('aligned long branch', aligned_long_branch(), {4: '6314b500' '6f00d07f' '1345d505', 4100: '73000000'}),
            ('a short nop', short_nop(), {0: '0100' '0100' '13000000' '1d45'}),
            ('calls', calls(), {0: '0928' 'ef020001'}),
            ('parts', parts(), {0: '0d65' '1105' '4c41' '37050100' '13050500' '17050000' '130525ff'})]


def runs():
    """What it is, the object, and the status of its run."""
    return [('a short nop', short_nop(), 7)]


# How many bytes of text the rows have that a reader can count.
LENGTHS = {'two rounds': 2058, 'beqz over 126': 2 + 2 * 126 + 4, 'beqz over 127': 4 + 2 * 127 + 4,
           'aligned long branch': 4104}
