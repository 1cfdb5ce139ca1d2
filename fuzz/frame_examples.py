"""Small objects whose code is pushes, pops and pairs of moves, or nearly so, and the groups that they have (RISC-V Zc
specification 1.0, "Zcmp")."""
from groups import CLEAR, FROM_SAVED, LISTS, MOST_FRAME, MOVED, TO_SAVED, slots
from zc_machine import POP, POPRET, POPRETZ, PUSH, SAVED, Frame
from zcld_tools.elf import (BRANCH, DATA_FLAGS, FUNCTION_TYPE, GLOBAL, JAL, LO12_I, LO12_S, LOCAL, NONE, NO_TYPE, RELAX, R_32,
                            WEAK)
from zcld_tools.instructions import (A0, A1, A2, ECALL, NOP, RA, RET, S0, S1, SP, T0, ZERO, add, addi, branch, immediate,
                                     is_store, jal, jalr, load, low_part, lui, lw, store, sw, with_low)
from zcld_tools.objects import object_with

S2, S3, S8 = 18, 19, 24


def pushed(number, size):
    """The words of a push, the highest register first."""
    return [addi(SP, SP, -size), *slots(PUSH, number, size)]


def popped(number, size, *behind):
    """The words of a pop, and what follows it."""
    return [*slots(POP, number, size), addi(SP, SP, size), *behind]


def of_words(*words):
    return object_with(*words)[0]


# ---- to the byte


def push_with_leader():
    """A push into which a branch leads."""
    made, text = object_with(addi(SP, SP, -16), sw(S1, SP, 12), sw(S0, SP, 8), sw(RA, SP, 4), ECALL)
    text.words(branch(0, A0, A0, -12))
    return made


def written():
    """What it is, the object, and the bytes that its text begins with."""
    return (
        ('a push in any order', of_words(0xFF010113, 0x00912623, 0x00812423, 0x00112223), '62b8'),
        ('the usual frame, saved', of_words(addi(SP, SP, -16), sw(RA, SP, 12), sw(S0, SP, 8)), '42b8' '22c4'),
        ('the usual frame, restored', of_words(lw(RA, SP, 12), lw(S0, SP, 8), addi(SP, SP, 16), RET),
         'b240' '2244' '4101' '8280'),
        ('a return of ra alone', of_words(lw(RA, SP, 12), addi(SP, SP, 16), RET), '42be'),
        ('a push into which a branch leads', push_with_leader(), '4111' '26c6' '22c4' '06c2'),
        ('a pair of moves', of_words(0x00058493, 0x00050413), '26ac'),
        ('two moves of other registers', of_words(addi(S0, A0), addi(S0, A1)), '2a84' '2e84'),
        ('a split push', of_words(0xF8010113, 0x06812E23, 0x06112C23), '5eb8' '3971'),
        ('a split pop', of_words(lw(RA, SP, 120), lw(S0, SP, 124), addi(SP, SP, 128)), '2161' '5eba'),
        ('a push split by a word', of_words(*pushed(4, 608)), '4eb8' '130101de'),
        ('a pop split by a word', of_words(*popped(15, 2032, RET)), '13010178' 'febe'),
        ('a pop split by a small one', of_words(CLEAR, *popped(4, 80, RET)), '4101' '4ebc'),
        ('the largest list', of_words(*pushed(15, 112)), 'feb8'),
        ('the largest list, and 0', of_words(CLEAR, *popped(15, 64, RET)), 'f2bc'),
        ('moves to a0 and a1', of_words(addi(A1, 23), addi(A0, S0)), '7eac'))


# ---- every list, size and kind


def sizes(number):
    """Sizes of frames of a list: those of one halfword, and those of which a second instruction moves sp by the least, by the
    most, and by about as many bytes as its short forms can."""
    own = Frame(PUSH, number, 0).size
    return [*range(own, own + 64, 16), *(own + 48 + rest for rest in (16, 32, 48, 480, 496, 512, 528)), MOST_FRAME]


def endings(number, size):
    """The pops of a list, with where a0 is set to 0."""
    accesses, raised = slots(POP, number, size), addi(SP, SP, size)
    return ((POP, (*accesses, raised)), (POPRET, (*accesses, raised, RET)), (POPRETZ, (CLEAR, *accesses, raised, RET)),
            (POPRETZ, (*accesses, CLEAR, raised, RET)), (POPRETZ, (*accesses, raised, CLEAR, RET)))


def each_frame():
    """For each list an object of pushes and pops with frames of all these sizes: what it is, the object, and the forms."""
    for number in LISTS:
        made, text = object_with()
        forms = []
        for size in sizes(number):
            for form, words in ((PUSH, pushed(number, size)), *endings(number, size)):
                text.words(*words, NOP)
                forms.append(form)
        yield f'list {number}', made, forms


def each_move():
    """An object of all pairs of moves, in both orders."""
    made, text = object_with()
    forms = []
    for first in MOVED:
        for second in MOVED:
            back, to = (addi(A0, first), addi(A1, second)), (addi(first, A0), addi(second, A1))
            text.words(*back, NOP, *back[::-1], NOP, *to, NOP, *to[::-1], NOP)
            forms += [FROM_SAVED] * 2 + [TO_SAVED] * 2 * (first != second)
    return 'moves', made, forms


# ---- nearly


def slips(access, words):
    """What is changed in the words of a frame of ra, s0 and s1 and 16 bytes, from the highest register on, and those words."""
    first, second, third = words
    return (
        ('without s1', (second, third)), ('without s0', (first, third)), ('without ra', (first, second)),
        ('s1 twice', (first, first, third)), ('s0 twice', (first, second, second)), ('ra twice', (third, second, third)),
        ('s1 once more', (first, first, second, third)), ('s0 once more', (first, second, second, third)),
        ('s0 and s1 exchanged', (access(S0, SP, 12), access(S1, SP, 8), third)),
        ('ra and s1 exchanged', (access(RA, SP, 12), second, access(S1, SP, 4))),
        ('s1 lower', (access(S1, SP, 0), second, third)), ('ra lower', (first, second, access(RA, SP, 0))),
        ('all lower', (access(S1, SP, 8), access(S0, SP, 4), access(RA, SP, 0))),
        ('s2 for s1', (access(S2, SP, 12), second, third)), ('x0 for ra', (first, second, access(ZERO, SP, 4))),
        ('s1 by s0', (access(S1, S0, 12), second, third)), ('a nop between', (first, NOP, second, third)),
        ('a byte of s1', ((store(0, S1, SP, 12) if access == sw else load(0, S1, SP, 12)), second, third)))


def nearly_pushes():
    """What is wrong with a push, its words, and the forms of the groups that it has all the same."""
    words = slots(PUSH, 6, 16)
    for what, stores in slips(sw, words):
        # ra in the highest slot is a push by itself
        yield what, [addi(SP, SP, -16), *stores], [PUSH] if what == 'ra and s1 exchanged' else []
    for what, moved in (('raised', addi(SP, SP, 16)), ('moved by nothing', addi(SP, SP)), ('s0 less 16', addi(SP, S0, -16)),
                        ('moved to s0', addi(S0, SP, -16)), ('left', NOP), ('masked', immediate(7, SP, SP, -16))):
        yield f'sp is {what}', [moved, *words], []
    for size in (4, 12, 20, 24, 28, 40, 2024, 2028, 2036, 2040, 2044, 2048):
        yield f'a frame of {size}', [addi(SP, SP, -size), *slots(PUSH, 4, size)], []
    for number, size in ((8, 16), (11, 16), (12, 32), (14, 32), (15, 32), (15, 48), (4, 0), (7, 0)):
        yield f'list {number} in {size}', pushed(number, size), []
    yield 'twelve registers', [addi(SP, SP, -64), *slots(PUSH, 15, 64)[1:]], []
    yield 'twelve registers from the highest slot on', [
        addi(SP, SP, -64), *(sw(register, SP, 60 - 4 * j) for j, register in enumerate(SAVED[11::-1]))], []
    yield 'no stores', [addi(SP, SP, -16)], []
    yield 'stores first', [*words, addi(SP, SP, -16)], []
    yield 'the largest frame', pushed(4, 2032), [PUSH]
    yield 's2 as well', [*pushed(6, 32), sw(S2, SP, 16)], [PUSH]
    yield 'ra alone, then s0', [addi(SP, SP, -16), sw(RA, SP, 12), sw(S0, SP, 8)], [PUSH]
    yield 'two', [*pushed(6, 16), *pushed(4, 16)], [PUSH, PUSH]
    yield 'once more', [addi(SP, SP, -16), *pushed(6, 16)], [PUSH]


def nearly_pops():
    """The same of pops."""
    words, raised = slots(POP, 6, 16), addi(SP, SP, 16)
    for what, loads in slips(lw, words):
        # what is left of some is right
        forms = [POPRET] if what == 's1 once more' else []
        yield what, [*loads, raised, RET], forms
        yield f'{what}, a0 first', [CLEAR, *loads, raised, RET], forms
        yield f'{what}, a0 last', [*loads, raised, CLEAR, RET], [POPRETZ] if forms else []
    for what, moved in (('lowered', addi(SP, SP, -16)), ('moved by nothing', addi(SP, SP)), ('s0 and 16', addi(SP, S0, 16)),
                        ('moved to s0', addi(S0, SP, 16)), ('raised by s0', add(SP, SP, S0)), ('raised by 32', addi(SP, SP, 32))):
        yield f'sp is {what}', [*words, moved, RET], []
    for size in (4, 12, 20, 24, 28, 40, 2024, 2028, 2036, 2040, 2044):
        yield f'a frame of {size}', [lw(RA, SP, size - 4), addi(SP, SP, size), RET], []
    for number, size in ((8, 16), (12, 32), (15, 48), (4, 0)):
        yield f'list {number} in {size}', popped(number, size, RET), []
    yield 'twelve registers', [*slots(POP, 15, 64)[1:], addi(SP, SP, 64), RET], []
    yield 'the largest frame', popped(4, 2032, RET), [POPRET]
    yield 'sp first', [raised, *words, RET], []
    yield 'the usual frame', [lw(RA, SP, 12), lw(S0, SP, 8), raised, RET], []
    rows = (
        ('a0 twice: before the loads and last', [CLEAR, *words, raised, CLEAR, RET], [POPRETZ]),
        ('a0 twice: before the loads and behind them', [CLEAR, *words, CLEAR, raised, RET], [POPRETZ]),
        ('a0 twice: on either side of sp', [*words, CLEAR, raised, CLEAR, RET], []),
        ('a0 twice: last', [*words, raised, CLEAR, CLEAR, RET], [POP]),
        ('a0 twice: behind the loads', [*words, CLEAR, CLEAR, raised, RET], []),
        ('a0 twice: first', [CLEAR, CLEAR, *words, raised, RET], [POPRETZ]),
        ('a0 three times', [CLEAR, *words, CLEAR, raised, CLEAR, RET], []),
        ('a0 among the loads', [words[0], CLEAR, *words[1:], raised, RET], []),
        ('a0 behind the return', [*words, raised, RET, CLEAR], [POPRET]),
        ('a0 without a return', [*words, raised, CLEAR, NOP], [POP]),
        ('a0 first without a return', [CLEAR, *words, raised], [POP]),
        ('a0 before sp without a return', [*words, CLEAR, raised, NOP], []))
    yield from rows
    for what, word in (('1', addi(A0, ZERO, 1)), ('0 by add', add(A0, ZERO, ZERO)), ('0 by lui', lui(A0)), ('a1', addi(A0, A1)),
                       ('a0', addi(A0, A0)), ('0 in a1', addi(A1, ZERO))):
        yield f'{what} first', [word, *words, raised, RET], [POPRET]
        yield f'{what} last', [*words, raised, word, RET], [POP]
        yield f'{what} before sp', [*words, word, raised, RET], []
    for what, word in (('t0', jalr(ZERO, T0)), ('ra, with a link', jalr(RA, RA)), ('ra and 4', jalr(ZERO, RA, 4)),
                       ('a jump', jal(ZERO, 4)), ('a nop', NOP), ('ecall', ECALL)):
        yield f'a return by {what}', [*words, raised, word], [POP]
        yield f'a return by {what}, a0 last', [*words, raised, CLEAR, word], [POP]
        yield f'a return by {what}, a0 first', [CLEAR, *words, raised, word], [POP]
    yield 'a pop and a push', [*popped(6, 16), *pushed(6, 16)], [POP, PUSH]
    yield 'two', [*popped(4, 16), *popped(6, 16, RET), *popped(4, 16, CLEAR, RET)], [POP, POPRET, POPRETZ]


def nearly_moves():
    """The same of pairs of moves."""
    to, back = [addi(S0, A0), addi(S1, A1)], [addi(A0, S0), addi(A1, S1)]
    return (
        ('to one register', [addi(S0, A0), addi(S0, A1)], []),
        ('from one register', [addi(A0, S0), addi(A1, S0)], [FROM_SAVED]),
        ('to s8', [addi(S8, A0), to[1]], []), ('from s8', [back[0], addi(A1, S8)], []), ('to a2', [addi(A2, A0), to[1]], []),
        ('from x0', [addi(A0, ZERO), back[1]], []), ('a0 twice', [to[0], addi(S1, A0)], []),
        ('a1 twice', [addi(S0, A1), to[1]], []), ('to a0 twice', [back[0], addi(A0, S1)], []),
        ('one of each', [to[0], back[1]], []), ('one', [to[0]], []), ('by add', [add(S0, A0, ZERO), to[1]], []),
        ('by add of x0', [back[0], add(A1, ZERO, S1)], []), ('and 4', [addi(S0, A0, 4), to[1]], []),
        ('and -1', [back[0], addi(A1, S1, -1)], []), ('by ori', [immediate(6, S0, A0), to[1]], []),
        ('a nop between', [to[0], NOP, to[1]], []), ('three', [*to, addi(S2, A0)], [TO_SAVED]),
        ('four', [*to, addi(S3, A1), addi(S2, A0)], [TO_SAVED, TO_SAVED]), ('one before', [addi(S2, A0), *to], [TO_SAVED]),
        ('there and back', [*to, *back], [TO_SAVED, FROM_SAVED]),
        ('from the left', [addi(S0, A0), addi(S1, A1), addi(S2, A0), addi(A1, S1), addi(A0, S0)], [TO_SAVED, FROM_SAVED]))


# ---- where basic blocks begin, and what has a relocation


GROUPS = (('push', pushed(6, 16), PUSH), ('popretz', [CLEAR, *popped(6, 16, RET)], POPRETZ),
          ('pair', [addi(S0, A0), addi(S1, A1)], TO_SAVED))


def led_by(kind, at, words):
    """An object of these words, and of something that leads to the one with an index, or hasn't any use for it."""
    made, text = object_with(ECALL, *words, NOP, NOP)
    where = {'home': text, 'value': 4 * at + 4}
    end = len(text.content)
    names = {'a global symbol': (GLOBAL, NO_TYPE), 'a weak one': (WEAK, NO_TYPE), 'a function': (LOCAL, FUNCTION_TYPE)}
    if kind in names:
        bind, symbol_type = names[kind]
        made.symbol(b'middle', bind=bind, kind=symbol_type, **where)
        return made
    label = made.symbol(b'.Lmiddle', bind=LOCAL, **where)
    if kind == 'a branch':
        text.words(branch(1, A0, A1, where['value'] - end))
    elif kind == 'a jump':
        text.words(jal(ZERO, where['value'] - end))
    elif kind == 'a word of data':
        made.section(b'.data', flags=DATA_FLAGS).reloc(R_32, label, 0, (0,))
    elif kind != 'a label':
        how = {'a branch with a relocation': (BRANCH, branch(1, A0, A1)), 'a jump with a relocation': (JAL, jal(RA)),
               'an address': (LO12_I, addi(A0, A0)), 'a word': (R_32, 0), 'a hint': (RELAX, NOP), 'NONE': (NONE, NOP)}
        reloc, word = how[kind]
        text.reloc(reloc, label, 0, (word,))
    return made


LEADS = ('a global symbol', 'a weak one', 'a function', 'a branch', 'a branch with a relocation', 'a jump',
         'a jump with a relocation', 'an address', 'a word', 'a word of data')
DONT_LEAD = ('a label', 'a hint', 'NONE')


def left(form, is_first, is_last):
    """The forms of what is left of a group without its first or its last item, or else without another one."""
    return ([POPRET] if is_first else [POP] if is_last else []) if form == POPRETZ else []


def led_to():
    """Groups at each of whose items a basic block begins: what it is, the object, and the forms of its groups."""
    for what, words, form in GROUPS:
        for at in range(len(words) + 1):
            forms = [form] if at in (0, len(words)) else left(form, at == 1, at == len(words) - 1)
            for kind in LEADS:
                yield f'{kind} to item {at} of a {what}', led_by(kind, at, words), forms
            for kind in DONT_LEAD:
                yield f'{kind} at item {at} of a {what}', led_by(kind, at, words), [form]


def with_relocations():
    """Groups of which an item has a relocation that puts in what is there, or a hint."""
    for what, words, form in GROUPS:
        for at, word in enumerate(words):
            for kind in (RELAX, NONE):
                made, text = object_with(*words)
                text.reloc(kind, made.symbols[0])
                text.relocs[-1].offset = 4 * at
                yield f'type {kind} at item {at} of a {what}', made, [form]
            made, text = object_with(*words[:at])
            text.reloc(LO12_S if is_store(word) else LO12_I, None, low_part(word), (with_low(word, 0),))
            text.words(*words[at + 1:])
            yield f'a relocation at item {at} of a {what}', made, left(form, at == 0, at == len(words) - 1)


def nearly():
    """What it is, the object, and the forms of its groups."""
    for what, rows in (('push', nearly_pushes()), ('pop', nearly_pops()), ('moves', nearly_moves())):
        yield from ((f'{what}: {it}', of_words(*words), forms) for it, words, forms in rows)
    yield from led_to()
    yield from with_relocations()
