"""Small objects of compressed code with pushes, pops and moves: what they write, and how they end (RISC-V Zc specification 1.0,
"Zcmp" and "Zcmt").

Each push, pop and pair of moves does what its words do one after another. So it is stuck at the first that can't be made: a push
where it lowers sp, and a pop at its highest word, or at its return.
"""
import random
import struct

from groups import BITS, FROM_SAVED, LISTS, MORE, MOVED, TO_SAVED, frame_half, move_half
from symbolic_machine import (BAD_ADDRESS, CONDITION, MISALIGNED, NAMES, NO_INSTRUCTION, STACK_POINTER, TARGET)
from tables import table_half
from zc_machine import POP, POPRET, POPRETZ, PUSH, SAVED, Frame
from zcld_tools.elf import BRANCH, DATA_FLAGS, HI20, JAL, NOBITS, PCREL_HI20, PCREL_LO12_I, RVC_BRANCH, RVC_JUMP
from zcld_tools.images import DATA_AT, STACK_HIGH, STACK_LOW
from zcld_tools.instructions import (A0, A1, A2, A7, ECALL, EXIT_WORDS, NOP, RA, S0, SP, T0, T1, WRITE_CALL, ZERO, addi, auipc,
                                     branch, constant, jal, jalr, load, lui, lw, store, sw, words_of)
from zcld_tools.objects import compressed_with

POPS = POP, POPRET, POPRETZ
RETURNS = POPRET, POPRETZ
# How far below its top the stack of a program begins.
DEPTH = 256
STATUS, C_LI_3, C_J, C_BEQZ_S0 = 3, 0x450D, 0xA001, 0xC001


# ---- what pushes, pops and moves do


class Program:
    """An object that gives numbers to registers, and writes these and words of its stack; what the registers have, and what it
    writes."""

    def __init__(self, what):
        self.rng, self.out = random.Random(what), b''
        self.made, self.text = compressed_with()
        self.made.section(b'.bss', NOBITS, DATA_FLAGS, size=256)
        self.values = {SP: STACK_HIGH}
        self.move_sp(-DEPTH)

    def move_sp(self, distance):
        self.text.words(addi(SP, SP, distance))
        self.values[SP] += distance

    def number(self, registers):
        """Each of these registers gets a number."""
        for register in registers:
            self.values[register] = self.rng.getrandbits(32)
            self.text.words(*constant(register, self.values[register]))

    def write(self, at, words):
        """Writes memory, where these words are, to standard output."""
        self.text.words(addi(A0, ZERO, 1), *constant(A1, at), addi(A2, ZERO, 4 * len(words)), addi(A7, ZERO, WRITE_CALL), ECALL)
        self.out += words_of(*words)

    def write_registers(self, *registers):
        self.text.words(*constant(T0, DATA_AT), *(sw(register, T0, 4 * k) for k, register in enumerate(registers)))
        self.write(DATA_AT, [self.values[register] for register in registers])

    # cases

    def push(self, number, more):
        """A push, and what stands in its frame then."""
        frame, top = Frame(PUSH, number, more), self.values[SP]
        self.number((A0, *SAVED))
        self.text.halves(frame_half(PUSH, number, more))
        self.values[SP] -= frame.size
        self.write_registers(SP, A0, *SAVED)
        self.write(top - 4 * len(frame.registers), [self.values[register] for register in frame.registers[::-1]])
        self.move_sp(frame.size)

    def pop(self, form, number, more):
        """A pop of words that were stored one by one. One that returns ends a function."""
        frame = Frame(form, number, more)
        self.move_sp(-frame.size)
        call = self.text.words(jal(RA, 8), NOP) if form in RETURNS else None
        popped = self.store_words(frame)
        self.number((A0, *SAVED))
        self.text.halves(frame_half(form, number, more))
        if call is not None:
            self.text.content[call + 4:call + 8] = words_of(jal(ZERO, len(self.text.content) - call - 4))
        self.values.update(popped)
        self.values[SP] += frame.size
        self.values.update({A0: 0} if form == POPRETZ else {})
        self.write_registers(SP, A0, *SAVED[form in RETURNS:])

    def store_words(self, frame):
        """Stores words for the registers of a frame, and gives them. That of ra is what a call left in it, if the pop returns."""
        popped = {}
        for k, register in enumerate(frame.registers):
            is_own = register == RA and frame.form in RETURNS
            if not is_own:
                popped[register] = self.rng.getrandbits(32)
                self.text.words(*constant(T0, popped[register]))
            self.text.words(sw(RA if is_own else T0, SP, frame.size - 4 * (k + 1)))
        return popped

    def move(self, form, first, second):
        """A pair of moves."""
        pairs = (MOVED[first], A0), (MOVED[second], A1)
        self.number({A0, A1, MOVED[first], MOVED[second]})
        self.text.halves(move_half(form, first, second))
        before = dict(self.values)
        for saved, argument in pairs:
            to, source = (saved, argument) if form == TO_SAVED else (argument, saved)
            self.values[to] = before[source]
        self.write_registers(A0, A1, MOVED[first], MOVED[second])

    def ended(self):
        """The file, once the program exits."""
        self.text.words(addi(A0, ZERO, STATUS), *EXIT_WORDS)
        return self.made.bytes()


def each_frame():
    """What it is, the file, and what it writes: each push and pop of every list, at every adjustment."""
    for form in BITS:
        for number in LISTS:
            what = f'{form} of list {number}'
            program = Program(what)
            for more in MORE:
                program.push(number, more) if form == PUSH else program.pop(form, number, more)
            yield what, program.ended(), program.out


def each_move():
    """The same of each pair of moves."""
    for form in (TO_SAVED, FROM_SAVED):
        program = Program(form)
        for first in range(8):
            for second in range(8):
                if form == FROM_SAVED or first != second:
                    program.move(form, first, second)
        yield form, program.ended(), program.out


# ---- how programs end

# A frame of s0 and ra, where their words lie in it, and its halfwords.
BOTH, AT_S0, AT_RA = 5, 12, 8
PUSH_BOTH, POP_BOTH, POPRET_BOTH, POPRETZ_BOTH = (frame_half(form, BOTH, 0) for form in (PUSH, *POPS))

def code_of(*instructions):
    """The bytes of instructions: those of 2 bytes are below 2^16, and their low bits aren't 11."""
    return b''.join(struct.pack('<H' if it & 3 != 3 else '<I', it & 0xFFFFFFFF) for it in instructions)


EXIT = C_LI_3, *EXIT_WORDS


def stuck_at(offset, why):
    """The line of a program that is stuck in the code of its only object."""
    return f'stuck 0 1 {offset} {why} {NAMES[why]}'


def exited(status=STATUS):
    return f'exited {status}'


def made_of(*instructions):
    return compressed_with(code_of(*instructions))[0]


def edges_of_stack():
    """What it is, an object, and the line with which `trace` of it ends: each push and pop in a frame that just fits into the
    stack, and a word farther."""
    for number in LISTS:
        for more in MORE:
            size = Frame(PUSH, number, more).size
            for beyond in (0, 4):
                what = f'list {number} with {more}, {beyond} bytes too far'
                yield (f'{PUSH}, {what}', made_of(*constant(SP, STACK_LOW + size - beyond), frame_half(PUSH, number, more), *EXIT),
                       stuck_at(8, STACK_POINTER) if beyond else exited())
                for form in POPS:
                    why = BAD_ADDRESS if beyond else TARGET if form in RETURNS else None
                    made = made_of(*constant(SP, STACK_HIGH - size + beyond), frame_half(form, number, more), *EXIT)
                    yield f'{form}, {what}', made, stuck_at(8, why) if why else exited()


def stops():
    """What it is, an object, the line of `trace`, and the number and the name of the reason why its images stop at the same
    instruction."""
    for number, more in ((4, 0), (9, 2), (15, 3)):
        size = Frame(PUSH, number, more).size
        for odd in (1, 2, 3):
            for form in BITS:
                made = made_of(addi(SP, SP, odd - DEPTH), frame_half(form, number, more), *EXIT)
                yield f'{form} of list {number} at a multiple of 4 and {odd}', made, stuck_at(4, MISALIGNED), '3 Misaligned'
        for form in POPS:
            made = made_of(addi(SP, SP, 4 - size), frame_half(form, number, more), *EXIT)
            yield f'{form} of list {number} at the top', made, stuck_at(4, BAD_ADDRESS), '2 BadAccess'
        made = made_of(*constant(SP, STACK_LOW), frame_half(PUSH, number, more), *EXIT)
        yield f'a push of list {number} at the bottom', made, stuck_at(8, STACK_POINTER), '2 BadAccess'
    for what, half in (*(('list 0', frame_half(form, 0, 1)) for form in BITS), ('s1 twice', move_half(TO_SAVED, 1, 1))):
        yield f'{half:04x}, of {what}', made_of(half, *EXIT), stuck_at(0, NO_INSTRUCTION), '1 Illegal'


def no_instructions():
    """What it is, an object, and the line of `trace`: the lists from 0 to 3, and moves to one register twice, which are reserved;
    and jumps through a table, which objects don't have."""
    rows = [(f'{form} of list {number} with {more}', frame_half(form, number, more))
            for form in BITS for number in range(4) for more in MORE]
    rows += [(f'{TO_SAVED} of the register with code {code} twice', move_half(TO_SAVED, code, code)) for code in range(8)]
    rows += [(f'a table jump by entry {index}', table_half(index)) for index in (0, 1, 31, 32, 255)]
    for what, half in rows:
        yield what, made_of(half, *EXIT), stuck_at(0, NO_INSTRUCTION)


def odd_stacks():
    """The same of pushes at an sp that leaves the stack and isn't aligned, which comes first."""
    for odd in (1, 2, 3):
        made = made_of(*constant(SP, STACK_LOW + odd), frame_half(PUSH, BOTH, 0), *EXIT)
        yield f'a push below the stack at a multiple of 4 and {odd}', made, stuck_at(8, STACK_POINTER)


# ---- what is in the words of a pop


def returning(*words, end=POPRET_BOTH, more=()):
    """A function that stores its ra where it will be loaded from, goes on with these words, and ends with a pop. It returns to an
    exit. What it is made of begins with the call."""
    call, back = (jal(RA, 4 + len(code_of(*EXIT))),), EXIT
    return made_of(*call, *back, addi(SP, SP, -16), sw(RA, SP, AT_RA), *words, end, *more)


def at_end(*words):
    """Where the pop of such a function stands."""
    return 4 + len(code_of(*EXIT, addi(SP, SP, -16), sw(RA, SP, AT_RA), *words))


def with_byte(to, *source):
    """Words that give another byte to ra's word in a frame: one of a register, or one of this frame."""
    return (*source, store(0, T0, SP, AT_RA + to))


def popped_words():
    """What it is, an object, and the line of `trace`."""
    undefined = 'what was never stored'
    yield f'a pop of {undefined}', made_of(addi(SP, SP, -16), POP_BOTH, *EXIT), exited()
    yield (f'a condition of {undefined}', made_of(addi(SP, SP, -16), POP_BOTH, C_BEQZ_S0, *EXIT), stuck_at(6, CONDITION))
    for name, half in (('popret', POPRET_BOTH), ('popretz', POPRETZ_BOTH)):
        yield f'a {name} to {undefined}', made_of(addi(SP, SP, -16), half, *EXIT), stuck_at(4, TARGET)
    yield ('what a push leaves below its words', made_of(addi(S0, ZERO, 1), PUSH_BOTH, lw(S0, SP, 4), C_BEQZ_S0, *EXIT),
           stuck_at(10, CONDITION))
    made = made_of(addi(S0, ZERO, 1), PUSH_BOTH, POP_BOTH, addi(SP, SP, -16), lw(S0, SP, AT_S0), C_BEQZ_S0, *EXIT)
    yield 'what a pop leaves below sp', made, stuck_at(16, CONDITION)
    yield from addresses()
    yield from no_addresses()
    for status, half in ((9, POPRET_BOTH), (0, POPRETZ_BOTH)):
        made = made_of(jal(RA, 12), *EXIT_WORDS, addi(A0, ZERO, 9), PUSH_BOTH, half)
        yield f'a pop that returns, and a0 of {status}', made, exited(status)


def addresses():
    """Words of a frame that are addresses of places in code."""
    yield 'a popret to a call', returning(), exited()
    yield 'a popretz to a call', returning(end=POPRETZ_BOTH), exited(STATUS)
    yield ('a pop of an address, and a jump there',
           returning(sw(RA, SP, AT_S0), addi(RA, ZERO, 1), end=POP_BOTH, more=(jalr(ZERO, S0),)), exited())
    copied = [word for k in range(4) for word in (load(4, T0, SP, AT_RA + k), store(0, T0, SP, k))]
    yield ('an address that is copied byte by byte', returning(*copied, lw(T0, SP), sw(T0, SP, AT_RA)), exited())
    moved = [word for k in range(4) for word in (load(4, T0, SP, AT_RA + k), store(0, T0, SP, AT_RA + k))]
    yield 'an address whose bytes are stored again', returning(*moved), exited()
    yield 'a popret to a pop', made_of(jal(RA, 6), POP_BOTH, PUSH_BOTH, POPRET_BOTH), stuck_at(4, BAD_ADDRESS)


def no_addresses():
    """Words of a frame that are none."""
    for what, number in (('0', 0), ('the address of the code', 0x10000), ('an odd number', 0x10001)):
        words = (*constant(T0, number), sw(T0, SP, AT_RA))
        for name, half in (('popret', POPRET_BOTH), ('popretz', POPRETZ_BOTH)):
            yield f'a {name} to {what}', returning(*words, end=half), stuck_at(at_end(*words), TARGET)
    for what, words in (('no item', (addi(T0, RA, 2), sw(T0, SP, AT_RA))),
                        ('the word before an address', (addi(T0, RA, -4), sw(T0, SP, AT_RA))),
                        ('an address with another byte', with_byte(3, load(4, T0, SP, AT_RA + 2))),
                        ('an address with a number in it', with_byte(0, addi(T0, ZERO, 0))),
                        ('an address without a byte', with_byte(1, lw(T0, SP)))):
        yield f'a popret to {what}', returning(*words), stuck_at(at_end(*words), TARGET)
    made, text = compressed_with()
    text.reloc(HI20, made.symbols[0], 0, (lui(T1),))
    text.add(code_of(PUSH_BOTH, sw(T1, SP, AT_RA), POPRET_BOTH))
    yield 'a popret to an upper part of an address', made, stuck_at(10, TARGET)
    made, text = compressed_with()
    text.reloc(PCREL_HI20, made.symbol(b'end', home=text, value=20), 0, (auipc(T1),))
    text.reloc(PCREL_LO12_I, made.symbols[0], 0, (addi(T1, T1),))
    text.add(code_of(PUSH_BOTH, sw(T1, SP, AT_RA), NOP, POPRET_BOTH))
    yield 'a popret to the end of its section', made, stuck_at(20, NO_INSTRUCTION)


# ---- where pops stand


def led():
    """What it is, the files, and the status: pops to which branches and jumps lead, that stand amid code and at its end."""
    frame = addi(SP, SP, -16), sw(RA, SP, AT_RA), sw(S0, SP, AT_S0)
    words = {'beq': branch(0, ZERO, ZERO), 'jal': jal(ZERO)}
    for name, word in words.items():
        text = code_of(jal(RA, 4 + len(code_of(*EXIT))), *EXIT, *frame)
        over = code_of(addi(A0, ZERO, 1), NOP)
        lead = branch(0, ZERO, ZERO, 4 + len(over)) if name == 'beq' else jal(ZERO, 4 + len(over))
        yield f'{name} to a popret', [compressed_with(text + code_of(lead) + over + code_of(POPRET_BOTH))[0].bytes()], STATUS
        yield f'{name} to a popret by relocation', [led_by_relocation(text, BRANCH if name == 'beq' else JAL, word, over)], STATUS
    text = code_of(jal(RA, 4 + len(code_of(*EXIT))), *EXIT, *frame, addi(S0, ZERO, 0))
    over = code_of(addi(A0, ZERO, 1), NOP)
    for name, kind, half in (('c.beqz', RVC_BRANCH, C_BEQZ_S0), ('c.j', RVC_JUMP, C_J)):
        yield f'{name} to a popret', [led_by_relocation(text, kind, half, over)], STATUS
    amid = made_of(PUSH_BOTH, PUSH_BOTH, POP_BOTH, addi(A0, ZERO, STATUS), POP_BOTH, *EXIT_WORDS)
    yield 'pops amid code', [amid.bytes()], STATUS
    yield 'a popret at the end of an object', last_in_object(), STATUS
    yield 'groups between pushes', [nested().bytes()], STATUS


def led_by_relocation(text, kind, instruction, over):
    """Code that ends with a popret, to which a branch or jump with a relocation leads."""
    made, section = compressed_with(text)
    label = made.symbol(b'end', home=section, value=len(text + code_of(instruction) + over))
    if instruction & 3 == 3:
        section.reloc(kind, label, 0, (instruction,))
    else:
        section.reloc(kind, label, 0, halves=(instruction,))
    section.add(over + code_of(POPRET_BOTH))
    return made.bytes()


def last_in_object():
    """A function that ends its object with a popret, and one of another object after it."""
    made, text = compressed_with()
    second, _ = compressed_with(code_of(PUSH_BOTH, addi(A0, ZERO, STATUS), POPRET_BOTH), b'function')
    third, _ = compressed_with(code_of(addi(A0, ZERO, 1), *EXIT_WORDS), b'behind')
    text.reloc(JAL, made.symbol(b'function'), 0, (jal(RA),))
    text.words(*EXIT_WORDS)
    return [made.bytes(), second.bytes(), third.bytes()]


def nested():
    """Pushes and pops that `zc` finds between those of the compiler."""
    store_both = addi(SP, SP, -16), sw(S0, SP, AT_S0), sw(RA, SP, AT_RA)
    load_both = lw(S0, SP, AT_S0), lw(RA, SP, AT_RA), addi(SP, SP, 16)
    return made_of(addi(S0, ZERO, STATUS), PUSH_BOTH, *store_both, PUSH_BOTH, addi(S0, ZERO, 1), POP_BOTH, *load_both, POP_BOTH,
                   addi(A0, S0), *EXIT_WORDS)
