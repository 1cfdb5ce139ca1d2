"""What instructions, accesses and calls do in both machines, at the edges (RISC-V unprivileged manual, "RV32I" and "M")."""
from symbolic_machine import MASK, computed, holds
from zcld_tools.elf import COMMON, DATA_FLAGS
from zcld_tools.images import DATA_AT, STACK_HIGH, STACK_LOW, TEXT_AT
from zcld_tools.instructions import (A0, A1, A2, A7, ECALL, EXIT_CALL, READ_CALL, SP, T0, T1, T2, WRITE_CALL, ZERO, addi,
                                     branch, constant, immediate, load, lw, of_format_r, signed, store, sw, words_of)
from zcld_tools.objects import object_with

from checks.made_files import EXIT, call_of_stack, exit_code, image_of, object_of

# By funct7 and funct3, and by funct3.
REGISTER_OPERATIONS = [(0, f3) for f3 in range(8)] + [(0x20, 0), (0x20, 5)] + [(1, f3) for f3 in range(8)]
IMMEDIATE_OPERATIONS = [(0, f3) for f3 in range(8)] + [(0x20, 5)]
SHIFTS, LOADS, STORES, CONDITIONS = (1, 5), (0, 1, 2, 4, 5), (0, 1, 2), (0, 1, 4, 5, 6, 7)
EDGES = (0, 1, 2, 31, 0x7FFF_FFFF, 0x8000_0000, 0x8000_0001, 0xFFFF_FFFF)
IMMEDIATES = (0, 1, 2047, -2048, -1)
AMOUNTS = (0, 1, 31)


# ---- what instructions compute: the parts of a program, each of which leaves a word in t2, and these words


def shown(parts):
    """The code that leaves each part's t2 on the stack, writes them all to standard output, and exits with 3."""
    words = [addi(SP, SP, -1024)]
    for k, part in enumerate(parts):
        words += [*part, sw(T2, SP, 4 * k)]
    return words_of(*words, *call_of_stack(WRITE_CALL, 1, 4 * len(parts))) + exit_code(3)


def of_two(what):
    """Parts that apply something to each pair of edges, and the pairs."""
    pairs = [(a, b) for a in EDGES for b in EDGES]
    return [[*constant(T0, a), *constant(T1, b), *what] for a, b in pairs], pairs


def register_operation(f7, f3):
    parts, pairs = of_two([of_format_r(f7, f3, T2, T0, T1)])
    return parts, [computed(f7, f3, a, b) for a, b in pairs]


def immediate_operation(f7, f3):
    pairs = [(a, b) for a in EDGES for b in (AMOUNTS if f3 in SHIFTS else IMMEDIATES)]
    parts = [[*constant(T0, a), immediate(f3, T2, T0, f7 << 5 | b & 0xFFF)] for a, b in pairs]
    return parts, [computed(f7, f3, a, b & MASK) for a, b in pairs]


def condition(f3):
    parts, pairs = of_two([addi(T2, ZERO, 1), branch(f3, T0, T1, 8), addi(T2, ZERO, 0)])
    return parts, [int(holds(f3, a, b)) for a, b in pairs]


def loaded(f3):
    size, word = 1 << f3 % 4, bytes((0x80, 0x7F, 0xFF, 0x01))
    values = [int.from_bytes(word[at:at + size], 'little') for at in range(0, 4, size)]
    parts = [[*constant(T0, int.from_bytes(word, 'little')), sw(T0, SP, 1020), load(f3, T2, SP, 1020 + at)]
             for at in range(0, 4, size)]
    return parts, [signed(value, 8 * size) & MASK if f3 < 4 else value for value in values]


def kept(f3):
    """A word of ones with a part of another stored over it."""
    size, word = 1 << f3, 0x1234_5678
    part = (1 << 8 * size) - 1
    parts = [[addi(T0, ZERO, -1), sw(T0, SP, 1020), *constant(T1, word), store(f3, T1, SP, 1020 + at), lw(T2, SP, 1020)]
             for at in range(0, 4, size)]
    return parts, [MASK & ~(part << 8 * at) | (word & part) << 8 * at for at in range(0, 4, size)]


def instructions(group):
    """each instruction with operands at the edges, in both machines"""
    cases = {f'operation {key}': register_operation(*key) for key in REGISTER_OPERATIONS}
    cases.update({f'with an immediate {key}': immediate_operation(*key) for key in IMMEDIATE_OPERATIONS})
    cases.update({f'branch {f3}': condition(f3) for f3 in CONDITIONS})
    cases.update({f'load {f3}': loaded(f3) for f3 in LOADS}, **{f'store {f3}': kept(f3) for f3 in STORES})
    for what, (parts, values) in cases.items():
        code = shown(parts)
        folder = group.folder(program=object_of(code), image=image_of(code))
        for words in (('trace', 'program'), ('run', 'image')):
            group.exits(f'{what}, {words[0]}', folder.run(words), 3, words_of(*values))
        folder.remove()


# ---- where accesses lie, and calls

# The data of `at_the_ends` has 4 bytes that files hold, and ends with a common name of 6 bytes.
DATA, STACK = (DATA_AT, DATA_AT + 22), (STACK_LOW, STACK_HIGH)
# How `run` and `trace` stop at an access or a call.
STOPS = {'nowhere': ('stopped 2 BadAccess %08x', 'stuck 0 1 %d 5 BadAddress'),
         'misaligned': ('stopped 3 Misaligned %08x', 'stuck 0 1 %d 6 Misaligned'),
         'unknown': ('stopped 5 UnknownCall %08x', 'stuck 0 1 %d 9 UnknownCall')}


def ends_of(size):
    """What an access of this size is at addresses of text, at either end of data and of the stack, one past it, and between."""
    rows = {TEXT_AT: 'nowhere'}
    for low, high in (DATA, STACK):
        last = low + (high - low - size) // size * size
        rows.update({low - size: 'nowhere', low: 'there', last: 'there', last + size: 'nowhere'})
    odd = [start + k for start in (0, DATA[0], STACK[0], STACK[1] - size) for k in range(1, size)]
    return {**rows, **{address: 'misaligned' for address in odd}}


def at_the_ends(*words):
    """An object with data and with these words, before which sp is where the stack begins, and after which a0 is the status."""
    made, text = object_with(*constant(SP, STACK[0]), *words)
    text.content += EXIT
    made.section(b'.data', flags=DATA_FLAGS).words(7)
    made.symbol(b'common', home=COMMON, value=1, size=6)
    return made.bytes()


def check_end(group, what, how, status, before, *words):
    """A program of words before an access or a call, and of words from it on, exits or is stopped there, in both machines."""
    folder, names = group.linked_plainly(what, [at_the_ends(*before, *words)])
    at = 4 * len(before) + 8
    for command, place, k in ((('run', 'out'), TEXT_AT + at, 0), (('trace', *names), at, 1)):
        end = (126, STOPS[how][k] % place) if how in STOPS else (status, f'exited {status}')
        group.ends(f'{what}, {command[0]}', folder.run(command), *end)
    folder.remove()


def accesses(group):
    """loads and stores at the ends of data and of the stack, and misaligned ones, in both machines"""
    for f3 in LOADS:
        for address, how in ends_of(1 << f3 % 4).items():
            before = (*constant(T0, address), addi(A0, ZERO, 7))
            check_end(group, f'load {f3} of {address:08x}', how, 7, before, load(f3, T2, T0))
            if f3 in STORES:
                # the status is what was stored
                words = store(f3, A0, T0), load(f3, A0, T0)
                check_end(group, f'store {f3} at {address:08x}', how, 7, before, *words)


def other_calls(group):
    """calls of numbers and descriptors that a machine has or hasn't, of which it looks at the buffer last"""
    rows = (*((READ_CALL, it, it == 0) for it in (0, 1, 2, -1)), *((WRITE_CALL, it, it in (1, 2)) for it in (1, 2, 0, 3, -1)),
            (READ_CALL - 1, 0, False), (EXIT_CALL + 1, 0, False))
    for number, descriptor, has in rows:
        for at, length, is_there in ((STACK[0], 0, True), (0, 0, True), (0, 1, False)):
            how = 'unknown' if not has else 'there' if is_there else 'nowhere'
            before = (addi(A7, ZERO, number), addi(A0, ZERO, descriptor), *constant(A1, at), addi(A2, ZERO, length))
            what = f'call {number} of {descriptor}, {length} bytes at {at:08x}'
            check_end(group, what, how, 0, before, ECALL)
