"""Each halfword as an instruction of compressed code: what both links write, where `trace` is stuck, and what it does (RISC-V
unprivileged manual, "RVC Instruction Set Listings"; RISC-V Zc specification 1.0, "Zcb", "Zcmp")."""
import random

from assembled import shortest
from expansions import expanded, expansion
from object_items import word_of
from size_report import Left
from symbolic_machine import ADDRESS, BAD_ADDRESS, CONDITION, MASK, NAMES, NO_INSTRUCTION, STACK_POINTER, TARGET
from zcld_tools.images import text_of
from zcld_tools.instructions import (A0, A1, EBREAK, EXIT_WORDS, OPCODE_LOAD, OPCODE_REGISTER, SHORT_NOP, SP, T2, WRITE_CALL,
                                     ZERO, add, addi, branch_distance, constant, halves_of, immediate, is_branch, is_jal,
                                     is_jalr, is_store, jal_distance, low_part, lw, sw, words_of)
from zcld_tools.objects import compressed_with
from zcld_tools.programs import CERTIFICATE

from checks.machines import EDGES
from checks.made_files import call_of_stack, image_of_items, object_of, report_of

QUADRANTS = [range(quadrant, 1 << 16, 4) for quadrant in range(3)]
# Groups of quadrant 1, bits 15 to 13: a jump that links, one that doesn't, and both branches; and how far they lead.
JUMPS, REACHES = (1, 5, 6, 7), {1: 2048, 5: 2048, 6: 256, 7: 256}
# One halfword in this many is traced, and this many of each name are executed.
TRACED, EXECUTED = 37, 48
# Hints whose expansion no other halfword has: `c.addi`, `c.li` and `c.lui` of x0, shifts by 0 or of x0, and copies and sums to x0.
WORDS_OF_HINTS = 63 + 63 + 63 + 8 + 8 + 63 + 31 + 31
AFTER = words_of(*EXIT_WORDS)
C_LI_3 = 0x450D


def is_jump(half):
    """A branch or jump to a place."""
    return half & 3 == 1 and half >> 13 in JUMPS


# ---- both links


def written(half):
    """What `zc` writes for a halfword that is no branch and no jump to a place: its shortest form, or the word of a hint."""
    word = word_of(half)
    return halves_of(half) if word is None else shortest(word)


def parts():
    """The halfwords of each object: those of each quadrant; and all branches or jumps of a kind, among so many others that each
    leads to one."""
    for quadrant in QUADRANTS:
        yield [half for half in quadrant if not is_jump(half)]
    for which, reach in REACHES.items():
        around = [SHORT_NOP] * (reach // 2)
        yield [*around, *range(which << 13 | 1, which + 1 << 13, 4), *around]


def all_halfwords(group):
    """each halfword as an instruction: `plain` copies it, and `zc` writes its shortest form or the word of a hint"""
    objects, folder = [*parts()], group.folder()
    names = [b'_start', *(b'part%d' % k for k in range(1, len(objects)))]
    files = [compressed_with(halves_of(*part), name)[0].bytes() for part, name in zip(objects, names)]
    names = folder.write_list(files)
    rows = [[(2, halves_of(half) if is_jump(half) else written(half)) for half in part] for part in objects]
    image = image_of_items([[(2, halves_of(half)) for half in part] for part in objects], 4)
    group.same('plain', folder.plain(*names), (0, b'plain text %d\n' % len(text_of(image)), b''))
    group.same('OUT of plain', folder.read('out'), image)
    small = image_of_items(rows)
    sizes = [len(code) for items in rows for _, code in items]
    report = report_of(len(text_of(image)), len(text_of(small)), len(sizes), sizes.count(2))
    group.done('zc', folder.link(*names), folder, left=Left(small, CERTIFICATE, report))
    group.same('how many are written as words', sizes.count(4), WORDS_OF_HINTS)


# ---- the symbolic machine

# How a jump before an exit ends, by how far it leads: to itself, to `c.li a0,3`, `li a7,93` and `ecall`, and to the end.
LED = {0: 'spent', 2: 'exited 3', 4: 'stuck 0 1 8 4 ArgumentUnknown', 8: 'stuck 0 1 8 4 ArgumentUnknown',
       12: 'stuck 0 1 12 8 NoInstruction'}
STATUSES = {'spent': 127, 'exited 3': 3}


def keeps_stack(word):
    """Whether an instruction that writes sp, which is at its highest, leaves it in the stack."""
    is_sum = word & 0xFFFFF == addi(SP, SP) and low_part(word) <= 0
    return is_sum or word in (add(SP, ZERO, SP), immediate(1, SP, SP, 0))


def reason(word):
    """Why the symbolic machine is stuck at a program's first instruction, which is no jump to a place; or none."""
    base = word >> 15 & 31
    if word == EBREAK:
        return NO_INSTRUCTION
    if is_jalr(word):
        return TARGET
    if is_store(word) or word & 0x7F == OPCODE_LOAD:
        return BAD_ADDRESS if base == SP else ADDRESS
    return STACK_POINTER if word >> 7 & 31 == SP and not keeps_stack(word) else None


def end_of(half):
    """The line with which `trace` ends of a halfword before an exit."""
    word, words = expanded(half), expansion(half)
    if words:
        # a pop, at the stack's top, or else a push or two moves
        why = BAD_ADDRESS if words[0] & 0x7F == OPCODE_LOAD else None
    elif word is None:
        why = NO_INSTRUCTION
    elif is_jal(word):
        return LED.get(jal_distance(word), f'stuck 0 1 0 {NO_INSTRUCTION} {NAMES[NO_INSTRUCTION]}')
    elif is_branch(word):
        why = CONDITION if branch_distance(word) in LED else NO_INSTRUCTION
    else:
        why = reason(word)
    return f'stuck 0 1 0 {why} {NAMES[why]}' if why else 'exited 3'


def traced_halfwords(group):
    """one halfword in this many, before an exit: how `trace` ends"""
    folder = group.folder()
    for half in [half for quadrant in QUADRANTS for half in quadrant][::TRACED]:
        folder.write('object', compressed_with(halves_of(half, C_LI_3) + AFTER)[0].bytes())
        line = end_of(half)
        group.ends(f'halfword {half:04x}', folder.run(('trace', '--steps', '10', 'object')), STATUSES.get(line, 126), line)


# ---- what halfwords do

# What lies below sp in a program: words that are loaded and stored, and after them the results.
FRAME, WORDS = 2032, 64


def is_executed(half):
    """A halfword of a program: no jump, and nothing that moves sp but down."""
    word = expanded(half)
    if word is None or word == EBREAK or is_jalr(word) or is_jump(half):
        return False
    return is_store(word) or word >> 7 & 31 != SP or word & 0xFFFFF == addi(SP, SP) and low_part(word) <= 0


def kind_of(half):
    """What halfwords of one name have in common."""
    word = expanded(half)
    operation = word >> 25 if word & 0x7F == OPCODE_REGISTER or word >> 12 & 7 == 5 else 0
    return half & 3, half >> (12 if half >> 13 == 4 else 13), word & 0x7F, word >> 12 & 7, operation


def executed(rng):
    """So many halfwords of each name."""
    by_kind = {}
    for quadrant in QUADRANTS:
        for half in filter(is_executed, quadrant):
            by_kind.setdefault(kind_of(half), []).append(half)
    return [half for halves in by_kind.values() for half in rng.sample(halves, min(EXECUTED, len(halves)))]


def set_up(rng, word):
    """Words that give numbers to the registers that an instruction reads: to a base an address in the frame."""
    is_memory = is_store(word) or word & 0x7F == OPCODE_LOAD
    base, other, to = word >> 15 & 31, word >> 20 & 31, word >> 7 & 31
    words = []
    for register in (other, to) if is_memory else (other, to, base):
        if register not in (ZERO, SP):
            words += constant(register, rng.choice((*EDGES, rng.getrandbits(32))) & MASK)
    return [*words, addi(base, SP, 4 * rng.randrange(WORDS // 2))] if is_memory and base != SP else words


def result(word, k):
    """Words that keep what an instruction did, as the word number k: the register, or the word of memory that it stored in."""
    if is_store(word):
        base, offset = word >> 15 & 31, low_part(word) & -4
        return [lw(T2, base, offset), sw(T2, SP, 4 * (WORDS + k))]
    if word >> 7 & 31 == SP:
        return [addi(SP, SP, -low_part(word)), sw(SP, SP, 4 * (WORDS + k))]
    return [sw(word >> 7 & 31, SP, 4 * (WORDS + k))]


def program(rng, halves, code_of):
    """A program that makes each of these instructions, keeps a word of it, and writes them. Of a halfword `code_of` gives the
    code."""
    code = words_of(addi(SP, SP, -FRAME))
    for k in range(WORDS):
        code += words_of(*constant(A1, rng.getrandbits(32)), sw(A1, SP, 4 * k))
    for k, half in enumerate(halves):
        word = expanded(half)
        code += words_of(*set_up(rng, word)) + code_of(half) + words_of(*result(word, k))
    call = call_of_stack(WRITE_CALL, 1, 4 * len(halves), 4 * WORDS)
    return code + words_of(*call, addi(A0, ZERO, 3), *EXIT_WORDS)


def executed_halfwords(group):
    """halfwords of each name in programs: `trace` and both images do what the words that they expand to do"""
    halves, most = executed(random.Random('halfwords')), FRAME // 4 - WORDS - 2
    for start in range(0, len(halves), most):
        some, what = halves[start:start + most], f'halfwords from {start} on'
        words, short = (program(random.Random(start), some, code_of)
                        for code_of in (lambda half: words_of(expanded(half)), halves_of))
        folder = group.folder(words=object_of(words), short=compressed_with(short)[0].bytes())
        wanted = folder.run(('trace', 'words'))
        group.same(f'{what}: words', (wanted.status, len(wanted.out), wanted.err), (3, 4 * len(some), b'exited 3\n'))
        group.same(f'{what}: trace', folder.run(('trace', 'short')), wanted)
        group.same(f'{what}: plain', folder.plain('short').status, 0)
        group.same(f'{what}: run of plain', folder.run(('run', 'out')), wanted)
        group.same(f'{what}: zc', folder.link('short').status, 0)
        group.same(f'{what}: run of zc', folder.run(('run', 'out')), wanted)
