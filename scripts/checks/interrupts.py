"""Pushes, pops, moves and table jumps in images, under plans of interrupts (RISC-V Zc specification 1.0, "Zcmp", "Zcmt")."""
import random
import struct

from groups import BITS, FROM_SAVED, LISTS, MORE, TO_SAVED, frame_half, move_half
from tables import swap_jvt, table_half
from zc_machine import POPRET, POPRETZ, PUSH, SAVED, Frame, Machine, plan_in, plan_of, run
from zcld_tools.files import random_bytes
from zcld_tools.images import COMPRESSED, DATA_AT, STACK_HIGH, STACK_LOW, TEXT_AT, image_bytes
from zcld_tools.instructions import (A0, A1, A2, A7, ECALL, EXIT_WORDS, SP, T0, T1, WRITE_CALL, ZERO, addi, constant, jal, lw,
                                     sw)

from checks.by_chance import random_word
from checks.made_files import call_of_stack

TABLE = 64


# ---- programs


class Code:
    """The code of an image, instruction by instruction. Those of two bytes are numbers below 2^16 with other low bits than 3."""

    def __init__(self):
        self.content, self.commits = b'', 0

    def add(self, *instructions):
        for it in instructions:
            self.content += struct.pack('<I' if it & 3 == 3 else '<H', it & (0xFFFFFFFF if it & 3 == 3 else 0xFFFF))
            self.commits += 1

    @property
    def address(self):
        return TEXT_AT + len(self.content)

    def write(self, at, size):
        """Writes memory to standard output."""
        self.add(addi(A0, ZERO, 1), *constant(A1, at), addi(A2, ZERO, size), addi(A7, ZERO, WRITE_CALL), ECALL)

    def write_registers(self):
        """Writes sp, a0 and the registers that lists have."""
        registers = (SP, A0, *SAVED)
        self.add(*constant(T0, DATA_AT), *(sw(register, T0, 4 * k) for k, register in enumerate(registers)))
        self.write(DATA_AT, 4 * len(registers))

    def image(self, zeros=4096):
        return image_bytes(self.content, {}, b'', zeros, TEXT_AT, COMPRESSED)


def ends_as_the_model(group, what, image, interrupts, steps=100_000, given=b''):
    """An image under a plan writes and ends as the model says."""
    plan = plan_of(interrupts)
    machine = Machine(image, given)
    line = run(machine, plan_in(plan), steps)
    folder = group.folder(image=image, plan=plan)
    ended = folder.run(('run', '--plan', 'plan', '--steps', str(steps), 'image'), given)
    wanted = 126 if line.startswith('stopped') else 127 if line == 'spent' else min(118, int(line.split()[1]))
    group.same(what, ended, (wanted, machine.written[1], machine.written[2] + line.encode() + b'\n'))
    folder.remove()


# ---- every push and pop


def frames_program(form, number, rng):
    """A push or pop of a list at every adjustment, whole and after each of its accesses, and the plan that comes between."""
    code, interrupts = Code(), []
    for more in MORE:
        frame = Frame(form, number, more)
        for count in range(len(frame.registers) + 1):
            pointer = STACK_HIGH - 256 - 4 * rng.randrange(16)
            low = frame.top(pointer) - frame.size - 16
            code.add(*constant(T0, low & ~0xF))
            for k in range(0, 160, 4):
                code.add(*constant(T1, rng.getrandbits(32)), sw(T1, T0, k))
            for register in (*SAVED, A0):
                code.add(*constant(register, rng.getrandbits(32)))
            code.add(*constant(SP, pointer))
            if form in (POPRET, POPRETZ):
                # ra's word is the address of the instruction that comes next, and its bit 0 is passed over
                slot, back = frame.accesses(pointer)[-1][0], code.address + 4 * 5 + 2
                code.add(*constant(T0, slot), *constant(T1, back | rng.randrange(2)), sw(T1, T0))
            dirt = [(pointer - 1 - rng.randrange(160), rng.randrange(256)) for _ in range(6)]
            interrupts.append((code.commits, rng.sample(range(len(frame.registers)), count), dirt))
            code.add(frame_half(form, number, more))
            code.write_registers()
            code.write(low & ~0xF, 160)
    code.add(addi(A0, ZERO, number), *EXIT_WORDS)
    return code.image(), interrupts


def frames(group):
    """a push and a pop of every list at every adjustment, whole and after each access"""
    for form in BITS:
        for number in LISTS:
            image, interrupts = frames_program(form, number, random.Random(f'{form} {number}'))
            what = f'{form} {number}'
            ends_as_the_model(group, what, image, interrupts)
            ends_as_the_model(group, f'{what}, whole', image, [])


# ---- accesses that can't be made


def pointers():
    """Addresses at which some words of a frame lie outside memory or at no multiple of 4, and some don't."""
    ends = (DATA_AT, DATA_AT + 4096, STACK_LOW, STACK_HIGH, 0, TEXT_AT)
    return sorted({end + 4 * k & 0xFFFFFFFF for end in ends for k in range(-30, 31)} | {STACK_LOW + 512 + k for k in (1, 2, 3)})


def edges(group):
    """pushes and pops at the ends of memory, which stop where one access can't be made"""
    for more, form in zip(MORE, BITS):
        for k, pointer in enumerate(pointers()):
            number, code = LISTS[k % len(LISTS)], Code()
            code.add(*constant(SP, pointer))
            interrupts = [(code.commits, [2, 0, 12, 255], [(pointer - 1 & 0xFFFFFFFF, 7)])]
            code.add(frame_half(form, number, more))
            code.write_registers()
            code.add(addi(A0, ZERO, 9), *EXIT_WORDS)
            ends_as_the_model(group, f'{form} {number} at {pointer:08x}', code.image(), interrupts)


# ---- programs by chance


def random_instruction(rng):
    kind = rng.randrange(13)
    if kind < 3:
        return [frame_half(rng.choice(list(BITS)), rng.choice(LISTS), rng.choice(MORE))]
    if kind < 5:
        return [move_half(rng.choice((TO_SAVED, FROM_SAVED)), rng.randrange(8), rng.randrange(8))]
    if kind == 5:
        return [table_half(rng.randrange(256))]
    if kind == 6:
        return [addi(T0, ZERO, rng.randrange(-64, 64)), swap_jvt(rng.choice((ZERO, T1)), rng.choice((T0, T1)))]
    if kind == 7:
        return [addi(SP, SP, rng.choice((-64, -16, -4, 4, 16, 64, -2, 1)))]
    if kind == 8:
        return [rng.choice((sw, lw))(rng.choice((*SAVED, A0, A1)), SP, 4 * rng.randrange(-8, 24))]
    if kind == 9:
        # sp and what lies above it
        return [addi(T1, SP), *call_of_stack(WRITE_CALL, 1, 64)]
    return [random_word(rng)]


def random_code(rng):
    """Code with a table of 256 entries, of which most lead to some instruction."""
    code, starts = Code(), []
    code.add(jal(ZERO, 4 * 16 + 1024))
    code.content = code.content.ljust(TABLE, b'\0') + bytes(1024)
    code.add(*constant(SP, STACK_HIGH - 4 * rng.randrange(64)), *constant(T1, TEXT_AT + TABLE + rng.randrange(64)), swap_jvt(T0, T1))
    # words of the stack that lead back to code
    for register in SAVED:
        code.add(*constant(register, code.address + 2 * rng.randrange(100, 200)))
    code.add(*[frame_half(PUSH, rng.choice(LISTS), rng.choice(MORE)) for _ in range(8)])
    for _ in range(rng.randrange(5, 60)):
        starts.append(code.address)
        code.add(*random_instruction(rng))
    code.write_registers()
    code.add(addi(A0, ZERO, 5), *EXIT_WORDS)
    entries = [rng.choice(starts) | rng.randrange(2) if rng.randrange(30) else rng.getrandbits(32) for _ in range(256)]
    code.content = code.content[:TABLE] + struct.pack('<256I', *entries) + code.content[TABLE + 1024:]
    return code


def random_interrupts(rng):
    at, interrupts = 0, []
    for _ in range(rng.randrange(40)):
        at += rng.choice((0, 1, 1, 2, 7))
        done = [rng.randrange(rng.choice((3, 14, 256))) for _ in range(rng.randrange(8))]
        dirt = [(rng.choice((STACK_HIGH, STACK_HIGH - 128, STACK_LOW, DATA_AT)) + rng.randrange(-200, 100), rng.randrange(256))
                for _ in range(rng.randrange(8))]
        interrupts.append((at, done, dirt))
    return interrupts


def random_plans(group):
    """400 programs by chance with pushes, pops, moves and table jumps, under plans by chance"""
    for number in range(400):
        rng = random.Random(f'plan {number}')
        code = random_code(rng)
        ends_as_the_model(group, f'program {number}', code.image(), random_interrupts(rng), 2000, random_bytes(rng, 8))
