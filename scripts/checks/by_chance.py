"""Programs and lists of objects by chance."""
import random

from close_relocs import close_relocs
from far_lists import far_list
from made_objects import made_list
from object_faults import told
from object_items import first_fault
from zcld_tools.files import random_bytes
from zcld_tools.instructions import (A0, RA, READ_CALL, RET, SP, WRITE_CALL, ZERO, addi, branch, immediate, jal, load, lui,
                                     of_format_r, store, sw, words_of)

from checks.machines import CONDITIONS, LOADS, REGISTER_OPERATIONS, SHIFTS, STORES
from checks.made_files import EXIT, OLD, call_of_stack, image_of, object_of

WORKED, COUNTER = range(5, 16), 16


def random_word(rng):
    """An operation on the registers that are worked on, or a load or store of the 64 bytes from sp on."""
    to, first, second = (rng.choice(WORKED) for _ in range(3))
    kind = rng.randrange(5)
    if kind < 2:
        return of_format_r(*rng.choice(REGISTER_OPERATIONS), to, first, second)
    if kind == 2:
        f3 = rng.randrange(8)
        value = rng.randrange(32) | (rng.choice((0, 0x400)) if f3 == 5 else 0) if f3 in SHIFTS else rng.randrange(4096)
        return immediate(f3, to, first, value)
    if kind == 3:
        f3 = rng.choice(LOADS)
        return load(f3, to, SP, rng.randrange(64) & -(1 << f3 % 4))
    f3 = rng.choice(STORES)
    return store(f3, second, SP, rng.randrange(64) & -(1 << f3))


def random_part(rng):
    """Some words, maybe under a branch, in a loop of up to nine turns, or in a function that is called."""
    words = [random_word(rng) for _ in range(rng.randrange(1, 5))]
    kind = rng.randrange(5)
    if kind == 0:
        first, second = rng.choice(WORKED), rng.choice(WORKED)
        return [branch(rng.choice(CONDITIONS), first, second, 4 * len(words) + 4), *words]
    if kind == 1:
        return [addi(COUNTER, ZERO, rng.randrange(1, 10)), *words, addi(COUNTER, COUNTER, -1),
                branch(1, COUNTER, ZERO, -4 * len(words) - 4)]
    if kind == 2:
        return [jal(RA, 8), jal(ZERO, 4 * len(words) + 8), *words, RET]
    return words


def random_code(rng):
    """A program that reads 16 bytes, works on registers and on 64 bytes of the stack, writes these, and exits."""
    words = [addi(SP, SP, -64)]
    for register in WORKED:
        words += [lui(register, rng.randrange(1 << 20)), addi(register, register, rng.randrange(4096))]
    words += [sw(rng.choice(WORKED), SP, 4 * k) for k in range(16)]
    words += call_of_stack(READ_CALL, 0, 16, 16)
    words += [addi(register, register, 1) for register in WORKED]
    for _ in range(rng.randrange(5, 25)):
        words += random_part(rng)
    words += [sw(register, SP, 4 * k) for k, register in enumerate(WORKED)]
    words += call_of_stack(WRITE_CALL, rng.choice((1, 2)), 64)
    # the status is a byte of what was written
    return words_of(*words, load(4, A0, SP, 20)) + EXIT


def random_programs(group):
    """200 programs by chance, which end alike as objects and as images"""
    for number in range(200):
        rng = random.Random(number)
        code, given = random_code(rng), random_bytes(rng, rng.randrange(20))
        folder = group.folder(program=object_of(code), image=image_of(code))
        traced, ran = (folder.run((command, '--steps', '100000', name), given)
                       for command, name in (('trace', 'program'), ('run', 'image')))
        group.same(f'program {number}', traced, ran)
        whole = len(ran.out + ran.err) > 64 and b'exited ' in ran.err
        group.same(f'program {number} writes 64 bytes and exits', whole, True)
        folder.remove()


def random_lists(group):
    """300 lists of objects by chance: both images byte for byte, and all machines end alike"""
    for number in range(300):
        rng = random.Random(f'list {number}')
        files = far_list(rng) if number % 2 else made_list(rng, False)
        found = first_fault(files)
        if found:
            folder = group.folder(out=OLD, cert=OLD)
            ended = folder.link(*folder.write_list(files))
            group.refused(f'list {number}', ended, folder, 121, told(found).decode())
            continue
        plainly, names = group.linked_plainly(f'list {number}, plain', files)
        small = group.linked_small(f'list {number}, zc', files)
        traced = plainly.run(('trace', '--steps', '100000', *names))
        group.same(f'list {number} exits', b'exited ' in traced.err, True)
        for what, folder in (('plain', plainly), ('zc', small)):
            group.same(f'list {number}, {what}', folder.run(('run', '--steps', '6400003', 'out')), traced)
            folder.remove()


def random_relocations(group):
    """300 objects by chance whose relocations lie close together: the first fault, or the plain image"""
    for number in range(300):
        files = [close_relocs(random.Random(f'close {number}'))]
        found = first_fault(files)
        if found:
            folder = group.folder(out=OLD, cert=OLD)
            group.refused_by_all(f'object {number}', folder, folder.write_list(files), 121, told(found).decode())
        else:
            folder, _ = group.linked_plainly(f'object {number}', files)
        folder.remove()
