"""Memory maps: which words give one, and that links, runs and traces keep to it."""
import random
import struct

import plain_examples
import zc_machine
from listing import listed
from memory_maps import (ADDRESSES, LAST_DATA, LAST_STACK, LAST_TEXT, STACK_SIZE, STEP, lies_in, made_map, map_at, map_in,
                         values_of, words_of_map)
from object_faults import told
from object_items import first_fault
from plain_link import plain as plain_of
from shared_cells import SHARED_TITLE
from size_report import left_by_zc
from symbolic_machine import trace as trace_of
from zcld_tools.elf import DATA_FLAGS, HI20, LO12_I, LOCAL, NOBITS, PCREL_HI20, PCREL_LO12_I
from zcld_tools.images import STANDARD
from zcld_tools.instructions import (A0, A1, A2, A3, A7, ECALL, EXIT_WORDS, READ_CALL, SP, T0, WRITE_CALL, ZERO, add, addi,
                                     auipc, constant, lui, lw, of_format_r, sw)
from zcld_tools.objects import object_with

from checks.c_programs import FOLDERS, STATUSES, input_of, objects_of, read
from checks.made_files import THREE, THREE_IMAGE

# For each option words that are no address: of another length, of other digits, or with a sign or a prefix.
NO_ADDRESSES = ('', '1', '0', '1000000', '001000000', '0010000g', '0x100000', '+0100000', '-0100000', ' 0100000',
                '0010_000', '００１００００0', '10000000000000000000')
# Words that give no map, though they would if one thing were allowed. In this order: capitals; code at 0; no multiple of 4,096, or of
# 16; too little room for code, by 16 bytes or a page; a stack without bytes, one that begins below data, or that has its ends the
# other way round; and too little room for the most data, even if a sum is taken modulo 2^32.
NO_MAPS = ({'--text': '0000A000'}, {'--data': '0020A000'}, {'--stack': '0FF00000'}, {'--stack-low': '0FE00000'},
           {'--text': '00000000'}, {'--text': '0000f800'}, {'--text': '0000f010'}, {'--text': '0000f001'}, {'--data': '00100004'},
           {'--data': '00100008'}, {'--stack': '0ffffff8'}, {'--stack-low': '0feffffc'}, {'--stack-low': '0fe00001'},
           {'--text': '08000000', '--data': '080efff0'}, {'--text': '08000000', '--data': '080ef000'}, {'--text': '00011000'},
           {'--text': '08000000'}, {'--stack-low': '10000000'}, {'--stack-low': '10000010'}, {'--stack-low': '000ffff0'},
           {'--stack': '00100000'}, {'--stack': '001ffff0'}, {'--data': '0ff00010'}, {'--stack': '000ffff0', '--data': '000fff00'},
           {'--stack': '00180000', '--stack-low': '00190000'}, {'--stack-low': 'fffffff0', '--stack': '00000000'},
           {'--data': 'ffbff010', '--stack': 'fffffff0'}, {'--data': 'fffff000', '--stack': '004ff000'},
           {'--text': 'fff10000', '--data': '00000000'}, {'--text': 'fff20000', '--data': '00010000'})
# Words for extensions that are none of the eight.
NO_EXTENSIONS = ('', 'zcb', 'zca_', '_zca', 'ZCA', 'zca_zcmp_zcb', 'zca_zcmt_zcmp', 'zca_zcb_zcb', 'zca_zca', 'zca zcb', 'zca-zcb',
                 'zca_zcb_zcmp_zcmt_', 'zca_zcf', 'zca_zcd', 'zca_zcbx', 'zcb_zca', 'zc', 'zce', 'rv32imc', 'rv32im_zca', 'all', 'none')
# Maps at the ends of what a link may be made for, on both sides of 2 GiB, where 0x800 more round an upper part up, and with little
# RAM.
ENDS = (map_at(0x1000, 0xF1000, 0x5F1000), map_at(LAST_TEXT, LAST_DATA, LAST_STACK), map_at(0x1000, 0xF1000, LAST_STACK),
        map_at(0x1000, LAST_DATA, LAST_STACK, LAST_STACK - STEP), map_at(0x80000000, 0x800F0000, 0x805F0000),
        map_at(0x7FF10000, 0x80000000, 0x80500000), map_at(0x7FF0F000, 0x7FFFF000, 0x804FF000),
        map_at(0x7FFFF000, 0x800EF000, 0x805EF000), map_at(0x1000, 0xF1010, 0xF2010, 0xF1410),
        map_at(0x10000000, 0x20000000, 0x20082000, 0x20081000), map_at(0x8000000, 0x20000000, 0x20000800, 0x20000400))
# How far after the start of data the address is that `addresses` writes.
BEHIND = 0x800
# The map of a board with flash and RAM, as a word for each option.
ELSEWHERE = ('--text', '08000000', '--data', '20000000', '--stack', '20600000')
# That of a board with flash and RAM above 2 GiB, for which C programs are linked.
FLASH_AND_RAM = map_at(0x20001000, 0x80000000, 0x80600000)
STEPS = 1_000_000
HELLO_TEXT = '29209308D0057300000042B80545B7050020AE850D46930800047300000042BC'


def commands(words, names=('three',)):
    """The words of each command that takes a map, with these options."""
    return (('plain', *words, '--out', 'out', *names), ('zc', *words, '--out', 'out', '--cert', 'cert', *names),
            ('run', *words, 'image'), ('trace', *words, *names), ('gc', *words, '--out', 'left', *names),
            ('merge', *words, '--out', 'left', *names), ('share', *words, '--out', 'out', '--plan', 'plan', *names),
            ('list', *words, 'image'))


def no_maps(group):
    """words that give no memory map, which are no command's, and options that are given twice"""
    folder = group.folder(three=THREE, image=THREE_IMAGE, plan=SHARED_TITLE + b'\n')
    rows = [{name: word} for name in ADDRESSES for word in NO_ADDRESSES]
    for values in (*rows, *NO_MAPS, *({'--extensions': word} for word in NO_EXTENSIONS)):
        group.same(f'{values}: the model', map_in(values), None)
        for words in commands([f'{name}={word}' for name, word in values.items()]):
            group.ends(f'{words}', folder.run(words), 120, 'usage')
    for name, value in values_of(STANDARD).items():
        for words in (*commands((name, value, name, value)), ('check', name, value, 'cert'), ('make', name, value, '5', '0')):
            group.ends(f'{words}', folder.run(words), 120, 'usage')
    group.same('no file was written', [folder.read(name) for name in ('out', 'cert', 'left0.o')], [None] * 3)


def standard_map(group):
    """the words of the standard map, which change nothing"""
    folder = group.folder()
    options = words_of_map(STANDARD)
    for first in range(0, len(options), 2):
        for last in range(first + 2, len(options) + 1, 2):
            words = options[first:last]
            group.done(f'{words}', folder.run(('zc', *words, '--out', 'out', '--cert', 'cert', 'object')), folder)
            group.exits(f'{words}: run', folder.run(('run', 'out', *words)), 3)
            group.exits(f'{words}: trace', folder.run(('trace', *words, 'object')), 3)
            group.plain_done(f'{words}: plain', folder.run(('plain', 'object', *words, '--out', 'out')), folder, [THREE])


def stack_ends(size=STACK_SIZE):
    """sp is written as it is at first, and as it is at the lowest word of a stack of this size, once it was stored there."""
    made, text = object_with(*constant(T0, size))
    words = made.section(b'.bss', NOBITS, DATA_FLAGS, size=8)
    first = made.symbol(b'words', home=words, bind=LOCAL)
    text.reloc(HI20, first, 0, (lui(A1),))
    text.reloc(LO12_I, first, 0, (addi(A1, A1),))
    text.words(sw(SP, A1), of_format_r(0x20, 0, SP, SP, T0), sw(SP, SP), lw(A3, SP), sw(A3, A1, 4), add(SP, SP, T0),
               addi(A0, ZERO, 1), addi(A2, ZERO, 8), addi(A7, ZERO, WRITE_CALL), ECALL, addi(A0, ZERO), *EXIT_WORDS)
    return [made.bytes()]


def addresses():
    """An address in data is written as a sum with pc and as a number, and then where the stack ends."""
    made, text = object_with(addi(SP, SP, -16))
    data = made.section(b'.data', flags=DATA_FLAGS)
    data.words(0, 0)
    first = made.symbol(b'first', home=data, bind=LOCAL)
    at = text.reloc(PCREL_HI20, first, BEHIND, (auipc(A1),))
    text.reloc(PCREL_LO12_I, made.symbol(b'.Lhigh', home=text, value=at, bind=LOCAL), 0, (addi(A1, A1),))
    text.words(sw(A1, SP, 4))
    text.reloc(HI20, first, BEHIND, (lui(A0),))
    text.reloc(LO12_I, first, BEHIND, (addi(A0, A0),))
    text.words(sw(A0, SP), addi(A2, SP, 16), sw(A2, SP, 8), addi(A0, ZERO, 1), addi(A1, SP), addi(A2, ZERO, 12),
               addi(A7, ZERO, WRITE_CALL), ECALL, *EXIT_WORDS)
    return [made.bytes()]


def echo():
    """Up to four bytes of the input are written, from data that may begin anywhere."""
    made, text = object_with(addi(A0, ZERO))
    buffer = made.symbol(b'buffer', home=made.section(b'.bss', NOBITS, DATA_FLAGS, size=4), bind=LOCAL)
    text.reloc(HI20, buffer, 0, (lui(A1),))
    text.reloc(LO12_I, buffer, 0, (addi(A1, A1),))
    text.words(addi(A2, ZERO, 4), addi(A7, ZERO, READ_CALL), ECALL, addi(A2, A0), addi(A0, ZERO, 1), addi(A7, ZERO, WRITE_CALL),
               ECALL, addi(A0, ZERO), *EXIT_WORDS)
    return [made.bytes()]


def hello_elsewhere(group):
    """a program linked for another map, whose bytes are known by hand, and its run in that map and in the standard one"""
    folder = group.folder()
    names = folder.write_list(plain_examples.hello())
    folder.run(('zc', *ELSEWHERE, '--out', 'out', '--cert', 'cert', *names))
    image = folder.read('out')
    group.same('hello: the text', image[116:148].hex().upper(), HELLO_TEXT)
    group.same('hello: the entry', image[24:28], bytes.fromhex('00000008'))
    group.exits('hello: run', folder.run(('run', *ELSEWHERE, 'out')), 0, b'hi\n')
    group.exits('hello: trace', folder.run(('trace', *ELSEWHERE, *names)), 0, b'hi\n')
    group.ends('hello: run in the standard map', folder.run(('run', 'out')), 125, 'bad image 3')


def usual_stack(group):
    """A stack of 1 MiB, if no word says where it begins: its lowest word is reached, and none below it."""
    memory, folder = map_at(*(int(word, 16) for word in ELSEWHERE[1::2])), group.folder()
    for size in (STACK_SIZE, STACK_SIZE + STEP):
        out, err, line = trace_of(stack_ends(size), b'', 100, memory)
        ended = folder.run(('trace', *ELSEWHERE, *folder.write_list(stack_ends(size))))
        group.same(f'a stack of {size}', ended, (126 if b'stuck' in line else 0, out, err + line + b'\n'))
        group.same(f'a stack of {size}: by hand', (out, line[-12:]),
                   (struct.pack('<2I', 0x20600000, 0x20500000), b'exited 0') if size == STACK_SIZE else (b'', b'StackPointer'))


def linked_elsewhere(group):
    """objects linked for other maps: images byte for byte, runs and traces, and the images under other maps"""
    usual_stack(group)
    rng = random.Random('maps')
    programs = (('hello', plain_examples.hello(), b''), ('jump table', plain_examples.jump_table(), b''),
                ('echo', echo(), b'ab'), ('the linker\'s names', plain_examples.linker_names()[0], b''),
                ('addresses', addresses(), b''))
    for memory in (*ENDS, *(made_map(rng) for _ in range(20))):
        in_map(group, 'the stack', stack_ends(memory.stack_high - memory.stack_low), b'', memory, rng)
    for memory in ENDS:
        ends, size = struct.pack('<2I', memory.stack_high, memory.stack_low), memory.stack_high - memory.stack_low
        group.same(f'the stack, {memory}: the model', trace_of(stack_ends(size), b'', 100, memory)[:2], (ends, b''))
        wanted = struct.pack('<3I', *[memory.data + BEHIND] * 2, memory.stack_high)
        group.same(f'addresses, {memory}: the model', trace_of(addresses(), b'', 100, memory)[:2], (wanted, b''))
    for what, objects, given in programs:
        for memory in (*ENDS, *(made_map(rng) for _ in range(20))):
            in_map(group, what, objects, given, memory, rng)
    for program, status in STATUSES.items():
        for compiler in FOLDERS:
            objects, given = objects_of(program, compiler), input_of(program)
            in_map(group, f'{program} by {compiler}', objects, given, FLASH_AND_RAM, rng)
            folder = group.folder()
            ended = folder.run(('trace', *words_of_map(FLASH_AND_RAM), *folder.write_list(objects)), given)
            group.exits(f'{program} by {compiler}: trace', ended, status, read(program, 'output'))


def in_map(group, what, files, given, memory, rng):
    """One list of objects in a map: both links, the runs of their images, the trace, the listing, and runs in another map."""
    folder, words, other = group.folder(), words_of_map(memory), made_map(rng)
    names, what = folder.write_list(files), f'{what}, {words_of_map(memory)}'
    fault = first_fault(files, memory)
    if fault:
        folder.write('plan', SHARED_TITLE + b'\n')
        for command in commands(words, names):
            if command[0] not in ('run', 'list'):
                group.ends(f'{what}: {command[0]}', folder.run(command), 121, told(fault).decode())
        folder.remove()
        return
    image, length = plain_of(files, memory)
    left = left_by_zc(files, memory)
    ended = folder.run(('plain', *words, '--out', 'plain', *names))
    group.same(f'{what}: plain', (ended, folder.read('plain')), ((0, b'plain text %d\n' % length, b''), image))
    group.done(f'{what}: zc', folder.run(('zc', *words, '--out', 'out', '--cert', 'cert', *names)), folder, left=left)
    out, err, line = trace_of(files, given, STEPS, memory)
    status = int(line.split()[1])
    group.same(f'{what}: trace', folder.run(('trace', *words, *names), given), (status, out, err + line + b'\n'))
    folder.write('plan', SHARED_TITLE + b'\n')
    ended = folder.run(('share', *words, '--out', 'shared', '--plan', 'plan', *names), given)
    group.same(f'{what}: share', (ended, folder.read('shared')), ((status, out, err + line + b'\n'), left.image))
    group.same(f'{what}: list', folder.run(('list', *words, 'shared')), (0, listed(left.image), b''))
    for name, data in (('plain', image), ('out', left.image)):
        group.same(f'{what}: run {name}', folder.run(('run', *words, name), given), (status, out, err + line + b'\n'))
        ended = folder.run(('run', *words_of_map(other), name), given)
        if not lies_in(data, other):
            group.ends(f'{what}: run {name}, {words_of_map(other)}', ended, 125, 'bad image 3')
        else:
            machine = zc_machine.Machine(data, given, other)
            end = zc_machine.run(machine, [], STEPS).encode()
            group.same(f'{what}: run {name}, {words_of_map(other)}', (ended.out, ended.err), (machine.written[1],
                                                                                            machine.written[2] + end + b'\n'))
    folder.remove()
