"""Listings of images: what `list` prints, by hand and against the model, which reads each listing back."""
import collections
import os
import random

import listed_images
import plain_examples
from changed_files import changed_images
from listed_images import OTHER_KIND, READ_ONLY_CODE, executable_of, wrong_of
from listing import BadLine, listed, read_list
from plain_link import plain
from zc_link import zc
from zcld_tools.elf import EXECUTE, READABLE, WRITABLE
from zcld_tools.images import DATA_AT, TEXT_AT, image_bytes
from zcld_tools.instructions import halves_of, words_of

from checks import strace
from checks.c_programs import FOLDERS, STATUSES, objects_of
from checks.harness import broken_pipe
from checks.made_files import LARGE, MIB, OLD, THREE_IMAGE, long_code, object_of

THREE_LISTING = b'''zcld list 1
segment 00010000 10 code
00010000 c.li x10 x0 3
00010002 addi x17 x0 93
00010006 ecall
segment 00100000 0 data
end
'''

# A word and its line, for each name.
WORDS = '''
fffff537 lui x10 1048575
00001297 auipc x5 1
001000ef jal x1 2048
ffdff06f jal x0 -4
0030006f jal x0 2050
fff300e7 jalr x1 x6 -1
7eb50fe3 beq x10 x11 4094
80051063 bne x10 x0 -4096
10050163 beq x10 x0 258
00944463 blt x8 x9 8
01395663 bge x18 x19 12
01de6863 bltu x28 x29 16
01ff7a63 bgeu x30 x31 20
80058503 lb x10 x11 -2048
7ff59503 lh x10 x11 2047
00412503 lw x10 x2 4
0005c503 lbu x10 x11 0
0021d503 lhu x10 x3 2
80a58023 sb x11 x10 -2048
7ea59fa3 sh x11 x10 2047
00112623 sw x2 x1 12
05d00893 addi x17 x0 93
fff5a513 slti x10 x11 -1
0015b513 sltiu x10 x11 1
05d54513 xori x10 x10 93
7ff5e513 ori x10 x11 2047
8005f513 andi x10 x11 -2048
01f59513 slli x10 x11 31
0015d513 srli x10 x11 1
4005d513 srai x10 x11 0
00c58533 add x10 x11 x12
40c58533 sub x10 x11 x12
00c59533 sll x10 x11 x12
00c5a533 slt x10 x11 x12
00c5b533 sltu x10 x11 x12
00c5c533 xor x10 x11 x12
00c5d533 srl x10 x11 x12
40c5d533 sra x10 x11 x12
00c5e533 or x10 x11 x12
00c5f533 and x10 x11 x12
02c58533 mul x10 x11 x12
02c59533 mulh x10 x11 x12
02c5a533 mulhsu x10 x11 x12
02c5b533 mulhu x10 x11 x12
02c5c533 div x10 x11 x12
02c5d533 divu x10 x11 x12
02c5e533 rem x10 x11 x12
02c5f533 remu x10 x11 x12
0ff0000f fence 261120
8330000f fence 2149376
00008f8f fence 63
00000073 ecall
00100073 ebreak
017312f3 csrrw x5 x6
00000013 addi x0 x0 0
00052007 .word 00052007
c0002573 .word c0002573
0000100f .word 0000100f
02051513 .word 02051513
30200073 .word 30200073
34011073 .word 34011073
01702573 .word 01702573
00002063 .word 00002063
ffffffff .word ffffffff
00000003 lb x0 x0 0
00003003 .word 00003003
00003023 .word 00003023
40001533 .word 40001533
0000007f .word 0000007f'''.splitlines()[1:]

# A halfword and its line: of each name, then hints, and then what isn't in the tables.
HALFWORDS = '''
1ffc c.addi4spn x15 x2 1020
5de8 c.lw x10 x11 124
dde8 c.sw x11 x10 124
81e8 c.lbu x10 x11 3
85a8 c.lhu x10 x11 2
85c8 c.lh x10 x11 0
89c8 c.sb x11 x10 1
8da8 c.sh x11 x10 2
0001 c.addi x0 x0 0
1101 c.addi x2 x2 -32
3001 c.jal x1 -2048
457d c.li x10 x0 31
7101 c.addi16sp x2 x2 -512
657d c.lui x10 31
7081 c.lui x1 1048544
807d c.srli x8 x8 31
8785 c.srai x15 x15 1
9901 c.andi x10 x10 -32
8d0d c.sub x10 x10 x11
8d2d c.xor x10 x10 x11
8d4d c.or x10 x10 x11
8d6d c.and x10 x10 x11
9d4d c.mul x10 x10 x11
9d61 c.zext.b x10 x10 255
9ff5 c.not x15 x15 -1
affd c.j x0 2046
b001 c.j x0 -2048
cd7d c.beqz x10 x0 254
f381 c.bnez x15 x0 -256
0ffe c.slli x31 x31 31
557e c.lwsp x10 x2 252
8082 c.jr x0 x1 0
8dfe c.mv x27 x0 x31
9002 c.ebreak
9282 c.jalr x1 x5 0
9116 c.add x2 x2 x5
df82 c.swsp x2 x0 252
b842 cm.push 4 16
b862 cm.push 6 16
bafe cm.pop 15 112
bc6e cm.popretz 6 64
be52 cm.popret 5 16
aca2 cm.mvsa01 x9 x8
affe cm.mva01s x23 x23
a002 cm.jt 0
a07e cm.jt 31
a082 cm.jalt 32
a3fe cm.jalt 255
0005 c.addi x0 x0 1
0501 c.addi x10 x10 0
4005 c.li x0 x0 1
6005 c.lui x0 1
0006 c.slli x0 x0 1
0502 c.slli x10 x10 0
8001 c.srli x8 x8 0
802a c.mv x0 x0 x10
902a c.add x0 x0 x10
0000 .half 0000
2000 .half 2000
6101 .half 6101
6501 .half 6501
9c01 .half 9c01
8002 .half 8002
4002 .half 4002
1082 .half 1082
9001 .half 9001
8c60 .half 8c60
ac22 .half ac22
b802 .half b802
a402 .half a402'''.splitlines()[1:]


def prints(group, what, image, wanted=None):
    """`list` of an image prints what the model does, and what is known by hand if something is. The model reads it back."""
    text = listed(image)
    if wanted is not None:
        group.same(f'{what}: the model', text, wanted)
    group.same(f'{what}: the model reads it back', wrong_of(image), None)
    folder = group.folder(image=image)
    group.same(what, folder.run(('list', 'image')), (0, text, b''))
    group.same(f'{what}: files', (sorted(os.listdir(folder.place)), folder.read('image')), (['image', 'object'], image))
    folder.remove()


# ---- instructions


def rows_listing(rows, size):
    """The code of instructions of a size, and the listing of its image."""
    values, lines = zip(*(row.split(' ', 1) for row in rows))
    code = (words_of if size == 4 else halves_of)(*(int(value, 16) for value in values))
    listing = [f'{TEXT_AT + size * k:08x} {line}' for k, line in enumerate(lines)]
    text = ['zcld list 1', f'segment 00010000 {len(code)} code', *listing, 'segment 00100000 0 data', 'end', '']
    return image_bytes(code, {}, b'', 0, TEXT_AT, 0), '\n'.join(text).encode()


def listed_instructions(group):
    """each instruction by hand, all halfwords, and words by chance of each opcode"""
    prints(group, 'three', THREE_IMAGE, THREE_LISTING)
    prints(group, 'words', *rows_listing(WORDS, 4))
    prints(group, 'halfwords', *rows_listing(HALFWORDS, 2))
    for quadrant in range(3):
        code = halves_of(*range(quadrant, 1 << 16, 4))
        prints(group, f'all halfwords that end in {quadrant:02b}', image_bytes(code, {}, b'', 0, TEXT_AT, 0))
    rng = random.Random('listed words')
    for opcode in range(3, 128, 4):
        words = [rng.getrandbits(25) << 7 | opcode for _ in range(400)]
        words += [word & 0x01FFFFFF | rng.choice((0, 1, 0x20)) << 25 for word in words]
        prints(group, f'words of opcode {opcode:02x}', image_bytes(words_of(*words), {}, b'', 0, TEXT_AT, 0))
    try:
        read_list(THREE_LISTING.replace(b'x10', b'x32'))
    except BadLine as why:
        group.same('a register that isn\'t there: the model', why.args, (3,))


# ---- segments


def listing_of(*lines):
    return ''.join(f'{line}\n' for line in ('zcld list 1', *lines, 'end')).encode()


def code_rows():
    """What a segment of code ends with, its bytes, the zeros behind them, and its lines."""
    nop, half = '00010000 addi x0 x0 0', '00010000 c.addi x0 x0 0'
    return (
        ('a word', '13000000', 0, [nop]), ('one byte', '01', 0, ['00010000 .byte 01']),
        ('one byte of a word', '13', 0, ['00010000 .byte 13']), ('two bytes of a word', '1300', 0, ['00010000 .byte 13 00']),
        ('three bytes of a word', '130000', 0, ['00010000 .byte 13 00 00']),
        ('a halfword', '0100', 0, [half]), ('a halfword and a byte', '010013', 0, [half, '00010002 .byte 13']),
        ('a halfword and another byte', '010000', 0, [half, '00010002 .byte 00']),
        ('a word and three bytes', '13000000ffeedd', 0, [nop, '00010004 .byte ff ee dd']),
        ('a word and zeros', '13000000', 6, [nop, '00010004 .zero 6']), ('zeros alone', '', 5, ['00010000 .zero 5']),
        ('a cut word and zeros', '1300', 2, ['00010000 .byte 13 00', '00010002 .zero 2']),
        ('a byte and a zero', '01', 1, ['00010000 .byte 01', '00010001 .zero 1']),
        ('zeros in the file', '00000000', 0, ['00010000 .half 0000', '00010002 .half 0000']), ('nothing', '', 0, []),
    )


def data_rows():
    """How many bytes data has in the file, the zeros behind them, and its lines."""
    def row(at, first, count):
        return f'{DATA_AT + at:08x} .byte ' + ' '.join(f'{first + k:02x}' for k in range(count))
    return (
        (1, 0, [row(0, 0, 1)]), (15, 0, [row(0, 0, 15)]), (16, 0, [row(0, 0, 16)]), (17, 0, [row(0, 0, 16), row(16, 16, 1)]),
        (32, 0, [row(0, 0, 16), row(16, 16, 16)]), (33, 7, [row(0, 0, 16), row(16, 16, 16), row(32, 32, 1), '00100021 .zero 7']),
        (16, 16, [row(0, 0, 16), '00100010 .zero 16']), (0, 4_194_304, ['00100000 .zero 4194304']), (0, 0, []),
    )


def listed_segments(group):
    """code and data that end in each way, several segments in any order, empty ones, and other program headers"""
    for what, content, zeros, lines in code_rows():
        size = len(content) // 2 + zeros
        image = executable_of([(READ_ONLY_CODE, TEXT_AT, bytes.fromhex(content), zeros)], TEXT_AT)
        prints(group, what, image, listing_of(f'segment 00010000 {size} code', *lines))
    for count, zeros, lines in data_rows():
        parts = [(READ_ONLY_CODE, TEXT_AT, b'', 0), (READABLE | WRITABLE, DATA_AT, bytes(range(count)), zeros)]
        wanted = listing_of('segment 00010000 0 code', f'segment 00100000 {count + zeros} data', *lines)
        prints(group, f'{count} bytes of data and {zeros} zeros', executable_of(parts, TEXT_AT), wanted)
    several(group)


def several(group):
    """Segments that don't stand in the order of their addresses, that touch, and as many as there may be."""
    parts = [(READABLE, DATA_AT + 1, b'a', 0), (EXECUTE, TEXT_AT + 2, words_of(0x73), 0), (0, 0x500000, b'', 0),
             (0, DATA_AT, b'b', 0), (READ_ONLY_CODE, TEXT_AT, halves_of(0x0001), 0), (READ_ONLY_CODE, 0xFFFFD, b'\1\0\2', 0)]
    wanted = listing_of('segment 00100001 1 data', '00100001 .byte 61', 'segment 00010002 4 code', '00010002 ecall',
                        'segment 00500000 0 data', 'segment 00100000 1 data', '00100000 .byte 62', 'segment 00010000 2 code',
                        '00010000 c.addi x0 x0 0', 'segment 000ffffd 3 code', '000ffffd c.addi x0 x0 0', '000fffff .byte 02')
    prints(group, 'six segments', executable_of(parts, TEXT_AT), wanted)
    prints(group, f'headers of type {OTHER_KIND}', executable_of(parts, TEXT_AT, others=(0, 3, 8)), wanted)
    many = [(READ_ONLY_CODE, TEXT_AT + 4 * k, words_of(0x13), 0) for k in range(16)]
    prints(group, 'sixteen segments', executable_of(many, TEXT_AT))
    folder = group.folder(image=executable_of([*many, (READABLE, DATA_AT, b'', 0)], TEXT_AT))
    group.ends('seventeen segments', folder.run(('list', 'image')), 125, 'bad image 3')


# ---- programs


def listed_programs(group):
    """images that both links make of C programs, of a jump table and of much code, and 150 images by chance"""
    for program in STATUSES:
        for compiler in FOLDERS:
            for link in (plain, zc):
                prints(group, f'{program} by {compiler}, {link.__name__}', link(objects_of(program, compiler))[0])
    for what, files in (('hello', plain_examples.hello()), ('a jump table', plain_examples.jump_table()), ('much code', [LARGE]),
                        ('the most code', [object_of(long_code(65535))])):
        prints(group, what, zc(files)[0])
    for seed in range(150):
        folder = group.folder()
        group.same(f'image {seed}', listed_images.look(folder, random.Random(f'list {seed}'), collections.Counter()), None)
        folder.remove()


# ---- files, streams and words

# Words that spell no command: no file or two, an option of others, no map, and other words for it.
NO_COMMANDS = '''
list
list image image
list --plan plan image
list --steps 3 image
list --out out image
list --text 00000000 image
list --data 00200000 --data 00200000 image
list --stack-low 10000000 image
list --extensions zcb image
list -image
list --image
list --
List image
lists image
list --help
image list'''.splitlines()[1:]


def listed_files(group):
    """files that are no images, or can't be read, and outputs that can't be written; nothing is put, and no input is taken"""
    folder = group.folder(image=THREE_IMAGE, over=bytes(8 * MIB + 1), most=bytes(8 * MIB), empty=b'', out=OLD,
                          **{'-image': THREE_IMAGE})
    rows = (('none', 122, 'read fault'), ('.', 122, 'read fault'), ('image/x', 122, 'read fault'), ('n' * 300, 122, 'read fault'),
            ('over', 122, 'read fault'), ('/dev/zero', 122, 'read fault'), ('', 122, 'read fault'),
            ('/dev/null', 125, 'bad image 1'),
            ('empty', 125, 'bad image 1'), ('most', 125, 'bad image 1'), ('object', 125, 'bad image 1'))
    for name, status, line in rows:
        group.ends(f'the file {name[:20]!r}', folder.run(('list', name)), status, line)
    for words in NO_COMMANDS:
        group.ends(words, folder.run(words.split()), 120, 'usage')
    for words in (('list', 'image'), ('list', '--', '-image'), ('list', '/dev/stdin')):
        with open(folder.path('image'), 'rb') as given:
            group.same(f'{words}', folder.run(words, given), (0, THREE_LISTING, b''))
            if words[1] == 'image':
                group.same('no input is taken', os.lseek(given.fileno(), 0, os.SEEK_CUR), 0)
    for what, data, number in changed_images(THREE_IMAGE):
        folder.write('changed', data)
        group.ends(what, folder.run(('list', 'changed')), 125, f'bad image {number}')
    image = folder.run(('plain', '--out', 'plain', 'object')).status, folder.read('plain')
    group.same('an image of `plain`', folder.run(('list', 'plain')), (0, listed(image[1] or THREE_IMAGE), b''))
    listed_outputs(group, folder)


def listed_outputs(group, folder):
    """Output that is full, broken or closed, and a file that takes the first bytes alone."""
    large = zc([LARGE])[0]
    folder.write('large', large)
    with open('/dev/full', 'wb') as full, broken_pipe() as broken:
        for what, how in (('full', {'stdout': full}), ('a broken pipe', {'stdout': broken}),
                          ('closed', {'first': lambda: os.close(1)})):
            for name in ('image', 'large'):
                group.ends(f'output is {what}, {name}', folder.run(('list', name), **how), 123, 'write fault')
    for size in (0, 1, 100, 5000):
        with open(folder.path('file'), 'wb') as file:
            ended = folder.run_with_limit(('list', 'large'), size, stdout=file)
        group.ends(f'a file of {size} bytes', ended, 123, 'write fault')
        group.same(f'a file of {size} bytes: what it has', folder.read('file'), listed(large)[:size])
    if strace.is_there():
        for error, status, line in strace.REFUSED_WRITES:
            ended = folder.run(('list', 'image'), before=strace.fault('write', 1, f'error={error}'))
            group.ends(f'{error} at the first write', ended, status, line)
    group.same('files that stand', folder.read('out'), OLD)
