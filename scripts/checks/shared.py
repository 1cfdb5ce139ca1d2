"""Runs under plans whose interrupts write shared variables too: what `share` does, by hand and against the model."""
import collections
import os
import random

import shared_programs
from shared_cells import PLAN_TITLE, SHARED_TITLE, Differs, compared, read_plan, share
from size_report import left_by_zc
from zc_link import link_of
from zcld_tools.elf import (ALIGN, BRANCH, CALL, CODE_FLAGS, CONSTANT_FLAGS, DATA_FLAGS, HI20, INIT_ARRAY, LO12_I, LOCAL, NOBITS,
                            PROGBITS, WRITE)
from zcld_tools.images import DATA_AT, TEXT_AT
from zcld_tools.instructions import (A0, A1, A2, A7, CALL_WORDS, EBREAK, ECALL, EXIT_CALL, EXIT_WORDS, NOP, RA, READ_CALL, S0, SP,
                                     T0, WRITE_CALL, ZERO, addi, branch, immediate, jal, load, lui, lw, sw)
from zcld_tools.objects import Written, object_with

from checks import plans
from checks.c_programs import FOLDERS, STATUSES, input_of, objects_of, read
from checks.harness import broken_pipe
from checks.made_files import COPY, MIB, OLD, THREE, THREE_IMAGE, exit_code, object_of

TITLE = SHARED_TITLE + b'\n'
WORDS = ('share', '--out', 'out', '--plan', 'plan')
# An instruction that has no short form.
XORI = immediate(4, A0, A0, 93)
# The most bytes of data that the programs here write.
SIZE = 16


def plan_of(lines):
    """The text of a plan, by its lines after the first one."""
    return TITLE + ''.join(line + '\n' for line in lines.splitlines()).encode()


def shares(group, what, files, lines, wanted=None, given=b''):
    """How `share` of files under a plan ends and what stands under OUT, as the model has it; and, if it is known by hand, the
    status, standard output and the line. The model's program must come to what its image does."""
    text = lines if isinstance(lines, bytes) else plan_of(lines)
    model = share(files, text, given)
    if wanted:
        status, out, line = wanted
        group.same(f'{what}: the model', model[:3], (status, out, line.encode() + b'\n'))
    if model.image:
        link = link_of(files).link
        try:
            compared(link.code.objects, link, given, read_plan(text), 2000)
        except Differs as why:
            group.same(f'{what}: both models', str(why), None)
    folder = group.folder(plan=text, out=OLD)
    group.same(what, folder.run((*WORDS, *folder.write_list(files)), given), model[:3])
    group.same(f'{what}: OUT', folder.read('out'), model.image or OLD)
    group.same(f'{what}: the plan', folder.read('plan'), text)
    group.alone(what, folder)
    folder.remove()


# ---- programs


def shared_word(made):
    return made.section(b'.shared', NOBITS, DATA_FLAGS, size=4)


def load_of(made, text, data):
    """Two commits: the address of a section, and its first word as the status to come."""
    symbol = made.symbol(b'', home=data, bind=LOCAL)
    text.reloc(HI20, symbol, 0, (lui(T0),))
    text.reloc(LO12_I, symbol, 0, (lw(A0, T0),))


def loading(*before):
    """The exit has a shared word as its status, after other instructions."""
    made, text = object_with(*before)
    load_of(made, text, shared_word(made))
    text.words(*EXIT_WORDS)
    return [made.bytes()]


def pushing():
    """A call of a function that saves two registers with one push, and then a load of a shared word."""
    made, text = object_with()
    function = made.section(b'.text.function')
    text.reloc(CALL, made.symbol(b'function', home=function), 0, CALL_WORDS)
    function.words(addi(SP, SP, -16), sw(S0, SP, 12), sw(RA, SP, 8))
    load_of(made, function, shared_word(made))
    function.words(*EXIT_WORDS)
    return [made.bytes()]


def with_table():
    """Twenty jumps to a load of a shared word, of which the first is `_start`. They go through a table, and three commits of the
    stub come before."""
    made = Written()
    text = made.section(b'.text')
    load_of(made, text, shared_word(made))
    text.words(*EXIT_WORDS, *[XORI] * 1100)
    made.symbol(b'_start', home=text, value=len(text.content))
    for _ in range(20):
        text.words(jal(ZERO, -len(text.content)))
    return [made.bytes()]


def padded():
    """A padding of 12 bytes, which are three commits, before a load of a shared word."""
    made, text = object_with(XORI)
    text.align = 16
    text.reloc(ALIGN, None, 12, [NOP] * 3)
    load_of(made, text, shared_word(made))
    text.words(*EXIT_WORDS)
    return [made.bytes()]


def far_branch(is_taken):
    """A branch that takes 8 bytes, over 1,022 instructions and a padding that needs no bytes, to a load of a shared word."""
    made, text = object_with(addi(A1, ZERO, 1 - is_taken), NOP)
    text.align = 16
    far = made.symbol(b'', home=text, bind=LOCAL)
    text.reloc(BRANCH, far, 0, (branch(0, ZERO, A1),))
    text.words(XORI)
    text.reloc(ALIGN, None, 12, [NOP] * 3)
    far.value = text.words(*[XORI] * 1021) + 4 * 1021
    load_of(made, text, shared_word(made))
    text.words(*EXIT_WORDS)
    return [made.bytes()]


def storing():
    """A shared word is set to 0, by the second commit, and then loaded by the third."""
    made, text = object_with()
    text.reloc(HI20, made.symbol(b'', home=shared_word(made), bind=LOCAL), 0, (lui(T0),))
    text.words(sw(ZERO, T0), lw(A0, T0), *EXIT_WORDS)
    return [made.bytes()]


def object_of_data(*sections):
    """An object with sections by their names, types, flags, alignments and sizes."""
    return add_sections(Written(), sections).bytes()


def add_sections(made, sections):
    for name, kind, flags, align, size in sections:
        made.section(name, kind, flags, align, size).content += bytes(0 if kind == NOBITS else size)
    return made


def writing(*sections):
    """The first bytes of data are written, and then the exit has the status 0."""
    made, _ = object_with(lui(A1, DATA_AT >> 12), addi(A2, ZERO, SIZE), addi(A0, ZERO, 1), addi(A7, ZERO, WRITE_CALL), ECALL,
                          addi(A0, ZERO, 0), *EXIT_WORDS)
    return add_sections(made, sections).bytes()


# ---- when a cell is written


def in_time(group, what, files, commits, line='cut {} s00100000:07'):
    """A cell counts if fewer than so many commits come before it."""
    for at in sorted({0, 1, 2, *range(max(0, commits - 4), commits + 3)}):
        status = 7 if at < commits else 0
        shares(group, f'{what}, before commit {at}', files, line.format(at), (status, b'', f'exited {status}'))


def cells_in_time(group):
    """cells before each commit up to a load and after it: straight code, pushes, a table's stub, padding, long branches, a store"""
    push, split = 'cut {} a1 a0 d0ffffff0:01 s00100000:07', (addi(SP, SP, -128), sw(S0, SP, 124), sw(RA, SP, 120))
    in_time(group, 'straight code', loading(), 2)
    in_time(group, 'after an instruction', loading(XORI), 3)
    in_time(group, 'a push', pushing(), 4)
    in_time(group, 'a cut push', pushing(), 4, push)
    in_time(group, 'a split push', loading(*split), 4)
    in_time(group, 'a cut split push', loading(*split), 4, push)
    in_time(group, 'a table', with_table(), 6)
    in_time(group, 'a padding', padded(), 6)
    in_time(group, 'a long branch that is taken', far_branch(True), 6)
    in_time(group, 'a long branch that is not taken', far_branch(False), 1027)
    for at, status in ((0, 0), (1, 0), (2, 7), (3, 0)):
        shares(group, f'a store, before commit {at}', storing(), f'cut {at} s00100000:07', (status, b'', f'exited {status}'))


# ---- where a cell is written


def in_place(group, what, files, shared):
    """Of cells at each byte of data, those at these offsets are written."""
    for offset in range(SIZE):
        out = bytes(0xA5 if k == offset and k in shared else 0 for k in range(SIZE))
        shares(group, f'{what}, a cell at {offset}', files, f'cut 0 s{DATA_AT + offset:08x}:a5', (0, out, 'exited 0'))


def three_of(kind, flags, names=(b'.first', b'.shared', b'.third')):
    """Three sections of four bytes."""
    return [(name, kind, flags, 4, 4) for name in names]


def data(name, align, size, flags=DATA_FLAGS):
    """A section of data with bytes."""
    return name, PROGBITS, flags, align, size


def cells_in_place(group):
    """cells at each byte of data: shared sections of each kind, several ones, empty ones, and those beside them"""
    for kind, flags, what in ((PROGBITS, DATA_FLAGS, 'data'), (NOBITS, DATA_FLAGS, 'zeros'),
                              (PROGBITS, CONSTANT_FLAGS, 'constants'), (INIT_ARRAY, DATA_FLAGS, 'an array')):
        in_place(group, what, [writing(*three_of(kind, flags))], range(4, 8))
    in_place(group, 'data before zeros', [writing((b'.data', PROGBITS, DATA_FLAGS, 1, 1), *three_of(NOBITS, DATA_FLAGS))], ())
    ones, four = (data(b'.shared', 1, 1), data(b'.shared', 8, 1), data(b'.data', 1, 1)), data(b'.shared', 4, 4)
    in_place(group, 'two in an object, with a gap', [writing(*ones)], (0, 8))
    in_place(group, 'one in each object', [writing(four), object_of_data(data(b'.data', 4, 4), four)], (*range(4), *range(8, 12)))
    in_place(group, 'an empty one', [writing(data(b'.shared', 4, 0), data(b'.data', 4, 4))], ())
    for name in (b'.shared.more', b'.share', b'.sharedx', b'.Shared', b'shared', b'', b'.bss', b'.sdata'):
        in_place(group, f'the name {name}', [writing(data(name, 4, 16))], ())
    in_place(group, 'one that is not kept', [writing(data(b'.shared', 4, 16, WRITE), data(b'.data', 4, 16))], ())
    outside(group)


def outside(group):
    """Cells in code, on the stack and where there is no memory, which are passed over. Code isn't shared, whatever its name is."""
    made, _ = object_with(addi(A7, ZERO, EXIT_CALL), load(4, A0, SP, -1), ECALL)
    made.section(b'.shared', PROGBITS, CODE_FLAGS).words(*EXIT_WORDS)
    add_sections(made, three_of(NOBITS, DATA_FLAGS))
    files = [made.bytes()]
    code = ''.join(f' s{TEXT_AT + k:08x}:00' for k in range(40))
    for cells in (code, ' s0fffffff:2a s0ff00000:2a', ' s00000000:2a sffffffff:2a s000fffff:2a s0010000c:2a s10000000:2a'):
        shares(group, f'cells{cells[:20]}', files, f'cut 0{cells}', (0, b'', 'exited 0'))
    shares(group, 'the stack, by a byte below sp', files, 'cut 0 d0fffffff:2a s0fffffff:07', (42, b'', 'exited 42'))
    shares(group, 'data, by a byte below sp', loading(), 'cut 0 d00100000:2a', (0, b'', 'exited 0'))


def cells_in_order(group):
    """several cells before one commit, and before several; and plans that differ in one cell"""
    rows = (('cut 0 s00100000:07 s00100000:08', 8), ('cut 0 s00100000:07\ncut 0 s00100000:09', 9),
            ('cut 0 s00100000:07\ncut 1 s00100000:0a', 10), ('cut 0 s00100000:07\ncut 2 s00100000:0a', 7),
            ('cut 1 s00100000:07 s00100001:01 s00100003:ff', 7), ('cut 1\ncut 1 a0\ncut 1 s00100000:07', 7),
            ('cut 0 a3 d0ffffff0:01 d00100000:02 s00100000:07', 7), ('cut 1 s00100000:75', 117), ('cut 1 s00100000:76', 118),
            ('cut 1 s00100000:ff', 255), ('cut 5 s00100000:07', 0), ('cut 18446744073709551615 s00100000:07', 0), ('', 0))
    for lines, byte in rows:
        shares(group, lines or 'no interrupts', loading(), lines, (min(118, byte), b'', f'exited {byte}'))
    one, other = (share(loading(), plan_of(f'cut 1 s00100000:0{byte}')).status for byte in (7, 8))
    group.same('plans that differ in a cell', (one, other), (7, 8))
    reading(group)


def reading(group):
    """A read into shared data and cells there: what comes later counts."""
    made, text = object_with()
    data = shared_word(made)
    text.reloc(HI20, made.symbol(b'', home=data, bind=LOCAL), 0, (lui(A1),))
    text.words(addi(A0, ZERO, 0), addi(A2, ZERO, 4), addi(A7, ZERO, READ_CALL), ECALL, lw(A0, A1), *EXIT_WORDS)
    for at, byte in ((0, 0x61), (4, 0x61), (5, 7), (6, 0x61)):
        shares(group, f'a read, and a cell before commit {at}', [made.bytes()], f'cut {at} s00100000:07',
               (byte, b'', f'exited {byte}'), b'abcd')


# ---- texts

SHARED_LINES = ('cut 0 s00000000:00', 'cut 0 a0 d0fffffff:2a s00100000:07', 'cut 0 s00100000:07 s00100000:08',
                'cut 0 sffffffff:ff', 'cut 7 a255 a0 s01234567:89 sabcdef00:0a', 'cut 0 a0\ncut 1 d0fffffff:2a\ncut 1 s0fffffff:2a')
# Lines after the first one, of which none is valid there: the address and the byte; the order of words; and spaces.
BAD_SHARED_LINES = r'''
cut 0 s
cut 0 s00100000
cut 0 s00100000:
cut 0 s00100000:7
cut 0 s00100000:007
cut 0 s0100000:07
cut 0 s000100000:07
cut 0 s0010000007
cut 0 s00100000.07
cut 0 s0010000A:07
cut 0 s00100000:0A
cut 0 s0010000g:07
cut 0 s0x100000:07
cut 0 s+0100000:07
cut 0 s00100000:+7
cut 0 S00100000:07
cut 0 t00100000:07
cut s00100000:07
s00100000:07
cut 0 s00100000:07 d0fffffff:2a
cut 0 s00100000:07 a0
cut 0 a0 s00100000:07 d0fffffff:2a s00100000:07
cut 0s00100000:07
cut 0  s00100000:07
cut 0 s00100000:07 
cut 0 s00100000:07s00100001:07'''.splitlines()[1:]


def shared_texts(group):
    """texts that are shared plans, and texts that are none, with the line that is named; and plans of the other kind"""
    rows = [(TITLE + (lines + '\n' if lines else '').encode(), 3, 'exited 3') for lines in (*plans.PLANS, *SHARED_LINES)]
    rows += [(TITLE + line.encode('latin-1') + b'\n', 125, 'bad plan line 2') for line in (*plans.BAD_LINES, *BAD_SHARED_LINES)]
    rows += [(text.replace(PLAN_TITLE[:9], SHARED_TITLE[:11]), 125, f'bad plan {fault}') for text, fault in plans.BAD_TEXTS]
    rows += [(PLAN_TITLE + b'\n', 125, 'bad plan line 1'), (TITLE + PLAN_TITLE + b'\n', 125, 'bad plan line 2'),
             (TITLE + b'cut 1 s00100000:07\ncut 0 s00100000:07\n', 125, 'bad plan order 3'),
             (TITLE + b'cut 1 s00100000:07', 125, 'bad plan line 2')]
    folder = group.folder(image=THREE_IMAGE)
    for text, status, line in rows:
        group.same(f'shared plan {text[:40]}: the model', share([THREE], text).err, line.encode() + b'\n')
        folder.write('plan', text)
        group.ends(f'shared plan {text[:40]}', folder.run((*WORDS, 'object')), status, line)
    for text, line in ((TITLE, 'line 1'), (PLAN_TITLE + b'\ncut 0\ncut 0 s00100000:07\n', 'line 3')):
        folder.write('plan', text)
        group.ends(f'plan {text[:40]} of `run`', folder.run(('run', '--plan', 'plan', 'image')), 125, f'bad plan {line}')


# ---- files, streams and words


def long_plan():
    """A plan of the most bytes that are read."""
    first = TITLE + b'cut 0 a10 a10 a10\n'
    return first + b'cut 0\n' * ((8 * MIB - len(first)) // 6)


def shared_files(group):
    """what is read, judged, taken and put, in this order, and which file stands under OUT then"""
    whole = long_plan()
    folder = group.folder(plan=TITLE, bad=b'bad', most=whole, over=whole.ljust(8 * MIB + 1, b'\n'), other=plans.TITLE, empty=b'',
                          big=bytes(4 * MIB + 1))
    rows = (
        ('plan', 'object', 3, 'exited 3'), ('most', 'object', 3, 'exited 3'), ('bad', 'object', 125, 'bad plan line 1'),
        ('other', 'object', 125, 'bad plan line 1'), ('empty', 'object', 125, 'bad plan line 1'),
        ('/dev/null', 'object', 125, 'bad plan line 1'), ('plan', 'bad', 121, 'refused 0 1 NotElf'),
        ('bad', 'bad', 121, 'refused 0 1 NotElf'), ('object', 'plan', 121, 'refused 0 1 NotElf'),
        ('none', 'object', 122, 'read fault'),
        ('none', 'bad', 122, 'read fault'), ('plan', 'none', 122, 'read fault'), ('bad', 'none', 122, 'read fault'),
        ('over', 'object', 122, 'read fault'), ('over', 'bad', 122, 'read fault'), ('plan', 'big', 122, 'read fault'),
        ('.', 'object', 122, 'read fault'), ('plan/x', 'object', 122, 'read fault'), ('n' * 300, 'object', 122, 'read fault'),
        ('/dev/zero', 'object', 122, 'read fault'), ('plan', '', 122, 'read fault'),
    )
    for plan, name, status, line in rows:
        folder.write('input', b'input')
        folder.write('out', OLD)
        with open(folder.path('input'), 'rb') as given:
            ended = folder.run(('share', '--out', 'out', '--plan', plan, name), given)
            taken = os.lseek(given.fileno(), 0, os.SEEK_CUR)
        what = f'plan {plan[:20]}, object {name}'
        group.ends(what, ended, status, line)
        group.same(f'{what}: OUT', folder.read('out'), THREE_IMAGE if status == 3 else OLD)
        group.same(f'{what}: the input that was taken', taken, 5 if status == 3 else 0)
        group.alone(what, folder)
    folder.pipes(first=THREE, second=TITLE)
    group.exits('the objects are read first', folder.run(('share', '--plan', 'second', '--out', 'out', 'first')), 3)
    long_input(group)
    shared_outputs(group)


def long_input(group):
    """Input above its limit is refused before OUT is put, also where that can't be put."""
    folder = group.folder(plan=TITLE, out=OLD)
    for size, out, status, line in ((16 * MIB, 'out', 3, 'exited 3'), (16 * MIB + 1, 'out', 122, 'read fault'),
                                    (16 * MIB + 1, 'none/out', 122, 'read fault'), (0, 'none/out', 123, 'write fault')):
        folder.write('out', OLD)
        folder.write('input', bytes(size))
        with open(folder.path('input'), 'rb') as given:
            ended = folder.run(('share', '--out', out, '--plan', 'plan', 'object'), given)
        group.ends(f'{size} bytes of input, OUT {out}', ended, status, line)
        group.same(f'{size} bytes of input, OUT {out}: OUT', folder.read('out'), THREE_IMAGE if status == 3 else OLD)


def shared_outputs(group):
    """OUT that is the plan, an object, a link, or no file; and a program whose output is refused, when OUT stands already."""
    for out in ('plan', 'object', './object'):
        folder = group.folder(plan=TITLE)
        group.exits(f'OUT is {out}', folder.run(('share', '--out', out, '--plan', 'plan', 'object')), 3)
        group.same(f'OUT is {out}: what stands', folder.read(out), THREE_IMAGE)
        group.same(f'OUT is {out}: the other', *((folder.read('object'), THREE) if out == 'plan' else (folder.read('plan'), TITLE)))
    folder = group.folder(plan=TITLE, copy=COPY)
    for out in ('.', '', 'n' * 256, 'plan/x', 'none/out'):
        group.ends(f'OUT is {out[:10]!r}', folder.run(('share', '--out', out, '--plan', 'plan', 'object')), 123, 'write fault')
        group.alone(f'OUT is {out[:10]!r}', folder)
    os.symlink('out', folder.path('link'))
    group.exits('OUT is a link', folder.run(('share', '--out', 'link', '--plan', 'plan', 'object')), 3)
    group.same('OUT is a link: it stays', (folder.is_link('link'), folder.read('out')), (True, THREE_IMAGE))
    image = left_by_zc([COPY]).image
    with open('/dev/full', 'wb') as full, broken_pipe() as broken:
        for what, stdout in (('output is full', full), ('a broken pipe', broken)):
            folder.write('out', OLD)
            group.ends(what, folder.run((*WORDS, 'copy'), b'abc', stdout=stdout), 123, 'write fault')
            group.same(f'{what}: OUT', folder.read('out'), image)
        group.same('the line is refused', folder.run((*WORDS, 'object'), stderr=full).status, 3)
    group.same('standard input and output', folder.run((*WORDS, 'copy'), b'abc'), (0, b'abc', b'exited 0\n'))


# Words that spell no command: an option or an object is missing, or given twice; an option of others; no map; no number, or one
# too large.
NO_COMMANDS = '''
share
share object
share --out out object
share --plan plan object
share --out out --plan plan
share --out out --plan plan --steps 3
share --out out --out out --plan plan object
share --out out --plan plan --plan plan object
share --out out --plan plan --cert cert object
share --out out --plan plan --text 00000000 object
share --out out --plan plan --data 00200000 --data 00200000 object
share --out out --plan plan --stack-low 10000000 object
share --out out --plan plan --extensions zcb object
share --out out --plan plan --steps x object
share --out out --plan plan --steps -1 object
share --out out --plan plan --steps +1 object
share --out out --plan plan --steps 1000000001 object
share --out out --plan plan --steps 000000000000000000001 object
share --out out --plan plan --steps 1 --steps 1 object
share --out -out --plan plan object
share --out out --plan plan -object
Share --out out --plan plan object
--out out --plan plan share object
share --help'''.splitlines()[1:]


def shared_ends(group):
    """each status and line, and how many commits may be made; words that spell no such command"""
    objects = {'exit0': exit_code(0), 'exit117': exit_code(117), 'exit118': exit_code(118), 'exit255': exit_code(255)}
    stops = {'break': (EBREAK,), 'past': (NOP,), 'bad': (lw(A0, ZERO),), 'odd': (lw(A0, SP, -2),),
             'call': (addi(A0, ZERO, 5), ECALL)}
    folder = group.folder(plan=TITLE, out=OLD, twice=THREE, other=object_of(exit_code(4), b'other'),
                          **{name: object_of(code) for name, code in objects.items()},
                          **{name: object_with(*words)[0].bytes() for name, words in stops.items()})
    rows = (('object', 3, 'exited 3'), ('exit0', 0, 'exited 0'), ('exit117', 117, 'exited 117'), ('exit118', 118, 'exited 118'),
            ('exit255', 118, 'exited 255'), ('break', 126, 'stopped 4 Break 00010000'),
            ('past', 126, 'stopped 2 BadAccess 00010002'),
            ('bad', 126, 'stopped 2 BadAccess 00010000'), ('odd', 126, 'stopped 3 Misaligned 00010000'),
            ('call', 126, 'stopped 5 UnknownCall 00010002'), ('object twice', 121, 'refused 1 9 Duplicate _start'),
            ('other', 121, 'refused 0 16 NoEntry'), ('other object', 3, 'exited 3'), ('--steps 3 object', 3, 'exited 3'),
            ('--steps 2 object', 127, 'spent'), ('--steps 0 object', 127, 'spent'), ('object --steps 1000000000', 3, 'exited 3'),
            ('--steps=00000000000000000003 object', 3, 'exited 3'))
    for words, status, line in rows:
        folder.write('out', OLD)
        group.ends(words, folder.run((*WORDS, *words.split())), status, line)
        group.same(f'{words}: OUT', folder.read('out') != OLD, status != 121)
    for words in NO_COMMANDS:
        folder.write('out', OLD)
        group.ends(words, folder.run(words.split()), 120, 'usage')
        group.same(f'{words}: OUT', folder.read('out'), OLD)
    for words in ('--plan plan object --out out', 'object --out=out --plan=plan', '--plan plan --out out -- object'):
        group.exits(words, folder.run(('share', *words.split())), 3)


def shared_runs(group):
    """programs that C compilers made, under a plan without cells, and 80 random lists under random plans"""
    for program, status in STATUSES.items():
        for compiler in FOLDERS:
            what, objects, given = f'{program} by {compiler}', objects_of(program, compiler), input_of(program)
            folder = group.folder(plan=TITLE)
            group.exits(what, folder.run((*WORDS, *folder.write_list(objects)), given), status, read(program, 'output'))
            group.same(f'{what}: OUT', folder.read('out'), left_by_zc(objects).image)
            folder.remove()
    timer, ticks = [read('firmware', 'gcc', 'start.o'), read('timer.o')], read('timer.plan')
    shares(group, 'a timer', timer, ticks, (3, b'', 'exited 3'))
    folder = group.folder(plan=TITLE)
    ended = folder.run((*WORDS, '--steps', '5000', *folder.write_list(timer)))
    group.ends('a timer without interrupts', ended, 127, 'spent')
    for seed in range(80):
        folder = group.folder()
        group.same(f'list {seed}', shared_programs.look(folder, random.Random(f'share {seed}'), collections.Counter()), None)
        folder.remove()
