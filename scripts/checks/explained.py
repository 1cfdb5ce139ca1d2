"""What tools/explain says of objects that are refused or linked, and of images, against the program and by hand."""
import os
import random
import re
import struct
import sys
from importlib.machinery import SourceFileLoader
from importlib.util import module_from_spec, spec_from_loader

import compressed_examples
import plain_examples
from changed_files import HALF, WORD, changed, changed_objects
from close_relocs import close_relocs
from made_objects import made_list
from memory_maps import WORDS
from object_faults import NAMES
from object_items import first_cause
from zcld_tools import TOP, files as disk, programs
from zcld_tools.elf import ADD32, ALLOC, CALL, COMMON, DATA_FLAGS, GOT_HI20, GROUP, LO12_I, LOCAL, PCREL_LO12_I, PROGBITS
from zcld_tools.images import STANDARD
from zcld_tools.instructions import (A0, CALL_WORDS, EXIT_WORDS, NOP, RA, SHORT_NOP, T0, T1, ZERO, addi, auipc, branch, halves_of,
                                     jal, jalr, lui, words_of)
from zcld_tools.objects import compressed_with, object_with

from checks.c_programs import FOLDERS, STATUSES, objects_of
from checks.made_files import MIB, THREE, long_code, object_of
from checks.maps import ELSEWHERE
from checks.symbols import by_hand, listed, monitors, run as run_symbols

SCRIPT = os.path.join(TOP, 'tools/explain')
# A push of ra, and a load of a byte, which `zc` writes anew.
PUSH_RA, C_LBU = 0xB842, 0x8188


def run(folder, *words, **how):
    """Runs the script in a folder."""
    return programs.run([sys.executable, SCRIPT, *words], cwd=folder.place, **how)


def tool():
    """The script as a module."""
    loader = SourceFileLoader('explain', SCRIPT)
    made = module_from_spec(spec_from_loader('explain', loader))
    loader.exec_module(made)
    return made


def rows_of(lines):
    """The first text under each name of what is printed, without the lines' ends in it."""
    rows, name = {}, None
    for line in lines:
        head, text = line[:9].strip(), line[9:]
        if head:
            name = head if head not in rows else None
        if name:
            rows[name] = f'{rows[name]} {text}' if not head else text
    return rows


def explained(script, files, paths=None):
    """The lines of a fault, of which the first is the program's."""
    paths = paths or [f'file{i}' for i in range(len(files))]
    return b'\n'.join(script.explained(files, paths, first_cause(files))).decode('latin-1').split('\n')


# ---- the place of a fault


def with_section(name, kind, flags, content):
    """An object that exits and has one more section, and this section."""
    made, _ = object_with(*EXIT_WORDS)
    section = made.section(name, kind, flags)
    section.content += content
    return made, section


def group_of_code():
    made, _ = with_section(b'.group', GROUP, 0, words_of(1, 1))
    return made.bytes()


def section_anchor():
    made, data = with_section(b'.data', PROGBITS, DATA_FLAGS, bytes(4))
    made.symbol(b'.LANCHOR1', home=data, value=8, bind=LOCAL)
    return made.bytes()


def common_of_three():
    made, _ = object_with(*EXIT_WORDS)
    made.symbol(b'shared', home=COMMON, value=3, size=4)
    return made.bytes()


def call_of_library():
    made, text = object_with(addi(A0, ZERO, 1))
    text.reloc(CALL, made.symbol(b'__udivdi3'), 0, CALL_WORDS)
    return made.bytes()


def bytecode():
    """An object of GCC's that has no code, and one that needs a name of it."""
    made, text = object_with()
    text.reloc(CALL, made.symbol(b'main'), 0, CALL_WORDS)
    other, _ = with_section(b'.gnu.lto_.decls', PROGBITS, 0, bytes(4))
    other.symbols[0].name = b'other'
    return [made.bytes(), other.bytes()]


def difference():
    made, data = with_section(b'.rodata', PROGBITS, ALLOC, bytes(4))
    data.reloc(ADD32, made.symbols[0], 0, (0,))
    return made.bytes()


CALL_ROWS = {'section': '1, .text', 'offset': '0x0', 'in': '_start+0x0', 'type': '18, R_RISCV_CALL'}


def places():
    """For each number of a fault objects that have it, and rows that say where it is."""
    one = plain_examples.refused_one
    yield 1, [THREE, b'!<arch>\n' + bytes(60)], {'object': 'file1', 'like': 'an archive (`.a`), an executable'}
    yield 1, [changed(THREE, 18, HALF, 62)], {'why': 'it is for another processor: its machine is 62'}
    yield 2, [changed(THREE, 196, WORD, 0xFFFFFFFC)], {'section': '1'}
    yield 3, [changed(THREE, 36, WORD, 2)], {'like': 'floating-point registers or RVE: `-mabi=ilp32f`, `-mabi=ilp32e`'}
    yield 4, [group_of_code()], {'section': '2, .group', 'like': "COMDAT groups of C++: templates, inline functions, GCC's "
                                 'tables of virtual functions'}
    yield 5, [changed(THREE, 212, WORD, 512)], {'section': '1, .text'}
    yield 5, [common_of_three()], {'symbol': '2, shared: common'}
    yield 6, [changed(THREE, 200, WORD, 10)], {'section': '1, .text', 'why': '10 bytes of code, which is no multiple of 4'}
    yield 7, [changed(THREE, 80, WORD, 8)], {'symbol': '1, without a name: 0x0 in section 1, .text'}
    yield 8, [section_anchor()], {'symbol': '1, .LANCHOR1: 0x8 in section 2, .data',
                                  'like': "GCC's section anchors, from `-O1` on without `-fdata-sections`"}
    yield 9, [THREE, THREE], {'object': 'file1', 'other': 'file0', 'symbol': '1, _start: 0x0 in section 1, .text'}
    yield 10, [call_of_library()], {**CALL_ROWS, 'offset': '0x4', 'in': '_start+0x4', 'symbol': '2, __udivdi3: undefined'}
    yield 10, bytecode(), {**CALL_ROWS, 'like': "GCC's `-flto`: an object without code"}
    yield 11, [difference()], {'section': '2, .rodata', 'offset': '0x4', 'type': '35, R_RISCV_ADD32'}
    yield 11, [one(GOT_HI20, (auipc(A0),)).bytes()], {'type': '20, R_RISCV_GOT_HI20',
                                                      'like': '`-fpic`, `-fpie` through a table of addresses (GOT)'}
    yield 12, [one(LO12_I, (0x00052507,)).bytes()], {'offset': '0x0', 'like': 'loads of floating-point numbers: `-march=rv32imf '
                                                     '-mabi=ilp32`, also with a c'}
    yield 13, [one(PCREL_LO12_I, (NOP, addi(A0, A0)), offset=4).bytes()], {'offset': '0x4', 'in': '_start+0x4'}
    yield 14, [one(CALL, CALL_WORDS, value=4).bytes()], {**CALL_ROWS, 'symbol': '1, it: 0x4 in section 1, .text'}
    yield 15, [plain_examples.far(1023).bytes()], {'offset': '0x0', 'type': '16, R_RISCV_BRANCH'}
    yield 16, [object_of(words_of(NOP), b'main')], {'why': 'no object has a global or weak `_start`'}
    yield 16, [changed(THREE, 84, WORD, 2)], {'other': 'file0'}
    yield 17, [THREE, object_of(long_code(65536), b'over')], {'object': 'file1'}
    yield 17, [changed(THREE, 48, HALF, 4097)], {'why': 'it has 4,097 sections, and at most 4,096 are linked'}


def check_places(group, script):
    for number, files, wanted in places():
        lines = explained(script, files)
        rows, what = rows_of(lines[1:]), f'{NAMES[number]}, {lines[0]}'
        group.same(f'{what}: the line', lines[0].split()[:4], ['refused', rows['object'][-1], str(number), NAMES[number]])
        group.same(what, {name: rows.get(name) for name in wanted}, wanted)
        group.same(f'{what}: the row', re.fullmatch(rf'`refused \d+ {number} {NAMES[number]}.*` in {script.DOCUMENT}',
                                                   rows.get('row', '')) is not None, True)


def check_document(group, script):
    """The document has one row of objects for each kind that the script knows, and the headings that it names."""
    for number, _, words in script.TRIES:
        found = [cells for cells in script.document_rows() if len(cells) == 3 and words in cells[0]]
        group.same(f'rows of {words}', len(found), 1)
        group.same(f'rows of {words}: the line', f' {number} {NAMES[number]}' in found[0][1], True)
    headings = {line.strip('# \n') for line in disk.read(os.path.join(TOP, script.DOCUMENT)).decode().splitlines()
                if line.startswith('#')}
    group.same('headings', {script.RESOLVED_CALLS, script.ROWS_OF_JUMPS} - headings, set())


# ---- the first fault, against the program


def refused_lists():
    """Lists that are refused: what they are, and their files."""
    for what, files, _ in (*plain_examples.refusals(), *compressed_examples.refusals()):
        yield what, files
    for what, data, _ in changed_objects(THREE):
        yield what, [data]
    for number, files, _ in places():
        yield f'a place of {number}', files
    for number in range(50):
        yield f'close {number}', [close_relocs(random.Random(f'explained {number}'))]
        yield f'list {number}', made_list(random.Random(f'explained {number}'), True)


def check_first_fault(group, script):
    for what, files in refused_lists():
        if first_cause(files) is None:
            continue
        folder = group.folder()
        said = folder.plain(*folder.write_list(files))
        line, _, _ = said.err.decode('latin-1').partition('\n')
        group.same(what, (said.status, line), (121, explained(script, files)[0]))
        folder.remove()


# ---- what is printed


REFUSED = '''refused 1 10 Undefined __udivdi3
object   more
section  1, .text
offset   0x4
in       main+0x4
type     18, R_RISCV_CALL
symbol   2, __udivdi3: undefined
'''


def check_printed(group):
    """Whole calls of the script: a fault, files that can't be read, words that are no map, and objects without a fault."""
    made, text = object_with(addi(A0, ZERO, 1), name=b'main')
    text.reloc(CALL, made.symbol(b'__udivdi3'), 0, CALL_WORDS)
    folder = group.folder(more=made.bytes(), over=bytes(4 * MIB + 1), at_limit=bytes(4 * MIB))
    ended = run(folder, 'object', 'more')
    group.same('a fault', (ended.status, ended.out.decode()[:len(REFUSED)], ended.err), (1, REFUSED, b''))
    group.same('the rest', [line[:9].strip() for line in ended.out.decode()[len(REFUSED):].splitlines() if line[:9].strip()],
               ['why', 'means', 'do', 'row', 'like', 'do'])
    too_long = 'it has more than 4,194,304 bytes'
    rows = ((('object', 'none', 'over', '.'), ('none: No such file or directory', f'over: {too_long}', '.: Is a directory')),
            (('/dev/zero',), (f'/dev/zero: {too_long}',)))
    for names, wanted in rows:
        ended = run(folder, *names)
        lines = ended.out.decode().splitlines()
        group.same(f'{names}', (ended.status, lines[0], lines[1:1 + len(wanted)]),
                   (1, 'read fault', [f'file     {it}' for it in wanted]))
    group.same('at the limit', run(folder, 'at_limit').out[:18], b'refused 0 1 NotElf')
    for words, wanted in ((('--text', '0001'), '--text 0001: not eight hexadecimal digits in lower case'),
                          (('--text', '00010010'), '--text 00010010: no multiple of 4,096'),
                          (('--data', '00100001'), '--data 00100001: no multiple of 16'),
                          (('--stack-low', '0ff00008'), '--stack-low 0ff00008: no multiple of 16'),
                          (('--extensions', 'zcb'), '--extensions zcb: none of the 8 words for extensions'),
                          (('--fixed', '.a,,.b'), '--fixed .a,,.b: an empty name, or one twice')):
        lines = run(folder, *words, 'object').out.decode().splitlines()
        group.same(f'{words}', lines[:2], ['usage', f'why      {wanted}'])
    for words in ((), ELSEWHERE, ('--out', 'out', '--cert', 'cert')):
        group.same(f'no fault, {words}', run(folder, *words, 'object'), (0, b'no fault in 1 object\n', b''))
    group.same('nothing is written', (folder.read('out'), folder.read('cert')), (None, None))


# ---- warnings


def row_of_jumps(distance, count=4, is_named=False):
    """An object with jumps at a distance, to each of which leads a branch if they are named."""
    made, text = object_with(*[branch(0, A0, ZERO, 4 * (count - k) + distance * k) for k in range(count) if is_named])
    for k in range(count):
        text.words(*[addi(A0, ZERO, k)] * (distance // 4 - 1), jal(ZERO, distance * (count - k)))
    text.words(*EXIT_WORDS)
    return made.bytes()


def resolved_call():
    made, text = object_with(addi(A0, ZERO, 1), auipc(RA), jalr(RA, RA, 12), *EXIT_WORDS)
    made.symbol(b'called', home=text, value=16, bind=LOCAL)
    text.words(auipc(T0), lui(T1))
    return made.bytes()


def check_warnings(group, script):
    """What may make a wrong image, and what looks like that and doesn't."""
    jumps = 'jumps at distances of {} bytes, which `zc` changes'.format
    rows = (('jumps', row_of_jumps(4), [(0, f'4 {jumps(4)}')]), ('blocks', row_of_jumps(8), [(4, f'4 {jumps(8)}')]),
            ('two jumps', row_of_jumps(4, 2), []), ('far jumps', row_of_jumps(68), []),
            ('named jumps', row_of_jumps(4, is_named=True), []),
            ('a call', resolved_call(), [(4, 'a call without a relocation, to 0x10, called+0x0'),
                                         (20, 'an `auipc` without a relocation')]))
    for what, data, wanted in rows:
        code = script.Code([script.Object(data)])
        group.same(f'warnings: {what}', [(it.place[2], it.what) for it in script.warnings(code)], wanted)
    pushes = [script.Object(compressed_with(halves_of(SHORT_NOP, PUSH_RA, PUSH_RA, C_LBU) + words_of(*EXIT_WORDS))[0].bytes())]
    for extensions in WORDS.values():
        code = script.Code(pushes, STANDARD._replace(extensions=extensions))
        wanted = [] if extensions.zcmp else [(2, 'Zcmp, which the chip lacks: halfwords that are copied, 2 in this object')]
        group.same(f'warnings: {extensions}', [(it.place[2], it.what) for it in script.warnings(code)], wanted)
    for program in STATUSES:
        for compiler in FOLDERS:
            files = objects_of(program, compiler)
            code = script.Code([script.Object(data) for data in files])
            group.same(f'{program} by {compiler}', (first_cause(files), list(script.warnings(code))), (None, []))
    folder = group.folder(call=resolved_call())
    lines = run(folder, 'call').out.decode().splitlines()
    wanted = ['no fault in 1 object', 'warning  a call without a relocation, to 0x10, called+0x0', 'object   call',
              'section  1, .text', 'offset   0x4, _start+0x4']
    group.same('warnings: printed', lines[:5], wanted)


def explained_faults(group):
    """what tools/explain says of objects: the program's first fault, its place, and warnings"""
    script = tool()
    check_document(group, script)
    check_places(group, script)
    check_first_fault(group, script)
    check_printed(group)
    check_warnings(group, script)


# ---- maps of images

MAP_BY_HAND = '''.text                    0x00010000       0x10
 .text                   0x00010000        0xc file0
                         0x00010000        0x0 _start
                         0x00010004        0x0 same
                         0x0001000c        0x0 the_end
 .text                   0x0001000c        0x4 file1
                         0x0001000c        0x0 a=b
                         0x0001000c        0x0 called
                         0x0001000e        0x0 weak
.data                    0x00100000       0x24
 .rodata                 0x00100000        0x4 file1
                         0x00100000        0x0 it's "odd" \\ @name
 *fill*                  0x00100004        0xc
 .data                   0x00100010        0x8 file0
                         0x00100010        0x0 value
                         0x00100014        0x0 same
 .data                   0x00100018        0x4 file1
                         0x00100018        0x0 held
 *fill*                  0x0010001c        0x4
 .sdata                  0x00100020        0x4 file1
                         0x00100020        0x0 small
.bss                     0x00100024       0x3c
 *fill*                  0x00100024        0xc
 .sbss                   0x00100030        0x4 file1
                         0x00100030        0x0 little
 *fill*                  0x00100034        0xc
 .bss                    0x00100040        0x4 file0
                         0x00100040        0x0 room
 *fill*                  0x00100044        0xc
 COMMON                  0x00100050       0x10 file0
                         0x00100050       0x10 shared

                          text      data     zeros
file0                       12         8        20
file1                        4        12         4
table, stub and fill         0        16        36
all                         16        36        60

flash 52: text 16, and data 36
RAM 96: data 36, and zeros 60; and the stack
'''
LEFT_OUT = b'explain: left out 1 symbol at no listed place\n'


def parts_of(text):
    """The sections, the pieces and the symbols of a map: the address and size of each, what comes before these, and after."""
    shown, _, _ = text.partition('\n\n')
    rows = [re.fullmatch(r'( *)(\S*) +0x(\w+) +0x(\w+)(?: (.*))?', line) for line in shown.splitlines()]
    parts = {0: [], 1: [], 25: []}
    for row in rows:
        parts[len(row[1]) if row[2] else 25].append((int(row[3], 16), int(row[4], 16), row[2], row[5]))
    return parts[0], parts[1], parts[25]


def check_map(group, what, folder, names):
    """A map whose pieces fill the image's sections, and whose symbols are those that tools/symbols prints."""
    ended = run(folder, '--link-map', 'out', *names)
    group.same(what, (ended.status, ended.err), (0, b''))
    sections, pieces, symbols = parts_of(ended.out.decode())
    image, length = folder.read('out'), sum(size for _, size, _, _ in sections)
    group.same(f'{what}: sections', [(at, size) for at, size, name, _ in sections if name != '.bss'],
               [struct.unpack_from('<I4xI', image, at + 8) for at in (52, 84)])
    group.same(f'{what}: all', length, struct.unpack_from('<I', image, 52 + 20)[0] + struct.unpack_from('<I', image, 84 + 20)[0])
    group.same(f'{what}: pieces', sum(size for _, size, _, _ in pieces), length)
    table = listed(run_symbols(folder, 'out', *names))
    group.same(f'{what}: symbols', sorted((name, at) for at, _, _, name in symbols),
               sorted((name, at) for name, (at, _) in table.items()))


def link_maps(group):
    """maps of images as tools/explain prints them, by hand, of a jump table, and of the monitor, and what is refused"""
    folder = group.linked_small('by hand', by_hand())
    group.same('by hand', run(folder, '--link-map', 'out', 'file0', 'file1'), (0, MAP_BY_HAND.encode(), LEFT_OUT))
    rows = ((('--link-map', 'out', 'file1', 'file0'), 'out: not an image of these objects in this order'),
            (('--link-map', 'file0', 'file0', 'file1'), 'file0: no image'),
            ((*ELSEWHERE, '--link-map', 'out', 'file0', 'file1'), 'out: its code begins at 00010000 and its data at 00100000, in '
                                                                  'another map'))
    for words, line in rows:
        group.ends(f'{words}', run(folder, *words), 2, f'explain: {line}')
    group.same('a fault', run(folder, '--link-map', 'out', 'file1').out[:20], b'refused 0 16 NoEntry')
    folder = group.linked_small('jump table', plain_examples.jump_table())
    lines = run(folder, '--link-map', 'out', 'file0').out.decode().splitlines()
    group.same('jump table', lines[:2], ['.text                    0x00010000     0x1172',
                                         ' *table and stub*        0x00010000       0x10'])
    for what, folder, _, names in monitors(group):
        check_map(group, f'map of {what}', folder, names)
