"""The symbols that tools/symbols gives to images, against what the objects, the images and other programs say."""
import os
import re
import struct
import sys

import against_ld
from halfwords import short_form
from memory_maps import map_at, words_of_map
from object_data import Symbols
from object_faults import LINKER_NAMES, Object
from object_items import word_of
from zc_machine import PUSH, frame_of
from zcld_tools import TOP, programs
from zcld_tools.elf import (ABS, CALL, COMMON, CONSTANT_FLAGS, DATA_FLAGS, DATA_TYPE, FILE_TYPE, FUNCTION_TYPE, GLOBAL,
                            LOCAL, NOBITS, PROGBITS, R_32, SECTION_TYPE, WEAK)
from zcld_tools.images import DATA_AT, TEXT_AT, segments
from zcld_tools.instructions import A0, CALL_WORDS, EXIT_WORDS, RA, RET, SP, ZERO, addi, is_branch, low_part, sw
from zcld_tools.objects import object_with
from zcld_tools.programs import Failed

from checks.c_programs import FOLDERS, STATUSES, objects_of, read
from checks.harness import Skipped

SCRIPT = os.path.join(TOP, 'tools/symbols')
ODD_NAME = 'it\'s "odd" \\ @name'


def run(folder, *words, **how):
    """Runs the script in a folder."""
    return programs.run([sys.executable, SCRIPT, *words], cwd=folder.place, **how)


def listed(ended):
    """The address and the letter of each name that was printed."""
    rows = (line.split(' ', 2) for line in ended.out.decode().splitlines())
    return {name: (int(address, 16), letter) for address, letter, name in rows}


def linked(group, what, files):
    """Each link's name, and a folder with its image of the files."""
    return ('plain', group.linked_plainly(what, files)[0]), ('zc', group.linked_small(what, files))


def monitors(group):
    """Each image of the monitor: what it is, its folder, and its objects with their names."""
    for compiler in FOLDERS:
        files = objects_of('monitor', compiler)
        for link, folder in linked(group, f'monitor by {compiler}', files):
            yield f'monitor by {compiler}, {link}', folder, files, [f'file{i}' for i in range(len(files))]


# ---- by hand


def by_hand():
    """Two objects with symbols of each kind."""
    first, text = object_with(addi(A0, ZERO, 3))
    first.symbols[0].kind = FUNCTION_TYPE
    text.reloc(CALL, first.symbol(b'called', home=text, value=12, bind=WEAK, kind=FUNCTION_TYPE), 0, CALL_WORDS)
    text.words(*EXIT_WORDS)
    for name, value in ((b'.Lcall', 4), (b'$x', 0), (b'middle', 8), (b'the_end', 20), (b'same', 12)):
        first.symbol(name, home=text, value=value, bind=LOCAL)
    data = first.section(b'.data', PROGBITS, DATA_FLAGS)
    data.content += bytes(8)
    first.symbol(b'value', home=data, kind=DATA_TYPE)
    first.symbol(b'same', home=data, value=4, bind=LOCAL)
    first.symbol(b'room', home=first.section(b'.bss', NOBITS, DATA_FLAGS, size=4), bind=LOCAL)
    first.symbol(b'shared', home=COMMON, value=8, size=8, kind=DATA_TYPE)
    first.symbol(b'number', home=ABS, value=7)
    first.symbol(b'dropped', home=first.section(b'.debug', PROGBITS, 0), bind=LOCAL)
    second, text = object_with(RET, RET, name=b'called')
    second.symbols[0].bind = WEAK
    second.symbol(b'called', home=text)
    second.symbol(b'weak', home=text, value=4, bind=WEAK, kind=FUNCTION_TYPE)
    second.symbol(b'a=b', home=text, bind=LOCAL)
    for name, flags, symbol, bind in ((b'.data', DATA_FLAGS, b'held', WEAK), (b'.sdata', DATA_FLAGS, b'small', LOCAL),
                                      (b'.rodata', CONSTANT_FLAGS, ODD_NAME.encode(), GLOBAL)):
        section = second.section(name, PROGBITS, flags)
        section.content += bytes(4)
        second.symbol(symbol, home=section, bind=bind, kind=DATA_TYPE)
    second.symbol(b'little', home=second.section(b'.sbss', NOBITS, DATA_FLAGS, size=4))
    second.symbol(b'shared', home=COMMON, value=8, size=16, kind=DATA_TYPE)
    second.symbol(b'value', home=ABS, value=1, bind=WEAK)
    return [first.bytes(), second.bytes()]


DATA_BY_HAND = (f'00100000 R {ODD_NAME}', '00100010 D value', '00100014 d same', '00100018 V held', '00100020 d small',
                '00100030 B little', '00100040 b room', '00100050 B shared')
LINES_BY_HAND = {
    'plain': ('00010000 T _start', '0001000c t same', '00010014 t a=b', '00010014 T called', '00010014 t the_end',
              '00010018 W weak', *DATA_BY_HAND),
    'zc': ('00010000 T _start', '00010004 t same', '0001000c t a=b', '0001000c T called', '0001000c t the_end',
           '0001000e W weak', *DATA_BY_HAND)}
LABELS = {'plain': '00010004 t .Lcall', 'zc': '00010002 t .Lcall'}
MIDDLE, EQUALS = (f'symbols: left out 1 symbol {why}\n'.encode() for why in ('at no listed place', 'with = in the name'))


def lines(rows):
    return ''.join(f'{row}\n' for row in rows).encode()


def check_by_hand(group):
    for link, folder in linked(group, 'by hand', by_hand()):
        words, wanted = ('out', 'file0', 'file1'), LINES_BY_HAND[link]
        group.same(f'by hand, {link}', run(folder, *words), (0, lines(wanted), MIDDLE))
        wanted = wanted[0], LABELS[link], *wanted[1:]
        group.same(f'by hand, {link}, labels', run(folder, '--labels', *words), (0, lines(wanted), MIDDLE))


def check_elsewhere(group):
    """The same objects linked for another map."""
    memory = map_at(0x20001000, 0x80000000, 0x80600000)
    folder = group.folder()
    names = folder.write_list(by_hand())
    for link, words in (('plain', ('--out', 'out')), ('zc', ('--out', 'out', '--cert', 'cert'))):
        folder.run((link, *words_of_map(memory), *words, *names))
        wanted = lines(moved(row, memory) for row in LINES_BY_HAND[link])
        group.same(f'elsewhere, {link}', run(folder, 'out', *names), (0, wanted, MIDDLE))


def moved(row, memory):
    """A row of symbols in the standard map, as it is in another one."""
    at = int(row[:8], 16)
    return f'{at - DATA_AT + memory.data if at >= DATA_AT else at - TEXT_AT + memory.text:08x}{row[8:]}'


def check_inside_push(group):
    """A local symbol in the middle of what becomes a push, and one after it."""
    made, text = object_with(addi(SP, SP, -16), sw(RA, SP, 12), *EXIT_WORDS)
    for name, value in ((b'inside', 4), (b'behind', 8)):
        made.symbol(name, home=text, value=value, bind=LOCAL)
    wanted = {'plain': (('00010000 T _start', '00010004 t inside', '00010008 t behind'), b''),
              'zc': (('00010000 T _start', '00010002 t behind'), MIDDLE)}
    for link, folder in linked(group, 'inside a push', [made.bytes()]):
        rows, said = wanted[link]
        group.same(f'inside a push, {link}', run(folder, 'out', 'file0'), (0, lines(rows), said))


def check_refusals(group):
    (_, folder), _ = linked(group, 'refusals', by_hand())
    image = folder.read('out')
    folder.write('short', image[:-1])
    folder.write('bare', image[:48] + bytes(2) + image[50:])
    rows = ((('out', 'file1', 'file0'), 'out: not an image of these objects in this order'),
            (('out', 'file0'), 'out: not an image of these objects in this order'),
            (('file0', 'file0', 'file1'), 'file0: no image'), (('short', 'file0', 'file1'), 'short: no image'),
            (('bare', 'file0', 'file1'), 'bare: no list of places'), (('out', 'file1'), 'refused 0 16 NoEntry'),
            (('none', 'file0', 'file1'), 'none: No such file or directory'),
            (('out', 'file0', 'none'), 'none: No such file or directory'),
            (('out',), 'the following arguments are required: OBJ'))
    for words, line in rows:
        group.ends(f'{words}', run(folder, *words), 2, f'symbols: {line}')
    ended = run(folder, '--add', 'copy', 'out', 'file0', 'file1', env={**os.environ, 'PATH': folder.path('none')})
    line = b'symbols: there is no objcopy for RISC-V, as riscv64-unknown-elf-objcopy\n'
    group.same('no objcopy', ended, (2, b'', line))
    group.same('no objcopy: the copy', folder.read('copy'), None)


# ---- the monitor


class Source:
    """A symbol of an object, with the relocations of its section, as the type and the symbol's name at each offset."""

    def __init__(self, part, row):
        _, self.name, self.value, self.size, _, home = row
        self.name, self.section, self.is_code = self.name.decode(), part.sections[home], part.is_code(home)
        self.relocs = {at: (info & 255, part.symbol_name(info >> 8)) for rela in part.kept_relas() if rela.info == home
                       for at, info, _ in struct.iter_unpack('<IIi', rela.content)}

    def word(self, offset=0):
        return struct.unpack_from('<I', self.section.content, self.value + offset)[0]

    def first_half(self):
        return struct.unpack_from('<H', self.section.content, self.value)[0]

    def first_word(self):
        """The word of the first instruction, or the one that its halfword expands to, or None."""
        return self.word() if self.first_half() & 3 == 3 else word_of(self.first_half())


def sources(files):
    """The symbols of kept sections, but labels and mapping symbols. The monitor has no name twice."""
    for part in map(Object, files):
        for row in part.named_symbols():
            is_named = row[1] and not row[1].startswith((b'.L', b'$'))
            is_shown = is_named and part.symbols[row[0]][3] & 15 not in (SECTION_TYPE, FILE_TYPE)
            if row[5] < part.count and part.kept[row[5]] and is_shown:
                yield Source(part, row)


def contents(image):
    """The bytes of an image's text and of its data."""
    text, data = segments(image)
    return text.content, data.content


def begins_with(text, at, source):
    """Whether the instruction at an address is the first one of a function, as it is or in its short form, or a push that lowers
    sp as that does or by a part, or the function's own push. Of a branch, and of what is under a relocation, the operation and
    the registers are looked at."""
    found, word = int.from_bytes(text[at - TEXT_AT:][:4], 'little'), source.first_word()
    frame = frame_of(found & 0xFFFF)
    if word is None:
        return found & 0xFFFF == source.first_half()
    if frame and word & 0xFFFFF == addi(SP, SP):
        return frame.form == PUSH and frame.size <= -low_part(word)
    if is_branch(word):
        mask, short_mask = 0x01FFF07F, 0xE383
    else:
        mask, short_mask = (0xFFF, 0) if source.value in source.relocs else (0xFFFFFFFF, 0xFFFF)
    return found & mask == word & mask or short_mask and found & short_mask == short_form(word & mask)


def held_words(source, data, table):
    """The words of a variable that has content, as they are in the image and as they should be."""
    for offset in range(0, source.size // 4 * 4, 4):
        found = struct.unpack_from('<I', data, table[source.name][0] - DATA_AT + offset)[0]
        kind, name = source.relocs.get(source.value + offset, (None, b''))
        if kind is None:
            yield found, source.word(offset)
        elif kind == R_32 and name.decode() in table:
            yield found, table[name.decode()][0]


def check_monitor(group, what, folder, files, names):
    """Names, and what lies at their addresses in the image."""
    ended, image = run(folder, 'out', *names), folder.read('out')
    group.same(what, (ended.status, ended.err), (0, b''))
    table, wanted = listed(ended), list(sources(files))
    group.same(f'{what}: names', sorted(table), sorted(source.name for source in wanted))
    group.same(f'{what}: _start', table.get('_start', (None,))[0], struct.unpack_from('<I', image, 24)[0])
    (text, data), pointers = contents(image), 0
    for source in filter(lambda it: it.name in table, wanted):
        at = table[source.name][0]
        if source.is_code:
            group.same(f'{what}: {source.name} begins at {at:x}', begins_with(text, at, source), True)
        elif source.section.kind != NOBITS:
            pairs = list(held_words(source, data, table))
            pointers += sum(first in {it for it, _ in table.values()} for first, _ in pairs)
            group.same(f'{what}: {source.name}', [first for first, _ in pairs], [second for _, second in pairs])
    # the table of commands has six functions
    group.same(f'{what}: pointers', pointers, 6)


def listed_symbols(group):
    """symbols as they are printed, by hand and of the monitor, and what is refused"""
    check_by_hand(group)
    check_elsewhere(group)
    check_inside_push(group)
    check_refusals(group)
    for monitor in monitors(group):
        check_monitor(group, *monitor)


# ---- copies


def tools():
    """The prefix of the names of objcopy, nm and objdump."""
    for prefix in programs.PREFIXES:
        if all(programs.found(prefix + name) for name in ('objcopy', 'nm', 'objdump')):
            return prefix
    raise Skipped('there is no objcopy, nm and objdump for RISC-V')


def told(folder, *words):
    """The lines of another program."""
    return programs.told(words, cwd=folder.place).splitlines()


def check_copy(group, prefix, what, folder, files):
    """A copy that has the image's bytes, and the names that are printed without it, but those with =."""
    names = [f'file{i}' for i in range(len(files))]
    printed = [line.split(' ', 2) for line in run(folder, 'out', *names).out.decode().splitlines()]
    ended = run(folder, '--add', 'copy', 'out', *names)
    group.same(f'{what}: the script', (ended.status, ended.out), (0, b''))
    image, copy = folder.read('out'), folder.read('copy')
    if copy is None:
        raise Failed(f'{what}: no copy')
    group.same(f'{what}: the segments', contents(copy), contents(image))
    found = [line.split(' ', 2) for line in told(folder, f'{prefix}nm', '-n', 'copy')]
    shown = [(address, name) for address, _, name in printed if '=' not in name]
    group.same(f'{what}: nm', sorted((address, name) for address, _, name in found), sorted(shown))
    # nm takes an image's read-only data, which lies among the other, for D
    letters = {name: {'R': 'D', 'r': 'd'}.get(letter, letter) for _, letter, name in printed if '=' not in name}
    group.same(f'{what}: letters', {name: letter for _, letter, name in found}, letters)
    for out, image, line in (('twice', 'copy', 'copy: has symbols'), ('none/it', 'out', 'none/it: No such file or directory')):
        group.ends(f'{what}: {line}', run(folder, '--add', out, image, *names), 2, f'symbols: {line}')
    return ended


def check_monitor_copy(group, prefix, what, folder, files, names):
    """The copy runs as the image does, and objdump and nm say what is printed."""
    check_copy(group, prefix, what, folder, files)
    given, out = read('monitor', 'input'), read('monitor', 'output')
    group.exits(f'{what}: the copy', folder.run(('run', 'copy'), given), STATUSES['monitor'], out)
    table = listed(run(folder, 'out', *names))
    disassembled = told(folder, f'{prefix}objdump', '-d', 'copy')
    headings = filter(None, (re.fullmatch('([0-9a-f]+) <(.+)>:', line) for line in disassembled))
    group.same(f'{what}: objdump', {it[2]: int(it[1], 16) for it in headings},
               {name: address for name, (address, letter) in table.items() if letter in 'Tt'})
    rows = (line.split() for name in names for line in told(folder, f'{prefix}nm', name))
    wanted = {row[2]: row[1] for row in rows if len(row) == 3}
    group.same(f"{what}: the objects' letters", {name: letter for name, (_, letter) in table.items()}, wanted)


def check_against_ld(group, prefix, files):
    """The plain image's symbols have the addresses that another linker gives them in the same layout."""
    program = against_ld.linker()
    if program is None:
        raise Skipped('there is no linker for RISC-V')
    folder, names = group.linked_plainly('against another linker', files)
    try:
        folder.write('other', against_ld.linked_file(program, files, Symbols([Object(data) for data in files])))
    except against_ld.Differs as why:
        raise Failed(str(why)) from None
    rows = (line.split(' ', 2) for line in told(folder, f'{prefix}nm', '-n', 'other'))
    found = {name: int(address, 16) for address, letter, name in rows if letter not in 'aA' and not name.startswith('.L')}
    found = {name: address for name, address in found.items() if name.encode() not in LINKER_NAMES}
    wanted = {name: address for name, (address, _) in listed(run(folder, 'out', *names)).items()}
    group.same('against another linker', found, wanted)


def added_symbols(group):
    """copies of images with symbols, as objcopy writes them and as nm and objdump show them"""
    prefix = tools()
    for link, folder in linked(group, 'by hand', by_hand()):
        ended = check_copy(group, prefix, f'by hand, {link}', folder, by_hand())
        group.same(f'by hand, {link}: left out', ended.err, MIDDLE + EQUALS)
    for monitor in monitors(group):
        check_monitor_copy(group, prefix, *monitor)
    for compiler in FOLDERS:
        check_against_ld(group, prefix, objects_of('monitor', compiler))
