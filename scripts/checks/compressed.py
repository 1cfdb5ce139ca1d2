"""Objects whose code is compressed: what both links make of them, alone and together with others, and which are refused (RISC-V
unprivileged manual, "C Extension for Compressed Instructions"; RISC-V ELF psABI, "File Header" and "Relocations")."""
import random

import compressed_examples as examples
from assembled import compressed, short_code
from changed_files import WORD, changed
from size_report import Left
from symbolic_machine import NAMES
from zcld_tools.elf import RVC, TSO
from zcld_tools.images import text_of
from zcld_tools.instructions import A0, EXIT_WORDS, ZERO, addi
from zcld_tools.objects import compressed_with
from zcld_tools.programs import CERTIFICATE

from checks.by_chance import random_code
from checks.harness import runs_of
from checks.made_files import EXIT, OLD, THREE, THREE_LEFT, image_of_items, long_code, object_of

# Where e_flags are in a file, of objects and of images; those of objects that are linked, and some of those that are refused.
FLAGS_AT = 36
ALIKE = 0, RVC, TSO, RVC | TSO
REFUSED = (*(1 << bit for bit in range(32) if 1 << bit not in ALIKE), 3, 5, 7, 9, 0x12, 0x21, 0xFFFFFFFF)
THREE_CODE = short_code(addi(A0, ZERO, 3), *EXIT_WORDS)
SHORT_THREE = compressed_with(THREE_CODE)[0].bytes()
SHORT_OTHER = compressed_with(THREE_CODE, b'other')[0].bytes()


def flags_of(file):
    return int.from_bytes(file[FLAGS_AT:FLAGS_AT + 4], 'little')


def plain_link(group, what, files):
    """A folder with the plain image of a list, the names of its files, and the image's text."""
    folder = group.folder()
    names = folder.write_list(files)
    ended = folder.plain(*names)
    text = text_of(folder.read('out') or b'\0' * 52)
    group.same(f'{what}: plain', ended, (0, b'plain text %d\n' % len(text), b''))
    return folder, names, text


def check_text(group, what, files, plain, small, status):
    """The text of a list by both links, and how its runs end."""
    folder, names, text = plain_link(group, what, files)
    group.same(f'{what}: the text of plain', text, bytes(plain))
    group.both_exit(what, folder, names, status)
    group.same(f'{what}: zc', folder.link(*names).status, 0)
    group.same(f'{what}: the text of zc', text_of(folder.read('out')), bytes(small))
    group.exits(f'{what}: run of zc', folder.run(('run', 'out')), status)
    folder.remove()


# ---- small objects


def check_three(group):
    """An exit in 10 bytes: both images, byte for byte, and the report."""
    image = image_of_items([[(2, THREE_CODE[:2]), (4, THREE_CODE[2:6]), (4, THREE_CODE[6:])]])
    left = Left(image, CERTIFICATE, THREE_LEFT.report.replace(b'plain text 12', b'plain text 10'))
    folder = group.folder(object=SHORT_THREE)
    group.same('three: plain', folder.plain(), (0, b'plain text 10\n', b''))
    group.same('three: OUT of plain', folder.read('out'), image)
    group.both_exit('three', folder, ['object'], 3)
    group.done('three: zc', folder.link(), folder, left=left)
    group.exits('three: run of zc', folder.run(('run', 'out')), 3)
    for words in (('trace', '--steps', '2', 'object'), ('run', '--steps', '2', 'out')):
        group.ends(f'three: {words}', folder.run(words), 127, 'spent')


def check_flags(group):
    """Flags of objects, of which two are known, and of images."""
    for flags in ALIKE:
        folder = group.folder(object=changed(THREE, FLAGS_AT, WORD, flags))
        group.same(f'flags {flags}: plain', folder.plain().status, 0)
        group.same(f'flags {flags} of plain', flags_of(folder.read('out')), flags & RVC)
        group.done(f'flags {flags}: zc', folder.link(), folder)
    folder = group.folder(out=OLD, cert=OLD, short=SHORT_THREE)
    for flags in REFUSED:
        for name, data in (('object', THREE), ('short', SHORT_THREE)):
            folder.write(name, changed(data, FLAGS_AT, WORD, flags))
            group.refused_by_all(f'flags {flags:x} of {name}', folder, (name,), 121, 'refused 0 3 Flags')
    for flags in (0, TSO):
        folder.write('short', changed(SHORT_THREE, FLAGS_AT, WORD, flags))
        group.refused_by_all(f'flags {flags:x} of code of 10 bytes', folder, ('short',), 121, 'refused 0 6 CodeSize')
    for what, files, flags in (('other, three', [SHORT_OTHER, THREE], RVC), ('three, other', [THREE, SHORT_OTHER], RVC),
                               ('three and data', [THREE, examples.data_alone()], RVC),
                               ('words alone', [THREE, object_of(EXIT, b'other')], 0)):
        folder, _, _ = plain_link(group, what, files)
        group.same(f'{what}: flags', flags_of(folder.read('out')), flags)


def check_sizes(group):
    """As much compressed code as there may be, which counts twice, and a halfword more, alone and together with words."""
    rows = ((1 << 17) - 2, (), None), (1 << 17, (), 0), ((1 << 16) - 2, (1 << 17) - 4, None), (1 << 16, (1 << 17) - 4, 1)
    for size, words, at in rows:
        files = [compressed_with(examples.nops((size - len(THREE_CODE)) // 2) + THREE_CODE)[0].bytes()]
        if words:
            files.insert(0, object_of(long_code(words // 4), b'words'))
        what = f'{size} bytes beside {words or 0}'
        if at is None:
            _, _, text = plain_link(group, what, files)
            group.same(f'{what}: the text', len(text), size + (words or 0))
            continue
        folder = group.folder(out=OLD, cert=OLD)
        group.refused_by_all(what, folder, folder.write_list(files), 121, f'refused {at} 17 TooLarge')


def compressed_objects(group):
    """small objects of compressed code, byte for byte, flags of objects and images, and how much code there may be"""
    check_three(group)
    check_flags(group)
    check_sizes(group)
    for what, code, written in examples.written():
        files = [compressed_with(code + examples.EXIT)[0].bytes()]
        check_text(group, what, files, code + examples.EXIT, bytes.fromhex(written) + examples.EXIT, examples.STATUS)
    made, plain, small = examples.sections()
    check_text(group, 'sections of odd halfwords', [made.bytes()], plain, small, examples.STATUS)
    for addend in range(2, 255, 2):
        made, text = examples.aligned(addend)
        check_text(group, f'ALIGN with {addend}', [made.bytes()], text, text, examples.STATUS)


# ---- branches, jumps and relocations


def compressed_relocations(group):
    """branches and jumps of 2 bytes at the ends of what they reach and beyond, other relocations of compressed code, and what
    is refused or is no instruction"""
    for name, reach in examples.REACHES.items():
        for what, (made, at), code in ((f'{name} on', examples.over(reach, reach.on), reach.bytes_on),
                                       (f'{name} back', examples.back_over(reach, reach.back), reach.bytes_back)):
            text = bytearray(made.sections[0].content)
            text[at:at + 2] = bytes.fromhex(code)
            check_text(group, what, [made.bytes()], text, text, examples.STATUS)
    for what, made, written in examples.hinted():
        folder = group.linked_small(what, [made.bytes()])
        group.same(what, text_of(folder.read('out'))[:len(written)].hex(), written.hex())
        group.exits(what, folder.run(('run', 'out')), examples.STATUS)
    for what, files, status in examples.accepted():
        folder, names = group.linked_plainly(what, files)
        group.both_exit(what, folder, names, status)
        group.exits(f'{what}, made smaller', group.linked_small(what, files).run(('run', 'out')), status)
    for what, files, line in examples.refusals():
        folder = group.folder(out=OLD, cert=OLD)
        group.refused_by_all(what, folder, folder.write_list(files), 121, line)
        folder.remove()
    for what, made, at, why in examples.stuck():
        folder, names = group.linked_plainly(what, [made.bytes()])
        group.ends(what, folder.run(('trace', *names)), 126, f'stuck 0 1 {at} {why} {NAMES[why]}')
        group.linked_small(what, [made.bytes()])


# ---- lists and programs


def mixed_lists(group):
    """lists of compressed objects and of others, in each order: `zc` makes the same text of all that are in one order"""
    texts = {}
    for which, order, files in examples.mixed():
        what = f'compressed {which}, in the order {order}'
        plainly, names = group.linked_plainly(what, files)
        group.same(f'{what}: flags', flags_of(plainly.read('out')), int(any(which)))
        small = group.linked_small(what, files)
        group.same(f'{what}: flags of zc', flags_of(small.read('out')), RVC)
        for machine, ended in runs_of(plainly, small, names):
            group.exits(f'{what}: {machine}', ended, examples.MIXED_STATUS)
        text = text_of(small.read('out'))
        group.same(f'{what}: the text', text, texts.setdefault(order, text))
        for folder in (plainly, small):
            folder.remove()


def compressed_programs(group):
    """100 programs by chance whose code is compressed: they do what they do in words, and `zc` makes the same text of both"""
    for number in range(100):
        code = random_code(random.Random(number))
        words = [int.from_bytes(code[at:at + 4], 'little') for at in range(0, len(code), 4)]
        folder = group.folder(words=object_of(code), short=compressed_with(compressed(words))[0].bytes())
        what, given = f'program {number}', b'0123456789abcdef'
        wanted = folder.run(('trace', 'words'), given)
        group.same(f'{what} exits', b'exited ' in wanted.err, True)
        group.same(f'{what}: trace', folder.run(('trace', 'short'), given), wanted)
        group.same(f'{what}: plain', folder.plain('short').status, 0)
        group.same(f'{what}: run of plain', folder.run(('run', 'out'), given), wanted)
        texts = []
        for name in ('words', 'short'):
            group.same(f'{what}: zc of {name}', folder.link(name).status, 0)
            texts.append(text_of(folder.read('out')))
        group.same(f'{what}: the text', texts[1], texts[0])
        group.same(f'{what}: run of zc', folder.run(('run', 'out'), given), wanted)
        folder.remove()
