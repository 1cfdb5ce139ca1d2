"""Sections of code that stay as they are: links, `gc` and `merge` with names of them, by hand and against the models."""
import collections
import os
import random
import struct
import sys

import chip_lists
import plain_examples
from collected_objects import COLLECTING
from device_programs import Differs
from halfwords import short_form
from merged_objects import MERGING
from memory_maps import map_in, words_of_names
from object_faults import Object
from object_items import Code
from plain_link import plain as plain_of
from size_report import left_by_zc
from zc_examples import XORI
from zcld_tools import TOP, programs
from zcld_tools.elf import ABS, ALIGN, BRANCH, CALL, DATA_FLAGS, HI20, JAL, LO12_I, PROGBITS, RVC, RVC_BRANCH, RVC_JUMP
from zcld_tools.images import STANDARD, TEXT_AT, text_of
from zcld_tools.instructions import (A0, A1, CALL_WORDS, EXIT_WORDS, NOP, RA, RET, S0, S1, SHORT_NOP, SP, ZERO, addi, branch,
                                     halves_of, is_jal, jal, jal_distance, lui, lw, sw, words_of)
from zcld_tools.linked import Image
from zcld_tools.objects import Written, object_with

from checks import collected, merged, rewritten
from checks.c_programs import FOLDERS, STATUSES, input_of, objects_of, read
from checks.made_files import OLD, OTHER

KEPT = b'.kept'
# What would be shorter elsewhere, or a push, two moves and a pop: a branch over a word and a jump over one are among it.
SHORTER = (addi(A0, A0, 1), branch(0, A0, ZERO, 8), NOP, jal(ZERO, 8), NOP, addi(SP, SP, -16), sw(RA, SP, 12), addi(S0, A0),
           addi(S1, A1), lw(RA, SP, 12), addi(SP, SP, 16), RET)
# `c.lbu x8,0(x8)`, `c.j` and `c.beqz x8` to themselves, and `c.li x0,1`.
C_LBU, C_J, C_BEQZ, HINT = 0x8000, 0xA001, 0xC001, 0x4005
# The causes of the table in examples/vectors that have a handler of their own, and how many there are; the sections that stay as
# they are; and what is written to the pin.
HANDLERS = {0: b'on_exception', 3: b'on_software', 7: b'on_timer', 11: b'on_external'}
CAUSES, VECTORS = 12, (b'.vectors', b'.picked', b'.sent', b'.text.handler')
# `c.li a0,3`, `c.jr ra`, `c.mv s0,a0`, `c.mv s1,a1`, `cm.popret {ra},16`, `cm.push {ra},-16` and `cm.jt 0`.
C_LI, C_RET, C_MV_S0, C_MV_S1, POP_RA, PUSH_RA, JUMP_BY_TABLE = 0x450D, 0x8082, 0x842A, 0x84AE, 0xBE42, 0xB842, 0xA002
# Each command that judges objects, without its name and options.
JUDGING = (('plain', '--out', 'out'), ('zc', '--out', 'out', '--cert', 'cert'), ('trace',), ('gc', '--out', 'left'),
           ('merge', '--out', 'left'), ('share', '--out', 'out', '--plan', 'plan'))


# ---- objects


def with_section(*words, name=KEPT, **how):
    """A program of ten bytes of code, if it is made smaller, and a section with these words that it calls. Gives what is written,
    the first section and the other."""
    made, text = object_with(addi(A0, ZERO, 3), *EXIT_WORDS)
    other = made.section(name, **how)
    other.words(*words)
    return made, text, other


def kept_list(name=KEPT):
    """A section with what would be shorter elsewhere, of which some has a relocation that doesn't lead out of it."""
    made, _, other = with_section(*SHORTER, name=name)
    start, number = made.symbol(b'kept', home=other), made.symbol(b'number', home=ABS, value=0x3004)
    for kind, words in ((BRANCH, (branch(0, A0, ZERO),)), (JAL, (jal(ZERO),)), (CALL, CALL_WORDS)):
        other.reloc(kind, start, 0, words)
    other.reloc(HI20, number, 0, (lui(A0),))
    other.reloc(LO12_I, number, 0, (addi(A0, A0),))
    other.reloc(ALIGN, None, 12, [NOP] * 3)
    other.words(*SHORTER)
    other.align = 16
    made.section(b'.data', PROGBITS, DATA_FLAGS).words(1)
    return [made.bytes()]


def over_padding():
    """A branch of two bytes over padding that asks for more than its section's alignment: it just reaches where the first section
    ends in the plain image, and not where it ends if two of its words are shorter."""
    made, text = object_with(addi(A0, ZERO, 3), addi(A1, ZERO, 1), *[XORI] * 61, *EXIT_WORDS)
    other = made.section(KEPT)
    made.flags = RVC
    other.reloc(RVC_BRANCH, made.symbol(b'behind', home=other, value=256), 0, halves=(C_BEQZ,))
    other.reloc(ALIGN, None, 254, halves=[SHORT_NOP] * 127)
    other.words(RET)
    return [made.bytes()]


def between_groups():
    """A section with a push, a pop and moves of its own, after a program that ends with a pop and before a push: the list, and the
    section's words."""
    made, text = object_with(addi(A0, ZERO, 3), *EXIT_WORDS, lw(RA, SP, 12), addi(SP, SP, 16), RET)
    made.section(KEPT).words(*SHORTER)
    made.section(b'.text.behind').words(addi(SP, SP, -16), sw(RA, SP, 12), RET)
    return [made.bytes()], SHORTER


def between_moves():
    """The same of a section that begins with the second of two moves, and ends with the first of two."""
    made, text = object_with(addi(A0, ZERO, 3), *EXIT_WORDS, addi(S0, A0))
    words = addi(S1, A1), NOP, addi(S0, A0)
    made.section(KEPT).words(*words)
    made.section(b'.text.behind').words(addi(S1, A1), RET)
    return [made.bytes()], words


def between_jumps():
    """A section that begins and ends with a far jump to an exit with 7, after eleven such jumps and before nine: the list, and how
    many words the section has."""
    made, text = object_with()
    made.symbols[0].value = text.words(addi(A0, ZERO, 7), *EXIT_WORDS, *[XORI] * 1100) + 4 * 1103
    leave, kept, behind = made.symbol(b'leave', home=text), made.section(KEPT), made.section(b'.text.behind')
    for section, count in ((text, 11), (kept, 1), (behind, 9)):
        for _ in range(count):
            section.reloc(JAL, leave, 0, (jal(ZERO),))
    kept.words(addi(A0, A0, 1))
    kept.reloc(JAL, leave, 0, (jal(ZERO),))
    return [made.bytes()], 3


def leaving(kind, *words, halves=(), is_compressed=False):
    """A section that holds this with a relocation to the first one."""
    made, text, other = with_section(NOP)
    made.flags = RVC if is_compressed else 0
    other.reloc(kind, made.symbol(b'first', home=text), 0, words, halves)
    other.words(RET)
    return [made.bytes()]


# ---- links


def tool(name, folder, *words):
    """Runs one of the tools for users in a folder."""
    return programs.run([sys.executable, os.path.join(TOP, 'tools', name), *words], cwd=folder.place)


def linked(group, what, objects, names, memory=STANDARD, words=()):
    """A folder with the image that `zc` makes, as the model does, if sections of these names stay as they are."""
    folder, left = group.folder(), left_by_zc(objects, memory, names)
    given = (*words_of_names(names), *words, *folder.write_list(objects))
    group.done(what, folder.run(('zc', '--out', 'out', '--cert', 'cert', *given)), folder, left=left)
    return folder


def fixed_bytes(group):
    """sections whose instructions keep their sizes: their bytes and addresses, halfwords that the chip lacks, a branch that padding
    makes longer, no jumps through a table, and whole programs"""
    plain_text = text_of(plain_of(kept_list())[0])
    text = text_of(linked(group, 'kept', kept_list(), (KEPT,)).read('out'))
    front = halves_of(short_form(addi(A0, ZERO, 3))) + words_of(*EXIT_WORDS) + bytes(6)
    group.same('the program of ten bytes, and zeros', text[:16], front)
    group.same('the section begins at the same multiple of 16', text[16:], plain_text[16:])
    group.same('its words', text[16:16 + 4 * len(SHORTER)], words_of(*SHORTER))
    text = text_of(linked(group, 'aligned to 1', [with_section(*SHORTER, align=1)[0].bytes()], (KEPT,)).read('out'))
    group.same('aligned to 4 at least', text[10:], bytes(2) + words_of(*SHORTER))
    made, _, other = with_section()
    made.flags = RVC
    other.halves(C_LBU, HINT)
    for word, names, wanted in (('zca', (KEPT,), 4), ('zca_zcb', (KEPT,), 4), ('zca', (), 8), ('zca_zcb', (), 6)):
        memory, options = map_in({'--extensions': word}), ('--extensions', word)
        text = text_of(linked(group, f'Zcb, {word}', [made.bytes()], names, memory, options).read('out'))
        group.same(f'Zcb, {word}, {names}', len(text[12 if names else 10:]), wanted)
        group.same(f'Zcb, {word}, {names}: the halfwords', text[12:] == halves_of(C_LBU, HINT), names != ())
    text = text_of(linked(group, 'over padding', over_padding(), (KEPT,)).read('out'))
    group.same('over padding: a branch of four bytes', (len(text), text[256:260]), (516, words_of(branch(0, S0, ZERO, 256))))
    folder = linked(group, 'far jumps', plain_examples.jump_table(), (b'.text',))
    group.same('no jump goes through a table', b'slot' in folder.read('cert'), False)
    group.same('far jumps: the text', len(text_of(folder.read('out'))), 4492)
    whole_programs(group)


def fixed_neighbours(group):
    """groups and jumps through a table right before and right behind a section that stays as it is, and none in it or across its
    edges"""
    front = halves_of(C_LI) + words_of(*EXIT_WORDS)
    rows = (('groups', between_groups(), (POP_RA,), (PUSH_RA, C_RET)), ('moves', between_moves(), (C_MV_S0,), (C_MV_S1, C_RET)))
    for what, (objects, words), before, behind in rows:
        text = text_of(linked(group, f'between {what}', objects, (KEPT,)).read('out'))
        group.same(f'between {what}: the text', text, front + halves_of(*before) + words_of(*words) + halves_of(*behind))
    jumps_beside(group)


def jumps_beside(group):
    """Jumps through a table beside a fixed section, whose own jumps are as long as they were."""
    objects, count = between_jumps()
    folder = linked(group, 'between jumps', objects, (KEPT,))
    places, text = Image(folder.path('out')).places, text_of(folder.read('out'))
    start, leave = places[0, 2, 0] - TEXT_AT, places[0, 1, 0]
    group.same('between jumps: before it', text[start - 22:start], halves_of(*[JUMP_BY_TABLE] * 11))
    group.same('between jumps: behind it', text[start + 4 * count:], halves_of(*[JUMP_BY_TABLE] * 9))
    first, middle, last = struct.unpack_from('<3I', text, start)
    group.same('between jumps: its sum', middle, addi(A0, A0, 1))
    for word, at in ((first, start), (last, start + 8)):
        group.same('between jumps: its jumps', (is_jal(word), TEXT_AT + at + jal_distance(word)), (True, leave))
    group.same('between jumps: twenty are served', b'saving 0 1 0 20 0\n' in folder.run(
        ('zc', '--fixed', '.kept', '--out', 'out', '--cert', 'cert', 'file0')).out, True)
    group.exits('between jumps: run', folder.run(('run', 'out')), 7)


def whole_programs(group):
    """Programs of which all code stays as it is: the text is that of `plain`."""
    for program, status in STATUSES.items():
        for compiler in FOLDERS:
            what, objects, given = f'{program} by {compiler}', objects_of(program, compiler), input_of(program)
            folder = linked(group, what, objects, (b'.text',))
            group.same(f'{what}: the text', text_of(folder.read('out')), text_of(plain_of(objects)[0]))
            group.exits(f'{what}: run', folder.run(('run', '--fixed', '.text', 'out'), given), status, read(program, 'output'))
            folder.remove()


def fixed_names(group):
    """which sections names fix, how many the report says there are, and that a link without them prints and makes what it did"""
    rows = ((b'.kept', b'.kept', 1), (b'.kept.one', b'.kept', 1), (b'.kept.one.two', b'.kept.one', 1), (b'.kept', b'.kep', 0),
            (b'.kept1', b'.kept', 0), (b'.kept', b'.kept.', 0), (b'.kept..', b'.kept.', 1), (b'.kept', b'.KEPT', 0),
            (b'.kept', b'kept', 0), (b'.kept.one', b'.one', 0), (b'.text.x', b'.text', 2), (b'.text.x', b'.text.x', 1),
            (b'.text', b'.text', 2), ('.ö'.encode(), '.ö'.encode(), 1))
    for name, given, count in rows:
        folder, names = group.folder(), (b'.data', given)
        option = '--fixed=' + b','.join(names).decode()
        ended = folder.run(('zc', option, '--out', 'out', '--cert', 'cert', *folder.write_list(kept_list(name))))
        left = left_by_zc(kept_list(name), STANDARD, names)
        group.done(f'{name} by {given}', ended, folder, left=left)
        group.same(f'{name} by {given}: the last line', ended.out.splitlines()[-1], b'fixed %d' % count)
        folder.remove()
    folder = linked(group, 'in two objects', [*kept_list(), OTHER], (b'.text', KEPT))
    ended = folder.run(('zc', '--fixed', '.text', '--out', 'out', '--cert', 'cert', 'file0', 'file1'))
    group.same('in two objects: the last line', ended.out.splitlines()[-1], b'fixed 2')
    linked(group, 'with a table', plain_examples.jump_table(), (KEPT,))
    table = folder.write_list(plain_examples.jump_table())
    ended = folder.run(('zc', '--fixed', '.kept', '--out', 'out', '--cert', 'cert', *table))
    group.same('with a table: the last lines', ended.out.splitlines()[-3:], [b'saving 0 1 0 20 0', b'slot 1', b'fixed 0'])
    group.linked_small('no name', kept_list()).remove()
    ended = group.folder().run(('zc', '--out', 'out', '--cert', 'cert', 'object'))
    group.same('no name: the report', b'fixed' in ended.out, False)


def fixed_refusals(group):
    """branches and jumps of two bytes that lead out of a fixed section, and what may lead out of one, by all commands"""
    far = (('a branch', leaving(BRANCH, branch(0, A0, A1))), ('c.j', leaving(RVC_JUMP, halves=(C_J,), is_compressed=True)),
           ('c.beqz', leaving(RVC_BRANCH, halves=(C_BEQZ,), is_compressed=True)))
    near = (('a jump', leaving(JAL, jal(ZERO))), ('a call', leaving(CALL, *CALL_WORDS)), ('inside', kept_list()))
    rows = [*((what, objects, name, 15 * (name != b'.text')) for what, objects in far for name in (KEPT, b'.text')),
            *((what, objects, KEPT, 0) for what, objects in near)]
    for what, objects, name, number in rows:
        for given in ((name,), ()):
            folder = group.folder(out=OLD, plan=b'zcld shared 1\n')
            names = folder.write_list(objects)
            for command, *words in JUDGING:
                ended = folder.run((command, *words_of_names(given), *words, *names))
                if number and given:
                    group.ends(f'{what}: {command}', ended, 121, 'refused 0 15 Range')
                else:
                    group.same(f'{what}, {given}: {command}', b'refused' in ended.err, False)
            if number and given:
                group.same(f'{what}: files', [folder.read(it) for it in ('out', 'cert', 'left0.o')], [OLD, None, None])
                said = tool('explain', folder, *words_of_names(given), *names).out.splitlines()
                group.same(f'{what}: explained', said[0], b'refused 0 15 Range')
            folder.remove()
    objects = [*kept_list(), *leaving(BRANCH, branch(0, A0, A1))]
    objects[1] = objects[1].replace(b'_start', b'_other').replace(b'first', b'third')
    folder = group.folder()
    group.ends('in the second', folder.run(('trace', '--fixed', '.kept', *folder.write_list(objects))), 121, 'refused 1 15 Range')


def says(group, rewriting, what, names, files, *ended, **how):
    """How a command ends with files if sections of these names stay as they are."""
    named = rewriting._replace(names=names, words=tuple(words_of_names(names)))
    rewritten.says(group, named, what, files, *ended, **how)


def fixed_in_results(group):
    """what `gc` keeps and `merge` leaves as it is, since it is fixed"""
    spare, chain, far = collected.three(), collected.chain(), collected.far_apart()
    says(group, COLLECTING, 'a section that nothing names', (b'.text.spare',), spare, 0, b'sections 2 of 2\ncode 20 of 20\n')
    says(group, COLLECTING, 'its kin', (b'.text',), spare, 0, b'sections 2 of 2\ncode 20 of 20\n')
    says(group, COLLECTING, 'another', (b'.text.spar',), spare, 0, b'sections 1 of 2\ncode 12 of 20\n')
    says(group, COLLECTING, 'what it refers to', (b'.text.5',), chain, 0, b'sections 7 of 9\ncode 104 of 136\n')
    says(group, COLLECTING, 'a branch that reaches again', (b'.text.spare',), far, 0, b'sections 4 of 4\ncode %d of %d\n' % (
        (4 * (4 + 61 + 1022 + 1),) * 2))
    ends = merged.two((merged.XOR, merged.ADD, RET), (merged.SHIFT, merged.ADD, RET))
    says(group, MERGING, 'two ends', (b'.text',), ends, 0, b'tails 0\nbytes 0\n')
    says(group, MERGING, 'two ends in another section', (b'.texts',), ends, 0, b'tails 1\nbytes 4\n')


# ---- a table of a trap


def starts_in(code):
    """Where the instructions of some code begin: those of four bytes have both low bits set."""
    starts = [0]
    while starts[-1] < len(code):
        starts.append(starts[-1] + (4 if code[starts[-1]] & 3 == 3 else 2))
    return starts


def check_counted(group, what, code, image, text):
    """Each instruction of `send` is as wide as in its object, and as far from the first."""
    i, k, _ = place = code.symbols.names.definition(b'send')
    content, start = code.parts[i, k].section.content, image.places[place]
    starts = starts_in(content)
    group.same(f'{what}: where the loop begins', start % 4, 0)
    group.same(f'{what}: the widths of the loop', starts_in(text[start - TEXT_AT:start - TEXT_AT + len(content)]), starts)
    group.same(f'{what}: the places of the loop', [image.places.get((i, k, at)) for at in starts], [start + at for at in starts])


def check_vectors(group, what, folder, objects):
    """Each entry of the table is a jump of four bytes to its handler, the handler in a fixed section is where mtvec can name it,
    and the loop that waits has the instructions that it had."""
    image, code = Image(folder.path('out')), Code([Object(data) for data in objects], STANDARD, VECTORS)
    image.need(code)
    place, text = code.symbols.names.definition, text_of(folder.read('out'))
    start = image.places[place(b'vectors')]
    group.same(f'{what}: where the table begins', start % 64, 0)
    for cause in range(CAUSES):
        at = start + 4 * cause
        word = int.from_bytes(text[at - TEXT_AT:at - TEXT_AT + 4], 'little')
        to = is_jal(word) and at + jal_distance(word)
        group.same(f'{what}: cause {cause}', to, image.places[place(HANDLERS.get(cause, b'on_other'))])
    group.same(f'{what}: where the handler begins', image.places[place(HANDLERS[0])] % 4, 0)
    check_counted(group, what, code, image, text)


def vectors(group):
    """the table of a vectored trap, a handler, the row of jumps and the loop that waits in examples/vectors, by each compiler:
    where all lies and leads with `--fixed`, and that the jumps are wrong without it"""
    out, option, rests = read('vectors', 'output'), words_of_names(VECTORS), []
    for compiler in FOLDERS:
        what, objects = f'vectors by {compiler}', objects_of('vectors', compiler)
        plainly, names = group.linked_plainly(what, objects)
        group.exits(f'{what}: plain', plainly.run(('run', 'out')), 0, out)
        group.same(f'{what}: trace', plainly.run(('trace', *option, *names)).err.split()[-1], b'TargetUnknown')
        folder = linked(group, what, objects, VECTORS)
        group.exits(f'{what}: zc', folder.run(('run', 'out')), 0, out)
        check_vectors(group, what, folder, objects)
        folder.write('plan', b'zcld shared 1\n')
        group.exits(f'{what}: share', folder.run(('share', *option, '--out', 'shared', '--plan', 'plan', *names)), 0, out)
        group.same(f'{what}: the image of share', folder.read('shared'), folder.read('out'))
        wrong = group.linked_small(f'{what}, without names', objects)
        group.same(f'{what}: wrong without names', wrong.run(('run', 'out')).out == out, False)
        place = Code([Object(data) for data in objects]).symbols.names.definition(HANDLERS[0])
        rests.append(Image(wrong.path('out')).places[place] % 4)
        check_tools(group, what, folder, option, names)
    group.same('vectors: some handler is at 2 without names', 2 in rests, True)


def check_tools(group, what, folder, option, names):
    """tools/symbols and tools/explain take the names of the link. Without them there are warnings."""
    listed = tool('symbols', folder, *option, 'out', *names)
    group.same(f'{what}: symbols', (listed.status, b' T vectors\n' in listed.out), (0, True))
    said = [tool('explain', folder, *words, *names).out for words in (option, ())]
    group.same(f'{what}: warnings', [b'warning' in it for it in said], [False, True])


def random_fixed(group):
    """60 random lists for random chips with names by chance: each command does what the models do"""
    for seed in range(60):
        folder = group.folder()
        try:
            chip_lists.look(group.program, folder.place, random.Random(f'fixed {seed}'), collections.Counter())
            group.count += 1
        except Differs as why:
            group.failed.append(f'list {seed}: {why}')
        folder.remove()
