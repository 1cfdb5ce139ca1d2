"""How each call ends: its status and line, and which fault of objects and images is named."""
import os

import plain_examples
from changed_files import WORD, changed, changed_images, changed_objects
from zcld_tools.instructions import A0, EBREAK, ECALL, NOP, SP, ZERO, addi, branch, jalr, lw, words_of
from zcld_tools.programs import CERTIFICATE

from checks.made_files import (LARGE, LARGE_LEFT, MIB, OLD, OTHER, OTHER_TEXT, SHORT_SIZES, THREE, THREE_IMAGE, THREE_TEXT,
                               exit_code, image_of, left_of_several, long_code, object_of)

LATER = object_of(words_of(ECALL), b'later')

# Words that spell a command, and how its call ends. A line has a space between words, so two spaces are an empty word.
COMMANDS = (
    ('zc --out  --cert cert object', 123, 'write fault'),
    ('zc --out out --cert  object', 123, 'write fault'), ('zc --out out --cert cert object  object', 122, 'read fault'),
    ('plain --out  object', 123, 'write fault'), ('plain --out out object  object', 122, 'read fault'),
    ('run ', 122, 'read fault'), ('run --plan  image', 122, 'read fault'), ('run --plan plan image', 3, 'exited 3'),
    ('run --plan plan --steps 3 image', 3, 'exited 3'), ('run --steps 2 --plan plan image', 127, 'spent'),
    ('run --steps 3 image', 3, 'exited 3'), ('run --steps 0 image', 127, 'spent'),
    ('run --steps 1000000000 image', 3, 'exited 3'), ('run --steps 00000000000000000003 image', 3, 'exited 3'),
    ('run --steps 00000000000000000002 image', 127, 'spent'), ('trace --steps 3 object', 3, 'exited 3'),
    ('trace --steps 0 object', 127, 'spent'), ('trace --steps 00000000001000000000 object', 3, 'exited 3'),
    ('trace trace', 122, 'read fault'), ('check ', 122, 'read fault'), ('check object', 125, 'bad certificate line 1'),
    ('trace --steps 7 object  object', 122, 'read fault'),
)

# Words that spell none. In this order: no command, or none of this name; a required option is missing; an option that isn't the
# command's; one twice; a value that begins with `-`, or none; the two files that are written are one; a positional word that
# begins with `-`, also as the last of several, or none, or two images; an option after a file that isn't the command's, or that
# was given; and no number, or one that is too long or too large.
NO_COMMANDS = '''
frob object
ZC --out out --cert cert object
Run image
object run
Check plan
plain object
gc object
gc --cert out object
merge object
merge --cert out object
plain --cert out object
zc object
zc --out out object
zc --cert cert object
plain --out out --cert cert object
run --step 3 image
run --Plan plan image
zc --out out --cert cert --plan plan object
trace --plan plan object
check --cert plan
check --steps 3 plan
run --out out image
trace -steps 3 object
run steps 3 image
zc --out out --cert cert --steps 3 object
plain --out out --out out object
zc --out out --out cert object
zc --out out --cert cert --out out object
run --steps 3 --steps 3 image
run --plan plan --plan plan image
run --plan plan --steps 3 --plan plan image
plain --out -o object
zc --out -o --cert cert object
zc --out --cert cert object
run --steps -1 image
run --steps
run --plan --steps 3 image
run --plan
zc --out out --cert out object
run -image
zc --out out --cert cert -object
gc --out left -object
gc --out -left object
merge --out left -object
merge --out -left object
zc --out out --cert cert object -object
trace object object -object
check -plan
check --plan
plain --out out
gc --out left
gc
merge --out left
merge
trace
trace --steps 3
zc --out out --cert cert
run
run --plan image
run --steps 3 --plan plan
run image image
check
check plan plan
check plan --steps 3
zc --out out --cert cert object --out out object
run --steps  image
trace --steps  object
run --plan plan --steps  image
run --steps +3 image
run --steps 3x image
run --steps 000000000000000000003 image
run --steps 1000000001 image
trace --steps 1000000001 object'''

# Code that comes to its end, and code that is stuck at once: at a load, a branch and a jump by what isn't known, and at a stack
# pointer that moves up, or isn't known.
STUCK = ((NOP,), (lw(A0, A0),), (branch(0, A0, ZERO, 8), NOP, NOP), (jalr(ZERO, A0),), (addi(SP, SP, 16),), (addi(SP, A0),))


def statuses(group):
    """each outcome's status and line"""
    folder = group.folder(image=THREE_IMAGE, bad=b'bad', order=b'zcld plan 1\ncut 1\ncut 0\n',
                          rejected=CERTIFICATE.replace(b'net 0', b'net 1'),
                          unread=object_of(words_of(0)), stuck=object_of(words_of(ECALL)), other=OTHER,
                          illegal=image_of(words_of(0)), broken=image_of(words_of(EBREAK)), past=image_of(words_of(NOP)),
                          **{f'code{k}': object_of(words_of(*it)) for k, it in enumerate(STUCK)},
                          **{f'exit{k}': image_of(exit_code(k)) for k in (0, 117, 118, 255)})
    rows = (
        ('run image', 3, 'exited 3'), ('trace object', 3, 'exited 3'),
        ('run exit0', 0, 'exited 0'), ('run exit117', 117, 'exited 117'), ('run exit118', 118, 'exited 118'),
        ('run exit255', 118, 'exited 255'), ('frob', 120, 'usage'), ('zc --out out --cert out object', 120, 'usage'),
        ('run', 120, 'usage'), ('plain object', 120, 'usage'), ('plain --out o', 120, 'usage'),
        ('plain --out o --out p object', 120, 'usage'), ('plain --out o --cert c object', 120, 'usage'),
        ('plain --out -o object', 120, 'usage'), ('plain --out o --steps 1 object', 120, 'usage'),
        ('plain --out o bad', 121, 'refused 0 1 NotElf'), ('plain --out o other', 121, 'refused 0 16 NoEntry'),
        ('plain --out o none', 122, 'read fault'), ('plain --out none/o object', 123, 'write fault'),
        ('zc --out o --cert c bad', 121, 'refused 0 1 NotElf'),
        ('zc --out o --cert c other', 121, 'refused 0 16 NoEntry'),
        ('trace other', 121, 'refused 0 16 NoEntry'), ('trace none', 122, 'read fault'), ('run none', 122, 'read fault'),
        ('zc --out o --cert c none', 122, 'read fault'), ('zc --out none/o --cert c object', 123, 'write fault'),
        ('run object', 125, 'bad image 1'), ('run --plan bad image', 125, 'bad plan line 1'),
        ('run --plan order image', 125, 'bad plan order 3'), ('check object', 125, 'bad certificate line 1'),
        ('check rejected', 125, 'rejected'), ('check none', 122, 'read fault'),
        ('run illegal', 126, 'stopped 1 Illegal 00010000'),
        ('trace stuck', 126, 'stuck 0 1 0 4 ArgumentUnknown'), ('trace unread', 126, 'stuck 0 1 0 8 NoInstruction'),
        ('run broken', 126, 'stopped 4 Break 00010000'), ('run past', 126, 'stopped 2 BadAccess 00010004'),
        ('trace code0', 126, 'stuck 0 1 4 8 NoInstruction'), ('trace other code0', 126, 'stuck 1 1 4 8 NoInstruction'),
        ('trace code1', 126, 'stuck 0 1 0 1 AddressUnknown'), ('trace code2', 126, 'stuck 0 1 0 2 ConditionUnknown'),
        ('trace code3', 126, 'stuck 0 1 0 3 TargetUnknown'), ('trace code4', 126, 'stuck 0 1 0 7 StackPointer'),
        ('trace code5', 126, 'stuck 0 1 0 7 StackPointer'),
        ('trace other object', 3, 'exited 3'), ('run --steps 2 image', 127, 'spent'),
        ('trace --steps 2 object', 127, 'spent'),
    )
    for call, status, line in rows:
        group.ends(call, folder.run(call.split()), status, line)
    group.same('no refused call put a file', [folder.read(name) for name in ('o', 'c')], [None, None])
    group.done('zc', folder.link(), folder)
    group.plain_done('plain', folder.plain(), folder, [THREE])
    group.same('check', folder.run(('check', 'cert')), (0, b'net 0\n', b''))
    group.same('make', folder.run(('make', '5', '0')).status, 0)


def words(group):
    """words that spell a command or none, and words that aren't UTF-8"""
    for call, status, line in COMMANDS:
        folder = group.folder(image=THREE_IMAGE, plan=b'zcld plan 1\n')
        group.ends(call, folder.run(call.split(' ')), status, line)
        folder.remove()
    folder = group.folder(image=THREE_IMAGE, plan=b'zcld plan 1\n', out=OLD, cert=OLD)
    for call in NO_COMMANDS.splitlines():
        group.refused(call, folder.run(call.split(' ')), folder, 120, 'usage')
    group.done('options in another order', folder.run('zc --cert cert --out out object'.split()), folder)
    group.done('the object by its own name', folder.link(out='object'), folder, out='object')
    folder = group.folder(out=OLD, cert=OLD)
    os.rename(folder.path('object'), os.path.join(os.fsencode(folder.place), b'\xff'))
    for it in ((), (b'\xff',), (b'zc', b'--out', b'out', b'--cert', b'cert', b'\xff'), (b'run', b'x', b'\xc3'),
               (b'plain', b'--out', b'out', b'\xff'), (b'plain', b'--out', b'\xff', b'x'),
               (b'zc', b'--out', b'\xed\xa0\x80', b'--cert', b'cert', b'x'), (b'trace', b'\xf8')):
        group.refused(f'{it}', folder.run(it), folder, 120, 'usage')
    name = 'h\u00f6he'
    folder = group.folder(**{name: THREE})
    group.done('a name in UTF-8', folder.link(name, out=name + '1'), folder, out=name + '1')


def inputs(group):
    """files and input that are odd, long or endless"""
    folder = group.folder(empty=b'', at_limit=bytes(4 * MIB), over=bytes(4 * MIB + 1), image_over=bytes(8 * MIB + 1),
                          image=THREE_IMAGE, out=OLD, cert=OLD)
    rows = (('.', 122, 'read fault'), ('object/x', 122, 'read fault'), ('over', 122, 'read fault'),
            ('/dev/zero', 122, 'read fault'), ('', 122, 'read fault'), ('n' * 300, 122, 'read fault'),
            ('at_limit', 121, 'refused 0 1 NotElf'), ('empty', 121, 'refused 0 1 NotElf'),
            ('/dev/null', 121, 'refused 0 1 NotElf'))
    for name, status, line in rows:
        group.refused(f'object {name[:20]!r}', folder.link(name), folder, status, line)
        group.refused(f'object {name[:20]!r} of plain', folder.plain(name), folder, status, line)
    group.ends('an image over its limit', folder.run(('run', 'image_over')), 122, 'read fault')
    group.done('an object from a pipe', folder.link('/dev/stdin', given=THREE), folder)
    folder.pipes(fifo=LARGE)
    group.done('an object from a named pipe', folder.link('fifo'), folder, left=LARGE_LEFT)
    for size, status, line in ((0, 3, 'exited 3'), (16 * MIB, 3, 'exited 3'), (16 * MIB + 1, 122, 'read fault')):
        folder.write('input', bytes(size))
        with open(folder.path('input'), 'rb') as given:
            group.ends(f'{size} bytes of input', folder.run(('run', 'image'), given), status, line)
    with open('/dev/zero', 'rb') as given:
        group.ends('endless input', folder.run(('run', 'image'), given), 122, 'read fault')
        group.ends('endless input of trace', folder.run(('trace', 'object'), given), 122, 'read fault')
    group.exits('input from a pipe', folder.run(('run', 'image'), b'line\n' * 10000), 3)
    given = os.open(folder.place, os.O_RDONLY)
    group.ends('a folder as input', folder.run(('run', 'image'), given), 122, 'read fault')
    os.close(given)


def several_objects(group):
    """lists of objects: all are read in their order, and then the first that has a fault is named"""
    folder = group.folder(same=THREE, other=OTHER, bad=b'bad', cut=THREE[:-1], out=OLD, cert=OLD, later=LATER, large=LARGE,
                          more=object_of(long_code(49152), b'more'), over=object_of(long_code(65536), b'over'))
    rows = (
        (('object', 'none'), 122, 'read fault'), (('bad', 'none'), 122, 'read fault'), (('none', 'bad'), 122, 'read fault'),
        (('other', 'object', 'none'), 122, 'read fault'), (('object', 'bad'), 121, 'refused 1 1 NotElf'),
        (('bad', 'cut'), 121, 'refused 0 1 NotElf'), (('other', 'cut', 'bad'), 121, 'refused 1 2 Truncated'),
        (('object', 'same'), 121, 'refused 1 9 Duplicate _start'),
        (('other', 'same', 'same'), 121, 'refused 2 9 Duplicate _start'),
        (('other', 'object', 'other'), 121, 'refused 2 9 Duplicate other'), (('other',), 121, 'refused 0 16 NoEntry'),
        (('other', 'later'), 121, 'refused 0 16 NoEntry'), (('later', 'large', 'more'), 121, 'refused 2 17 TooLarge'),
        (('object', '-x'), 120, 'usage'), ((*['other'] * 257,), 121, 'refused 256 17 TooLarge'),
        # the number of objects comes before what an object has, that before sums, and these before a second definition
        (('over',), 121, 'refused 0 17 TooLarge'), (('over', 'bad'), 121, 'refused 1 1 NotElf'),
        ((*['bad'] * 257,), 121, 'refused 256 17 TooLarge'), (('object', 'same', 'over'), 121, 'refused 2 17 TooLarge'),
    )
    for names, status, line in rows:
        group.refused_by_all(f'{names[:4]}', folder, names, status, line)
    folder.pipes(first=OTHER, second=THREE, third=OTHER)
    group.refused('pipes in their order', folder.run(('trace', 'first', 'second', 'third')), folder, 121,
                  'refused 2 9 Duplicate other')
    lists_of_straight_code(group, folder)
    lists_of_most_objects(group, folder)


def lists_of_straight_code(group, folder):
    """Lists of objects in several orders, of which each is linked and exits."""
    texts = {'object': (THREE_TEXT, SHORT_SIZES), 'other': (OTHER_TEXT, SHORT_SIZES), 'later': (words_of(ECALL), (4,))}
    for names, entry in ((('object', 'other'), 0), (('other', 'object'), 10), (('later', 'other', 'object'), 14)):
        left = left_of_several(*zip(*(texts[name] for name in names)), entry)
        group.done(f'zc {names}', folder.link(*names), folder, left=left)
        group.exits(f'run {names}', folder.run(('run', 'out')), 3)
        group.exits(f'trace {names}', folder.run(('trace', *names)), 3)


def lists_of_most_objects(group, folder):
    """As many objects as a list may have, and one more."""
    many = [f'many{i}' for i in range(255)]
    for name in many:
        folder.write(name, object_of(words_of(ECALL), name.encode()))
    left = left_of_several([THREE_TEXT, *[words_of(ECALL)] * 255], [SHORT_SIZES, *[(4,)] * 255], 0)
    group.done('256 objects', folder.link('object', *many), folder, left=left)
    group.ends('257 objects', folder.link('object', *many, 'other'), 121, 'refused 256 17 TooLarge')


def changed_fields(group):
    """an object and an image that are cut off, or have a field changed: the fault that is named"""
    for what, data, fault in changed_objects(THREE):
        folder = group.folder(changed=data, out=OLD, cert=OLD)
        group.refused_by_all(what, folder, ('changed',), 121, f'refused 0 {fault}')
        folder.remove()
    folder = group.folder()
    for what, data, number in changed_images(THREE_IMAGE):
        folder.write('changed', data)
        group.ends(what, folder.run(('run', 'changed')), 125, f'bad image {number}')
    other_images(group, folder)


def other_images(group, folder):
    """An image whose entry is where its text ends, and one of another linker, without sections, also where no text may lie."""
    bare = changed(changed(THREE_IMAGE[:128], 32, WORD, 0), 48, WORD, 0)
    far = changed(changed(changed(bare, 24, WORD, 0x80000000), 60, WORD, 0x80000000), 92, WORD, 0x80001000)
    for what, data, status, line in (
            ('an entry at the end', changed(THREE_IMAGE, 24, WORD, 0x0001000A), 126, 'stopped 2 BadAccess 0001000a'),
            ('no sections', bare, 3, 'exited 3'), ('text elsewhere', far, 125, 'bad image 3')):
        folder.write('changed', data)
        group.ends(what, folder.run(('run', 'changed')), status, line)


def relocation_faults(group):
    """faults of relocations and of the plain layout, and their order"""
    for what, files, line in plain_examples.refusals():
        folder = group.folder(out=OLD, cert=OLD)
        group.refused_by_all(what, folder, folder.write_list(files), 121, line)
        folder.remove()
