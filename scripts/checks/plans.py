"""Plans of interrupts: texts that are plans and texts that are none, what is read and judged first, and what a plan changes."""
import os

from zcld_tools.instructions import A0, A7, ECALL, EXIT_CALL, SP, ZERO, addi, load, words_of

from checks import strace
from checks.made_files import MIB, THREE_IMAGE, image_of

TITLE = b'zcld plan 1\n'
MOST = 8 * MIB
# A byte that an interrupt before commit 1 writes below the stack pointer, and a program whose status is that byte.
BELOW = TITLE + b'cut 1 d0fffffff:2a\n'
LOAD_IMAGE = image_of(words_of(addi(A7, ZERO, EXIT_CALL), load(4, A0, SP, -1), ECALL))

# Lines after the first one, of plans.
PLANS = (
    '', 'cut 0', 'cut 18446744073709551615', 'cut 0\ncut 0\ncut 1', 'cut 0 a0', 'cut 7 a255 a0 a0 a12', 'cut 7 d00000000:00',
    'cut 0' + ''.join(f' a{number}' for number in range(256)), 'cut 7 dffffffff:ff d01234567:89 dabcdef00:0a', 'cut 0 a0 d10000000:ee', 'cut 10 a9 a10 a99 a100 a199 a249 d0ff00000:01',
)

# Lines after the first one, of which the first isn't valid there. In this order: the word; its number; the number of an
# access; the address and the byte; the order of both; spaces, and other bytes than those of words.
BAD_LINES = r'''
frob
Cut 0
cut0
zcld plan 1
cut
cut x
cut 00
cut 05
cut -1
cut +1
cut 0x1
cut 1.
cut 18446744073709551616
cut 99999999999999999999
cut 0 0
cut 0 a
cut 0 a00
cut 0 a01
cut 0 a256
cut 0 a1000
cut 0 a-1
cut 0 A1
cut 0 b1
cut 0 d
cut 0 d0fffffff
cut 0 d0fffffff:
cut 0 d0fffffff:2
cut 0 d0fffffff:02a
cut 0 dfffffff:2a
cut 0 d00fffffff:2a
cut 0 d0fffffff2a
cut 0 d0fffffff.2a
cut 0 d0FFFFFFF:2a
cut 0 d0fffffff:2A
cut 0 d0ffffffg:2a
cut 0 D0fffffff:2a
cut 0 d0fffffff:2a a0
cut 0 a0 d0fffffff:2a a1
 cut 0
cut  0
cut 0 '''.splitlines()[1:] + [
    'cut 0  a0', 'cut 0 a0 ', 'cut 0\ta0', 'cut\t0', 'cut 0\r', 'cut 0\0', '\0', 'cut 0 \xff', '\xefcut 0']

# Whole texts, and the line that is named.
BAD_TEXTS = (
    (b'', 'line 1'), (b'\n', 'line 1'), (b'zcld plan 1', 'line 1'), (b'zcld plan 2\n', 'line 1'), (b'zcld plan 1 \n', 'line 1'),
    (b' zcld plan 1\n', 'line 1'), (b'zcld  plan 1\n', 'line 1'), (b'Zcld plan 1\n', 'line 1'), (b'zcld plan 01\n', 'line 1'),
    (b'zcld plan 1\r\n', 'line 1'), (b'zcld certificate 1\n', 'line 1'), (b'cut 0\n', 'line 1'),
    (b'\xef\xbb\xbf' + TITLE, 'line 1'), (b'\n' + TITLE, 'line 1'), (THREE_IMAGE, 'line 1'), (TITLE + b'\n', 'line 2'),
    (TITLE + b'cut 0', 'line 2'), (TITLE + TITLE, 'line 2'), (TITLE + b'cut 0\n\n', 'line 3'),
    (TITLE + b'cut 0\ncut 1', 'line 3'), (TITLE + b'cut 3\ncut 2\n', 'order 3'),
    (TITLE + b'cut 1\ncut 1\ncut 0 a0 d0fffffff:2a\n', 'order 4'),
    (TITLE + b'cut 18446744073709551615\ncut 18446744073709551614\n', 'order 3'),
    # the first fault in the text is named, and a line that is none has no order
    (TITLE + b'cut 3\ncut 2\ncut x\n', 'order 3'), (TITLE + b'cut 3\ncut x\ncut 2\n', 'line 3'),
    (TITLE + b'cut 3\ncut 2 a256\n', 'line 3'), (TITLE + b'cut 3\ncut 2', 'line 3'), (TITLE + b'cut 3\ncut 02\n', 'line 3'),
    (TITLE + b'cut 9\n' * 70000 + b'cut 8\n', 'order 70002'), (TITLE + b'cut 0\n' * 70000 + b'cut\n', 'line 70002'),
)


def plan_texts(group):
    """texts that are plans, and texts that are none, with the line that is named"""
    folder = group.folder(image=THREE_IMAGE)
    rows = [(TITLE + (lines + '\n' if lines else '').encode(), 3, 'exited 3') for lines in PLANS]
    rows += [(TITLE + line.encode('latin-1') + b'\n', 125, 'bad plan line 2') for line in BAD_LINES]
    rows += [(text, 125, f'bad plan {fault}') for text, fault in BAD_TEXTS]
    for text, status, line in rows:
        folder.write('plan', text)
        group.ends(f'plan {text[:40]}', folder.run(('run', '--plan', 'plan', 'image')), status, line)


def long_plan():
    """A plan of the most bytes that are read."""
    text = TITLE + b'cut 0 a10 a10\n'
    return text + b'cut 0\n' * ((MOST - len(text)) // 6)


def plan_files(group):
    """the image and the plan are read in this order, and judged in this order, and then the input is taken"""
    folder = group.folder(image=THREE_IMAGE, plan=TITLE, bad=b'bad', most=long_plan(), over=long_plan() + b'\n', empty=b'')
    rows = (
        ('plan', 'image', 3, 'exited 3'), ('most', 'image', 3, 'exited 3'), ('bad', 'image', 125, 'bad plan line 1'),
        ('empty', 'image', 125, 'bad plan line 1'), ('/dev/null', 'image', 125, 'bad plan line 1'),
        ('plan', 'bad', 125, 'bad image 1'), ('bad', 'bad', 125, 'bad image 1'), ('image', 'plan', 125, 'bad image 1'),
        ('image', 'image', 125, 'bad plan line 1'), ('none', 'image', 122, 'read fault'), ('none', 'bad', 122, 'read fault'),
        ('plan', 'none', 122, 'read fault'), ('bad', 'none', 122, 'read fault'), ('over', 'image', 122, 'read fault'),
        ('over', 'bad', 122, 'read fault'), ('.', 'image', 122, 'read fault'), ('plan/x', 'image', 122, 'read fault'),
        ('n' * 300, 'image', 122, 'read fault'), ('/dev/zero', 'image', 122, 'read fault'),
    )
    for plan, image, status, line in rows:
        folder.write('input', b'input')
        with open(folder.path('input'), 'rb') as given:
            ended = folder.run(('run', '--plan', plan, image), given)
            taken = os.lseek(given.fileno(), 0, os.SEEK_CUR)
        what = f'plan {plan[:20]}, image {image}'
        group.ends(what, ended, status, line)
        group.same(f'{what}: the input that was taken', taken, 5 if status == 3 else 0)
    folder.pipes(first=THREE_IMAGE, second=TITLE)
    group.exits('the image is read first', folder.run(('run', '--plan', 'second', 'first')), 3)
    if strace.is_there():
        folder.write('plan', b'bad')
        calls = strace.calls_of(('run', '--plan', 'plan', 'bad'), folder, 'openat', 'bad')
        opened = [call.words.split('"')[1] for call in calls if call.name == 'openat']
        group.same('files that are opened', opened, ['bad', 'plan'])


def plan_runs(group):
    """runs that a plan changes or doesn't change, and how many commits they may make"""
    folder = group.folder(image=LOAD_IMAGE, three=THREE_IMAGE, plan=BELOW)
    rows = (
        ('run image', 0, 'exited 0'), ('run --plan plan image', 42, 'exited 42'),
        ('run --plan plan --steps 3 image', 42, 'exited 42'), ('run --steps 3 --plan plan image', 42, 'exited 42'),
        ('run --plan plan --steps 2 image', 127, 'spent'), ('run --steps 0 --plan plan image', 127, 'spent'),
        ('run --plan plan three', 3, 'exited 3'), ('run --plan plan --steps 2 three', 127, 'spent'),
    )
    for call, status, line in rows:
        group.ends(call, folder.run(call.split()), status, line)
    for lines, status in (('cut 0 d0fffffff:2a', 42), ('cut 2 d0fffffff:2a', 0), ('cut 3 d0fffffff:2a', 0), ('cut 1 a0', 0),
                          ('cut 1 d0ffffffe:2a d10000000:2a', 0), ('cut 1 d0fffffff:2a d0fffffff:07', 7),
                          ('cut 0 d0fffffff:2a\ncut 1 d0fffffff:08', 8), ('cut 1 d0fffffff:2a\ncut 1 d0fffffff:09', 9)):
        folder.write('plan', TITLE + lines.encode() + b'\n')
        group.exits(lines, folder.run(('run', '--plan', 'plan', 'image')), status)
