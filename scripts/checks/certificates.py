"""Certificates of jump tables: texts that are certificates and texts that are none, which are accepted, and what is read."""
import os
import random

from certificates import Certificate, Saving, answer, made_text, write_certificate
from zcld_tools.programs import CERTIFICATE, in_memory

from checks import strace
from checks.harness import broken_pipe
from checks.limits import memories
from checks.made_files import MIB, THREE_IMAGE
from checks.system_calls import MEMORY

TITLE, END = b'zcld certificate 1\n', b'price 0 0 0\nnet 0\nend\n'
MOST = 8 * MIB
ONE = b'saving 0 1 0 0 50\n'
SINGLE = TITLE + ONE + END
UNREAD = 122, b'', b'read fault\n'


def certificate(savings, slots, prices, net):
    return write_certificate(savings, Certificate(slots, prices, net))


def calls_to(*numbers):
    """Targets that this many calls lead to."""
    return [Saving(0, 1, 4 * k, 0, number) for k, number in enumerate(numbers)]


def jumps_to(*numbers):
    return [Saving(0, 1, 4 * k, number, 0) for k, number in enumerate(numbers)]


HOLES = [0] * 32
CALLS, JUMPS = calls_to(30, 50, 4), jumps_to(10, 3, 2)
BOTH = [Saving(0, 1, 0, 40, 90), Saving(1, 2, 4, 7, 0)]
# 33 targets that ten jumps each lead to, and slots for 32 of them
MANY, MOST_OF_THEM = jumps_to(*[10] * 33), list(range(1, 33))
GREAT = [Saving(65535, 65535, 4294967295, 4294967295, 4294967295)] * 3

# Certificates, and how `check` ends: with their net, or not.
NETS = (
    (CERTIFICATE, 0), (SINGLE, 0), (certificate(CALLS, [*HOLES, 2, 1, 3], (0, 0, 0), 16), 16),
    (certificate(JUMPS, [1, 2], (0, 0, 0), 6), 6), (certificate(JUMPS, [2, 1], (0, 0, 0), 6), 6),
    # a slot that saves as much as it takes
    (certificate(JUMPS, [1, 2, 3], (0, 0, 0), 6), 6),
    # prices that aren't the least, if the bound is the same
    (TITLE + ONE + END.replace(b'0 0 0', b'0 1 0'), 0), (certificate([], [], (0, 0, 0), 0), 0),
    # prices that are paid, and targets that save less than they ask for
    (certificate(MANY, MOST_OF_THEM, (16, 20, 0), 500), 500), (certificate(MANY, MOST_OF_THEM[::-1], (16, 20, 0), 500), 500),
    (certificate(jumps_to(10, 1), [1], (0, 0, 0), 4), 4),
    (certificate([*MANY, *jumps_to(1), *calls_to(100)], [*MOST_OF_THEM, 35], (16, 20, 0), 696), 696),
    (certificate(calls_to(*[10] * 225), [*HOLES, *range(1, 225)], (0, 0, 16), 3444), 3444),
    (certificate(BOTH, [1, 2, *[0] * 30, 1], (0, 0, 0), 130), 130),
    (certificate(GREAT, [1, 2, 3, *[0] * 29, 3, 2, 1], (0, 0, 0), 51539607388), 51539607388),
)

# Certificates that aren't accepted: another price, net or slot, a slot out of range, slots that save less, and holes that aren't
# needed.
REJECTED = (
    certificate(CALLS, [*HOLES, 2, 1, 3], (0, 0, 1), 16), certificate(CALLS, [*HOLES, 2, 1, 3], (0, 1, 0), 16),
    certificate(CALLS, [*HOLES, 2, 1, 3], (0, 0, 0), 17), certificate(CALLS, [*HOLES, 2, 1, 3], (0, 0, 0), 15),
    certificate(CALLS, [*HOLES, 2, 1], (0, 0, 0), 12), certificate(CALLS, [*HOLES, 2, 1, 1], (0, 0, 0), 16),
    certificate(CALLS, [*HOLES, 2, 1, 4], (0, 0, 0), 16), certificate(CALLS, [*HOLES, 2, 1, 3, 0], (0, 0, 0), 16),
    certificate(CALLS, [*HOLES, 2, 1, 3, 4294967295], (0, 0, 0), 16), certificate(CALLS, [*HOLES[1:], 2, 1, 3], (0, 0, 0), 16),
    certificate(CALLS, [], (0, 0, 0), 0), certificate(JUMPS, [1, 2, 0], (0, 0, 0), 6), certificate(JUMPS, [1], (0, 0, 0), 4),
    certificate(JUMPS, [1, 2], (1, 0, 0), 6), certificate(JUMPS, [1, 1, 2], (0, 0, 0), 6),
    certificate(jumps_to(10, 10), [1, 1], (0, 0, 0), 20), certificate(MANY, MOST_OF_THEM, (15, 20, 0), 500),
    certificate(MANY, MOST_OF_THEM, (16, 19, 0), 500), certificate([], [0], (0, 0, 0), 0),
    certificate([], [], (0, 0, 0), 1), certificate([], [], (5, 0, 0), 0),
    certificate([], [], (0, 0, 0), 18446744073709551615), certificate([], [1], (0, 0, 0), 0),
    certificate([], [0] * 256, (0, 0, 0), 0), certificate([], [], (4294967295, 4294967295, 4294967295), 0),
    TITLE + ONE + END.replace(b'net 0', b'net 1'),
)

# Lines after the title, of which the first isn't valid there, with the end of a certificate after it. In this order:
# the word; how many numbers; their form; their size; spaces and other bytes than those of words.
BAD_LINES = r'''
frob
Saving 0 1 0 0 50
zcld certificate 1
saving
saving 0 1 0 0
saving 0 1 0 0 50 1
saving0 1 0 0 50
slot
slot 0 0
price 0 0
net 0
end
saving 00 1 0 0 50
saving 0 01 0 0 50
saving 0 1 00 0 50
saving 0 1 0 00 50
saving 0 1 0 0 050
saving 0 1 0 0 -1
saving 0 1 0 0 +1
saving 0 1 0 0 0x1
saving 0 1 0 0 1.
saving 0 1 0 0 x
slot 00
slot -0
slot x
saving 65536 1 0 0 50
saving 0 65536 0 0 50
saving 0 1 4294967296 0 50
saving 0 1 0 4294967296 50
saving 0 1 0 0 4294967296
saving 0 1 0 0 99999999999999999999
slot 4294967296
 saving 0 1 0 0 50
saving  0 1 0 0 50
saving 0 1 0 0 50 '''.splitlines()[1:] + [
    'saving\t0 1 0 0 50', 'saving 0 1 0 0 50\r', 'saving 0 1 0 0 50\0', 'slot 0 ', ' slot 0', '', '\0', 'slot \xff']

# Whole texts, and the line that is named.
BAD_TEXTS = (
    (b'', 1), (b'\n', 1), (TITLE[:-1], 1), (b'zcld certificate 2\n' + END, 1), (b'zcld certificate 1 \n' + END, 1),
    (b' ' + SINGLE, 1), (b'\n' + SINGLE, 1), (b'\xef\xbb\xbf' + SINGLE, 1), (b'zcld certificate 1\r\n' + END, 1),
    (b'zcld certificate 01\n' + END, 1), (b'zcld plan 1\n', 1), (THREE_IMAGE, 1), (END, 1), (TITLE, 2), (TITLE + TITLE + END, 2),
    (TITLE + ONE, 3), (TITLE + ONE[:-1], 2), (TITLE + b'slot 0\n' + ONE + END, 3), (TITLE + b'slot 0', 2),
    (TITLE + b'price 0 0 0\n', 3), (TITLE + b'price 0 0 0\nnet 0\n', 4), (TITLE + END[:-1], 4), (TITLE + END + b'\n', 5),
    (TITLE + END + b'x', 5), (TITLE + END + END, 5), (SINGLE + ONE, 6), (TITLE + b'net 0\nprice 0 0 0\nend\n', 2),
    (TITLE + b'price 0 0 0\nprice 0 0 0\nnet 0\nend\n', 3), (TITLE + b'price 0 0 0\nslot 0\nnet 0\nend\n', 3),
    (TITLE + b'price 00 0 0\nnet 0\nend\n', 2), (TITLE + b'price 0 4294967296 0\nnet 0\nend\n', 2),
    (TITLE + b'price 0 0 0 0\nnet 0\nend\n', 2), (TITLE + b'price 0 0 0\nnet\nend\n', 3),
    (TITLE + b'price 0 0 0\nnet 0 0\nend\n', 3),
    (TITLE + b'price 0 0 0\nnet 00\nend\n', 3), (TITLE + b'price 0 0 0\nnet 18446744073709551616\nend\n', 3),
    (TITLE + b'price 0 0 0\nnet 0\nEnd\n', 4), (TITLE + b'price 0 0 0\nnet 0\nend \n', 4), (TITLE + b'slot 0\n' * 257 + END, 258),
    (TITLE + ONE * 70000 + b'slot x\n' + END, 70002),
    # a line that is none comes before what isn't accepted
    (TITLE + b'slot 9\nprice 0 0 0\nnet 7\n', 5),
)


def certificate_texts(group):
    """texts that are certificates, accepted or not, and texts that are none, with the line that is named"""
    folder = group.folder()
    rows = [(text, f'net {net}') for text, net in NETS]
    rows += [(text, 'rejected') for text in REJECTED]
    rows += [(TITLE + line.encode('latin-1') + b'\n' + END, 'bad certificate line 2') for line in BAD_LINES]
    rows += [(text, f'bad certificate line {number}') for text, number in BAD_TEXTS]
    for text, line in rows:
        group.same(f'the model of {text[:60]}', answer(text), line)
        check_text(group, folder, text, line)


def ended(line):
    """How a call ends that writes this line: a net to standard output, and all else to standard error."""
    text = line.encode() + b'\n'
    return (0, text, b'') if line.startswith('net ') else (125, b'', text)


def check_text(group, folder, text, line):
    """Checks a text as a file, which stays."""
    folder.write('cert', text)
    group.same(f'certificate {text[:60]}', folder.run(('check', 'cert')), ended(line))
    group.same(f'certificate {text[:60]}: the file', folder.read('cert'), text)


def random_certificates(group):
    """1000 certificates by chance, many of them with a slip"""
    folder, seen = group.folder(), set()
    for number in range(1000):
        text = made_text(random.Random(f'certificate {number}'), 300)
        line = answer(text)
        seen.add(line.split()[0])
        check_text(group, folder, text, line)
    group.same('each end was seen', seen, {'net', 'rejected', 'bad'})


def long_certificate():
    """A certificate of the most bytes that are read."""
    line = b'saving 0 1 0 0 0\n'
    lines, left = divmod(MOST - len(TITLE + END), len(line))
    # the digits of the last target's offset are what is left
    return TITLE + line * (lines - 1) + b'saving 0 1 ' + b'1' * (left + 1) + b' 0 0\n' + END


def certificate_files(group):
    """which file is read, up to which length, and that no input is taken"""
    long = long_certificate()
    folder = group.folder(single=SINGLE, most=long, over=long + bytes(MOST + 1 - len(long)), empty=b'', image=THREE_IMAGE)
    rows = (
        *((name, ended('net 0')) for name in ('single', 'most')),
        *((name, ended('bad certificate line 1')) for name in ('empty', '/dev/null', 'image', 'object')),
        *((name, UNREAD) for name in ('none', 'over', '.', 'single/x', '', 'n' * 300, '/dev/zero')),
    )
    for name, wanted in rows:
        folder.write('input', b'input')
        with open(folder.path('input'), 'rb') as given:
            group.same(f'certificate {name[:20]!r}', folder.run(('check', name), given), wanted)
            taken = os.lseek(given.fileno(), 0, os.SEEK_CUR)
        group.same(f'certificate {name[:20]!r}: the input that was taken', taken, 0)
    group.same('a certificate from a pipe', folder.run(('check', '/dev/stdin'), SINGLE), ended('net 0'))
    folder.pipes(fifo=long)
    group.same('a certificate from a named pipe', folder.run(('check', 'fifo')), ended('net 0'))
    group.reports('zc', folder.link())
    group.same('what zc writes', folder.run(('check', 'cert')), ended('net 0'))


def certificate_faults(group):
    """output that is closed, full or broken, little memory, and faults at each system call"""
    folder = group.folder(single=SINGLE, large=TITLE + ONE * 20000 + b'slot 0\n', cert=SINGLE)
    words = 'check', 'single'
    with open('/dev/full', 'wb') as full:
        group.ends('output is full', folder.run(words, stdout=full), 123, 'write fault')
        group.same('errors are full', folder.run(('check', 'object'), stderr=full), (125, b'', b''))
    with broken_pipe() as written:
        group.ends('a broken pipe', folder.run(words, stdout=written), 123, 'write fault')
    group.ends('output is closed', folder.run(words, first=lambda: os.close(1)), 123, 'write fault')
    seen = set()
    for memory in memories(folder):
        found = folder.run(('check', 'large'), first=in_memory(memory))
        group.one_of(f'{memory} bytes', found, (ended('bad certificate line 20003'), (124, b'', b'out of memory\n')))
        seen.add(found.status)
    group.same('each end was seen', seen, {124, 125})
    if strace.is_there():
        faults_at_calls(group, folder, words)


def faults_at_calls(group, folder, words):
    """Faults at each system call from that on which opens the certificate."""
    for call in strace.calls_of(words, folder, 'openat', 'single'):
        for error, read, write in (('EIO', (122, 'read fault'), (123, 'write fault')),
                                   ('ENOMEM', (124, 'out of memory'), (124, 'out of memory'))):
            found = folder.run(words, before=call.fault(f'error={error}'))
            what = f'check, {error} at {call}'
            if call.name in MEMORY:
                group.one_of(what, found.status, (0, 124))
            elif call.name in ('openat', 'statx', 'read', 'write'):
                group.ends(what, found, *(write if call.name == 'write' else read))
            else:
                group.same(what, found, ended('net 0'))
