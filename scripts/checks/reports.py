"""The report of sizes that `zc` prints (docs/FORMATS.md, "The report"). Each group that links objects compares it with the
model's; here it is compared with what is worked out by hand, and with what else the program says of the same objects."""
import os
import random
import re

import plain_examples
import table_examples
import zc_examples
from certificates import read_certificate
from made_objects import made_list
from object_items import first_fault
from zcld_tools import TOP, files as disk
from zcld_tools.images import text_of
from zcld_tools.instructions import A0, A1, EXIT_WORDS, RA, S0, S1, SP, ZERO, addi, jal, sw
from zcld_tools.objects import object_with

from checks import strace
from checks.c_programs import EXAMPLES, FOLDERS, STATUSES, objects_of, read
from checks.harness import broken_pipe
from checks.made_files import OLD, THREE, THREE_LEFT

NAMES = 'plain text', 'zc text', 'items', 'short', 'long', 'push', 'pop', 'move', 'table', 'slots', 'net'
ROOM = 50


def moves_and_more():
    """Two moves that become one instruction, and a frame that is too large for one."""
    made, _ = object_with(addi(S1, A1), addi(S0, A0), addi(SP, SP, -128), sw(S0, SP, 124), sw(RA, SP, 120),
                          addi(A0, ZERO, 7), *EXIT_WORDS)
    return [made.bytes()]


def by_hand():
    """What each list is, its files, the numbers of its report, in their order, and the lines after them."""
    return (
        ('three', [THREE], (12, 10, 3, 1, 0, 0, 0, 0, 0, 0, 0), ''),
        ('hello', plain_examples.hello(), (64, 32, 15, 4, 0, 1, 1, 0, 0, 0, 0), ''),
        ('moves and a large frame', moves_and_more(), (32, 16, 8, 1, 0, 1, 0, 1, 0, 0, 0), ''),
        ('two rounds', [zc_examples.two_rounds().bytes()], (4104, 2058, 1026, 1023, 0, 0, 0, 0, 0, 0, 0),
         'saving 0 1 4100 1 0\n'),
        ('aligned long branch', [zc_examples.aligned_long_branch().bytes()], (4104, 4104, 1027, 2, 1, 0, 0, 0, 0, 0, 0), ''),
        ('jump table', plain_examples.jump_table(), (4492, 4466, 1123, 1, 0, 0, 0, 0, 20, 1, 24),
         'saving 0 1 0 20 0\nslot 1\n'),
    )


def check_parts(group, what, files):
    """A report says what `plain`, the image and the certificate say."""
    folder = group.folder()
    names = folder.write_list(files)
    status, out, err = folder.link(*names)
    group.same(f'{what}: zc', (status, err), (0, b''))
    lines = out.decode().splitlines()
    numbers = {name: int(number) for name, number in (line.rsplit(' ', 1) for line in lines[:len(NAMES)])}
    group.same(f'{what}: the names', tuple(numbers), NAMES)
    group.same(f'{what}: plain', folder.plain(*names, out='plain'), (0, b'plain text %d\n' % numbers['plain text'], b''))
    group.same(f'{what}: the text', len(text_of(folder.read('out'))), numbers['zc text'])
    certificate = folder.read('cert').decode().splitlines()
    group.same(f'{what}: savings and slots', lines[len(NAMES):], [it for it in certificate if it.startswith(('saving ', 'slot '))])
    _, said = read_certificate(folder.read('cert'))
    group.same(f'{what}: slots and net', (numbers['slots'], numbers['net']), (len(said.slots), said.net))
    group.same(f'{what}: check', folder.run(('check', 'cert')), (0, b'net %d\n' % numbers['net'], b''))
    folder.remove()


def far_jumps(count):
    """Jumps each of which leads to a target of its own, half the code away."""
    half = count // 2
    return [object_with(*[jal(ZERO, 4 * (half if k < half else -half)) for k in range(count)])[0].bytes()]


def lists():
    """Lists without a fault, and what they are."""
    for program in STATUSES:
        for compiler in FOLDERS:
            yield f'{program} by {compiler}', objects_of(program, compiler)
    yield 'exit3', [read(os.path.join(EXAMPLES, 'exit3.o'))]
    for what, files, *_ in table_examples.rows():
        yield what, files
    for number in range(40):
        yield f'program {number}', table_examples.random_program(random.Random(f'report {number}'))
        files = made_list(random.Random(f'reported {number}'), False)
        if not first_fault(files):
            yield f'list {number}', files
    yield 'far jumps', far_jumps(20_000)


def check_shown(group):
    """The reports that README.md and docs/FORMATS.md show. In the first each line is followed by words that explain it."""
    for name, files in (('README.md', objects_of('monitor', 'gcc')), ('docs/FORMATS.md', plain_examples.jump_table())):
        folder, text = group.folder(), disk.read(os.path.join(TOP, name)).decode()
        lines = re.search('```\n(plain text .*?)```', text, re.S)[1].splitlines()
        said = folder.link(*folder.write_list(files)).out.decode().splitlines()
        group.same(f'the report in {name}', [line.split('  ')[0] for line in lines], said)


def reports(group):
    """reports worked out by hand or shown in documents; and of many lists that a report says what `plain`, the image and the
    certificate say"""
    check_shown(group)
    for what, files, numbers, rest in by_hand():
        folder = group.folder()
        text = ''.join(f'{name} {number}\n' for name, number in zip(NAMES, numbers)) + rest
        group.reports(what, folder.link(*folder.write_list(files)), text.encode())
    for what, files in lists():
        check_parts(group, what, files)


def refused(group, what, folder, line='write fault', status=123, **how):
    """Standard output refuses the report: the image and the certificate are written by then."""
    folder.write('out', OLD)
    folder.write('cert', OLD)
    group.refused(what, folder.link(**how), folder, status, line, THREE_LEFT.image, THREE_LEFT.certificate)


def refused_reports(group):
    """standard output that refuses the report, or a part of it"""
    folder = group.folder()
    with open('/dev/full', 'wb') as full:
        refused(group, 'output is full', folder, stdout=full)
    with broken_pipe() as written:
        refused(group, 'a broken pipe', folder, stdout=written)
    refused(group, 'output is closed', folder, first=lambda: os.close(1))
    ended = folder.link(first=lambda: os.close(2))
    group.same('standard error is closed', (ended.status, ended.out), (0, THREE_LEFT.report))
    with open(folder.path('file'), 'wb') as file:
        before = b'x' * len(THREE_LEFT.image)
        file.write(before)
        file.flush()
        ended = folder.run_with_limit(('zc', '--out', 'out', '--cert', 'cert', 'object'), len(before) + ROOM, stdout=file)
    group.ends('a file with room for a part', ended, 123, 'write fault')
    group.same('a file with room for a part: what it has', folder.read('file'), before + THREE_LEFT.report[:ROOM])
    if strace.is_there():
        for error, status, line in strace.REFUSED_WRITES:
            # the writes before are those of the image and of the certificate
            refused(group, f'{error} at the report', folder, line, status, before=strace.fault('write', 3, f'error={error}'))
