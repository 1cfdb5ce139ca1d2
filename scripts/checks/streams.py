"""Standard input, output and error: what programs read and write, and streams that are closed, full or broken."""
import os

from size_report import left_by_zc
from zcld_tools.programs import CERTIFICATE

from checks import strace
from checks.harness import broken_pipe
from checks.made_files import COPY, COPY_IMAGE, MIB, THREE_IMAGE, TWICE

COPIES, TWO_READS = (('trace', 'copy'), ('run', 'image')), (('trace', 'twice'), ('run', 'out'))


def calls(group):
    """programs that read and write, as objects and as images"""
    folder = group.folder(copy=COPY, image=COPY_IMAGE, twice=TWICE)
    group.reports('zc', folder.link('twice'), left_by_zc([TWICE]).report)
    for size in (0, 1, 1023, 1024, 1025, 100000, 16 * MIB):
        given = (bytes(range(1, 256)) * (size // 255 + 1))[:size]
        for words in COPIES:
            ended = folder.run(words, given)
            group.same(f'{words}, {size} bytes', (ended.status, ended.err), (0, b'exited 0\n'))
            group.same(f'{words}, {size} bytes', ended.out, given)
        for words in TWO_READS:
            wanted = (0, given[:1024], given[1024:2048] + b'exited 0\n')
            group.same(f'{words}, {size} bytes', folder.run(words, given), wanted)
    for words in (*COPIES, *TWO_READS):
        written_badly(group, folder, words)
    for words in COPIES:
        with open(folder.path('file'), 'wb') as file:
            ended = folder.run_with_limit(words, 1500, given=bytes(5000), stdout=file)
        group.ends(f'{words}: a full file', ended, 123, 'write fault')
        group.same(f'{words}: what it has', folder.read('file'), bytes(1500))


def written_badly(group, folder, words):
    """Standard output that refuses what a program writes."""
    given = b'x' * 3000
    with open('/dev/full', 'wb') as full:
        group.ends(f'{words}: output is full', folder.run(words, given, stdout=full), 123, 'write fault')
        ended = folder.run(words, given, stderr=full)
        group.same(f'{words}: errors are full', ended.status, 0 if words in COPIES else 123)
    with broken_pipe() as written:
        group.ends(f'{words}: a broken pipe', folder.run(words, given, stdout=written), 123, 'write fault')
    group.ends(f'{words}: output is closed', folder.run(words, given, first=lambda: os.close(1)), 123, 'write fault')
    if strace.is_there():
        for error, status, line in strace.REFUSED_WRITES:
            ended = folder.run(words, given, before=strace.fault('write', 1, f'error={error}'))
            group.ends(f'{words}: {error}', ended, status, line)
        ended = folder.run(words, given, before=strace.fault('write', 1, 'error=EINTR'))
        group.same(f'{words}: EINTR', (ended.status, ended.out[:1024]), (0, given[:1024]))


def closing(descriptors):
    """What closes these in a new process."""
    return lambda: [os.close(it) for it in descriptors]


def streams(group):
    """streams that are closed, full or broken"""
    folder = group.folder(image=THREE_IMAGE)
    group.ends('no input', folder.run(('run', 'image'), first=closing((0,))), 122, 'read fault')
    group.done('closed input', folder.link(first=closing((0,))), folder)
    for closed in ((1,), (0, 1), (0, 1, 2)):
        ended = folder.link(first=closing(closed))
        group.refused(f'closed {closed}', ended, folder, 123, '' if 2 in closed else 'write fault', THREE_IMAGE, CERTIFICATE)
    for closed in ((1,), (2,), (0, 1, 2)):
        ended = folder.link('image', out='o', cert='c', first=closing(closed))
        group.ends(f'a refusal with closed {closed}', ended, 121, '' if 2 in closed else 'refused 0 1 NotElf')
    group.same('no line in a file', [folder.read(name) for name in 'oc'], [None, None])
    with broken_pipe() as written:
        group.same('the line to a broken pipe', folder.run(('run', 'image'), stderr=written).status, 3)
        group.ends('OUT to a broken pipe', folder.link(out=folder.stream(), stdout=written), 123, 'write fault')
