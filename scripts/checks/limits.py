"""Little memory, and a limit of the size of files."""
import functools
import resource
import signal

from plain_link import plain as plain_of
from zcld_tools.programs import in_memory, limit

from checks import strace
from checks.harness import LINK, Skipped
from checks.made_files import LARGE, LARGE_LEFT, MIB, OLD, THREE, THREE_IMAGE


def memories(folder):
    """Sizes from that in which the program just starts up to 3 MiB more."""
    for least in range(MIB, 64 * MIB, MIB // 8):
        if folder.run(('frob',), first=in_memory(least)).status == 120:
            return range(least + MIB // 8, least + 3 * MIB, MIB // 16)
    raise Skipped('the program needs more than 64 MiB to start')


def little_memory(group):
    """little memory"""
    folder = group.folder(image=THREE_IMAGE, object=LARGE, plan=b'zcld plan 1\n' + b'cut 0 a0 d0fffffff:2a\n' * 2000)
    seen = set()
    for memory in memories(folder):
        folder.write('out', OLD)
        folder.write('cert', OLD)
        ended = folder.link(first=in_memory(memory))
        seen.add(ended.status)
        if ended.status == 0:
            group.done(f'{memory} bytes', ended, folder, left=LARGE_LEFT)
        else:
            group.ends(f'{memory} bytes', ended, 124, 'out of memory')
            group.one_of(f'{memory} bytes: OUT', folder.read('out'), (OLD, LARGE_LEFT.image))
            group.one_of(f'{memory} bytes: CERT', folder.read('cert'), (OLD,))
        group.alone(f'{memory} bytes', folder)
        for words in (('run', 'image'), ('run', '--plan', 'plan', 'image')):
            ended = folder.run(words, first=in_memory(memory))
            ends = (3, b'exited 3\n'), (124, b'out of memory\n')
            group.one_of(f'{words} in {memory} bytes', (ended.status, ended.err), ends)
            seen.add(ended.status)
    group.same('each end was seen', seen, {0, 3, 124})


def plain_memory(group):
    """little memory, limits of the size of files and faults at system calls of a plain link"""
    image, length = plain_of([LARGE])
    folder = group.folder(object=LARGE)
    seen = set()
    for memory in memories(folder):
        folder.write('out', OLD)
        ended = folder.plain(first=in_memory(memory))
        seen.add(ended.status)
        group.one_of(f'{memory} bytes', ended, ((0, b'plain text %d\n' % length, b''), (124, b'', b'out of memory\n')))
        group.one_of(f'{memory} bytes: OUT', folder.read('out'), (image,) if ended.status == 0 else (OLD, image))
        group.alone(f'{memory} bytes', folder)
    group.same('each end was seen', seen, {0, 124})
    folder.write('out', OLD)
    folder.write('cert', OLD)
    group.refused('100 bytes', folder.run_with_limit(('plain', '--out', 'out', 'object'), 100), folder)
    if strace.is_there():
        refused_writes(group)


def refused_writes(group):
    """Faults at the first write of a plain link, which is that of the image, and at the second, which is that of the length."""
    folder, image = group.folder(), plain_of([THREE])[0]
    for error, status, line in strace.REFUSED_WRITES:
        for number, out in ((1, OLD), (2, image)):
            what = f'{error} at write {number}'
            folder.write('out', OLD)
            group.ends(what, folder.plain(before=strace.fault('write', number, f'error={error}')), status, line)
            group.same(f'{what}: OUT', folder.read('out'), out)
            group.alone(what, folder)


def size_limit(group):
    """a limit of the size of files"""
    for size in (0, 100, 4096):
        for out in (OLD, None):
            folder = group.folder(object=LARGE, **({'out': OLD, 'cert': OLD} if out else {}))
            ended = folder.run_with_limit((*LINK, 'object'), size)
            group.refused(f'{size} bytes', ended, folder, out=out, cert=out)
            ended = folder.link(first=functools.partial(limit, resource.RLIMIT_FSIZE, size))
            group.same(f'{size} bytes, by a signal', ended.status, -signal.SIGXFSZ)
            group.same(f'{size} bytes, by a signal: OUT', folder.read('out'), out)
