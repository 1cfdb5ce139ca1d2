"""Faults at each system call of a run."""
from typing import NamedTuple

from made_load import made_objects, summary

from checks import strace
from checks.harness import LINK
from checks.made_files import OLD, THREE_IMAGE, THREE_LEFT

# Calls for memory, which are refused only for lack of it, and calls that a signal may interrupt.
MEMORY = ('mmap', 'munmap', 'brk', 'mremap', 'madvise', 'mprotect')
INTERRUPTED = ('read', 'write', 'openat', 'fsync', 'fchmod')


class Putting(NamedTuple):
    """A run that puts files: its words, the system call with which its own calls begin, the bytes of each file by its name, in
    their order, and what it prints after that."""

    words: tuple
    begins: tuple
    files: dict
    out: bytes


def runs():
    objects = {f'p{number}.o': data for number, data in enumerate(made_objects(5, 3))}
    return (Putting((*LINK, 'object'), ('openat', 'object'), {'out': THREE_LEFT.image, 'cert': THREE_LEFT.certificate},
                    THREE_LEFT.report),
            Putting(('make', '--out', 'p', '5', '3'), ('statx', 'p0.o'), objects, summary(5, 3)))


def system_calls(group):
    """faults at each system call of a link, of `make` with PREFIX, and of `run`"""
    strace.need()
    for run in runs():
        faults_of_puts(group, run)
    faults_of_run(group)


def faults_of_puts(group, run):
    """Faults at each system call of a run that puts files, and the files that are then under their names."""
    what, first = run.words[0], next(iter(run.files))
    calls = strace.calls_of(run.words, group.folder(**dict.fromkeys(run.files, OLD)), *run.begins)
    renames = [i for i, call in enumerate(calls) if call.name == 'rename']
    group.same(f'{what}: files that are renamed', len(renames), len(run.files))
    group.same(f'{what}: files that are synced', [call.name for call in calls].count('fsync'), len(run.files))
    asks = [i for i, call in enumerate(calls) if call.name == 'statx' and f'"{first}"' in call.words][0]
    prints = [i for i, call in enumerate(calls) if call.name == 'write' and call.words.startswith('1, ')]
    group.same(f'{what}: its text is written once, after the files', len(prints) == 1 and prints[0] > renames[-1], True)
    for i, call in enumerate(calls):
        kept = {name: data if i > at else OLD for (name, data), at in zip(run.files.items(), renames)}
        refused = (122, b'', b'read fault\n') if i < asks else (123, b'', b'write fault\n')
        for fault in ('error=EIO', 'error=ENOMEM', 'error=EINTR', 'signal=KILL'):
            check_fault(group, run, call, fault, refused, kept)


def check_fault(group, run, call, fault, refused, kept):
    """Gives this fault to a call of a run that puts files, and checks how it ends, and the files that are then under their names."""
    if call.name in MEMORY and fault != 'error=ENOMEM' or fault == 'error=EINTR' and call.name not in INTERRUPTED:
        return
    folder = group.folder(**dict.fromkeys(run.files, OLD))
    what = f'{run.words[0]}, {fault} at {call}'
    ended, done, no_memory = folder.run(run.words, before=call.fault(fault)), (0, run.out, b''), (124, b'', b'out of memory\n')
    if call.name in MEMORY:
        group.one_of(what, ended, (done, no_memory))
    elif fault == 'signal=KILL':
        pass    # it may have ended anywhere, and what stands is checked below
    elif fault == 'error=EINTR' or call.name == 'close':
        group.same(what, ended, done)
        kept = run.files
    else:
        group.same(what, ended, no_memory if fault == 'error=ENOMEM' else refused)
    for name, data in run.files.items():
        is_free = fault == 'signal=KILL' or call.name in MEMORY
        group.one_of(f'{what}: {name}', folder.read(name), (OLD, data) if is_free else (kept[name],))
    if fault != 'signal=KILL':
        group.alone(what, folder)
    folder.remove()


def faults_of_run(group):
    """Faults at each system call of a run of an image under a plan."""
    folder, words = group.folder(image=THREE_IMAGE, plan=b'zcld plan 1\ncut 0\n'), ('run', '--plan', 'plan', 'image')
    for call in strace.calls_of(words, folder, 'openat', 'image'):
        for error, refusal in (('EIO', (122, b'read fault\n')), ('ENOMEM', (124, b'out of memory\n'))):
            ended = folder.run(words, before=call.fault(f'error={error}'))
            if call.name in MEMORY:
                group.one_of(f'run, {error} at {call}', ended.status, (3, 124))
            elif call.name in ('openat', 'statx', 'read'):
                group.same(f'run, {error} at {call}', (ended.status, ended.err), refusal)
            else:
                group.same(f'run, {error} at {call}', ended.status, 3)
