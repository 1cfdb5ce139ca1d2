#!/usr/bin/env python3
"""Refuses each allocation and each system call of some calls of the program, one after another, and checks the files that then exist.

    fuzz/refusals.py [--only CALL..] [--most N] [--without allocations|calls] [PROGRAM]

PROGRAM is build/zcld if none is given. The calls are those of each command over a program of three instructions, over one of two
objects that writes a line, over a push that a plan interrupts, and over what `make` generates; CALL is a name in the table that is
printed. Each call is made again and again. Once an allocation of it is refused: `malloc`, `calloc` or `realloc` returns that there
is no memory (zcld_tools/allocations.py, which needs Linux on x86-64). And once a system call of it ends with an error, by strace:
EIO, ENOMEM or EINTR. Checked are:

- where an allocation was refused, or a system call that gives memory, the call ends as it does otherwise, or with `out of
  memory`;
- where another system call ended with EIO, the fault is one of reading up to the first file that is put, and one of writing from
  then on; with ENOMEM it is `out of memory`, and after EINTR the call is made again; a `close` that fails changes nothing, and
  neither does a write of the last line, but that this line is missing; nor do errors of system calls of the program's start;
- the files that the call puts are as they were, or the first few of them are whole and the others as they were; the files that it
  reads are as they were, and no other file is left;
- what it wrote to standard output and to standard error before its line is a prefix of what it writes otherwise.

Of each call a row is printed: how many allocations it makes, how many of these refusals ended with `out of memory` and how many
as the call does otherwise, and the same of the system calls. The status is 1 if a check failed, and 2 where no call can be traced.
"""
import argparse
import collections
import os
import shutil
import sys
import tempfile
import time
from typing import NamedTuple

sys.path[:0] = (os.path.join(os.path.dirname(os.path.abspath(__file__)), os.pardir, it) for it in ('scripts', 'models'))

from checks import strace
from checks.harness import LINK, Folder, Skipped
from checks.made_files import OLD, THREE, exit_code, image_of
from made_load import made_objects
from plain_examples import hello
from zc_link import zc
from zcld_tools import TOP, allocations, programs
from zcld_tools.files import files_in
from zcld_tools.measured import table
from zcld_tools.programs import Failed

# `cm.push {ra, s0}, -16`, and then an exit; and a plan in which the push is interrupted after its first access, and four bytes
# that it wrote are written again.
PUSH_IMAGE = image_of(bytes.fromhex('52b8') + exit_code(7), (2, 4, 4, 4))
PUSH_PLAN = b'zcld plan 1\ncut 0 a0 d0ffffffc:ee d0ffffffd:ee d0ffffffe:ee d0fffffff:ee\n'
# A cut of the push of `hello`, and cells, which are passed over since it shares nothing.
SHARED_PLAN = b'zcld shared 1\ncut 1 a0 d0ffffffc:ee s00100000:48\ncut 2 s00100001:49\n'
SAVINGS = b'zcld certificate 1\nsaving 0 1 0 0 50\nprice 0 0 0\nnet 0\nend\n'

READ_FAULT, WRITE_FAULT, OUT_OF_MEMORY = (122, b'read fault\n'), (123, b'write fault\n'), (124, b'out of memory\n')
ERRORS = 'EIO', 'ENOMEM', 'EINTR'
# System calls that give memory or take it back, that start the program, whose errors change nothing, and that a signal may
# interrupt.
MEMORY = 'mmap', 'munmap', 'brk', 'mremap', 'madvise', 'mprotect'
STARTING = 'arch_prctl', 'set_tid_address', 'set_robust_list', 'rseq', 'prlimit64'
IGNORED = 'close', 'getpid', 'getrandom', 'rt_sigaction'
INTERRUPTED = 'read', 'write', 'openat', 'fsync', 'fchmod'
# What is counted of a call's refusals: how many allocations and system calls it makes, and how it ended without one of them.
ALLOCATED = 'made', 'out of memory', 'same'
CALLED = 'made', 'read fault', 'write fault', 'out of memory', 'same', 'no line'


class Case(NamedTuple):
    """A call: its name, its words, the files that it reads, the names of those that it puts, and whether a run's end writes its
    line."""

    name: str
    words: tuple
    given: dict
    puts: tuple = ()
    is_run: bool = False


def objects(files):
    return {f'x{k}.o': data for k, data in enumerate(files)}


def cases():
    """The calls."""
    two, puts = hello(), ('out', 'cert')
    image = {'image': zc(two)[0]}
    yield Case('three, plain', ('plain', '--out', 'out', 'x0.o'), objects([THREE]), ('out',))
    yield Case('three, zc', (*LINK, 'x0.o'), objects([THREE]), puts)
    yield Case('three, trace', ('trace', 'x0.o'), objects([THREE]), is_run=True)
    yield Case('three, run', ('run', 'image'), {'image': zc([THREE])[0]}, is_run=True)
    yield Case('hello, plain', ('plain', '--out', 'out', 'x0.o', 'x1.o'), objects(two), ('out',))
    yield Case('hello, zc', (*LINK, 'x0.o', 'x1.o'), objects(two), puts)
    yield Case('hello, trace', ('trace', 'x0.o', 'x1.o'), objects(two), is_run=True)
    yield Case('hello, run', ('run', 'image'), image, is_run=True)
    yield Case('three, gc', ('gc', '--out', 'p', 'x0.o'), objects([THREE]), ('p0.o',))
    yield Case('hello, gc', ('gc', '--out', 'p', 'x0.o', 'x1.o'), objects(two), ('p0.o', 'p1.o'))
    yield Case('three, merge', ('merge', '--out', 'p', 'x0.o'), objects([THREE]), ('p0.o',))
    yield Case('hello, merge', ('merge', '--out', 'p', 'x0.o', 'x1.o'), objects(two), ('p0.o', 'p1.o'))
    yield Case('three, list', ('list', 'image'), {'image': zc([THREE])[0]})
    yield Case('hello, list', ('list', 'image'), image)
    shared = {**objects(two), 'plan': SHARED_PLAN}
    yield Case('hello, share', ('share', '--out', 'out', '--plan', 'plan', 'x0.o', 'x1.o'), shared, ('out',), is_run=True)
    yield Case('push, run', ('run', '--plan', 'plan', 'image'), {'image': PUSH_IMAGE, 'plan': PUSH_PLAN}, is_run=True)
    yield Case('savings, check', ('check', 'cert'), {'cert': SAVINGS})
    yield Case('made, make', ('make', '5', '0'), {})
    yield Case('made, make --out', ('make', '--out', 'p', '5', '1'), {}, tuple(f'p{k}.o' for k in range(len(made_objects(5, 1)))))
    yield Case('no words', (), {})


class Call:
    """A call that is made again and again, each time in a folder as it was at first."""

    def __init__(self, program, room, case):
        self.program, self.room, self.case = program, room, case
        self.files = {**dict.fromkeys(case.puts, OLD), **case.given}
        self.allocated, self.called = collections.Counter(), collections.Counter()
        self.ended = self.fresh().run(case.words)
        self.put = self.left()

    def fresh(self):
        """The folder, as it was at first."""
        shutil.rmtree(self.room, ignore_errors=True)
        os.mkdir(self.room)
        folder = Folder(self.program, self.room)
        for name, data in self.files.items():
            folder.write(name, data)
        return folder

    def left(self):
        """The files in the folder. The last call must have put the first few of its files, and have changed no other."""
        found = files_in(self.room)
        stand = [found.get(name) for name in self.case.puts]
        count = sum(data != OLD for data in stand)
        kept = {**self.files, **dict(zip(self.case.puts[:count], stand))}
        if found != kept:
            raise Failed(f'files {sorted(found)}, of which {count} were put')
        return {name: found[name] for name in self.case.puts[:count]}

    # what a refusal may leave

    def check_puts(self, count=None):
        """The first few files were put, and are complete: this many, if the number is given."""
        found = self.left()
        if any(data != self.put[name] for name, data in found.items()) or count not in (None, len(found)):
            raise Failed(f'{len(found)} files were put, and not {count}, or not whole')

    def check_refused(self, ended, refusal):
        """It ended with this status and line, after a part of what it writes otherwise."""
        status, line = refusal
        lines = self.ended.err.splitlines(keepends=True) if self.case.is_run else []
        before = b''.join(lines[:-1])
        if not (ended.status == status and self.ended.out.startswith(ended.out) and ended.err.endswith(line)
                and before.startswith(ended.err[:-len(line)])):
            raise Failed(f'{ended}, and not {line}')

    def check_memory(self, ended):
        """It ended as it does otherwise, or ran out of memory. Returns which."""
        if ended == self.ended:
            self.check_puts(len(self.case.puts))
            return 'same'
        self.check_refused(ended, OUT_OF_MEMORY)
        self.check_puts()
        return 'out of memory'

    # refusals

    def refuse_allocations(self, most):
        """Refuses each allocation in turn, or at most this many, with equal steps between."""
        words = [self.program, *self.case.words]
        self.fresh()
        count = allocations.run_without(0, words, self.room)[1]
        self.allocated['made'] = count
        for number in range(1, count + 1, max(1, -(-count // most))):
            self.fresh()
            ended, _ = allocations.run_without(number, words, self.room)
            try:
                self.allocated[self.check_memory(ended)] += 1
            except Failed as why:
                raise Failed(f'{self.case.name}, allocation {number}: {why}') from None

    def calls(self):
        """The system calls, but for those that load and start the program."""
        found = strace.all_calls(self.case.words, self.fresh())
        begins = max(i for i, call in enumerate(found) if call.name in STARTING) + 1
        return found[begins:]

    def refuse_calls(self):
        """Ends each system call with each error."""
        calls = self.calls()
        self.called['made'] = len(calls)
        puts = [i for i, call in enumerate(calls) if any(f'"{name}"' in call.words for name in self.case.puts)]
        renames = [i for i, call in enumerate(calls) if call.name == 'rename']
        for i, call in enumerate(calls):
            is_read = not puts or i < puts[0]
            for error in ERRORS:
                ended = self.fresh().run(self.case.words, before=call.fault(f'error={error}'))
                try:
                    self.called[self.check_call(call, error, ended, is_read, sum(at < i for at in renames))] += 1
                except Failed as why:
                    raise Failed(f'{self.case.name}, {error} at {call}: {why}') from None

    def check_call(self, call, error, ended, is_read, count):
        """How a call ended, one of whose system calls has ended with an error, after this many files were put. Says that."""
        if call.name in MEMORY:
            return self.check_memory(ended)
        stream = call.words.split(',')[0] if call.name in ('read', 'write') else ''
        if call.name in IGNORED or error == 'EINTR' and call.name in INTERRUPTED:
            wanted, count = self.ended, len(self.case.puts)
        elif call.name == 'write' and stream == '2' and self.is_line(call):
            wanted, count = self.ended._replace(err=b''.join(self.ended.err.splitlines(keepends=True)[:-1])), len(self.case.puts)
        else:
            writes = not is_read or call.name == 'write'
            refusal = OUT_OF_MEMORY if error == 'ENOMEM' else WRITE_FAULT if writes else READ_FAULT
            self.check_refused(ended, refusal)
            self.check_puts(count)
            return refusal[1].decode().strip()
        if ended != wanted:
            raise Failed(f'{ended}, and not {wanted}')
        self.check_puts(count)
        return 'same' if wanted is self.ended else 'no line'

    def is_line(self, call):
        """Whether a system call writes the call's line."""
        line = self.ended.err.splitlines()[-1] if self.ended.err else b''
        return f'"{line.decode()}' in call.words


def main():
    arguments = argparse.ArgumentParser(description=__doc__.splitlines()[0])
    arguments.add_argument('program', nargs='?', default=os.path.join(TOP, programs.BUILT))
    arguments.add_argument('--only', action='append', metavar='CALL', help='the calls with this name, and no others')
    arguments.add_argument('--most', type=int, default=1 << 30, help='so many allocations of a call at most are refused')
    arguments.add_argument('--without', choices=('allocations', 'calls'), help='what is not refused')
    words = arguments.parse_args()
    program, rows, failed, begun = programs.built(words.program), [], 0, time.monotonic()
    with tempfile.TemporaryDirectory(prefix='zcld-') as room:
        for case in cases():
            if words.only and case.name not in words.only:
                continue
            call = Call(program, os.path.join(room, 'call'), case)
            try:
                if words.without != 'allocations':
                    call.refuse_allocations(words.most)
                if words.without != 'calls':
                    strace.need()
                    call.refuse_calls()
            except Failed as why:
                print(f'FAILED {why}', flush=True)
                failed += 1
            except (Skipped, OSError) as why:
                print(f'{case.name} cannot be traced here: {why}')
                return 2
            rows.append([case.name, *(call.allocated[kind] for kind in ALLOCATED), *(call.called[kind] for kind in CALLED)])
            print(f'{case.name}: {time.monotonic() - begun:.0f} s', flush=True)
    table(('call', 'allocations', *ALLOCATED[1:], 'system calls', *CALLED[1:]), rows, 1)
    return failed > 0


if __name__ == '__main__':
    sys.exit(main())
