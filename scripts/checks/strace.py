"""Faults that strace gives to system calls of a run."""
import os
import re
import shutil

from zcld_tools import programs

from checks.harness import Skipped

# A line of the log: the call's name, and the words after it.
CALL = re.compile(r'^(\w+)\((.*)')
# What refuses a write, and how the program ends then.
REFUSED_WRITES = (('EIO', 123, 'write fault'), ('ENOMEM', 124, 'out of memory'))


def is_there():
    return shutil.which('strace') is not None


def need():
    """Skips the group where no fault can be given."""
    if not is_there():
        raise Skipped('there is no strace')
    if programs.run(('strace', '-qq', '-o', '/dev/null', 'true')).status:
        raise Skipped('strace may trace nothing here')


def fault(name, number, what):
    """The words before a program that give a fault to a call, by its number among those of its name."""
    return 'strace', '-qq', '-o', '/dev/null', '-e', f'trace={name}', '-e', f'inject={name}:{what}:when={number}'


class Call:
    """A system call of a run: its name, its number among those of that name, and its words."""

    def __init__(self, name, number, words):
        self.name, self.number, self.words = name, number, words

    def fault(self, what):
        # For a refused brk the kernel returns a break below the one that was asked for, and no error's number.
        return fault(self.name, self.number, 'retval=0' if self.name == 'brk' and what.startswith('error=') else what)

    def __str__(self):
        return f'{self.name} {self.number} ({self.words[:60]})'


def all_calls(words, folder):
    """The calls of a run, in their order."""
    log = folder.path('log')
    folder.run(words, before=('strace', '-qq', '-o', log))
    with open(log, encoding='utf-8', errors='replace') as file:
        lines = file.read().splitlines()
    os.remove(log)
    counts, calls = {}, []
    for line in lines:
        match = CALL.match(line)
        if not match or match[1] in ('exit_group', 'execve'):
            continue
        counts[match[1]] = counts.get(match[1], 0) + 1
        calls.append(Call(match[1], counts[match[1]], match[2]))
    return calls


def calls_of(words, folder, name, first_file):
    """The calls of a run, from the first of this name on that names this file."""
    calls = all_calls(words, folder)
    begins = [i for i, call in enumerate(calls) if call.name == name and f'"{first_file}"' in call.words]
    return calls[begins[0]:]
