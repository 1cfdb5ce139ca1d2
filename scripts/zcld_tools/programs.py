"""Runs programs, and says how they ended."""
import functools
import os
import resource
import shutil
import subprocess
import sys
from typing import NamedTuple

# The program, from the folder in which `make` was called; and the seconds that a run may take.
BUILT, TIME_OUT = os.path.join('build', 'zcld'), 20
CERTIFICATE = b'zcld certificate 1\nprice 0 0 0\nnet 0\nend\n'
# GNU's programs for RISC-V, by what their names begin with, the linkers among them, and LLVM's.
PREFIXES = ('riscv64-unknown-elf-', 'riscv32-unknown-elf-')
GNU_LINKERS = (*(prefix + 'ld' for prefix in PREFIXES), 'riscv64-linux-gnu-ld')
LLVM_LINKERS = ('ld.lld',)
# What both linkers are told of the format.
FORMAT = ('-m', 'elf32lriscv')


class Failed(Exception):
    """A check that failed."""


class Ended(NamedTuple):
    """How a process ended, with what it wrote."""

    status: int
    out: bytes
    err: bytes

    def __repr__(self):
        # a check shows it as it does the three that it is compared with
        return repr(tuple(self))


def run(words, given=subprocess.DEVNULL, first=None, stdout=subprocess.PIPE, stderr=subprocess.PIPE, **how):
    """Runs a program on words. `given` is its input, as bytes or as a file, and `first` is called in the new process."""
    how['input' if isinstance(given, bytes) else 'stdin'] = given
    try:
        ended = subprocess.run(words, stdout=stdout, stderr=stderr, check=False, timeout=TIME_OUT, preexec_fn=first, **how)
    except subprocess.TimeoutExpired:
        raise Failed(f'{words}: no end after {TIME_OUT} s') from None
    except BrokenPipeError:
        raise Failed(f'{words}: the input was not taken') from None
    return Ended(ended.returncode, ended.stdout or b'', ended.stderr or b'')


def told(words, **how):
    """What a program writes that must do what it is told."""
    ended = run(words, **how)
    if ended.status:
        raise Failed(f'{" ".join(words)}: status {ended.status}, {ended.err.decode(errors="replace")[:500]}')
    return ended.out.decode()


def limit(which, size):
    """Sets a limit of the system, for a new process."""
    resource.setrlimit(which, (size, size))


def in_memory(size):
    """What leaves a process so much memory."""
    return functools.partial(limit, resource.RLIMIT_AS, size)


def found(*names):
    """The path of the first of these programs that is installed, or none."""
    return next(filter(None, map(shutil.which, names)), None)


def built(path):
    """The whole path of a program of zcld. Without one, this script ends."""
    if not os.access(path, os.X_OK):
        sys.exit(f'{path} is no program: `make` builds it')
    return os.path.abspath(path)
