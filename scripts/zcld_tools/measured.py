"""Measures how long calls take, and prints tables of it."""
import argparse
import os
import random
import shutil
import subprocess
import sys
import tempfile
import time

from zcld_tools.programs import BUILT

QUIET = [(os.POSIX_SPAWN_OPEN, 0, os.devnull, os.O_RDONLY, 0),
         (os.POSIX_SPAWN_OPEN, 1, os.devnull, os.O_WRONLY, 0),
         (os.POSIX_SPAWN_OPEN, 2, os.devnull, os.O_WRONLY, 0)]


class Call:
    """A call of a program, with the times that it took. Its input is empty."""

    def __init__(self, words, expected=0):
        self.words = words
        self.expected = expected
        self.wall = []
        self.processor = []

    def make(self):
        begun = time.perf_counter()
        pid = os.posix_spawn(self.words[0], self.words, os.environ, file_actions=QUIET)
        _, status, usage = os.wait4(pid, 0)
        self.wall.append(time.perf_counter() - begun)
        self.processor.append(usage.ru_utime + usage.ru_stime)
        ended = -os.WTERMSIG(status) if os.WIFSIGNALED(status) else os.WEXITSTATUS(status)
        if ended != self.expected:
            sys.exit(f'{" ".join(self.words)}: status {ended}, and not {self.expected}')

    def peak(self):
        """The most memory that the process held, in KiB, as GNU time tells it, or none where there is no GNU time."""
        timer = shutil.which('time')
        if timer is None:
            return None
        with tempfile.NamedTemporaryFile('r') as told:
            subprocess.run([timer, '-q', '-f', '%M', '-o', told.name, *self.words], stdin=subprocess.DEVNULL,
                           stdout=subprocess.DEVNULL, stderr=subprocess.DEVNULL, check=False)
            return int(told.read().split()[-1])


class Runs:
    """Calls that are made several times, all in turn and in an order that changes, so that what the machine does beside them
    and its caches meet all of them alike."""

    def __init__(self, calls, repeats):
        self.repeats, before, order, calls = max(1, repeats), os.getloadavg()[0], random.Random(1), list(calls)
        for _ in range(self.repeats):
            order.shuffle(calls)
            for call in calls:
                call.make()
        self.loads = before, os.getloadavg()[0]

    def say(self):
        """Prints what they were made on."""
        print(f'Processor: {processor_name()}, {os.cpu_count()} of them.')
        print('Load over one minute: {:.1f} before, {:.1f} after.'.format(*self.loads),
              f'Each call was made {self.repeats} times.')


def processor_name():
    try:
        with open(os.path.join(os.sep, 'proc', 'cpuinfo'), encoding='utf-8') as told:
            return next(line.split(':', 1)[1].strip() for line in told if line.startswith('model name'))
    except (OSError, StopIteration):
        return 'unknown processor'


def milliseconds(times):
    return f'{min(times) * 1000:.2f}'


def row(cells):
    print('| ' + ' | '.join(str(cell) for cell in cells) + ' |')


def table(heads, rows, left=0):
    """Prints a table in Markdown. So many of its first columns are text, and the others numbers."""
    print()
    row(heads)
    row('---' if k < left else '---:' for k, _ in enumerate(heads))
    for cells in rows:
        row(cells)


def words_of_bench(description, repeats):
    """The words that each bench takes: a program, and how often each call is made."""
    arguments = argparse.ArgumentParser(description=description)
    arguments.add_argument('program', nargs='?', default=BUILT)
    arguments.add_argument('--repeats', type=int, default=repeats)
    return arguments
