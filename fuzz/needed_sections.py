#!/usr/bin/env python3
"""Runs random lists of objects with and without the sections of code that nothing reaches, in the model of the symbolic machine.

    fuzz/needed_sections.py [--seed S] [--count N]

Both are models: it looks at what leaving out code means, before the program does it. What `models/section_gc.py` leaves of
objects without a fault must write the same bytes and end in the same way, and where it is stuck, at the same place, with its
section renumbered. It has no fault of its own but one: a jump or branch out of range, since sections may be moved apart where
they are aligned. It prints counts, and stops at the first difference with status 1.
"""
import argparse
import collections
import os
import random
import sys

sys.path[:0] = (os.path.join(os.path.dirname(os.path.abspath(__file__)), os.pardir, it) for it in ('scripts', 'models'))

from made_objects import made_list
from object_items import first_fault
from section_gc import collected
from symbolic_machine import trace

INPUT, STEPS = b'hello there', 3000
# The number of the fault that a branch or jump is out of range.
RANGE = 15


def renumbered(end, left):
    """How a run ends, with the section of a stuck place as it is numbered in what is left."""
    words = end.split()
    if words[0] == b'stuck':
        words[2] = str(left[int(words[1])].numbers[int(words[2])]).encode()
    return words


def look(files, counts):
    """Compares both runs of a list of objects, and says what differs, if anything does."""
    if first_fault(files):
        counts['with a fault'] += 1
        return None
    left = collected(files)
    result = [it.bytes() for it in left]
    counts['sections left out'] += sum(len(it.empty) for it in left)
    fault = first_fault(result)
    if fault:
        counts['out of range'] += fault[1] == RANGE
        return None if fault[1] == RANGE else f'the result has the fault {fault}'
    given, cleaned = trace(files, INPUT, STEPS), trace(result, INPUT, STEPS)
    counts['alike'] += 1
    if given[:2] != cleaned[:2] or renumbered(given[2], left) != cleaned[2].split():
        return f'{given} became {cleaned}'
    return None


def main():
    words = argparse.ArgumentParser(description='Compares runs of objects with and without code that nothing reaches.')
    words.add_argument('--seed', type=int, default=1)
    words.add_argument('--count', type=int, default=1000)
    given, counts = words.parse_args(), collections.Counter()
    for seed in range(given.seed, given.seed + given.count):
        source = random.Random(seed)
        wrong = look(made_list(source, source.random() < 0.15), counts)
        if wrong:
            sys.exit(f'seed {seed}: {wrong}')
    print(f'{given.count} lists: ' + ', '.join(f'{count} {what}' for what, count in sorted(counts.items())))


if __name__ == '__main__':
    main()
