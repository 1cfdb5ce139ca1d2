#!/usr/bin/env python3
"""Compares what `share` does with random lists of objects, some of whose data is shared, under random plans with what the model
does.

    fuzz/shared_programs.py [--seed S] [--count N] [--models] [PROGRAM]

PROGRAM is build/zcld if none is given; with --models there is none. A third of the lists are in a memory map by chance,
and have fixed sections by chance. Sections of data are named `.shared`, and plans write to them, beside them and to all
other data, before commits that are close together. The status, what is written and the image must be the model's
(models/shared_cells.py). The model's image and its program must come to the same after each step. It prints counts, and
stops at the first difference with status 1.
"""
import argparse
import collections
import os
import random
import sys
import tempfile

sys.path[:0] = (os.path.join(os.path.dirname(os.path.abspath(__file__)), os.pardir, it) for it in ('scripts', 'models'))

from checks.harness import Folder
from far_lists import far_list
from memory_maps import made_map, made_names, some_words_of_map, words_of_names
from made_objects import made_program
from object_data import Symbols
from object_faults import Object, gather_cause
from object_items import first_fault
from shared_cells import Cut, Differs, compared, share, shared_plan_of, shared_ranges
from table_examples import random_program
from zc_link import link_of
from zcld_tools import programs
from zcld_tools.elf import ALLOC, CODE_FLAGS, CONSTANT_FLAGS, DATA_FLAGS, EXECINSTR, NOBITS, PROGBITS
from zcld_tools.files import random_bytes
from zcld_tools.images import STANDARD
from zcld_tools.objects import Written

STEPS = 1500


def share_some(rng, objects):
    """Names sections of data `.shared`, and adds one of that name that isn't data, or isn't kept."""
    for read in objects:
        for section in read.sections:
            if section.flags & ALLOC and not section.flags & EXECINSTR and rng.random() < 0.4:
                section.name = b'.shared'
    if rng.random() < 0.2:
        rng.choice(objects).section(b'.shared', PROGBITS, rng.choice((0, CODE_FLAGS))).words(0x13, 0x13)
    if rng.random() < 0.2:
        name, flags = rng.choice((b'.shared', b'.shared.1', b'.share')), rng.choice((CONSTANT_FLAGS, DATA_FLAGS))
        rng.choice(objects).section(name, PROGBITS, flags, align=1).content += bytes(rng.randrange(9))


def shared_data():
    """An object that has nothing but shared data."""
    made = Written()
    made.section(b'.shared', NOBITS, DATA_FLAGS, size=64)
    return made.bytes()


def shared_list(rng, is_odd):
    """The files of a list, some of whose data is shared. Of six lists one has branches that lead far, and one often a jump table:
    these programs don't look at their data."""
    which = rng.randrange(6)
    if which < 2:
        return [*(far_list if which else random_program)(rng), shared_data()]
    objects = made_program(rng, is_odd).objects
    share_some(rng, objects)
    return [read.bytes() for read in objects]


def addresses(rng, files, memory):
    """Addresses that cells may have: most lie in shared sections, some beside them or where no data is."""
    is_linked = first_fault(files, memory) is None
    found = shared_ranges(Symbols([Object(data) for data in files], memory)) if is_linked else []
    others = [memory.data + rng.randrange(-4, 2048), memory.stack_high - rng.randrange(64), memory.text + rng.randrange(256)]
    others.append(rng.getrandbits(32))
    for at, size in found:
        others += [at + rng.randrange(size) if size else at] * 12 + [at, at + size, max(0, at - 1)]
    return others


def made_cuts(rng, files, memory):
    """A plan by chance."""
    choices, at, cuts = addresses(rng, files, memory), 0, []
    gap = rng.choice((1, 2, 5, 40))
    for _ in range(rng.choice((0, 1, 5, 60, 300))):
        at += rng.randrange(gap + 1)
        done = [rng.randrange(14) for _ in range(rng.choice((0, 0, 1, 3)))]
        dirt = [(memory.stack_high - 1 - rng.randrange(256), rng.randrange(256)) for _ in range(rng.choice((0, 0, 1, 4)))]
        cells = [(rng.choice(choices), rng.randrange(256)) for _ in range(rng.choice((0, 1, 1, 4)))]
        cuts.append(Cut(at, done, dirt, cells))
    return cuts


def look(folder, rng, counts):
    """Says what differs of a list and a plan, if anything does. Without a folder only the models are compared."""
    files, given = shared_list(rng, rng.random() < 0.15), random_bytes(rng, rng.choice((0, 5, 40)))
    memory, names = STANDARD, ()
    if rng.random() < 0.3:
        memory, names = made_map(rng), () if gather_cause(files) else made_names(rng, [Object(data) for data in files])
    cuts = made_cuts(rng, files, memory)
    if first_fault(files, memory, names) is None:
        link = link_of(files, memory, names).link
        counts['steps of both models'] += compared(link.code.objects, link, given, cuts, STEPS, 7)
        counts['with a table'] += link.table.size > 0
        counts['with a group'] += bool(link.groups)
        counts['with a fixed section'] += bool(link.code.fixed)
        counts['with a branch of 8 bytes'] += link.counts()['long'] > 0
    if folder is None:
        return None
    wanted = share(files, shared_plan_of(cuts), given, STEPS, memory, names)
    paths = folder.write_list(files)
    folder.write('plan', shared_plan_of(cuts))
    given_words = *some_words_of_map(rng, memory), *words_of_names(names)
    words = ['share', *given_words, '--out', 'out', '--plan', 'plan', '--steps', str(STEPS), *paths]
    ended = folder.run(words, given)
    counts[wanted.err.split()[-2 if wanted.status != 127 else -1].decode('latin-1')[:10] if wanted.image else 'refused'] += 1
    if (*ended, folder.read('out')) != tuple(wanted):
        return f'{ended} in place of {wanted[:3]}' if ended != wanted[:3] else 'another image'
    return None


def main():
    words = argparse.ArgumentParser(description='Compares runs under shared plans with those of a model.')
    words.add_argument('--seed', type=int, default=1)
    words.add_argument('--count', type=int, default=1000)
    words.add_argument('--models', action='store_true')
    words.add_argument('program', nargs='?', default=programs.BUILT)
    given, counts = words.parse_args(), collections.Counter()
    program = None if given.models else programs.built(given.program)
    for seed in range(given.seed, given.seed + given.count):
        with tempfile.TemporaryDirectory() as place:
            try:
                wrong = look(program and Folder(program, place), random.Random(f'shared {seed}'), counts)
            except Differs as why:
                wrong = f'the models differ {why}'
        if wrong:
            sys.exit(f'seed {seed}: {wrong}')
    print(f'{given.count} lists: ' + ', '.join(f'{count} {what}' for what, count in sorted(counts.items())))


if __name__ == '__main__':
    main()
