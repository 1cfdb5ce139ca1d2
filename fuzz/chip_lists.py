#!/usr/bin/env python3
"""Links random lists of objects for random chips, with fixed sections by chance, and compares what all commands that take a memory
map do with the models.

    fuzz/chip_lists.py [--seed S] [--count N] [--models] [PROGRAM]

PROGRAM is build/zcld if none is given; with --models there is none. A chip has some of the extensions, and mostly a RAM that just
has room for the data of the list, has more, or lacks 16 bytes; its stack has 16 bytes or more. Lists have data and relocations,
frames, equal tails, shared variables, bytes and halves that Zcb loads and stores (byte_lists.py), or jumps and calls for a table.
Half of the calls name some of the sections of code, or their kin, as fixed. Checked are, in the map of the words:

- a list whose data end above the stack, or that has another fault, is refused by each command, by its first fault;
- the images of both links, the certificate and the report are those of the models, and so is the listing;
- what the image of `zc` has of each extension beside Zca, told by the opcodes (models/needed_extensions.py), the chip has, or a
  fixed section has it;
- in a fixed section whose paddings ask for no more than its alignment all lies as far from its start as in the image of `plain`,
  and its bytes are the same, but for those of items that hold addresses or lead elsewhere;
- both images run as the objects do: the same events within 64 times their steps and 3, and `trace`, `run` and `share` end as in the
  models;
- the objects that `gc` and `merge` write are those of the models.

It prints counts, and stops at the first difference with status 1.
"""
import argparse
import collections
import os
import random
import sys
import tempfile

sys.path[:0] = (os.path.join(os.path.dirname(os.path.abspath(__file__)), os.pardir, it) for it in ('scripts', 'models'))

import zc_machine
from byte_lists import byte_list
from checks.harness import Folder
from collected_objects import COLLECTING
from device_programs import Differs, Run, events_agree
from devices import NO_DEVICES
from far_lists import far_list
from frame_plans import made_object as object_of_frames
from groups import LISTS
from listing import listed
from made_frames import ENDINGS, sizes
from made_objects import made_list
from made_tails import tails_list
from memory_maps import made_map, made_names, some_words_of_map, with_room, words_of_names
from merged_objects import MERGING
from needed_extensions import needed
from object_data import CODE, Symbols
from object_faults import Object, gather_cause, told
from object_items import first_fault
from plain_link import Plain
from shared_cells import share, shared_plan_of
from shared_programs import made_cuts, shared_list
from size_report import report
from symbolic_machine import Machine, run
from table_examples import random_program
from zc_link import link_of
from zcld_tools import programs
from zcld_tools.files import random_bytes
from zcld_tools.images import EVERY, Extensions

STEPS, TEXT = 1000, b'plain text %d\n'
# What holds how far its target is away.
AWAY = 'Branch', 'Jump', 'Call', 'PcHi'


def frames_list(rng):
    """A list of one object with frames."""
    number = rng.choice(LISTS)
    plans = [(number, rng.choice(sizes(number)[rng.randrange(3)]), rng.choice(ENDINGS)) for _ in range(rng.choice((1, 3)))]
    return [object_of_frames(rng, plans)]


def made_files(rng):
    """The files of a list of one of the kinds."""
    is_odd = rng.random() < 0.1
    kinds = (lambda: made_list(rng, is_odd), lambda: byte_list(rng), lambda: byte_list(rng), lambda: far_list(rng),
             lambda: frames_list(rng), lambda: tails_list(rng, is_odd), lambda: random_program(rng), lambda: shared_list(rng, is_odd))
    return rng.choice(kinds)()


class Case:
    """A list, a chip's map, names of fixed sections, an input and a plan with cells."""

    def __init__(self, rng):
        self.files, self.memory = made_files(rng), made_map(rng)
        if rng.random() < 0.7 and not gather_cause(self.files):
            self.memory = with_room(rng, self.memory, Symbols(self.objects(), self.memory).data.end - self.memory.data)
        self.given, self.cuts = random_bytes(rng, rng.choice((0, 5, 40))), made_cuts(rng, self.files, self.memory)
        self.words = some_words_of_map(rng, self.memory)
        self.names = () if gather_cause(self.files) else made_names(rng, self.objects())
        self.fixing = words_of_names(self.names)

    def objects(self):
        return [Object(data) for data in self.files]

    def traced(self):
        machine = Machine(self.objects(), self.given, self.memory)
        return Run(machine, run(machine, STEPS))

    def ran(self, image, _devices, interrupts, steps=STEPS, first=None):
        machine = zc_machine.Machine(image, self.given, self.memory)
        if first is not None:
            machine.start_by_chance(first)
        return Run(machine, zc_machine.run(machine, interrupts, steps))


# ---- the models


def counts_of(case, linked, traced):
    """What a case has, as the counts are named."""
    counts, word = linked.link.counts(), traced.line.split()
    yield f'{word[0]} {word[-1]}' if word[0] == 'stuck' else word[0], 1
    yield 'with a group', counts['push'] + counts['pop'] + counts['move'] > 0
    yield 'with a table', linked.link.table.size > 0
    yield 'with a fixed section', len(linked.link.code.fixed) > 0
    whole = link_of(case.files, case.memory._replace(extensions=EVERY), case.names).link
    for name, is_needed, has in zip(Extensions._fields, needed(whole.image(), whole.code), case.memory.extensions):
        yield f'without the {name} that all would use', is_needed and not has


def has_all_needed(case, linked, image):
    """The chip has each extension that the image needs."""
    wanted = needed(image, linked.link.code)
    if any(is_needed and not has for is_needed, has in zip(wanted, case.memory.extensions)):
        raise Differs(f'the image needs {wanted}, and the chip has {case.memory.extensions}')


def keeps_fixed(plain, link):
    """Fixed sections are as in the plain image, but for what holds an address or leads elsewhere."""
    texts, code = {it: it.text() for it in (plain, link)}, link.code
    for place, part in code.code_parts():
        align = max(4, part.section.align)
        if place not in code.fixed or any(code.item((*place, at)).kind == 'Align' and code.item((*place, at)).target > align
                                          for at in part.starts):
            continue
        starts = {it: it.addresses[(*place, 0)] for it in texts}
        if starts[link] % align:
            raise Differs(f'section {place} begins at {starts[link]:08x}')
        offsets = [*part.starts, part.section.size]
        for at, end in zip(offsets, offsets[1:]):
            if len({it.addresses[(*place, end)] - starts[it] for it in texts}) > 1:
                raise Differs(f'byte {end} of section {place} lies elsewhere')
            item = code.item((*place, at))
            is_same = not isinstance(item.target, tuple) or item.target[:3] == (CODE, *place) and item.kind in AWAY
            if is_same and len({bytes_of(it, texts[it], (*place, at), (*place, end)) for it in texts}) > 1:
                raise Differs(f'byte {at} of section {place} is another')


def bytes_of(link, text, place, end):
    """The bytes of a text from one place to another."""
    return text[link.addresses[place] - link.memory.text:link.addresses[end] - link.memory.text]


# ---- the program


class Calls:
    """Calls of the program, each in a folder of its own with the files of a case."""

    def __init__(self, program, place, case):
        self.program, self.place, self.case, self.count = program, place, case, 0

    def folder(self):
        """A new folder with the objects, and their names."""
        self.count += 1
        folder = Folder(self.program, os.path.join(self.place, str(self.count)))
        os.mkdir(folder.place)
        return folder, folder.write_list(self.case.files)

    def must_end(self, folder, words, wanted, **files):
        """A call ends so, and these files are then there."""
        ended = folder.run([words[0], *self.case.words, *self.case.fixing, *words[1:]], self.case.given)
        found = {name: folder.read(name) for name in files}
        if tuple(ended) != tuple(wanted) or found != files:
            raise Differs(f'{words}: {ended} in place of {wanted}, or other files')

    def refused(self, fault):
        """Each command names the fault, and writes nothing."""
        folder, names = self.folder()
        folder.write('plan', shared_plan_of(self.case.cuts))
        for words in (('plain', '--out', 'out'), ('zc', '--out', 'out', '--cert', 'cert'), ('trace',), ('gc', '--out', 'left'),
                      ('merge', '--out', 'left'), ('share', '--out', 'out', '--plan', 'plan')):
            files = {'out': None, 'cert': None, 'left0.o': None}
            self.must_end(folder, (*words, *names), (121, b'', told(fault) + b'\n'), **files)

    def links(self, plain, linked, images):
        """Both links and the listing of each image, in a folder that is given back."""
        folder, names = self.folder()
        self.must_end(folder, ('plain', '--out', 'plain', *names), (0, TEXT % plain.length(), b''), plain=images['plain'])
        self.must_end(folder, ('zc', '--out', 'small', '--cert', 'cert', *names), (0, report(linked), b''),
                      small=images['small'], cert=linked.certificate_text())
        for name, image in images.items():
            self.must_end(folder, ('list', name), (0, listed(image), b''))
        return folder, names

    def rewrites(self, counts):
        """What `gc` and `merge` write."""
        for rewriting in COLLECTING, MERGING:
            folder, _ = self.folder()
            words = *self.case.words, *self.case.fixing
            mine = rewriting._replace(memory=self.case.memory, names=self.case.names, words=words)
            wrong = mine.look(folder, self.case.files, counts)
            if wrong:
                raise Differs(f'{rewriting.command}: {wrong}')

    def shares(self):
        """A run under a shared plan."""
        folder, names = self.folder()
        folder.write('plan', shared_plan_of(self.case.cuts))
        wanted = share(self.case.files, shared_plan_of(self.case.cuts), self.case.given, STEPS, self.case.memory, self.case.names)
        words = ('share', '--out', 'out', '--plan', 'plan', '--steps', str(STEPS), *names)
        self.must_end(folder, words, wanted[:3], out=wanted.image)


def look(program, place, rng, counts):
    """Raises what differs in a case by chance, if anything does."""
    case = Case(rng)
    calls = program and Calls(program, place, case)
    fault = first_fault(case.files, case.memory, case.names)
    if fault:
        is_left = fault[1] == 15 and fault != first_fault(case.files, case.memory)
        counts['refused as too large' if fault[1] == 17 else 'refused as one leaves a fixed section' if is_left else 'refused'] += 1
        if calls:
            calls.refused(fault)
        return
    plain, linked = Plain(case.objects(), case.memory), link_of(case.files, case.memory, case.names)
    images = {'plain': plain.image(), 'small': linked.link.image()}
    has_all_needed(case, linked, images['small'])
    keeps_fixed(plain, linked.link)
    traced = case.traced()
    counts.update(dict(counts_of(case, linked, traced)))
    for image in images.values():
        for first in (None, rng.getrandbits(32)):
            events_agree(case, image, NO_DEVICES, [], traced, first)
    if calls:
        folder, names = calls.links(plain, linked, images)
        calls.must_end(folder, ('trace', '--steps', str(STEPS), *names), traced.ended())
        for name, image in images.items():
            calls.must_end(folder, ('run', '--steps', str(STEPS), name), case.ran(image, NO_DEVICES, []).ended())
        calls.rewrites(counts)
        calls.shares()


def main():
    words = argparse.ArgumentParser(description='Compares links for random chips with those of the models.')
    words.add_argument('--seed', type=int, default=1)
    words.add_argument('--count', type=int, default=1000)
    words.add_argument('--models', action='store_true')
    words.add_argument('program', nargs='?', default=programs.BUILT)
    given, counts = words.parse_args(), collections.Counter()
    program = None if given.models else programs.built(given.program)
    for seed in range(given.seed, given.seed + given.count):
        with tempfile.TemporaryDirectory() as place:
            try:
                look(program, place, random.Random(f'chips {seed}'), counts)
            except Differs as why:
                sys.exit(f'seed {seed}: {why}')
    print(f'{given.count} lists: ' + ', '.join(f'{count} {what}' for what, count in sorted(counts.items()) if count))


if __name__ == '__main__':
    main()
