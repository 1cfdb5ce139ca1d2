#!/usr/bin/env python3
"""Calls all commands but `gc` and `merge` with mutated objects, lists, images, devices, plans, certificates and words.

    fuzz/campaign.py [--seed S] [--compare N] [--look N] [--seconds T] [--jobs N] [--only CASE] [--limit T] [--keep FOLDER]
                     [PROGRAM]

PROGRAM is build/zcld if none is given. A case is fixed by the seed, by whether it is compared or looked at, and by its number.
It takes files of the corpus, or makes some, and mutates them or not: the objects in examples/, those that the other scripts
here make, compressed ones among them, the images of both links, texts of devices, plans and certificates, and lists of words
that scripts/checks has.

N cases are compared with the models: `plain` and `zc` with plain_link.py, zc_link.py and size_report.py, their refusals
and those of `trace` and `share` with object_items.py, all with the memory map and the names that the words give
(memory_maps.py), `trace` with symbolic_machine.py, `run` of an image that wasn't mutated with zc_machine.py, both with
devices by devices.py, `share` and faults of plans with shared_cells.py, `list` of such an image with listing.py,
`check` with certificates.py, words with `is_command` below, and `make` with made_load.py; a file that is too long is a
read fault. Of N more cases only this is looked at: the call ends by itself within the limit of seconds of elapsed time,
and its status has its line at the end of standard error (docs/FORMATS.md, "Messages on standard error, and the
status").

Half of T seconds at most goes to cases that are compared, if both are asked for. N processes share the cases, one if none is
given; files of calls are in the system's folder for these ($TMPDIR), and calls end sooner if that is in memory. It prints how
many calls came to what. The status is 1 if a case failed. FOLDER then has its files.
"""
import argparse
import collections
import functools
import glob
import multiprocessing
import os
import random
import re
import shlex
import sys
import tempfile
import time

sys.path[:0] = (os.path.join(os.path.dirname(os.path.abspath(__file__)), os.pardir, it) for it in ('scripts', 'models'))

import made_load
import zc_machine
from certificates import answer, made_text
from checks import driven
from checks.plans import BAD_LINES, BAD_TEXTS, PLANS
from checks.words import COMMANDS, NO_COMMANDS
from device_programs import Driver, Found, made_lines
from devices import NO_DEVICES, devices_fault, devices_text, read_devices
from far_lists import far_list
from frame_plans import made_object as object_of_frames
from fuzz import IMAGE_LIMIT, MUTATIONS, OBJECT_LIMIT, made_object
from groups import LISTS
from made_frames import ENDINGS, sizes
from listing import listed
from made_objects import made_list, made_program
from memory_maps import (FIXED, OPTIONS, WORDS, lies_in, made_map, made_names, map_in, names_in, some_words_of_map, words_of_map,
                         words_of_names)
from object_faults import Object, gather_cause, told
from object_items import first_fault
from plain_link import plain as plain_of
from shared_cells import PLAN_TITLE, SHARED_TITLE, plan_fault, share as shared_run
from shared_programs import shared_list
from size_report import left_by_zc
from symbolic_machine import trace as trace_of
from zcld_tools import TOP, programs
from zcld_tools.files import files_in, random_bytes, read, read_all, write
from zcld_tools.images import STANDARD
from zcld_tools.programs import Failed

TITLE = PLAN_TITLE + b'\n'
STEPS, STEPS_LOOKED_AT, BY_OBJECTS, RUNS = '2000', '50000', ('plain', 'zc', 'trace', 'share'), ('run', 'trace', 'share')
# The commands, as often as they are called.
OFTEN = ('plain', 'zc', 'trace', 'run', 'run', 'share', 'list', 'check', 'words') * 6 + ('make',)

# For each status of the program itself: its lines, and the commands that have them.
LINES = ((0, r'', ('plain', 'zc', 'check', 'make', 'list')), (120, r'usage\n', None),
         (121, r'refused \d+ \d+ [A-Z]\w+(?s:.*)\n', BY_OBJECTS),
         (122, r'read fault\n', (*BY_OBJECTS, 'run', 'check', 'list')), (123, r'write fault\n', None),
         (124, r'out of memory\n', None), (125, r'bad image [1-4]\n', ('run', 'list')),
         (125, r'bad devices line \d+\n', ('run', 'trace')), (125, r'bad plan (line|order) \d+\n', ('run', 'share')),
         (125, r'(bad certificate line \d+|rejected)\n', ('check',)),
         (126, r'stopped [1-5] [A-Z]\w+ [0-9a-f]{8}\n', ('run', 'share')),
         (126, r'stuck \d+ \d+ \d+ [1-9] [A-Z]\w+\n', ('trace', 'make')), (127, r'spent\n', (*RUNS, 'make')))


# ---- what the models say


# Each command: its options, those that it must have, and how many other words it takes, at least and at most.
MAP = *OPTIONS, FIXED
GIVEN = {'plain': ((*MAP, '--out'), ('--out',), 1, None),
         'zc': ((*MAP, '--out', '--cert'), ('--out', '--cert'), 1, None),
         'run': ((*MAP, '--devices', '--plan', '--steps'), (), 1, 1),
         'trace': ((*MAP, '--devices', '--steps'), (), 1, None), 'check': ((), (), 1, 1),
         'share': ((*MAP, '--out', '--plan', '--steps'), ('--out', '--plan'), 1, None), 'list': (MAP, (), 1, 1),
         'make': (('--out',), (), 2, 2)}


def is_number(word, most):
    return re.fullmatch('[0-9]{1,20}', word) is not None and int(word) <= most


def is_command(words):
    """Whether words spell a command (docs/FORMATS.md, "The command line")."""
    if not words or words[0] not in GIVEN:
        return False
    options, needed, least, most = GIVEN[words[0]]
    values, others, rest = {}, [], list(words[1:])
    while rest:
        word = rest.pop(0)
        name, is_joined, value = word.partition('=')
        if word == '--':
            others, rest = others + rest, []
        elif word == '-' or not word.startswith('-'):
            others.append(word)
        elif name not in options or name in values:
            return False
        elif is_joined:
            values[name] = value
        elif not rest or rest[0].startswith('-') and rest[0] != '-':
            return False
        else:
            values[name] = rest.pop(0)
    return (all(name in values for name in needed) and least <= len(others) <= (most or len(others))
            and is_number(values.get('--steps', '0'), 10**9) and map_in(values) is not None
            and names_in(values.get(FIXED, '.text')) is not None
            and (words[0] != 'zc' or values['--out'] != values['--cert'])
            and (words[0] != 'make' or is_number(others[0], (1 << 64) - 1) and is_number(others[1], 1600)))


# ---- the corpus


class Corpus:
    """Lists of objects, and their images, which cases begin with."""

    def __init__(self):
        examples = os.path.join(TOP, 'examples')
        lists = [glob.glob(os.path.join(examples, program, compiler, '*.o')) + glob.glob(
            os.path.join(examples, 'firmware', compiler, '*.o'))
                 for program in ('monitor', 'events', 'numbers') for compiler in ('gcc', 'clang')]
        self.lists = [read_all(sorted(paths)) for paths in lists] + [[read(os.path.join(examples, 'exit3.o'))]]
        self.images = [image for files in self.lists for image in (plain_of(files)[0], left_by_zc(files).image)]

    def objects(self, rng):
        """A list of objects that has no fault, most likely."""
        which = rng.randrange(10)
        if which < 2:
            files = list(rng.choice(self.lists))
            if rng.random() < 0.3:
                files.insert(rng.randrange(len(files) + 1), made_object(rng, rng.random() < 0.5, False))
            return files
        if which < 5:
            return made_list(rng, rng.random() < 0.5)
        if which < 8:
            return [made_object(rng, rng.random() < 0.5, k == 0) for k in range(rng.choice((1, 1, 2, 3)))]
        if which < 9:
            return far_list(rng)
        number = rng.choice(LISTS)
        return [object_of_frames(rng, [(number, rng.choice(sizes(number)[rng.randrange(3)]), rng.choice(ENDINGS))])]

    def image(self, rng, memory=STANDARD):
        """An image of a link for a map, or for the standard one if the objects that were taken have a fault."""
        if memory == STANDARD and rng.random() < 0.5:
            return rng.choice(self.images)
        files = self.objects(rng)
        if first_fault(files, memory):
            return rng.choice(self.images)
        return plain_of(files, memory)[0] if rng.random() < 0.5 else left_by_zc(files, memory).image


class Pool(Corpus):
    """A corpus whose lists and images are made once, since no model needs to know more of them."""

    def __init__(self, seed):
        super().__init__()
        rng = random.Random(f'pool {seed}')
        self.pool = self.lists + [super(Pool, self).objects(rng) for _ in range(120)]
        self.images += [super(Pool, self).image(rng) for _ in range(30)]

    def objects(self, rng):
        return list(rng.choice(self.pool))

    def image(self, rng, memory=STANDARD):
        return rng.choice(self.images)


def mutated(rng, data, most=3):
    """A file with some mutations of fuzz.py."""
    made = bytearray(data)
    for _ in range(rng.randrange(1, most + 1)):
        rng.choice(MUTATIONS)(rng, made)
    return bytes(made)


def interrupt(rng, stack):
    """A line of a plan, in few words: bytes are written at the end of a stack."""
    words = [f'a{rng.randrange(14)}' for _ in range(rng.choice((0, 0, 1, 3)))]
    words += [f'd{stack - 256 + rng.randrange(256):08x}:{rng.randrange(256):02x}' for _ in range(rng.choice((0, 1, 4)))]
    return ''.join(' ' + word for word in words)


def plan(rng, stack):
    """The text of a plan, or of none."""
    which = rng.randrange(6)
    if which == 0:
        return TITLE + rng.choice(PLANS).encode() + b'\n'
    if which == 1:
        return TITLE + rng.choice(BAD_LINES).encode('latin-1') + b'\n'
    if which == 2:
        return rng.choice(BAD_TEXTS)[0]
    commits = sorted(rng.randrange(rng.choice((5, 200, 3000))) for _ in range(rng.choice((0, 1, 5, 60))))
    text = TITLE + ''.join(f'cut {at}{interrupt(rng, stack)}\n' for at in commits).encode()
    return text if rng.random() < 0.6 else with_slip(rng, text)


def shared_plan(rng, memory):
    """The same with a shared plan's first line, and with cells at the start of data in some lines."""
    title, *lines = plan(rng, memory.stack_high).split(b'\n')
    for k, line in enumerate(lines):
        for _ in range(rng.choice((0, 1, 3)) if line else 0):
            lines[k] += b' s%08x:%02x' % (memory.data + rng.randrange(-1, 300), rng.randrange(256))
    return b'\n'.join((title.replace(PLAN_TITLE, SHARED_TITLE), *lines))


def devices(rng, memory):
    """The text of devices, or of none, and what a program finds of them."""
    which = rng.randrange(8)
    lines = made_lines(rng, memory)
    found = Found(lines, memory)
    if which == 0:
        return driven.text_of(rng.choice(driven.TEXTS)), found
    if which == 1:
        return driven.text_of(rng.choice(driven.BAD_LINES)), found
    if which == 2:
        return rng.choice(driven.BAD_TEXTS)[0], found
    text = devices_text(lines)
    return text if rng.random() < 0.8 else with_slip(rng, text), found


def with_slip(rng, text):
    """A text with a byte or some that are changed, added, left out, or doubled."""
    at, size = rng.randrange(len(text) + 1), rng.choice((1, 1, 2, 9))
    added = rng.choice((b'\n', b' ', b'0', b'cut ', b' a1', b'\r', b'\0', b':', random_bytes(rng, size), text[at:at + size]))
    return text[:at] + added + text[at + rng.choice((0, 0, len(added), size)):]


def words_by_chance(rng):
    """A list of words that spell a command or nearly do. No list asks for a program of more than 20 functions."""
    lines = [line.split(' ') for line in NO_COMMANDS] + [line.split(' ') for line, _ in COMMANDS]
    words = list(rng.choice(lines))
    several = sorted({word for line in lines for word in line} | {'0', '007', '1000000000', '18446744073709551615', '--steps=3',
                                                                  '--plan', '--plan=p', '--devices', '--devices=v',
                                                                  '--cert=c', '\n', 'é', 'a' * 300,
                                                                  *addresses_by_chance(rng)})
    for _ in range(rng.choice((0, 1, 1, 2, 3))):
        at = rng.randrange(len(words) + 1)
        words[at:at + rng.choice((0, 0, 1))] = rng.choice(([], [rng.choice(several)], words[at:at + 1] * 2))
    return words


def addresses_by_chance(rng):
    """Options of a map that is valid or nearly so, together and as single words."""
    words = words_of_map(made_map(rng))
    if rng.random() < 0.5:
        at = rng.randrange(0, 10, 2) + 1
        words[at] = rng.choice((words[at].upper(), words[at][1:], '0' + words[at], f'{rng.getrandbits(32):08x}', '0x000000', '',
                                *WORDS, 'zcb', 'zca_', 'zca_zcmp_zcb', 'rv32imc'))
    return [*words, *map('='.join, zip(words[::2], words[1::2]))]


# ---- calls


class Case:
    """A call, with the files that it takes, and what is to be compared."""

    def __init__(self, corpus, mode, seed, number):
        rng = random.Random(f'{mode} {seed} {number}')
        self.is_compared, self.command, self.files = mode == 'compare', rng.choice(OFTEN), {}
        self.steps = STEPS if self.is_compared else STEPS_LOOKED_AT
        self.given, self.words = rng.choice((b'', b'input', random_bytes(rng, rng.randrange(40)))), []
        self.memory, self.names = made_map(rng) if rng.random() < 0.3 else STANDARD, ()
        getattr(self, f'take_{"objects" if self.command in BY_OBJECTS else self.command}')(rng, corpus)

    def take_objects(self, rng, corpus):
        files = shared_list(rng, rng.random() < 0.5) if self.command == 'share' and rng.random() < 0.7 else corpus.objects(rng)
        for _ in range(rng.choice((0, 0, 1, 1, 2))):
            k = rng.randrange(len(files))
            files[k] = mutated(rng, files[k])
        if rng.random() < 0.1:
            files.insert(rng.randrange(len(files) + 1), rng.choice(files))
        if rng.random() < 0.1:
            rng.shuffle(files)
        self.objects = files
        self.files = {f'{k}.o': data for k, data in enumerate(files)}
        if rng.random() < 0.2 and not gather_cause(files):
            self.names = made_names(rng, [Object(data) for data in files])
        fixing = words_of_names(self.names)
        if self.command == 'share':
            self.words = ['share', *some_words_of_map(rng, self.memory), *fixing, '--out', 'out', '--plan', 'plan', '--steps',
                          self.steps, *self.files]
            self.files['plan'] = shared_plan(rng, self.memory)
            return
        options = {'plain': ('--out', 'out'), 'zc': ('--out', 'out', '--cert', 'cert'), 'trace': ('--steps', self.steps)}
        if self.command == 'trace' and rng.random() < 0.3:
            text, found = devices(rng, self.memory)
            if rng.random() < 0.7:
                self.take_driver(rng, found)
            options['trace'] += '--devices', 'devices'
        self.words = [self.command, *some_words_of_map(rng, self.memory), *fixing, *options[self.command], *self.files]
        if 'devices' in self.words:
            self.files['devices'] = text

    def take_driver(self, rng, found):
        """Takes objects that access devices."""
        made = made_program(rng, rng.random() < 0.1, functools.partial(Driver, found))
        self.objects = [read.bytes() for read in made.objects]
        self.files = {f'{k}.o': data for k, data in enumerate(self.objects)}

    def take_run(self, rng, corpus):
        image, self.is_whole = corpus.image(rng, self.memory), rng.random() < (0.7 if self.is_compared else 0.2)
        if rng.random() < 0.1:
            self.memory = made_map(rng)
        self.files = {'image': image if self.is_whole else mutated(rng, image)}
        if rng.random() < 0.5:
            self.files['plan'] = plan(rng, self.memory.stack_high)
        if rng.random() < 0.3:
            self.files['devices'], found = devices(rng, self.memory)
            if rng.random() < 0.7 and self.is_whole:
                self.take_image_of_driver(rng, found)
        texts = [word for name in ('plan', 'devices') if name in self.files for word in (f'--{name}', name)]
        self.words = ['run', *some_words_of_map(rng, self.memory), *texts, '--steps', self.steps, 'image']

    def take_image_of_driver(self, rng, found):
        """Takes the image of objects that access devices, if it can be linked."""
        files = [read.bytes() for read in made_program(rng, False, functools.partial(Driver, found)).objects]
        if first_fault(files, self.memory) is None:
            is_plain = rng.random() < 0.5
            self.files['image'] = plain_of(files, self.memory)[0] if is_plain else left_by_zc(files, self.memory).image

    def take_list(self, rng, corpus):
        image, self.is_whole = corpus.image(rng, self.memory), rng.random() < (0.7 if self.is_compared else 0.2)
        if rng.random() < 0.1:
            self.memory = made_map(rng)
        self.files = {'image': image if self.is_whole else mutated(rng, image)}
        self.words = ['list', *some_words_of_map(rng, self.memory), 'image']

    def take_check(self, rng, _):
        text = made_text(rng)
        self.files = {'cert': mutated(rng, text) if rng.random() < 0.2 else text}
        self.words = ['check', 'cert']

    def take_make(self, rng, _):
        self.words = ['make', str(rng.getrandbits(64)), str(rng.randrange(8 if self.is_compared else 60))]

    def take_words(self, rng, corpus):
        self.words = words_by_chance(rng)
        self.files = dict(zip(('x.o', 'y.o', 'i', 'c', 'p', 'v'), (*corpus.lists[-1] * 2, corpus.images[-1], programs.CERTIFICATE,
                                                                   TITLE, devices_text(()))))

    def call(self, program, folder, limit):
        programs.TIME_OUT = limit
        for name, data in self.files.items():
            write(os.path.join(folder, name), data)
        return programs.run([program, *self.words], self.given, cwd=folder)

    def kind(self, ended):
        """What the call came to, by the line at the end of standard error. Without one that its status may have, it failed."""
        err = ended.err.decode('latin-1')
        command = self.words[0] if self.words else ''
        if ended.status <= 118 and ended.status >= 0 and command in RUNS:
            found = re.search(r'(?:exited) (\d+)\n\Z', err)
            if found and min(int(found[1]), 118) == ended.status and int(found[1]) < 256:
                return 'exited'
        for status, line, commands in LINES:
            found = re.search(line + r'\Z', err)
            if status == ended.status and found and (commands is None or command in commands):
                if line == '' and err or command not in RUNS and found.start():
                    break
                return 'done' if line == '' else re.sub(r' [0-9a-f]{8}$|(?<=line|rder) \d+$', '', name_of(found[0]))
        raise Failed(f'signal {-ended.status}' if ended.status < 0 else f'status {ended.status} with {ended.err[-200:]!r}')

    # what is compared

    def compare(self, ended, folder):
        if any(len(data) > (OBJECT_LIMIT if self.command in BY_OBJECTS and name not in ('plan', 'devices') else IMAGE_LIMIT)
               for name, data in self.files.items()):
            self.wanted(ended, 122, b'', b'read fault\n')
        else:
            getattr(self, f'compare_{self.command}', self.compare_link)(ended, files_in(folder))

    def wanted(self, ended, status, out, line):
        """The call ended so."""
        if ended != (status, out, line):
            raise Failed(f'{self.command} ends with {ended}, and the model with {(status, out, line)!r}')

    def is_refused(self, ended, left):
        """The objects have a fault, which is named, and nothing was written."""
        fault = first_fault(self.objects, self.memory, self.names)
        if fault:
            self.wanted(ended, 121, b'', told(fault) + b'\n')
            if set(left) - set(self.files):
                raise Failed(f'refused, but there are {sorted(left)}')
        return fault is not None

    def compare_link(self, ended, left):
        if self.is_refused(ended, left):
            return
        if self.command == 'plain':
            image, length = plain_of(self.objects, self.memory)
            self.wanted(ended, 0, b'plain text %d\n' % length, b'')
            files = {'out': image}
        else:
            image, cert, report = left_by_zc(self.objects, self.memory, self.names)
            self.wanted(ended, 0, report, b'')
            files = {'out': image, 'cert': cert}
        for name, data in {**self.files, **files}.items():
            if left.get(name) != data:
                raise Failed(f'the file {name} is another')

    def compare_trace(self, ended, left):
        if not self.is_refused(ended, left) and not self.has_bad_devices(ended):
            out, err, line = trace_of(self.objects, self.given, int(STEPS), self.memory, self.devices())
            self.wanted(ended, status_of(line), out, err + line + b'\n')

    def devices(self):
        return read_devices(self.files['devices'], self.memory) if 'devices' in self.files else NO_DEVICES

    def has_bad_devices(self, ended):
        """The text of devices has a fault, which is named."""
        fault = devices_fault(self.files.get('devices', devices_text(())), self.memory)
        if fault:
            self.wanted(ended, 125, b'', f'bad devices {fault}\n'.encode())
        return fault is not None

    def compare_run(self, ended, _):
        fault = plan_fault(self.files.get('plan', TITLE), PLAN_TITLE)
        if not self.is_whole:
            return
        if not lies_in(self.files['image'], self.memory):
            self.wanted(ended, 125, b'', b'bad image 3\n')
            return
        if self.has_bad_devices(ended):
            return
        if fault:
            self.wanted(ended, 125, b'', f'bad plan {fault}\n'.encode())
            return
        machine = zc_machine.Machine(self.files['image'], self.given, self.memory, self.devices())
        line = zc_machine.run(machine, zc_machine.plan_in(self.files.get('plan', TITLE)), int(STEPS)).encode()
        self.wanted(ended, status_of(line), machine.written[1], machine.written[2] + line + b'\n')

    def compare_share(self, ended, left):
        model = shared_run(self.objects, self.files['plan'], self.given, int(STEPS), self.memory, self.names)
        self.wanted(ended, *model[:3])
        if {**left, 'out': left.get('out')} != {**self.files, 'out': model.image}:
            raise Failed(f'other files are there: {sorted(left)}')

    def compare_list(self, ended, _):
        if not self.is_whole:
            return
        image = self.files['image']
        if lies_in(image, self.memory):
            self.wanted(ended, 0, listed(image), b'')
        else:
            self.wanted(ended, 125, b'', b'bad image 3\n')

    def compare_check(self, ended, _):
        said = answer(self.files['cert']).encode() + b'\n'
        if said.startswith(b'net '):
            self.wanted(ended, 0, said, b'')
        else:
            self.wanted(ended, 125, b'', said)

    def compare_make(self, ended, _):
        self.wanted(ended, 0, made_load.summary(*map(int, self.words[1:])), b'')

    def compare_words(self, ended, left):
        if is_command(self.words) == (ended.status == 120 and ended.err == b'usage\n'):
            raise Failed(f'{shlex.join(self.words)} ends with {ended}')
        if ended.status == 120 and left != self.files:
            raise Failed(f'usage, but there are {sorted(left)}')


def status_of(line):
    """The status that goes with a line of `run` or `trace`."""
    word, *rest = line.split()
    return min(118, int(rest[0])) if word == b'exited' else {b'stuck': 126, b'stopped': 126, b'spent': 127}[word]


def name_of(line):
    """A line without numbers that tell of a place, and without the name of a symbol."""
    return re.sub(r'^(refused|stuck|stopped) [\d ]+(\w+)(?s:.*)$', r'\1: \2', line.rstrip('\n'))


# ---- the run


class Campaign:
    """The counts of how calls ended, and the cases that failed."""

    def __init__(self, program, given):
        self.program, self.given = program, given
        self.counts, self.made, self.wrong, self.slowest = collections.Counter(), collections.Counter(), 0, (0, '')

    def make(self, mode, corpus, number):
        case = Case(corpus, mode, self.given.seed, number)
        with tempfile.TemporaryDirectory() as folder:
            try:
                begun = time.monotonic()
                ended = case.call(self.program, folder, self.given.limit)
                self.slowest = max(self.slowest, (time.monotonic() - begun, f'{mode} {number}'))
                self.counts[case.command, case.kind(ended)] += 1
                if case.is_compared:
                    case.compare(ended, folder)
            except Failed as why:
                self.wrong += 1
                print(f'WRONG: {mode} {number}, {shlex.join(case.words)[:200]}: {str(why)[:1000]}; '
                      f'files: {self.keep(case, mode, number)}', flush=True)
        self.made[mode] += 1

    def keep(self, case, mode, number):
        folder = os.path.join(self.given.keep, f'campaign-{mode}-{self.given.seed}-{number}')
        os.makedirs(folder, exist_ok=True)
        for name, data in {**case.files, 'input': case.given, 'words': shlex.join(case.words).encode()}.items():
            write(os.path.join(folder, name), data)
        return folder

    def all(self, mode, corpus, numbers, seconds):
        end = time.monotonic() + seconds
        for number in numbers:
            if time.monotonic() > end:
                break
            self.make(mode, corpus, number)

    def add(self, other):
        """Adds the counts of another one."""
        self.counts.update(other.counts)
        self.made.update(other.made)
        self.wrong, self.slowest = self.wrong + other.wrong, max(self.slowest, other.slowest)

    def say(self, seconds):
        print(f'seed {self.given.seed}: {self.made["compare"]} calls compared and {self.made["look"]} looked at in '
              f'{seconds:.0f} s, the longest {self.slowest[0] * 1000:.0f} ms by the clock ({self.slowest[1]})')
        for (command, kind), count in sorted(self.counts.items()):
            print(f'{command:6} {kind:32} {count:8}')
        print(f'{self.wrong} wrong')


def share(program, given, job):
    """The campaign of one of the processes: of each kind the cases with its number, and then every N-th."""
    campaign, begun = Campaign(program, given), time.monotonic()

    def numbers(count):
        return range(job, count, given.jobs) if given.only is None else (given.only,)

    if given.compare:
        campaign.all('compare', Corpus(), numbers(given.compare), given.seconds / 2 if given.look else given.seconds)
    if given.look:
        campaign.all('look', Pool(given.seed), numbers(given.look), given.seconds - (time.monotonic() - begun))
    return campaign


def main():
    arguments = argparse.ArgumentParser(description='Calls all commands with mutated files and words.')
    arguments.add_argument('program', nargs='?', default=programs.BUILT)
    arguments.add_argument('--seed', type=int, default=1)
    arguments.add_argument('--compare', type=int, default=1000, metavar='N')
    arguments.add_argument('--look', type=int, default=1000, metavar='N')
    arguments.add_argument('--seconds', type=float, default=600)
    arguments.add_argument('--jobs', type=int, default=1, metavar='N')
    arguments.add_argument('--only', type=int, help='one case of each, by its number')
    arguments.add_argument('--limit', type=float, default=20, help='the seconds by the clock that a call may take')
    arguments.add_argument('--keep', default=os.path.join('build', 'fuzz'))
    given = arguments.parse_args()
    given.jobs = given.jobs if given.only is None else 1
    begun, program = time.monotonic(), programs.built(given.program)
    campaign = Campaign(program, given)
    with multiprocessing.Pool(given.jobs) as pool:
        for part in pool.starmap(share, [(program, given, job) for job in range(given.jobs)]):
            campaign.add(part)
    campaign.say(time.monotonic() - begun)
    return campaign.wrong > 0


if __name__ == '__main__':
    sys.exit(main())
