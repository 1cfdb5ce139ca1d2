"""Compares what a command writes of lists of objects with what its model makes of them, and runs both.

A third of the lists are in a memory map by chance (memory_maps.py), and some sections of code are fixed by chance. Of a list that
has a fault the command must name the first, and where the result has one, the first of that; then no file is there. Otherwise the
objects, byte for byte, and the lines must be the model's. `trace` of these and the images that `zc` makes of them and of the given
ones must write what `trace` of the given ones does, and end in the same way, unless that is stuck or doesn't end.
"""
import argparse
import collections
import random
import subprocess
import sys
import tempfile
from typing import Callable, NamedTuple

from checks.harness import Folder
from object_faults import NAMES, Object, gather_cause, told
from memory_maps import made_map, made_names, some_words_of_map, words_of_names
from object_items import first_fault
from zcld_tools import programs
from zcld_tools.files import files_in
from zcld_tools.images import STANDARD, MemoryMap
from zcld_tools.programs import Ended

# The steps of a list by chance, and of a program that is known.
STEPS, STEPS_OF_KNOWN = 3000, 1_000_000
# As many commits as an image may need for a step.
COMMITS_OF_STEP = 64


class Known(NamedTuple):
    """A program that is known: its input, and how it ends."""

    given: bytes
    ended: Ended


class Rewriting(NamedTuple):
    """A command that writes objects again: its name, its model and the model's lines, how many steps an image of the result may take
    for one of the given objects', and the memory map and the names of fixed sections, with the words that give them."""

    command: str
    made: Callable
    lines: Callable
    steps: int = 1
    memory: MemoryMap = STANDARD
    names: tuple = ()
    words: tuple = ()

    def called(self, folder, names):
        """How the command ends with these files, and the objects that stand then."""
        ended = folder.run((self.command, *self.words, '--out', 'left', *names))
        return ended, {name: data for name, data in files_in(folder.place).items() if name.startswith('left')}

    def expected(self, files):
        """How it must end, the objects that must stand then, and what happened."""
        fault = first_fault(files, self.memory, self.names)
        if fault:
            return (121, b'', told(fault) + b'\n'), {}, 'refused'
        made = self.made(files, self.memory, self.names)
        result = [it.bytes() for it in made]
        fault = first_fault(result, self.memory, self.names)
        if fault:
            line = f'broken {fault[0]} {fault[1]} {NAMES[fault[1]]}\n'
            return (119, b'', line.encode()), {}, 'broken'
        return (0, self.lines(made), b''), {f'left{i}.o': data for i, data in enumerate(result)}, 'alike'

    def runs(self, folder, names, result, known):
        """How the given objects end, and what must end so: their image, the results, and the image of these."""
        given, steps = (known.given, STEPS_OF_KNOWN) if known else (subprocess.DEVNULL, STEPS)

        def traced(objects, times):
            return folder.run(('trace', *self.words, '--steps', str(times * steps), *objects), given)

        def ran(out, objects, times):
            folder.run(('zc', '--out', out, '--cert', 'cert', *self.words, *objects))
            return folder.run(('run', *self.words, '--steps', str(COMMITS_OF_STEP * times * steps + 3), out), given)
        return traced(names, 1), {'image': ran('given', names, 1), 'results': traced(result, self.steps),
                                  'image of the results': ran('out', result, self.steps)}

    def look(self, folder, files, counts, known=None):
        """Says what differs of a list, if anything does. It must be a program's that is known, if one is."""
        names = folder.write_list(files)
        ended, stands = self.called(folder, names)
        wanted, objects, what = self.expected(files)
        counts[what] += 1
        if ended != wanted:
            return f'{ended} in place of {wanted}'
        if stands != objects:
            return f'other objects: {[name for name in objects if stands.get(name) != objects[name]]} of {sorted(stands)}'
        if not objects:
            return what if known else None
        given, others = self.runs(folder, names, objects, known)
        if known and given != known.ended:
            return f'trace: {given} in place of {known.ended}'
        if given.status in (126, 127):
            return None
        counts['runs alike'] += 1
        return '; '.join(f'{name}: {given} became {ended}' for name, ended in others.items() if ended != given) or None

    def compare(self, about, made_list):
        """Compares random lists, and prints counts. It stops at the first difference with status 1."""
        words = argparse.ArgumentParser(description=about)
        words.add_argument('--seed', type=int, default=1)
        words.add_argument('--count', type=int, default=1000)
        words.add_argument('program', nargs='?', default=programs.BUILT)
        given, counts = words.parse_args(), collections.Counter()
        program = programs.built(given.program)
        for seed in range(given.seed, given.seed + given.count):
            source, rng = random.Random(seed), random.Random(f'map {seed}')
            memory = made_map(rng) if rng.random() < 0.3 else STANDARD
            files = made_list(source, source.random() < 0.15)
            names = () if gather_cause(files) else made_names(rng, [Object(data) for data in files])
            words = *some_words_of_map(rng, memory), *words_of_names(names)
            with tempfile.TemporaryDirectory() as place:
                wrong = self._replace(memory=memory, names=names, words=words).look(Folder(program, place), files, counts)
            if wrong:
                sys.exit(f'seed {seed}: {wrong}')
        print(f'{given.count} lists: ' + ', '.join(f'{count} {what}' for what, count in sorted(counts.items())))
