"""Programs that C compilers made, below examples/."""
import os

import plain_examples
from zcld_tools import TOP, files

from checks.harness import runs_of

EXAMPLES = os.path.join(TOP, 'examples')
COMPILERS = ('gcc', 'clang')
# The folders of a program's objects: of each compiler, of each with compressed code, and of Clang for Zcmp.
ZCMP = 'clang-zcmp'
FOLDERS = (*COMPILERS, 'gcc-compressed', 'clang-compressed', ZCMP)
# Those of the monitor with all functions of a file in one section.
ONE_SECTION = ('gcc-one', 'clang-compressed-one')
STATUSES = {'monitor': 2, 'events': 0, 'numbers': 42}


def read(*names):
    """The bytes of a file below examples/."""
    return files.read(os.path.join(EXAMPLES, *names))


def objects_of(program, folder, firmware=None):
    """The objects of a program in one of its folders, with the firmware of the same or of another one, but for what the program
    has of its own under the same name."""
    places = {name: names for names in (('firmware', firmware or folder), (program, folder))
              for name in sorted(os.listdir(os.path.join(EXAMPLES, *names)))}
    return [read(*names, name) for name, names in places.items()]


def input_of(program):
    return read(program, 'input') if os.path.exists(os.path.join(EXAMPLES, program, 'input')) else b''


def c_programs(group):
    """programs that C compilers made, with compressed code, without and in part, and for Zcmp: the same output and status as
    objects and as images of both links"""
    mixed = [*((f'{compiler}-compressed', compiler) for compiler in COMPILERS), (ZCMP, 'clang')]
    for program, status in STATUSES.items():
        given = input_of(program)
        for folder, firmware in (*zip(FOLDERS, FOLDERS), *mixed, *(it[::-1] for it in mixed)):
            what, objects = f'{program} by {folder} with firmware by {firmware}', objects_of(program, folder, firmware)
            plainly, names = group.linked_plainly(what, objects)
            out = read(program, 'output')
            group.both_exit(what, plainly, names, status, out, given)
            small = group.linked_small(f'{what}, zc', objects)
            group.exits(f'{what}, made smaller', small.run(('run', 'out'), given), status, out)
    for compiler in COMPILERS:
        what, objects = f'sections by {compiler}', [plain_examples.calls_of_sum(), read(f'sections-{compiler}.o')]
        plainly, names = group.linked_plainly(what, objects)
        for machine, ended in runs_of(plainly, group.linked_small(f'{what}, zc', objects), names):
            group.exits(f'{what}: {machine}', ended, 40)
