"""Groups of items that `zc` writes as a push, a pop or a move, and what is nearly one (RISC-V Zc specification 1.0, "Zcmp")."""
import random

import frame_examples
import frame_plans
import plain_examples
from groups import groups_of
from object_faults import Object
from object_items import Code
from zc_machine import plan_of
from zcld_tools.images import STACK_HIGH, text_of

from checks.c_programs import FOLDERS, STATUSES, input_of, objects_of, read

# More commits than any program below examples/ makes.
MOST = 170_000


def check_groups(group, what, made, forms):
    """The image of an object, and that its groups are these: by the model, and so by the image."""
    file = made.bytes()
    group.same(f'{what}: the groups', [it.form for it in groups_of(Code([Object(file)])).values()], forms)
    group.linked_small(what, [file]).remove()


def pushes_and_moves(group):
    """pushes, pops and moves byte for byte, of every list, size and kind, and how many commits they are"""
    for what, made, written in frame_examples.written():
        text = text_of(group.linked_small(what, [made.bytes()]).read('out'))
        group.same(what, text[:len(written) // 2].hex(), written)
    for row in (*frame_examples.each_frame(), frame_examples.each_move()):
        check_groups(group, *row)
    folder = group.linked_small('hello', plain_examples.hello())
    group.exits('hello, 11 commits', folder.run(('run', '--steps', '11', 'out')), 0, b'hi\n')
    group.same('hello, 10 commits', folder.run(('run', '--steps', '10', 'out')), (127, b'hi\n', b'spent\n'))


def nearly_pushes(group):
    """what is nearly a push, a pop or a pair of moves: slots, frames, registers and words that are wrong, basic blocks that begin
    inside, and relocations"""
    for row in frame_examples.nearly():
        check_groups(group, *row)


def interrupted_frames(group):
    """frames of every list and kind under interrupts after each access of their pushes and pops, which may stand in their objects
    already: images of both links against these objects"""
    for number in range(60):
        case = frame_plans.Case('check', number)
        what = f'case {number}, {case.what}'
        group.same(f'{what}: pushes and pops', case.found['zc'], case.wanted)
        plainly, names = group.linked_plainly(what, [case.file])
        traced = plainly.run(('trace', *names))
        group.same(f'{what}: exits', b'exited ' in traced.err, True)
        for link, folder in (('plain', plainly), ('zc', group.linked_small(what, [case.file]))):
            folder.write('plan', case.plans[link])
            group.same(f'{what}, {link}', folder.run(('run', '--plan', 'plan', 'out')), traced)
            folder.remove()


def plan_of_every_commit(rng, commits):
    """A plan that interrupts before each of this many commits. Bytes are written where frames lie, as far as these are below
    sp."""
    return plan_of((commit, rng.sample(range(13), rng.randrange(6)),
                    [(STACK_HIGH - 1 - rng.randrange(512), rng.randrange(256)) for _ in range(2)]) for commit in range(commits))


def interrupted_c_programs(group):
    """programs that C compilers made, interrupted at every commit: the same output and status"""
    plan = plan_of_every_commit(random.Random('every commit'), MOST)
    for program, status in STATUSES.items():
        for compiler in FOLDERS:
            what = f'{program} by {compiler}'
            folder = group.linked_small(what, objects_of(program, compiler))
            folder.write('plan', plan)
            ended = folder.run(('run', '--steps', str(MOST), '--plan', 'plan', 'out'), input_of(program))
            group.exits(what, ended, status, read(program, 'output'))
