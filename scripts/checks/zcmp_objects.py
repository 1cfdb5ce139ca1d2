"""Objects of compilers that were told of Zcmp: their pushes, pops and moves as they are (RISC-V Zc specification 1.0, "Zcmp")."""
import random

import zcmp_examples as examples
from frame_plans import interrupts_of
from symbolic_machine import trace
from zc_machine import Machine, plan_of, run
from zcld_tools.images import TEXT_AT

# More steps than any program here makes.
STEPS = 100_000


def ends(group, what, folder, words, line, out=b''):
    """A run of an object or an image ends with a line."""
    status = int(line.split()[1]) if line.startswith('exited') else 126
    group.same(f'{what}: {words[0]}', folder.run(words), (status, out, line.encode() + b'\n'))


def ends_alike(group, what, files, status, out=b''):
    """Objects do this, and so do the images of both links, by themselves and interrupted after each access of their pushes and
    pops."""
    plainly, names = group.linked_plainly(what, files)
    small, line = group.linked_small(what, files), f'exited {status}'
    ends(group, what, plainly, ('trace', *names), line, out)
    for link, folder in (('plain', plainly), ('zc', small)):
        interrupts, _ = interrupts_of(random.Random(what), folder.read('out'))
        folder.write('plan', plan_of(interrupts))
        ends(group, f'{what}, {link}', folder, ('run', 'out'), line, out)
        ends(group, f'{what}, {link} interrupted', folder, ('run', '--plan', 'plan', 'out'), line, out)
        folder.remove()


def frames_of_objects(group):
    """objects with a push and a pop of every list at every adjustment, and each pair of moves: they and both images do what the
    standard says, interrupted after each access too"""
    for what, file, out in (*examples.each_frame(), *examples.each_move()):
        ends_alike(group, what, [file], examples.STATUS, out)
    for what, files, status in examples.led():
        ends_alike(group, what, files, status)


def traced(group, rows):
    """How `trace` of objects ends, which both links take."""
    folder = group.folder()
    for what, made, line in rows:
        file = made.bytes()
        folder.write('object', file)
        ends(group, what, folder, ('trace', 'object'), line)
        group.same(f'{what}: the model', trace([file], b'', STEPS), (b'', b'', line.encode()))


def linked(group, what, made):
    """The images of both links, each in its folder."""
    plainly, names = group.linked_plainly(what, [made.bytes()])
    return plainly, names, group.linked_small(what, [made.bytes()])


def frames_that_stop(group):
    """pushes and pops at the ends of the stack, misaligned, of words that are no addresses, reserved ones, and table jumps: where
    `trace` is stuck, and where images stop"""
    traced(group, (*examples.edges_of_stack(), *examples.odd_stacks(), *examples.no_instructions(), *examples.popped_words()))
    for what, made, line in examples.popped_words():
        plainly, _, small = linked(group, what, made)
        if line.startswith('exited'):
            ends(group, f'{what}, plain', plainly, ('run', 'out'), line)
            ends(group, f'{what}, zc', small, ('run', 'out'), line)
        plainly.remove()
        small.remove()
    for what, made, line, reason in examples.stops():
        plainly, names, small = linked(group, what, made)
        ends(group, what, plainly, ('trace', *names), line)
        at = TEXT_AT + int(line.split()[3])
        ends(group, f'{what}, plain', plainly, ('run', 'out'), f'stopped {reason} {at:08x}')
        stopped = run(Machine(small.read('out'), b''), [], STEPS)
        group.same(f'{what}, zc: the reason', stopped.rsplit(' ', 1)[0], f'stopped {reason}')
        ends(group, f'{what}, zc', small, ('run', 'out'), stopped)
        plainly.remove()
        small.remove()
