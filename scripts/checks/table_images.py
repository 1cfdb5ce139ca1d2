"""Images with a jump table, byte for byte, and that they do what their objects do, under interrupts too (RISC-V Zc specification
1.0, "Zcmt")."""
import random

import plain_examples
import table_examples
from certificates import read_certificate
from zc_link import zc as zc_of
from zc_machine import Machine, run
from zcld_tools.images import TEXT_AT, text_of

from checks.pushes import plan_of_every_commit

# More steps than any of the programs takes.
STEPS = 100_000


def entry_of(image):
    return int.from_bytes(image[24:28], 'little')


def check_table(group, what, files):
    """The image and the certificate of a list. The image's run does what its objects do, with interrupts before each commit too,
    and takes as many commits as that of the model's image. Gives the folder with both."""
    folder = group.linked_small(what, files)
    names = [f'file{k}' for k in range(len(files))]
    machine = Machine(zc_of(files)[0], b'')
    line = run(machine, [], STEPS).encode() + b'\n'
    group.same(f'{what}: trace', folder.run(('trace', *names)).err, line)
    folder.write('plan', plan_of_every_commit(random.Random(what), machine.commits))
    for planned in ((), ('--plan', 'plan')):
        for steps, end in ((machine.commits, line), (machine.commits - 1, b'spent\n')):
            ended = folder.run(('run', *planned, '--steps', str(steps), 'out'))
            group.same(f'{what}, {steps} commits {" ".join(planned)}', (ended.out, ended.err), (b'', end))
    return folder


def check_worked_example(group):
    """The table with a single slot whose bytes are worked out by hand."""
    what, files = 'jump table', plain_examples.jump_table()
    folder = check_table(group, what, files)
    image, certificate = folder.read('out'), folder.read('cert')
    text = text_of(image)
    group.same(f'{what}: the text', len(text), 4466)
    # the slot, the stub, and the first of the jumps
    group.same(f'{what}: the front', text[:16].hex(), '10000100' 'b7020100' '73907201' '6f10e013')
    group.same(f'{what}: a jump', text[0x114A:0x114C].hex(), '02a0')
    group.same(f'{what}: the entry', entry_of(image), TEXT_AT + 4)
    group.same(f'{what}: the certificate', certificate,
               b'zcld certificate 1\nsaving 0 1 0 20 0\nslot 1\nprice 0 0 0\nnet 24\nend\n')
    for words, end in (('run --steps 7 out', 7), ('run --steps 6 out', 127), ('trace --steps 4 file0', 7),
                       ('trace --steps 3 file0', 127)):
        group.same(f'{what}: {words}', folder.run(words.split()).status, end)


def jump_tables(group):
    """jump tables of jumps, of calls and of both, full ones, and code whose distances and padding depend on them"""
    check_worked_example(group)
    for what, files, slots, net in table_examples.rows():
        folder = check_table(group, what, files)
        certificate = read_certificate(folder.read('cert'))[1]
        group.same(f'{what}: slots and net', (certificate.slots, certificate.net), (slots, net))
        group.same(f'{what}: the entry', entry_of(folder.read('out')), TEXT_AT + 4 * len(slots))


def random_tables(group):
    """60 programs by chance whose functions are called and jumped to often or seldom, about half of them with a table"""
    with_table = 0
    for number in range(60):
        folder = check_table(group, f'program {number}', table_examples.random_program(random.Random(f'table {number}')))
        with_table += b'\nslot ' in folder.read('cert')
        folder.remove()
    group.same('how many have a table', with_table, 31)
