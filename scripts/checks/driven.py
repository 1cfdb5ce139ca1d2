"""Runs with devices: texts that name devices and texts that name none, what is read and judged first, and what programs load
and store there."""
import collections
import os
import random

import device_programs
import symbolic_machine
import zc_machine
from devices import read_devices
from object_faults import Object
from table_examples import FAR
from zcld_tools.elf import JAL
from zcld_tools.images import TEXT_AT
from zcld_tools.instructions import A0, T0, T1, ZERO, addi, immediate, jal, load, lui, store, words_of
from zcld_tools.linked import Image
from zcld_tools.objects import Written, object_with

from checks import symbols
from checks.c_programs import FOLDERS, objects_of, read
from checks.made_files import EXIT, MIB, THREE, THREE_IMAGE, image_of, object_of

TITLE = b'zcld devices 1\n'
MOST = 8 * MIB
STEPS = 100_000
# The first states of the driver: the one that `run` starts in, and others by chance.
FIRST_STATES = None, 1, 2, 3, 4
# The register that says where traps go (RISC-V privileged manual, "Machine Trap-Vector Base-Address Register").
MTVEC = 0x305
# The address of the devices here, in a register.
UPPER = lui(T0, 0x10000)

# Lines after the first one, of texts.
TEXTS = (
    '', 'device 00000000 00000001', 'device 00000000 00010000', 'device 0000ffff 00000001', 'device 10000000 f0000000',
    'device fffffffc 00000004', 'device 10000004 00000004\ndevice 10000000 00000004\ndevice 10000008 00000001',
    'device 10000000 00000004\noutput 10000000\noutput 10000003\noutput 10000000', 'answer', 'answer 00 7f ff',
    'answer\nanswer 09', 'then 00', 'then 00 ff', 'answer 01\nthen 02',
    'answer 01\ndevice 10000000 00000001\noutput 10000000\nanswer 02\nthen 03',
    'device abcdef00 0000000a', 'registers', 'reset', 'reset\nregisters',
    'answer 01\nregisters\ndevice 10000000 00000001\nreset\noutput 10000000\nanswer 02\nthen 03',
)

# Lines after the first one, of which the first isn't valid there: the word, the range, its place, the address, and the bytes.
BAD_LINES = r'''
frob
Device 10000000 00000004
device10000000 00000004
zcld devices 1
device
device 10000000
device 10000000 00000004 00000004
device 1000000 00000004
device 010000000 00000004
device 0x10000000 00000004
device 10000000 4
device 10000000 0000000A
device 10000000 0000000g
device 10000000 -0000004
device 10000000:00000004
device 10000000 00000000
device 00000000 00010001
device 0000ffff 00000002
device 00010000 00000001
device 00100000 00000004
device 0fffffff 00000001
device 0fffffff 00000002
device 00000000 ffffffff
device 10000000 f0000001
device fffffffd 00000004
device ffffffff ffffffff
output
output 10000000
output 10000000 10000001
answer 0
answer 000
answer 0g
answer 0A
answer 00,01
answer 00  01
answer:00
then
then 0
 answer 00
device  10000000 00000004
registers 00
registers registers
registers reset
Registers
register
registers1
 registers
reset 00000000
reset reset
Reset
resets
 reset
answer 00 '''.splitlines()[1:] + [
    'answer ', 'then ', 'registers ', 'reset ', 'reset\r', 'answer\t00', 'answer 00\r', 'answer 00\0', '\0', 'answer \xff', '\xefanswer']

# Lines after the first one, and the number of the line that isn't valid.
LATER_LINES = (
    ('device 10000000 00000004\ndevice 10000003 00000001', 3), ('device 10000003 00000001\ndevice 10000000 00000004', 3),
    ('device 10000000 00000004\ndevice 10000000 00000004', 3), ('device 10000000 00000004\noutput 10000004', 3),
    ('device 10000004 00000004\noutput 10000003', 3), ('output 10000000\ndevice 10000000 00000004', 2),
    ('then 00\nthen 00', 3), ('then 00\nanswer 00', 3), ('then 00\ndevice 10000000 00000004', 3), ('then 00\n', 3),
    ('registers\nregisters', 3), ('reset\nreset', 3), ('reset\nregisters\nanswer 00\nreset', 5), ('then 00\nregisters', 3),
    ('then 00\nreset', 3), ('\nthen 00', 2), ('answer 00\nthen', 3), ('answer 00\nfrob\nfrob', 3), ('answer 00\n' * 70000 + 'answer 0', 70002),
)

# Whole texts, and the line that is named.
BAD_TEXTS = (
    (b'', 1), (b'\n', 1), (b'zcld devices 1', 1), (b'zcld devices 2\n', 1), (b'zcld devices 1 \n', 1),
    (b'zcld  devices 1\n', 1), (b'zcld devices 01\n', 1), (b'zcld devices 1\r\n', 1), (b'zcld plan 1\n', 1),
    (b'\xef\xbb\xbf' + TITLE, 1), (b'\n' + TITLE, 1), (THREE_IMAGE, 1),
    (TITLE + b'\n', 2), (TITLE + b'then 00', 2), (TITLE + TITLE, 2), (TITLE + b'answer 00\nthen 00', 3),
)


def text_of(lines):
    return TITLE + ''.join(line + '\n' for line in lines.split('\n')).encode('latin-1')


def device_texts(group):
    """texts that name devices, and texts that name none, the driver's broken at each line among them, with the line that is
    named, by both commands"""
    folder = group.folder(image=THREE_IMAGE)
    rows = [(text_of(lines) if lines else TITLE, 3, 'exited 3') for lines in TEXTS]
    rows += [(text_of(line), 125, 'bad devices line 2') for line in BAD_LINES]
    rows += [(text_of(lines), 125, f'bad devices line {number}') for lines, number in LATER_LINES]
    rows += [(text, 125, f'bad devices line {number}') for text, number in BAD_TEXTS]
    lines = read('driver', 'devices').splitlines()
    for k, line in enumerate(lines):
        broken = b'\n'.join((*lines[:k], line + b'?', *lines[k + 1:])) + b'\n'
        rows.append((broken, 125, f'bad devices line {k + 1}'))
    for text, status, line in rows:
        folder.write('devices', text)
        for words in (('run', 'image'), ('trace', 'object')):
            group.ends(f'{words[0]}, devices {text[:60]}', folder.run((*words, '--devices', 'devices')), status, line)


def long_text():
    """A text of the most bytes that are read, most of them in one line."""
    text = TITLE + b'answer\n' * ((MOST - len(TITLE) - 7) % 3)
    return text + b'answer' + b' 00' * ((MOST - len(text) - 7) // 3) + b'\n'


def device_files(group):
    """the image, the devices and the plan are read in this order, and judged in this order, after the objects by `trace`; then
    the input is taken, if the devices have no answers"""
    files = {'text': TITLE, 'own': TITLE + b'answer 00\n', 'repeated': TITLE + b'then 00\n', 'nothing': TITLE + b'answer\n',
             'bad': b'bad', 'most': long_text(), 'over': long_text() + b'\n', 'image': THREE_IMAGE, 'plan': b'zcld plan 1\n',
             'input': b'input'}
    folder = group.folder(**files)
    good, bad, unread = (3, 'exited 3'), (125, 'bad devices line 1'), (122, 'read fault')
    rows = (
        ('text', 'plan', 'image', good, 5), ('own', 'plan', 'image', good, 0), ('repeated', 'plan', 'image', good, 0),
        ('nothing', 'plan', 'image', good, 0), ('most', 'plan', 'image', good, 0), ('bad', 'plan', 'image', bad, 0),
        ('bad', 'bad', 'image', bad, 0), ('text', 'bad', 'image', (125, 'bad plan line 1'), 0),
        ('bad', 'bad', 'bad', (125, 'bad image 1'), 0), ('plan', 'text', 'image', bad, 0), ('none', 'bad', 'bad', unread, 0),
        ('bad', 'none', 'image', unread, 0), ('bad', 'plan', 'none', unread, 0), ('over', 'plan', 'image', unread, 0),
        ('over', 'plan', 'bad', unread, 0), ('.', 'plan', 'image', unread, 0), ('/dev/zero', 'plan', 'image', unread, 0),
        ('/dev/null', 'plan', 'image', bad, 0),
        ('text', None, 'object', good, 5), ('own', None, 'object', good, 0), ('repeated', None, 'object', good, 0),
        ('nothing', None, 'object', good, 0), ('most', None, 'object', good, 0), ('bad', None, 'object', bad, 0),
        ('bad', None, 'image', (121, 'refused 0 1 NotElf'), 0), ('none', None, 'image', unread, 0),
        ('bad', None, 'none', unread, 0), ('over', None, 'object', unread, 0),
    )
    for devices, plan, name, (status, line), wanted in rows:
        words = [*(('run', '--plan', plan) if plan else ('trace',)), '--devices', devices, name]
        with open(folder.path('input'), 'rb') as given:
            ended = folder.run(words, given)
            taken = os.lseek(given.fileno(), 0, os.SEEK_CUR)
        group.ends(' '.join(words), ended, status, line)
        group.same(f'{" ".join(words)}: the input that was taken', taken, wanted)
    folder.pipes(first=THREE_IMAGE, second=TITLE, third=b'zcld plan 1\n')
    ended = folder.run(('run', '--plan', 'third', '--devices', 'second', 'first'))
    group.exits('the image, the devices and the plan are read in this order', ended, 3)
    folder = group.folder()
    folder.pipes(first=THREE, second=object_with(name=b'other')[0].bytes(), third=TITLE)
    ended = folder.run(('trace', '--devices', 'third', 'first', 'second'))
    group.exits('the objects are read first, and then the devices', ended, 3)


def both(group, what, words, lines, wanted):
    """The image of a program and its object come to an end with these lines of devices: the status, the output and the line."""
    code = words_of(*words) + EXIT
    folder = group.folder(image=image_of(code), object=object_of(code), devices=text_of(lines))
    for command in (('run', 'image'), ('trace', 'object')):
        status, out, line = wanted
        ended = folder.run((*command, '--devices', 'devices'), b'given')
        group.same(f'{what}: {command[0]}', ended, (status, out, line.encode() + b'\n'))
    folder.remove()


# Of loads: which load, the bytes that are answered, the result's upper four bits, and its low byte.
LOADS = ((0, '80', 15, 128), (4, '80', 0, 128), (1, '01 80', 15, 1), (5, '01 80', 0, 1), (2, '02 00 00 90', 9, 2),
         (2, '03 04', 0, 3), (2, '', 0, 0), (1, '80', 0, 128), (2, '05 00 00 a0 b0', 10, 5))
# Accesses that reach no device, and why the image stops and the objects' program is stuck.
BESIDE = (('over the end', load(2, A0, T0, 6), 'stopped 3 Misaligned', 'stuck 0 1 4 6 Misaligned'),
          ('behind the end', load(0, A0, T0, 8), 'stopped 2 BadAccess', 'stuck 0 1 4 5 BadAddress'),
          ('over two ranges', store(2, ZERO, T0, 12), 'stopped 2 BadAccess', 'stuck 0 1 4 5 BadAddress'))


def device_runs(group):
    """loads of each width and sign with answers that are there and that are missing, stores whose bytes appear, and accesses
    that reach no device, by hand"""
    device = 'device 10000000 00000008'
    for f3, answers, high, low in LOADS:
        for last, wanted in ((immediate(5, A0, A0, 28), high), (immediate(7, A0, A0, 255), low)):
            both(group, f'load {f3} of {answers}', (UPPER, load(f3, A0, T0, 4), last), f'{device}\nanswer {answers}'.rstrip(),
                 (min(118, wanted), b'', f'exited {wanted}'))
    both(group, 'input is answered', (UPPER, *[load(4, A0, T0, 0)] * 2), device, (105, b'', 'exited 105'))
    both(group, 'answers again', (UPPER, *[load(4, A0, T0, 0)] * 6), f'{device}\nanswer 01\nthen 02 03', (2, b'', 'exited 2'))
    letters = lui(T1, 0x64636), addi(T1, T1, 0x261)
    for f3, out in ((2, b'acd'), (1, b'a'), (0, b'a')):
        both(group, f'store {f3}', (*letters, UPPER, store(f3, T1, T0, 4), addi(A0, ZERO, 7)),
             f'{device}\noutput 10000004\noutput 10000006\noutput 10000007', (7, out, 'exited 7'))
    ranges = text_of(f'{device}\ndevice 1000000c 00000002\ndevice 1000000e 00000002')
    for what, word, stopped, stuck in BESIDE:
        code = words_of(UPPER, word) + EXIT
        folder = group.folder(image=image_of(code), object=object_of(code), devices=ranges)
        for command, line in ((('run', 'image'), f'{stopped} {TEXT_AT + 4:08x}'), (('trace', 'object'), stuck)):
            group.ends(f'{what}: {command[0]}', folder.run((*command, '--devices', 'devices')), 126, line)
        folder.remove()


def driver_texts():
    """The texts of a driver: its devices and its plan."""
    return {name: read('driver', name) for name in ('devices', 'plan')}


def many_jumps():
    """An object of code that nothing reaches, which jumps to a function of the driver so often that a jump table pays."""
    made = Written()
    text = made.section(b'.text')
    text.words(*FAR)
    for _ in range(20):
        text.reloc(JAL, made.symbol(b'send'), 0, (jal(ZERO),))
    return made.bytes()


def lists(compiler):
    """The driver's objects, and the same with jumps for which `zc` makes a jump table."""
    objects = objects_of('driver', compiler)
    return (f'driver by {compiler}', objects), (f'driver by {compiler}, table', [*objects, many_jumps()])


def images_of(group, what, objects):
    """Each link, and a folder with its image of a list."""
    small = group.linked_small(f'{what}, zc', objects)
    group.same(f'{what}: has a jump table', b'\nslot ' in small.read('cert'), 'table' in what)
    small.write_list(objects)
    return ('plain', group.linked_plainly(what, objects)[0]), ('zc', small)


def events_in(folder, events):
    """The events of the objects' program as those of the folder's image: each place has the address that is listed for it."""
    places = Image(folder.path('out')).places
    return [tuple(places[it[1]] if isinstance(it, tuple) else it for it in event) for event in events]


def trap_vectors(events):
    """What is written to mtvec."""
    return [event[2] for event in events if event[0] == 'System' and event[1] >> 20 == MTVEC]


def check_trap_vector(group, what, folder, names, events):
    """The image writes the address to mtvec that is listed for the handler, which is a multiple of 4."""
    handler, _ = symbols.listed(symbols.run(folder, 'out', *names))['on_trap']
    group.same(f'{what}: mtvec', (trap_vectors(events), handler % 4), ([handler], 0))


def drivers(group):
    """a driver of two devices that C compilers made, from a chip's reset on: as objects and as images of both links, with and
    without a jump table, under a plan too, the same output with one text of devices, and in the models the same events, from
    first states with other registers too; and mtvec has the handler's address in each image"""
    texts, out, given = driver_texts(), read('driver', 'output'), b'given'
    devices, interrupts = read_devices(texts['devices']), zc_machine.plan_in(texts['plan'])
    for what, objects in (it for compiler in FOLDERS for it in lists(compiler)):
        program = symbolic_machine.Machine([Object(data) for data in objects], b'', devices=devices)
        group.same(f'{what}, model', symbolic_machine.run(program, STEPS), 'exited 2')
        folder = group.folder(devices=texts['devices'])
        names = folder.write_list(objects)
        group.exits(f'{what}, trace', folder.run(('trace', '--devices', 'devices', *names), given), 2, out)
        for link, folder in images_of(group, what, objects):
            events = events_in(folder, program.events)
            check_trap_vector(group, f'{what}, {link}', folder, names, events)
            for name, text in texts.items():
                folder.write(name, text)
            for cuts, options in (([], ()), (interrupts, ('--plan', 'plan'))):
                for first in FIRST_STATES:
                    machine = zc_machine.Machine(folder.read('out'), b'', devices=devices)
                    if first is not None:
                        machine.start_by_chance(first)
                    told = zc_machine.run(machine, cuts, STEPS), machine.events
                    group.same(f'{what}, {link}, events {options}, first state {first}', told, ('exited 2', events))
                ended = folder.run(('run', *options, '--devices', 'devices', 'out'), given)
                group.exits(f'{what}, {link} {options}', ended, 2, out)


def random_devices(group):
    """60 random lists that access devices, with the end, the output and the count of steps of the models"""
    for seed in range(60):
        folder = group.folder()
        try:
            device_programs.look(folder, random.Random(f'devices {seed}'), collections.Counter())
            group.count += 1
        except device_programs.Differs as why:
            group.failed.append(f'list {seed}: {why}')
        folder.remove()
