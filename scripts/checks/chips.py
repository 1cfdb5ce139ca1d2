"""Chips without some extensions, and with little RAM: what links make for them, and what runs and traces in their maps do."""
import os
import random
import re

import frame_examples
import table_examples
from byte_lists import byte_list
from memory_maps import STEP, WORDS, map_at, map_in, words_of_map
from needed_extensions import needed
from object_faults import Object
from object_items import Code
from plain_link import plain as plain_of
from size_report import left_by_zc
from symbolic_machine import trace as trace_of
from zcld_tools import TOP, files
from zcld_tools.elf import COMMON, HI20, LO12_I
from zcld_tools.images import STANDARD
from zcld_tools.instructions import A0, A1, A2, A7, ECALL, EXIT_WORDS, SP, T0, WRITE_CALL, ZERO, addi, load, lui, store, sw
from zcld_tools.objects import object_with

from checks.c_programs import FOLDERS, STATUSES, ZCMP, input_of, objects_of, read

DOCUMENT = os.path.join(TOP, 'docs', 'COMPILERS.md')
KIB, MIB, STEPS = 1 << 10, 1 << 20, 1_000_000
# Where flash and RAM of these chips begin; how many bytes of RAM lie below the stack; and the sizes of stacks.
FLASH, RAM = 0x08000000, 0x20000000
ROOMS, STACKS = (128, 2 * KIB, 520 * KIB, 4 * MIB - 112, 4 * MIB, 64 * MIB), (STEP, 4 * KIB)
# The most bytes that common data may have: its alignment counts, and 96 bytes beside it.
MOST_COMMON = 4 * MIB - 97


# ---- links, runs and traces


def linked(group, what, objects, memory, words):
    """A folder with both images of a list, as the models make them, and the names of the objects. The chip has what the image of
    `zc` needs."""
    folder, left = group.folder(), left_by_zc(objects, memory)
    names = folder.write_list(objects)
    image, length = plain_of(objects, memory)
    ended = folder.run(('plain', *words, '--out', 'plain', *names))
    group.same(f'{what}: plain', (ended, folder.read('plain')), ((0, b'plain text %d\n' % length, b''), image))
    group.done(f'{what}: zc', folder.run(('zc', *words, '--out', 'out', '--cert', 'cert', *names)), folder, left=left)
    wanted = needed(left.image, Code([Object(data) for data in objects], memory))
    has_all = all(has or not is_needed for has, is_needed in zip(memory.extensions, wanted))
    group.same(f'{what}: the chip has what the image needs', has_all, True)
    return folder, names


def runs_alike(group, what, objects, memory, words, given=b''):
    """The links, the runs of both images and the trace: all exit as the model does. Gives the status and what was written."""
    folder, names = linked(group, what, objects, memory, words)
    out, err, line = trace_of(objects, given, STEPS, memory)
    group.same(f'{what}: the model exits', line.split()[0], b'exited')
    status = int(line.split()[-1])
    for call in (('trace', *words, *names), ('run', *words, 'plain'), ('run', *words, 'out')):
        group.same(f'{what}: {call[0]} {call[-1]}', folder.run(call, given), (status, out, err + line + b'\n'))
    folder.remove()
    return status, out


# ---- extensions


def programs_on_chips(group):
    """programs that C compilers made, linked for each of the eight words: image, certificate and report are the model's, the chip
    has what the image needs, and output and status are the same"""
    for program, status in STATUSES.items():
        for compiler in FOLDERS:
            objects, given = objects_of(program, compiler), input_of(program)
            for word, extensions in WORDS.items():
                what, words = f'{program} by {compiler} for {word}', ('--extensions', word)
                folder, _ = linked(group, what, objects, STANDARD._replace(extensions=extensions), words)
                group.exits(f'{what}: run', folder.run(('run', *words, 'out'), given), status, read(program, 'output'))
                folder.remove()


def forms_on_chips(group):
    """each form of Zcb, every third frame of push and pop, a pair of moves, and programs for which a table pays, for each of
    the eight words; a chip without the extension has none of them"""
    rng = random.Random('forms')
    lists = [(f'bytes {k}', byte_list(rng)) for k in range(12)]
    frames = *list(frame_examples.each_frame())[::3], frame_examples.each_move()
    lists += [(what, [made.bytes()]) for what, made, _ in frames]
    lists += [(what, objects) for what, objects, slots, _ in table_examples.rows() if slots and len(slots) < 40]
    for what, objects in lists:
        for word, extensions in WORDS.items():
            memory = STANDARD._replace(extensions=extensions)
            folder, _ = linked(group, f'{what} for {word}', objects, memory, ('--extensions', word))
            folder.remove()


# ---- RAM


def at_both_ends(size):
    """Bytes at both ends of this many bytes of common data, and words at both ends of the 16 bytes below the stack's top, are
    stored, loaded and written."""
    made, text = object_with(addi(SP, SP, -STEP), addi(T0, ZERO, ord('a')))
    room = made.symbol(b'room', home=COMMON, value=1, size=size)
    for addend in (0, size - 1):
        text.reloc(HI20, room, addend, (lui(A1),))
        text.reloc(LO12_I, room, addend, (addi(A1, A1),))
        text.words(store(0, T0, A1), addi(T0, T0, 1), load(4, A2, A1), sw(A2, SP, 12), sw(A2, SP), addi(A0, ZERO, 1),
                   addi(A2, ZERO, 1), addi(A7, ZERO, WRITE_CALL), ECALL)
    text.words(addi(A0, ZERO, 1), addi(A1, SP), addi(A2, ZERO, 1), ECALL, addi(A1, SP, 12), ECALL, addi(A0, ZERO, 7), *EXIT_WORDS)
    return [made.bytes()]


def little_ram(group):
    """RAM of 128 bytes to 64 MiB below a stack of 16 bytes or more: data that end one byte below the stack, at it and above it;
    loads and stores at both ends of both, and images in maps with less room"""
    for room in ROOMS:
        for stack in STACKS:
            memory = map_at(FLASH, RAM, RAM + room + stack, RAM + room)
            words, most = words_of_map(memory), min(room, MOST_COMMON)
            for size in (1, most - 1, most):
                what = f'{size} bytes in {room}, a stack of {stack}'
                ended = runs_alike(group, what, at_both_ends(size), memory, words)
                group.same(f'{what}: by hand', ended, (7, b'abbb'))
            folder = group.folder()
            names = folder.write_list(at_both_ends(most + 1))
            for call in (('plain', '--out', 'out'), ('zc', '--out', 'out', '--cert', 'cert'), ('trace',), ('gc', '--out', 'left'),
                         ('merge', '--out', 'left')):
                ended = folder.run((call[0], *words, *call[1:], *names))
                group.ends(f'{most + 1} bytes in {room}: {call[0]}', ended, 121, 'refused 0 17 TooLarge')
            group.same('no file was written', [folder.read(name) for name in ('out', 'cert', 'left0.o')], [None] * 3)
            folder.remove()
    in_less_room(group)


def in_less_room(group):
    """An image that is run or listed in a map whose RAM has a step less room than its data."""
    folder, sizes = group.folder(), (128, 2 * KIB)
    for size in sizes:
        names = folder.write_list(at_both_ends(size))
        memory = map_at(FLASH, RAM, RAM + size + STEP, RAM + size)
        folder.run(('plain', *words_of_map(memory), '--out', 'out', *names))
        less = words_of_map(memory._replace(stack_low=RAM + size - STEP))
        for command, status in (('run', 7), ('list', 0)):
            group.same(f'{size} bytes, {command}', folder.run((command, *words_of_map(memory), 'out')).status, status)
            group.ends(f'{size} bytes, {command} in less', folder.run((command, *less, 'out')), 125, 'bad image 3')


# ---- parts


def rows_of_parts():
    """The parts of the document's table, each with the words of its options."""
    for line in files.read(DOCUMENT).decode().splitlines():
        found = re.fullmatch(r'\| ([^|]+) \|.*\| `(--text [^`]*)` \|', line)
        if found:
            yield found[1], found[2].split()


def parts(group):
    """the parts that docs/COMPILERS.md names: a link, a run and a trace of programs of C in each one's map"""
    rows = list(rows_of_parts())
    group.same('there are parts', len(rows) > 5, True)
    for part, words in rows:
        memory = map_in(dict(zip(words[::2], words[1::2])))
        group.same(f'{part}: {words} give a map', memory is not None, True)
        folders = [folder for folder in FOLDERS if folder != ZCMP or memory.extensions.zcmp and memory.extensions.zcb]
        for program in STATUSES:
            for folder in folders if program == 'monitor' else folders[:1]:
                what = f'{program} by {folder} on {part}'
                ended = runs_alike(group, what, objects_of(program, folder), memory, words, input_of(program))
                group.same(f'{what}: by hand', ended, (STATUSES[program], read(program, 'output')))
