#!/usr/bin/env python3
"""Gives the program inputs that are made to cost time or memory, and odd files and streams, each under limits.

    fuzz/hostile_inputs.py [--only NAME]... [--seconds T] [--memory M] [--memory-steps N] [PROGRAM]

PROGRAM is build/zcld if none is given. Each call may take T seconds of the processor (2) and M million bytes of memory (300):
the system ends it beyond the first, and refuses memory beyond the second. It prints what each call came to, and the processor's
seconds and the KiB at most that it took, if GNU time is installed. Some inputs have limits of their own. The status is 1
if a call ended by a signal or for want of memory or time, or if its status isn't one of the program's. Limits of memory follow:
N calls of `zc`, each with 10 KiB more than the one before, end with 0 or 124, but for those that are too small to start the
program in.
"""
import argparse
import collections
import itertools
import os
import random
import resource
import shutil
import string
import sys
import tempfile
import threading

sys.path[:0] = (os.path.join(os.path.dirname(os.path.abspath(__file__)), os.pardir, it) for it in ('scripts', 'models'))

from costly_objects import WITHIN, write_list
from zcld_tools import programs
from zcld_tools.elf import (ABS, ALIGN, CALL, DATA_FLAGS, EXECUTABLE, EXECUTE, HEADER, LOCAL, NOBITS, PCREL_HI20, PCREL_LO12_I,
                            PROGRAM_HEADER, READABLE, RELAX, RVC, RVC_BRANCH, RVC_JUMP, R_32, WEAK, WRITABLE, Part, file_header)
from zcld_tools.files import read, write
from zcld_tools.images import DATA_AT, STACK_HIGH, TEXT_AT, image_bytes, load_header
from zcld_tools.instructions import A0, CALL_WORDS, EXIT_WORDS, NOP, RET, SHORT_NOP, ZERO, addi, auipc, halves_of, jalr, words_of
from zcld_tools.objects import Reloc, Written, object_with
from zcld_tools.programs import Failed

WORDS = addi(A0, ZERO, 3), *EXIT_WORDS
EXIT = words_of(*WORDS)
# What FoldHasher begins with and multiplies by, and the letters of names that are chosen by its results.
FOLD_START, FOLD_BY, LETTERS = 0x243F_6A88_85A3_08D3, 0x9E37_79B9_7F4A_7C15, string.ascii_letters.encode()
PLACES, HEADERS, MEMORY_STEP, OBJECT_LIMIT = 698_000, 65_535, 10 << 10, 4 << 20
# `c.beqz s0` and `c.j`, `c.slli zero,1`, which is a hint, and a word whose upper half would be a jump of 2 bytes.
C_BEQZ, C_J, HINT, LONG = 0xC001, 0xA001, 0x0006, 0xA0010013
# `c.addi16sp sp,-512`, which has the longest line of a listing; and the most bytes of a list, of a plan, of code and of data.
C_ADDI16SP, LIST_LIMIT, PLAN_LIMIT, CODE_LIMIT, DATA_LIMIT = 0x7101, 32 << 20, 8 << 20, DATA_AT - TEXT_AT, 4 << 20


# ---- objects


def low_parts():
    """65,000 lower parts of one `auipc`."""
    made, text = object_with()
    data = made.section(b'.data', flags=DATA_FLAGS)
    data.words(0)
    target, label = made.symbol(b'x', data, 0, LOCAL), made.symbol(b'high', text, 0, LOCAL)
    text.reloc(PCREL_HI20, target, words=(auipc(A0),))
    for _ in range(65_000):
        text.reloc(PCREL_LO12_I, label, words=(addi(A0, A0),))
    text.words(*WORDS)
    return [made.bytes()]


def alignments():
    """21,000 paddings."""
    made, text = object_with()
    for _ in range(21_000):
        text.reloc(ALIGN, None, 4, (NOP,))
    text.words(*WORDS)
    return [made.bytes()]


def compressed():
    """A compressed object that begins with an exit, and its code."""
    made, text = object_with(*WORDS)
    made.flags = RVC
    return made, text


def short_hints():
    """65,000 hints of 2 bytes, which `zc` writes in 4."""
    made, text = compressed()
    text.halves(*[HINT] * 65_000)
    return [made.bytes()]


def short_alignments():
    """32,000 paddings of 2 bytes."""
    made, text = compressed()
    for _ in range(32_000):
        text.reloc(ALIGN, None, 2)
        text.halves(SHORT_NOP)
    return [made.bytes()]


def short_jumps():
    """65,000 jumps of 2 bytes, each a thousand on, and each with a relocation."""
    made, text = compressed()
    first = len(text.content)
    for k in range(65_000):
        text.reloc(RVC_JUMP, made.symbols[0], first + 2 * min(k + 1000, 65_000))
        text.halves(C_J)
    return [made.bytes()]


def short_chain():
    """Branches of 2 bytes to the 65th halfword after them. Each 64th halfword stays short, and the last 100 are hints, so that each
    round of `zc` makes one branch longer."""
    made, text = compressed()
    first = len(text.content)
    for k in range(65_000):
        is_branch = k % 64 and k < 64_900
        if is_branch:
            text.reloc(RVC_BRANCH, made.symbols[0], first + 2 * (k + 65))
        text.halves(C_BEQZ if is_branch else HINT if k % 64 else SHORT_NOP)
    return [made.bytes()]


def stray_relocations():
    """32,000 relocations of 2 bytes, each inside a word; the table has them from the last to the first."""
    made, text = compressed()
    for _ in range(32_000):
        at = text.words(LONG)
        text.relocs.append(Reloc(at + 2, RVC_JUMP, made.symbols[0], 0))
    text.relocs.reverse()
    return [made.bytes()]


def aligned_sections():
    """1,000 sections aligned to 256."""
    made, _ = object_with(*WORDS)
    for k in range(1000):
        made.section(b'.text.%d' % k, align=256).words(NOP)
    return [made.bytes()]


def data_words(order):
    """An exit, and 4 objects of 260,000 words of data, each with a relocation, in an order."""
    made = Written()
    data = made.section(b'.data', flags=DATA_FLAGS)
    data.content, target = bytearray(4 * 260_000), made.symbol(b'x', data, 0, LOCAL)
    data.relocs = [Reloc(4 * k, R_32, target, k) for k in range(260_000)]
    order(data.relocs)
    return [object_with(*WORDS)[0].bytes(), *[made.bytes()] * 4]


def hints():
    """An exit, and 8 objects of 345,000 hints for relaxation, all at one offset."""
    made = Written()
    text = made.section(b'.text')
    text.words(NOP)
    text.relocs = [Reloc(0, RELAX, None, 0)] * 345_000
    return [object_with(*WORDS)[0].bytes(), *[made.bytes()] * 8]


def ends(*tails):
    """Functions with these ends, and an exit."""
    made, text = object_with(*WORDS)
    for words in tails:
        text.words(*words)
    return [made.bytes()]


def unequal_ends():
    """65,000 jumps by a register, of which no two are the same."""
    return ends(*((jalr(ZERO, 1 + k // 4096, k % 4096),) for k in range(65_000)))


def long_ends():
    """650 ends of functions, of a hundred instructions each, that differ in the first."""
    return ends(*((addi(A0, A0, k), *[NOP] * 98, RET) for k in range(650)))


def long_end_twice():
    """An end of 32,000 instructions, twice."""
    return ends(*[[addi(A0, A0, k % 2048) for k in range(32_000)] + [RET]] * 2)


# Ends of functions, which `merge` compares.
ENDS = {'65,000 equal ends': lambda: ends(*[(RET,)] * 65_000), '65,000 ends that differ': unequal_ends,
        '650 ends of a hundred instructions': long_ends, 'an end of 32,000 instructions, twice': long_end_twice}


# ---- sections and names


def many_sections_and_symbols():
    """256 objects, which have 15,616 sections of code, 600,000 symbols and a million words of data together: calls and words name
    symbols by chance. They differ in their names alone, of which each has some of the next one's."""
    rng, made, words = random.Random(1), Written(), 4050
    texts = [made.section(b'.text') for _ in range(61)]
    made.symbol(b'own:go', texts[0])
    symbols = [made.symbol(b'own:%x' % k, rng.choice(texts)) for k in range(2142)] + [made.symbol(b'its:%x' % k) for k in range(200)]
    texts[0].words(*EXIT_WORDS)
    for text in texts[1:]:
        text.reloc(CALL, rng.choice(symbols), 0, CALL_WORDS)
        text.words(RET)
    data = made.section(b'.data', flags=DATA_FLAGS)
    data.content = bytearray(4 * words)
    data.relocs = [Reloc(4 * at, R_32, rng.choice(symbols), 0) for at in rng.sample(range(words), words)]
    one = made.bytes()
    files = [one.replace(b'own:', b'%03x:' % k).replace(b'its:', b'%03x:' % ((k + 1) % 256)) for k in range(256)]
    return [files[0].replace(b'000:go', b'_start'), *files[1:]]


def folded(state, more):
    """What the library's FoldHasher makes of its state and of one more number."""
    product = state * more
    return product & (1 << 64) - 1 ^ product >> 64


def colliding_names(count, groups):
    """Names of 6 letters that a hash table of this many groups looks up in the first 16th of them, if FoldHasher hashes the
    name's length, its bytes and a 0: so for each name it goes through most of those before."""
    start, byte, last = folded(FOLD_START ^ 6, FOLD_BY ^ 16), FOLD_BY ^ 2, FOLD_BY ^ 8
    values = [(letter, letter * 0x10101) for letter in LETTERS]
    for first in itertools.product(values, repeat=5):
        state = start
        for _, value in first:
            state = folded(state ^ value, byte)
        for letter, value in values:
            hashed = folded(folded(state ^ value, byte), last)
            if (hashed ^ hashed >> 32) % groups < groups // 16:
                yield bytes([*(letter for letter, _ in first), letter])
                count -= 1
                if count == 0:
                    return


def names_that_collide():
    """73,000 weak symbols with such names."""
    made, _ = object_with(*WORDS)
    for name in colliding_names(73_000, 8192):
        made.symbol(name, ABS, 0, WEAK)
    return [made.bytes()]


def same_names(made, count, length):
    """An object to which this many local symbols are added, whose names are the same bytes."""
    at = made.symbol_names.add(b'x' * length)
    for k in range(count):
        made.symbol(at, ABS, k, LOCAL)
    return made.bytes()


def names_of_one_object():
    """130,000 symbols that share a name of two million bytes."""
    return [same_names(object_with(*WORDS)[0], 130_000, 2_000_000)]


def names_of_each_object():
    """256 objects, in each of which 4,096 symbols share a name of 1,000 bytes: so each result would be within the limit."""
    return [same_names(object_with(*WORDS)[0], 4095, 1000), *[same_names(Written(), 4096, 1000)] * 255]


# What `gc` and `merge` write again, with how they end if not as usual: names that are shared in the given objects stand each by
# itself in the results.
AGAIN = {'15,616 sections and 600,000 symbols': (many_sections_and_symbols, None),
         '130,000 symbols with one name': (names_of_one_object, 'broken 0 17 TooLarge'),
         '256 objects with one name each': (names_of_each_object, 'broken 8 17 TooLarge')}

# ---- shared data


def sections_of(*names):
    """An exit, and as many sections of a byte each as the limits allow, whose names go round."""
    first, made = object_with(*WORDS)[0].bytes(), Written()
    for k in range(4085):
        made.section(names[k % len(names)], NOBITS, DATA_FLAGS, 1, 1)
    return [first, *[made.bytes()] * ((LIST_LIMIT - len(first)) // len(made.bytes()))]


def cells_of(before, behind):
    """A plan of 8 MiB at most, with cells all over the data, and these words before and behind each."""
    text, k = bytearray(b'zcld shared 1\n' + b'cut 0' * (not before)), 0
    while len(text) < PLAN_LIMIT - 40:
        text += b'%s s%08x:%02x%s' % (before, DATA_AT + 7919 * k % 800_000, k % 256, behind)
        k += 1
    return bytes(text) + b'\n' * (not behind)


SECTIONS = {'837,000 shared sections': lambda: sections_of(b'.shared'),
            '419,000 of them, apart': lambda: sections_of(b'.shared', b'.bss'), 'one shared section': lambda: [object_of_shared()]}
CELLS = {'645,000 cells': lambda: cells_of(b'', b''), '441,000 interrupts': lambda: cells_of(b'cut 0', b'\n')}


def object_of_shared():
    """An exit, and as much shared data as one object may have."""
    made, _ = object_with(*WORDS)
    made.section(b'.shared', NOBITS, DATA_FLAGS, 1, DATA_LIMIT - 100)
    return made.bytes()


# ---- devices


def devices_of(lines):
    """A text of these lines, or of as many as there may be."""
    text = bytearray(b'zcld devices 1\n')
    for line in lines:
        if len(text) + len(line) > PLAN_LIMIT:
            break
        text += line
    return bytes(text)


def device_lines(order=lambda lines: None):
    """Lines of devices of 8 bytes with gaps of 8, in an order."""
    lines = [b'device %08x 00000008\n' % (STACK_HIGH + 16 * k) for k in range(PLAN_LIMIT // 25)]
    order(lines)
    return lines


def output_lines():
    """A device, and lines of its addresses."""
    yield b'device 10000000 f0000000\n'
    for k in range(PLAN_LIMIT // 16):
        yield b'output %08x\n' % (STACK_HIGH + 7607 * k)


def one_line(word):
    """A line of as many bytes as there may be."""
    return [word + b' a5' * ((PLAN_LIMIT - 40) // 3) + b'\n']


DEVICES = {
    '335,000 devices upwards': lambda: devices_of(device_lines()),
    '335,000 devices downwards': lambda: devices_of(device_lines(list.reverse)),
    '335,000 devices in random order': lambda: devices_of(device_lines(random.Random(1).shuffle)),
    '335,000 devices, the last twice': lambda: devices_of(device_lines(lambda lines: lines.insert(335_000, lines[334_999]))),
    '524,000 outputs': lambda: devices_of(output_lines()),
    '2.8 million answers in a line': lambda: devices_of(one_line(b'answer')),
    '2.8 million answers again and again': lambda: devices_of(one_line(b'then')),
    '838,000 lines of an answer': lambda: devices_of(itertools.repeat(b'answer 00\n')),
    '1.2 million empty answers': lambda: devices_of(itertools.repeat(b'answer\n'))}

OBJECTS = WITHIN | {
    '65,000 low parts': low_parts, '21,000 paddings': alignments, '1,000 sections aligned to 256': aligned_sections,
    '65,000 hints of 2 bytes': short_hints, '32,000 paddings of 2 bytes': short_alignments,
    '65,000 jumps of 2 bytes': short_jumps, 'a chain of branches of 2 bytes': short_chain,
    '32,000 relocations inside words': stray_relocations,
    'data words upwards': lambda: data_words(lambda relocs: None), 'data words downwards': lambda: data_words(list.reverse),
    'data words in random order': lambda: data_words(random.Random(1).shuffle), '2.76 million hints': hints,
    '73,000 names that collide': names_that_collide}
# Seconds and millions of bytes for those that have limits of their own; millions of different names need looser ones.
OWN_LIMITS = {'73,000 names that collide': (1, 250), 'ending names': (4, 360), 'words in random order': (4, 300)}


# ---- images


def many_places():
    """An image with 698,000 places, each at the exit or at its end."""
    return image_bytes(EXIT, {(0, 1, 4 * k): TEXT_AT + min(4 * k, len(EXIT)) for k in range(PLACES)}, b'', 0, TEXT_AT, 0)


def many_headers():
    """An executable with 65,535 program headers, of which two are of segments that are loaded."""
    start = HEADER + HEADERS * PROGRAM_HEADER
    loads = (load_header(Part(content=EXIT, address=TEXT_AT), start, 0, READABLE | EXECUTE, 4)
             + load_header(Part(address=DATA_AT), start + len(EXIT), 0, READABLE | WRITABLE, 4))
    header = file_header(EXECUTABLE, 0, 0, 0, entry=TEXT_AT, segments=HEADERS)
    return header + loads.ljust(HEADERS * PROGRAM_HEADER, b'\0') + EXIT


def many_sections():
    """An image whose header tells of 65,535 sections, which are all zeros."""
    made = bytearray(image_bytes(EXIT, {(0, 1, 0): TEXT_AT}, b'', 0, TEXT_AT, 0))
    made[32:36], made[48:50] = len(made).to_bytes(4, 'little'), HEADERS.to_bytes(2, 'little')
    return bytes(made) + bytes(40 * HEADERS)


def most_listed():
    """As much code and data as an image may have, with long lines."""
    return image_bytes(halves_of(*[C_ADDI16SP] * (CODE_LIMIT // 2)), {}, bytes(range(256)) * (DATA_LIMIT // 256), 0, TEXT_AT, 0)


IMAGES = {'698,000 places': many_places, '65,535 program headers': many_headers, '65,535 section headers': many_sections,
          'as much as there may be': most_listed}


# ---- calls

Call = collections.namedtuple('Call', 'status err cost')


class Calls:
    """Calls of the program in a folder, under limits, with how many went beyond them."""

    def __init__(self, program, given, folder):
        self.program, self.folder, self.wrong, self.timer = program, folder, 0, shutil.which('time')
        self.seconds, self.memory = self.usual = given.seconds, given.memory

    def limited(self, closed=()):
        """What is done in the new process."""
        resource.setrlimit(resource.RLIMIT_CPU, (self.seconds, self.seconds))
        programs.limit(resource.RLIMIT_AS, self.memory * 1_000_000)
        for stream in closed:
            os.close(stream)

    def call(self, words, closed=(), **how):
        told = os.path.join(self.folder, 'told')
        # GNU time would open its file in the place of a stream that is closed
        is_timed = self.timer and not closed
        timer = [self.timer, '-q', '-f', '%U %S %M', '-o', told] if is_timed else []
        ended = programs.run([*timer, self.program, *words], first=lambda: self.limited(closed), cwd=self.folder, **how)
        user, system, kib = read(told).split()[-3:] if is_timed else (0, 0, 0)
        # GNU time gives 128 and a signal's number as the status
        return Call(ended.status, ended.err, f'{float(user) + float(system):.2f} s {int(kib)} KiB' if is_timed else '')

    def say(self, what, words, broken=None, **how):
        """Makes a call, and prints what it came to. It must end with this line of `broken`, if one is given, and else without."""
        try:
            ended = self.call(words, **how)
        except Failed as why:
            self.wrong += 1
            print(f'WRONG: {what}: {why}')
            return
        is_right = ((ended.status, ended.err) == (119, f'{broken}\n'.encode()) if broken else
                    0 <= ended.status <= 127 and ended.status not in (119, 124))
        self.wrong += not is_right
        line = ended.err.decode('latin-1').strip()[-60:] or f'status {ended.status}'
        print(f'{"" if is_right else "WRONG: "}{what:42} {words[0]:6} {line:32} {ended.cost:>20}', flush=True)

    def links(self, what, names):
        self.seconds, self.memory = OWN_LIMITS.get(what, self.usual)
        self.say(what, ['plain', '--out', 'plain', *names])
        self.say(what, ['zc', '--out', 'out', '--cert', 'cert', *names])
        self.say(what, ['trace', *names])
        if os.path.exists(os.path.join(self.folder, 'out')):
            self.say(what, ['run', 'out'])
        self.seconds, self.memory = self.usual


def odd_files(calls):
    """Files that are none: pipes, devices, folders and links that lead to each other."""
    folder = calls.folder
    path = {name: os.path.join(folder, name) for name in ('pipe', 'loop', 'other')}
    os.mkfifo(path['pipe'])
    os.symlink('other', path['loop'])
    os.symlink('loop', path['other'])
    for name in ('/dev/null', '/dev/zero', '/dev/full', '/dev', '.', 'loop', 'three.o/x', 'n' * 300):
        for words in (['plain', '--out', 'out', name], ['zc', '--out', 'out', '--cert', 'cert', 'three.o', name], ['run', name],
                      ['run', '--plan', name, 'three'], ['run', '--devices', name, 'three'], ['trace', name],
                      ['trace', '--devices', name, 'three.o'], ['check', name]):
            calls.say(f'{name[:20]} is read', words)
    for name in ('/dev/full', '/dev', '.', 'loop', 'three.o/x', 'n' * 300):
        calls.say(f'{name[:20]} is written', ['plain', '--out', name, 'three.o'])
        calls.say(f'{name[:20]} is written', ['zc', '--out', 'out', '--cert', name, 'three.o'])
    for words in (['plain', '--out', 'out', 'pipe'], ['trace', 'pipe']):
        data = read(os.path.join(folder, 'three.o'))
        threading.Thread(target=write, args=(path['pipe'], data), daemon=True).start()
        calls.say('a pipe is read', words)


def streams(calls):
    """Each stream closed, alone and together, and an output that is full."""
    for which in range(1, 8):
        closed = tuple(stream for stream in range(3) if which >> stream & 1)
        for words in (['plain', '--out', 'out', 'three.o'], ['zc', '--out', 'out', '--cert', 'cert', 'three.o'],
                      ['run', 'three'], ['trace', 'three.o'], ['make', '5', '0'], ['frob']):
            calls.say(f'without streams {closed}', words, closed=closed)
    with open('/dev/full', 'wb') as full:
        for words in (['plain', '--out', 'out', 'three.o'], ['make', '5', '0']):
            calls.say('an output that is full', words, stdout=full)


def memory_limits(calls, count):
    """Counts how calls of `zc` end under limits of memory that grow."""
    ends = collections.Counter()
    for step in range(count):
        size = (step + 1) * MEMORY_STEP
        ended = programs.run([calls.program, 'zc', '--out', 'out', '--cert', 'cert', 'three.o'], first=programs.in_memory(size),
                             cwd=calls.folder)
        # below what the program's file needs, the system ends it before its first instruction, or its loader says so
        ends[ended.status if ended.status in (0, 124) else 'not started'] += 1
        if ended.status not in (0, 124) and ends[124] + ends[0]:
            calls.wrong += 1
            print(f'WRONG: status {ended.status} in {size} bytes of memory')
    print(f'limits of memory: {dict(ends)}')


def main():
    arguments = argparse.ArgumentParser(description='Gives the program inputs that are made to cost time or memory.')
    arguments.add_argument('program', nargs='?', default=programs.BUILT)
    arguments.add_argument('--only', action='append', help='an input by its name, or `files`, `streams` or `memory`')
    arguments.add_argument('--seconds', type=int, default=2)
    arguments.add_argument('--memory', type=int, default=300)
    arguments.add_argument('--memory-steps', type=int, default=1900)
    given = arguments.parse_args()
    programs.TIME_OUT = 300

    def is_asked(name):
        return not given.only or name in given.only
    with tempfile.TemporaryDirectory() as folder:
        calls = Calls(programs.built(given.program), given, folder)
        write(os.path.join(folder, 'three.o'), object_with(*WORDS)[0].bytes())
        write(os.path.join(folder, 'three'), image_bytes(EXIT, {(0, 1, 0): TEXT_AT}, b'', 0, TEXT_AT, 0))
        for name in filter(is_asked, OBJECTS):
            files = OBJECTS[name]()
            assert all(len(data) <= OBJECT_LIMIT for data in files), name
            calls.links(name, write_list(folder, files))
        for name in filter(is_asked, ENDS):
            calls.say(name, ['merge', '--out', 'left', *write_list(folder, ENDS[name]())])
        for name in filter(is_asked, AGAIN):
            made, broken = AGAIN[name]
            names = write_list(folder, made())
            for command in ('gc', 'merge'):
                calls.say(name, [command, '--out', 'left', *names], broken)
        for name in filter(is_asked, SECTIONS):
            names = write_list(folder, SECTIONS[name]())
            for cells, made in CELLS.items():
                write(os.path.join(folder, 'plan'), made())
                calls.say(f'{name}, {cells}', ['share', '--out', 'out', '--plan', 'plan', *names])
        for name in filter(is_asked, DEVICES):
            write(os.path.join(folder, 'devices'), DEVICES[name]())
            calls.say(name, ['run', '--devices', 'devices', 'three'])
            calls.say(name, ['trace', '--devices', 'devices', 'three.o'])
        for name in filter(is_asked, IMAGES):
            write(os.path.join(folder, 'image'), IMAGES[name]())
            calls.say(name, ['run', 'image'])
            calls.say(name, ['list', 'image'])
        for name, more in (('files', odd_files), ('streams', streams)):
            if is_asked(name):
                more(calls)
        if is_asked('memory'):
            memory_limits(calls, given.memory_steps)
    print(f'{calls.wrong} wrong')
    return calls.wrong > 0


if __name__ == '__main__':
    sys.exit(main())
