"""The command `make`: programs that are generated, their summary, and the files under PREFIX (docs/FORMATS.md, "Generated
objects")."""
import os

from made_load import RUNS, made_objects, made_plan, read_summary, summary
from zcld_tools import TOP
from zcld_tools.files import files_in, read
from zcld_tools.programs import in_memory

from checks.harness import broken_pipe
from checks.limits import memories
from checks.made_files import MIB, OLD

MOST = (1 << 64) - 1
# The summary of `make 5 0`, worked out by hand: `_start` alone, in twelve instructions.
SMALL = b'''functions 0
objects 1
plain text 48
zc text 38
net 0
steps 12
commits 12
trace 05000000 0
plain 05000000 0
zc 05000000 0
cuts 05000000 0
'''
# A number and how many functions, of programs whose summary is compared with the model's. That of the last has a jump table.
MODELLED = (0, 0), (MOST, 0), (0, 1), (2047, 8), (2048, 9), (0, 17), (MOST, 40), (7, 300), (1, 500)

# Words with a PREFIX, and what comes before the objects' numbers in their names.
PREFIXES = (
    (('--out', 'p', '5', '3'), 'p'), (('--out=p', '5', '3'), 'p'), (('5', '3', '--out', 'p'), 'p'), (('5', '--out', 'p', '3'), 'p'),
    (('--out', 'p', '--', '5', '3'), 'p'), (('--out', './d/p', '5', '3'), 'd/p'), (('--out', 'd/', '5', '3'), 'd/'),
    (('--out', '', '5', '3'), ''), (('--out=', '5', '3'), ''), (('--out', '-', '5', '3'), '-'), (('--out=--p', '5', '3'), '--p'),
    (('--out', 'p.o', '5', '3'), 'p.o'), (('--out', 'p', '00000000000000000005', '0003'), 'p'),
)


def name_of(prefix, number):
    return f'{prefix}{number}.o'


def named(prefix, objects):
    """The objects by their names."""
    return {name_of(prefix, number): data for number, data in enumerate(objects)}


def make(folder, number, count, *words, **how):
    return folder.run(('make', *words, str(number), str(count)), **how)


def check_same_end(group, what, text):
    """All four machines wrote the same four bytes and exited with 0."""
    said = read_summary(text)
    group.same(f'{what}: the lines', ''.join(f'{name} {value}\n' for name, value in said.items()).encode(), text)
    ends = {said[name] for name in RUNS}
    group.same(f'{what}: one end', len(ends), 1)
    digits, status = ends.pop().split()
    group.same(f'{what}: its form', (digits, status), (bytes.fromhex(digits).hex(), '0'))
    group.same(f'{what}: four bytes', len(digits), 8)


def check_objects(group, number, count):
    """The objects that `make` writes are the model's, and by the other commands they come to what the summary says: with as many
    steps and commits, and not with one less."""
    what, folder = f'make {number} {count}', group.folder(plan=made_plan(number))
    objects = made_objects(number, count)
    names = list(named('p', objects))
    ended = make(folder, number, count, '--out', 'p')
    group.same(what, (ended.status, ended.err), (0, b''))
    group.same(f'{what}: the objects', [folder.read(name) for name in names], objects)
    group.same(f'{what}: the files', set(os.listdir(folder.place)), {'object', 'plan', *names})
    check_same_end(group, what, ended.out)
    group.same(f'{what}, without PREFIX', make(folder, number, count), ended)
    said = read_summary(ended.out)
    group.same(f'{what}: how many', (said['functions'], said['objects']), (str(count), str(len(objects))))
    group.same(f'{what}: plain', folder.plain(*names, out='plain'), (0, b'plain text %s\n' % said['plain text'].encode(), b''))
    report = folder.link(*names).out.decode().splitlines()
    group.same(f'{what}: zc', [it in report for it in (f'{name} {said[name]}' for name in ('plain text', 'zc text', 'net'))], [True] * 3)
    written = bytes.fromhex(said['zc'].split()[0])
    for words, steps in ((('run', 'out'), 'commits'), (('run', '--plan', 'plan', 'out'), 'commits'), (('trace', *names), 'steps')):
        for most, end in ((int(said[steps]), (0, written, b'exited 0\n')), (int(said[steps]) - 1, (127, written, b'spent\n'))):
            group.same(f'{what}: {" ".join(words[:2])} with {most}', folder.run((*words, '--steps', str(most))), end)
    group.exits(f'{what}: run of plain', folder.run(('run', 'plain')), 0, written)
    folder.remove()


def generated_load(group):
    """programs that are generated: their summary, byte for byte, and their objects, by the other commands too"""
    folder = group.folder()
    group.same('make 5 0', make(folder, 5, 0), (0, SMALL, b''))
    group.same('the summary in docs/FORMATS.md', SMALL in read(os.path.join(TOP, 'docs/FORMATS.md')), True)
    for number, count in MODELLED:
        ended = make(folder, number, count)
        group.same(f'make {number} {count}', ended, (0, summary(number, count), b''))
        check_same_end(group, f'make {number} {count}', ended.out)
    group.same('make 7 300, once more', make(folder, 7, 300), make(folder, 7, 300))
    group.same('no file', os.listdir(folder.place), ['object'])
    for number, count in ((5, 0), (0, 1), (MOST, 8), (7, 300), (123456789, 1600)):
        check_objects(group, number, count)


# ---- words, names and streams


def check_refused(group, what, folder, ended, kept, status=123, line='write fault'):
    """A call that is refused prints nothing, and these files exist then."""
    group.ends(what, ended, status, line)
    found = files_in(folder.place)
    group.same(f'{what}: the files', set(found), {'object', *kept})
    group.same(f'{what}: what they have', [name for name, data in kept.items() if found.get(name) != data], [])


def check_names(group):
    """What objects are called, by PREFIX, and where they can't be."""
    objects, wanted = made_objects(5, 3), (0, summary(5, 3), b'')
    for words, prefix in PREFIXES:
        folder = group.folder()
        os.mkdir(folder.path('d'))
        group.same(f'make {words}', folder.run(('make', *words)), wanted)
        for name, data in named(prefix, objects).items():
            group.same(f'make {words}: {name}', folder.read(name), data)
        group.same(f'make {words}: the files', sum(len(files) for _, _, files in os.walk(folder.place)), 1 + len(objects))
        folder.remove()
    folder = group.folder(**{'p0.o': OLD, 'p1.o': OLD, 'p2.o': OLD})
    group.same('files that were there', make(folder, 5, 3, '--out', 'p'), wanted)
    for name, data in {**named('p', objects), 'p2.o': OLD}.items():
        group.same(f'files that were there: {name}', folder.read(name), data)
    for prefix in ('none/p', 'object/p', 'n' * 300):
        folder = group.folder()
        check_refused(group, f'PREFIX {prefix[:20]}', folder, make(folder, 5, 3, '--out', prefix), {})
    # the second of five can't be put: the first is there
    objects, folder = made_objects(7, 32), group.folder(**{'p2.o': OLD})
    os.mkdir(folder.path('p1.o'))
    group.ends('a folder in the way', make(folder, 7, 32, '--out', 'p'), 123, 'write fault')
    group.same('a folder in the way: the files', [folder.read(name) for name in ('p0.o', 'p2.o', 'p3.o')], [objects[0], OLD, None])
    group.alone('a folder in the way', folder)


def check_numbers(group):
    """Numbers that are too large, or aren't numbers: no file is written."""
    for number, count in ((5, 1601), (5, 1 << 32), (5, MOST), (1 << 64, 0), ('0' * 20 + '5', 0), (5, '0' * 21), ('-5', 0), (5, '-0'),
                          ('+5', 0), (5, '+0'), ('', 0), (5, ''), ('0x5', 0), ('5 ', 0), (5, '0.'), ('five', 0)):
        folder = group.folder()
        check_refused(group, f'make {number!r} {count!r}', folder, make(folder, number, count, '--out', 'p'), {}, 120, 'usage')


def check_streams(group):
    """Standard output that refuses the summary, after the objects are written; and the input, which isn't taken."""
    kept, words = named('p', made_objects(5, 3)), ('make', '--out', 'p', '5', '3')
    with open('/dev/full', 'wb') as full, broken_pipe() as written:
        for what, how in (('full', {'stdout': full}), ('a broken pipe', {'stdout': written}), ('closed', {'first': lambda: os.close(1)})):
            folder = group.folder()
            check_refused(group, f'output is {what}', folder, folder.run(words, **how), kept)
            group.same(f'output is {what}, without PREFIX', folder.run(('make', '5', '0'), **how), (123, b'', b'write fault\n'))
    folder = group.folder(input=b'input')
    with open(folder.path('input'), 'rb') as given:
        ended = folder.run(words, given)
        group.same('the input that was taken', (ended.status, os.lseek(given.fileno(), 0, os.SEEK_CUR)), (0, 0))
    ended = folder.run(words, first=lambda: [os.close(it) for it in (0, 2)])
    group.same('input and errors are closed', ended, (0, summary(5, 3), b''))


def check_memory(group):
    """Little memory: the summary, or the line and some of the first objects."""
    objects = made_objects(7, 40)
    done, folder, seen = (0, summary(7, 40), b''), group.folder(), set()
    start = memories(folder)[0]
    # the symbolic machine reserves addresses for all pages of its stack, which are 22 MiB
    for memory in (*range(start, start + 8 * MIB, MIB // 8), *range(start + 8 * MIB, start + 40 * MIB, MIB)):
        for name in named('p', objects):
            folder.write(name, OLD)
        ended = make(folder, 7, 40, '--out', 'p', first=in_memory(memory))
        seen.add(ended.status)
        group.one_of(f'{memory} bytes', ended, (done, (124, b'', b'out of memory\n')))
        found = [folder.read(name) for name in named('p', objects)]
        whole = len(objects) if ended.status == 0 else sum(it != OLD for it in found)
        group.same(f'{memory} bytes: the objects', found, [*objects[:whole], *[OLD] * (len(objects) - whole)])
        group.alone(f'{memory} bytes', folder)
    group.same('each end was seen', seen, {0, 124})


def load_files(group):
    """names that objects get, words that are refused, streams that are closed or full, and little memory"""
    check_names(group)
    check_numbers(group)
    check_streams(group)
    check_memory(group)
