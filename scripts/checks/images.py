"""Images, byte for byte, and that they do what their objects do."""
import os

import plain_examples
import zc_examples
from plain_link import plain as plain_of
from zc_link import zc as zc_of
from zcld_tools import TOP
from zcld_tools.files import read
from zcld_tools.images import text_of
from zcld_tools.instructions import words_of

from checks.harness import runs_of
from checks.load import SMALL
from checks.made_files import LARGE, LARGE_LEFT, THREE, left_of, long_code, object_of


def stored_run(group):
    """the stored run, which writes no file"""
    words, printed = (read(os.path.join(TOP, 'crates/zcld_program', name)) for name in ('args', 'stdout'))
    folder = group.folder()
    group.same('what it must print', printed, SMALL)
    group.same('the stored run', folder.run(words.decode().split()), (0, SMALL, b''))
    group.same('no file', os.listdir(folder.place), ['object'])


def large_code(group):
    """a little code, much, and the most: 256 KiB, with its alignment of 4"""
    folder = group.folder(large=LARGE, most=object_of(long_code(65535)), more=object_of(long_code(65536)))
    group.done('three words', folder.link(), folder)
    group.done('large code', folder.link('large'), folder, left=LARGE_LEFT)
    group.done('the most code', folder.link('most'), folder, left=left_of(long_code(65535)))
    group.ends('more code', folder.link('more'), 121, 'refused 0 17 TooLarge')


def programs():
    """What each program is, its files, its input, its status, what it writes, and the length of its text that `zc` makes."""
    return (('three', [THREE], b'', 3, b'', 10), ('hello', plain_examples.hello(), b'', 0, b'hi\n', 32),
            ('jump table', plain_examples.jump_table(), b'', 7, b'', 4466),
            *(('echo', plain_examples.echo(), given, 0, given[:4], 38) for given in (b'', b'ab', b'abcdef')))


def plain_images(group):
    """plain images, byte for byte, and that they do what their objects do"""
    for what, files, given, status, out, _ in programs():
        folder, names = group.linked_plainly(what, files)
        group.both_exit(what, folder, names, status, out, given)
    rows = (('hello', plain_examples.hello(), 15, 0, 64), ('jump table', plain_examples.jump_table(), 4, 7, 4492),
            ('echo', plain_examples.echo(), 12, 0, 48))
    for what, files, steps, status, length in rows:
        folder, names = group.linked_plainly(what, files)
        group.same(f'{what}: the text', plain_of(files)[1], length)
        for most, end in ((steps, status), (steps - 1, 127)):
            group.same(f'{what}: {most} steps', folder.run(('trace', '--steps', str(most), *names)).status, end)
    for what, files, status in plain_examples.accepted():
        folder, names = group.linked_plainly(what, files)
        if status is not None:
            group.both_exit(what, folder, names, status)


def linker_names(group):
    """the values of the linker's names"""
    files, words = plain_examples.linker_names()
    out = words_of(*words)
    plainly, names = group.linked_plainly('plain', files)
    for what, ended in runs_of(plainly, group.linked_small('zc', files), names):
        group.exits(f'{what}: the words', ended, 0, out)


def zc_images(group):
    """images of `zc`, byte for byte, and that they do what their objects do"""
    for what, files, given, status, out, length in programs():
        folder = group.linked_small(what, files)
        group.same(f'{what}: the text', zc_of(files)[1], length)
        group.exits(f'{what}, run', folder.run(('run', 'out'), given), status, out)
    for what, made, written in zc_examples.forms():
        text = text_of(group.linked_small(what, [made.bytes()]).read('out'))
        for at, wanted in written.items():
            group.same(f'{what}, at {at}', text[at:at + len(wanted) // 2].hex(), wanted)
        group.same(f'{what}: the text', len(text), zc_examples.LENGTHS.get(what, len(text)))
    runs = [(what, [made.bytes()], status) for what, made, status in zc_examples.runs()]
    for what, files, status in [*runs, *plain_examples.accepted()]:
        folder = group.linked_small(what, files)
        if status is not None:
            group.exits(f'{what}, run', folder.run(('run', 'out')), status)
