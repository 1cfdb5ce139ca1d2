"""What commands that write objects again do with lists of objects, against their models and by hand."""
import random

from rewritten_objects import Known
from zcld_tools.elf import ABS, LOCAL
from zcld_tools.programs import Ended

from checks.c_programs import FOLDERS, STATUSES, input_of, objects_of, read
from checks.made_files import MIB, OLD


def exits(status, out=b'', given=b''):
    """A program that writes this of its input, and exits with this status."""
    return Known(given, Ended(status, out, b'exited %d\n' % status))


def known_of(program):
    """What is known of a program below examples/."""
    return exits(STATUSES[program], read(program, 'output'), input_of(program))


def compared(group, rewriting, what, files, known=None):
    """What a command does with files against the model, and the runs of what it writes, which end as the given files do and as is
    known, if that is."""
    folder = group.folder()
    counts = dict.fromkeys(('refused', 'broken', 'alike', 'runs alike'), 0)
    group.same(what, rewriting.look(folder, files, counts, known), None)
    folder.remove()


def says(group, rewriting, what, files, status, out=b'', err=b'', known=None):
    """How a command ends with files, by hand; the model must say the same."""
    folder = group.folder(left0=OLD)
    names = folder.write_list(files)
    group.same(what, folder.run((rewriting.command, *rewriting.words, '--out', 'left', *names)), (status, out, err))
    folder.remove()
    compared(group, rewriting, f'{what}, the model', files, known)


def compared_programs(group, rewriting, made_list):
    """The same of programs that C compilers made, with their input, output and status, and of random lists."""
    for program in STATUSES:
        for folder in FOLDERS:
            compared(group, rewriting, f'{program} by {folder}', objects_of(program, folder), known_of(program))
    for seed in range(150):
        source = random.Random(f'{rewriting.command} {seed}')
        compared(group, rewriting, f'list {seed}', made_list(source, source.random() < 0.15))


def put_objects(group, command, files):
    """Names that can't be put, which leave those before them, and files that stand under them."""
    folder = group.folder()
    names = folder.write_list(files)
    group.ends('no such folder', folder.run((command, '--out', 'none/left', *names)), 123, 'write fault')
    group.ends('an object that isn\'t there', folder.run((command, '--out', 'left', *names, 'none')), 122, 'read fault')
    folder.write('left0.o', OLD)
    group.same('over a file', folder.run((command, '--out', 'left', *names)).status, 0)
    group.same('the file is another', folder.read('left0.o') != OLD, True)
    group.ends('no prefix', folder.run((command, *names)), 120, 'usage')
    group.ends('no object', folder.run((command, '--out', 'left')), 120, 'usage')
    group.ends('no map', folder.run((command, '--out', 'left', '--text', '20000000', *names)), 120, 'usage')
    written = folder.read('left0.o')
    for words in (('--text', '08000000', '--data', '20000000', '--stack', '20600000'), ('--extensions', 'zca')):
        group.same(f'{words}', folder.run((command, '--out', 'left', *words, *names)).status, 0)
        group.same(f'{words}: the object', folder.read('left0.o'), written)


def shared_names(made, count):
    """Adds symbols that share a name of a megabyte: the result, in which each name stands by itself, is too large."""
    start = made.symbol_names.add(b'x' * MIB)
    for k in range(count):
        made.symbol(start, home=ABS, value=k, bind=LOCAL)
    return made.bytes()
