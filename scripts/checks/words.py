"""Lists of words of which one may doubt whether they spell a command, and which: the program does what that command does."""
from plain_link import plain as plain_of
from zcld_tools.programs import CERTIFICATE

from checks.made_files import OTHER, THREE, THREE_IMAGE

# The files under the names in the lists. Objects whose list has two have two names, so that they can be linked.
FILES = {'x.o': THREE, 'y.o': OTHER, 'zc': THREE, 'help': THREE, '-': THREE, '-x.o': THREE, '--out': THREE, 'b': OTHER,
         '--': OTHER, 'i': THREE_IMAGE, 'j': THREE_IMAGE, 'p': b'zcld plan 1\n', 'c': CERTIFICATE, 'd': CERTIFICATE,
         'v': b'zcld devices 1\n'}

# Lists that spell no command. A line has a space between words, so two spaces are an empty word. In this order: no command, or
# none of this name, and words that ask for help or a version; options before the command; an option or a file is missing; a value
# that begins with `-`; an option twice, or not of this name; help after a command's name; the two files that are written are one;
# no number, or one too large or too long; positional words too many or too few; and addresses of no form, or that give no map,
# and a command that takes none, or no devices; and names of sections of which one is empty or is there twice, or of which a command
# takes none.
NO_COMMANDS = '''\
frob
help
help zc
help frob
-h
--help
--version
-V
--
-
Plain --out a x.o
plai --out a x.o
-- plain --out a x.o
--out a plain x.o
plain
plain --out a
plain x.o
plain help
plain --out a --
plain --out -a x.o
plain --out -- x.o
plain --out --out x.o
plain --out --help x.o
plain --out a -x.o
plain --out a -1
plain --out a --out b x.o
plain --out a x.o --out=b
plain --ou a x.o
plain --OUT a x.o
plain -out a x.o
plain -o a x.o
plain --=a --out a x.o
plain --cert c --out a x.o
plain --out a x.o -h
plain --out a x.o --help
zc --out a --cert a x.o
zc --out --cert c x.o
run --steps 1000000001 i
run --steps 000000000000000000005 i
run --steps +5 i
run --steps -5 i
run --steps 5 i j
run --devices i
run --devices -- i
run --devices v --devices v i
run --device v i
trace --devices v
trace --devices v x.o --devices=v
trace --steps 5
check
check c d
make 5
make 18446744073709551616 0
make 5 --out p 1601
plain --text 0001000 --out a x.o
plain --text 00010000 --text 00010000 --out a x.o
plain --text=00000000 --out a x.o
zc --data 0020A000 --out a --cert c x.o
zc --data --out a --cert c x.o
run --stack 1 i
run --stack=00001000 i
trace --text 08000000 --data 080e0000 x.o
run --extensions zcb i
run --extensions= i
run --extensions i
run --extension zca i
run --stack-low 10000000 i
run --stacklow 0ff00000 i
gc --text 00010000 --text 00010000 --out a x.o
merge --extensions zca_zcmp_zcb --out a x.o
share --stack-low 000ffff0 --out a --plan p x.o
list --data 00100008 i
make --text 00010000 5 0
make --extensions zca 5 0
check --stack 10000000 c
check --stack-low 0ff00000 c
plain --devices v --out a x.o
zc --devices v --out a --cert c x.o
share --devices v --out a --plan p x.o
list --devices v i
make --devices v 5 0
plain --fixed= --out a x.o
plain --fixed  --out a x.o
plain --fixed --out a x.o
plain --out a x.o --fixed
zc --fixed .text,.text --out a --cert c x.o
zc --fixed .text --fixed .data --out a --cert c x.o
zc --fixed .text, --out a --cert c x.o
run --fixed ,.text i
run --fixed .a,,.b i
trace --fixed=, x.o
trace --fix .text x.o
gc --fixed .a,.b,.a --out a x.o
merge --fixed -a --out a x.o
share --fixed .text,.data, --out a --plan p x.o
list --fixed= i
list --fixed .a --fixed .a i
make --fixed .text 5 0
check --fixed .text c'''.split('\n')


def plain(out, *names):
    """How a plain link ends, and the file that it leaves."""
    image, length = plain_of([FILES[name] for name in names])
    return 0, '', b'plain text %d\n' % length, {out: image}


# How a run of the image ends; a link whose OUT or object has no name; and links with a certificate, one of them under another name
# of the image's file, which isn't overwritten.
EXITED = 3, 'exited 3', b'', {}
NO_OUT, NO_OBJECT = (123, 'write fault', b'', {}), (122, 'read fault', b'', {})
LINKED, ONE_FILE = (0, '', None, {'a': THREE_IMAGE, 'c': CERTIFICATE}), (123, 'write fault', b'', {'a': THREE_IMAGE})

# Lists that spell a command, with the status, the line, the output if it is always the same, and the files. In this order: a value
# in the option's own word; values and files that are `-`, or nothing, or have a `=`; words after `--`; options between and after
# files; names of commands as files; numbers; and names of sections, which may have any other byte.
COMMANDS = (
    ('plain --out a x.o', plain('a', 'x.o')), ('plain --out=a x.o', plain('a', 'x.o')), ('plain --out= x.o', NO_OUT),
    ('plain --out=-a x.o', plain('-a', 'x.o')), ('plain --out=-- x.o', plain('--', 'x.o')),
    ('plain --out=a=b x.o', plain('a=b', 'x.o')), ('plain --out a=b x.o', plain('a=b', 'x.o')),
    ('plain --out - x.o', plain('-', 'x.o')), ('plain --out a -', plain('a', '-')), ('plain --out  x.o', NO_OUT),
    ('plain --out a ', NO_OBJECT),
    ('plain --out a -- -x.o', plain('a', '-x.o')), ('plain --out a -- --out b', plain('a', '--out', 'b')),
    ('plain --out a x.o -- y.o', plain('a', 'x.o', 'y.o')), ('plain --out a x.o -- --', plain('a', 'x.o', '--')),
    ('plain x.o --out a', plain('a', 'x.o')), ('plain x.o --out a y.o', plain('a', 'x.o', 'y.o')),
    ('zc --out a x.o --cert c', LINKED), ('zc --out a --cert ./a x.o', ONE_FILE),
    ('zc --cert c --out a x.o x.o', (121, 'refused 1 9 Duplicate _start', b'', {})), ('run i --steps 5', EXITED),
    ('plain --out help help', plain('help', 'help')), ('plain --out a zc', plain('a', 'zc')),
    ('run i', EXITED), ('run --steps 5 i', EXITED), ('run --steps 00000000000000000005 i', EXITED),
    ('run --steps=5 --plan=p i', EXITED), ('run --text 00010000 i --stack=10000000 --data 00100000', EXITED),
    ('run --devices v --plan p i', EXITED), ('run --plan=p --steps 5 i --devices=v', EXITED),
    ('trace x.o --devices v', EXITED), ('run --devices= i', NO_OBJECT), ('trace --devices v -- -x.o', EXITED),
    ('trace --steps 3 - --devices v', EXITED),
    ('plain --text=00010000 --out a x.o', plain('a', 'x.o')), ('zc --out a x.o --stack 10000000 --cert c', LINKED),
    ('zc --extensions zca_zcb --out a x.o --cert c', LINKED), ('run --extensions=zca i', EXITED),
    ('run --stack-low 0ff00010 i --extensions zca_zcb_zcmp_zcmt', EXITED), ('trace --stack=00200000 x.o', EXITED),
    ('plain --stack 20001000 --stack-low=20000000 --out a x.o', plain('a', 'x.o')), ('list --text 00001000 i', (0, '', None, {})),
    ('list --text=00020000 --data 00110000 i', (125, 'bad image 3', b'', {})),
    ('run --text 00001000 i', EXITED), ('run --text=00020000 --data 00110000 i', (125, 'bad image 3', b'', {})),
    ('run --steps=2 i', (127, 'spent', b'', {})), ('make 5 0', (0, '', None, {})),
    ('plain --fixed .text --out a x.o', plain('a', 'x.o')), ('plain x.o --out a --fixed=-a,=,--,. y.o', plain('a', 'x.o', 'y.o')),
    ('zc --fixed .other --out a x.o --cert c', LINKED), ('zc --out a x.o --cert c --fixed=.text.,.tex', LINKED),
    ('run --fixed .text i', EXITED), ('trace x.o --fixed .text,.data', EXITED), ('list i --fixed a', (0, '', None, {})),
)


def odd_words(group):
    """lists of words that are hardly ever given: which of them spell a command, and which one"""
    folder = group.folder(**FILES)
    for words in ([], [''], *(line.split(' ') for line in NO_COMMANDS)):
        group.ends(f'{words}', folder.run(words), 120, 'usage')
    group.same('usage: files that changed', changed(folder, {**dict.fromkeys(('a', '-a', 'out', 'zcld.cert')), **FILES}), [])
    for line, (status, said, out, files) in COMMANDS:
        folder = group.folder(**FILES)
        ended = folder.run(line.split(' '))
        group.same(line, (ended.status, ended.err), (status, said.encode() + b'\n' if said else b''))
        if out is not None:
            group.same(f'{line}: output', ended.out, out)
        group.same(f'{line}: files', changed(folder, {**FILES, **files}), [])
        folder.remove()


def changed(folder, files):
    """The names that have other bytes than these, or any where there should be none."""
    return [name for name, data in files.items() if folder.read(name) != data]
