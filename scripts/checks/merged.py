"""Objects in which equal ends of functions stand once: what `merge` writes, prints and refuses, against the model and by hand."""
from merged_objects import MERGING, some_list
from object_faults import Object
from object_parts import relocations
from zcld_tools.elf import (ALIGN, BRANCH, CALL, DATA_FLAGS, FUNCTION_TYPE, LO12_I, LOCAL, PCREL_HI20, PCREL_LO12_I, PROGBITS,
                            RELAX, RVC, R_32, WEAK)
from zcld_tools.instructions import (A0, A1, A7, CALL_WORDS, ECALL, EXIT_CALL, EXIT_WORDS, NOP, RA, RET, T0, ZERO, addi, auipc,
                                     branch, immediate, jal, jalr, lw, words_of)
from zcld_tools.objects import Written, object_with

from checks import rewritten
from checks.c_programs import ONE_SECTION, objects_of
from checks.made_files import THREE

# What two functions do before their ends, and the words of these.
XOR, SHIFT = immediate(4, A0, A0, 1), immediate(1, A0, A0, 1)
ADD, MORE = addi(A0, A0, 5), addi(A0, A0, 7)


def started(text, made, symbol=None):
    """The object's bytes with `_start` behind its code, which calls a symbol with 3 and exits."""
    made.symbol(b'_start', home=text, value=text.words(addi(A0, ZERO, 3)))
    if symbol:
        text.reloc(CALL, symbol, 0, CALL_WORDS)
    text.words(*EXIT_WORDS)
    return [made.bytes()]


def two(first, second, *, entry=None, symbol=None):
    """Two functions in one section, of which `_start` calls the second. A relocation may stand at an offset, and a symbol."""
    made = Written()
    text = made.section(b'.text')
    text.words(*first)
    called = made.symbol(b'second', home=text, value=text.words(*second))
    if entry:
        kind, offset = entry
        text.reloc(kind, None)
        text.relocs[-1].offset = offset
    if symbol:
        made.symbol(b'inside', home=text, **symbol)
    return started(text, made, called)


def with_exits():
    """Two functions whose equal ends begin with an `ecall`, which exits, since `_start` calls the second with that number."""
    made = Written()
    text = made.section(b'.text')
    text.words(XOR, ECALL, ADD, RET)
    second = made.symbol(b'second', home=text, value=text.words(SHIFT, ECALL, ADD, RET))
    made.symbol(b'_start', home=text, value=text.words(addi(A0, ZERO, 3), addi(A7, ZERO, EXIT_CALL)))
    text.reloc(CALL, second, 0, CALL_WORDS)
    text.words(addi(A0, ZERO, 50), *EXIT_WORDS)
    return [made.bytes()]


def alone():
    """A section that is an end and the same one again, and nothing else."""
    made = Written()
    text = made.section(b'.text.f')
    text.words(ADD, RET)
    second = made.symbol(b'second', home=text, value=text.words(ADD, RET))
    return started(made.section(b'.text'), made, second)


def address_behind():
    """Behind an equal end `_start` loads 40 from data, by an address from pc, and calls the second function."""
    made = Written()
    text, data = made.section(b'.text'), made.section(b'.data', PROGBITS, DATA_FLAGS)
    data.words(0, 40)
    numbers = made.symbol(b'numbers', home=data)
    text.words(XOR, ADD, MORE, RET)
    second = made.symbol(b'second', home=text, value=text.words(SHIFT, ADD, MORE, RET))
    start, high = made.symbol(b'_start', home=text), made.symbol(b'.Lhigh', home=text, bind=LOCAL)
    start.value = high.value = text.reloc(PCREL_HI20, numbers, 4, (auipc(A1),))
    text.reloc(PCREL_LO12_I, high, 0, (lw(A0, A1),))
    text.reloc(CALL, second, 0, CALL_WORDS)
    text.words(*EXIT_WORDS)
    return [made.bytes()]


def padding_behind():
    """A padding to a multiple of 16 between an equal end and `_start`."""
    made = Written()
    text = made.section(b'.text', align=16)
    text.words(XOR, ADD, MORE, RET)
    second = made.symbol(b'second', home=text, value=text.words(SHIFT, ADD, MORE, RET))
    text.reloc(ALIGN, None, 12, [NOP] * 3)
    made.symbol(b'_start', home=text, value=text.words(addi(A0, ZERO, 4)))
    text.reloc(CALL, second, 0, CALL_WORDS)
    text.words(*EXIT_WORDS)
    return [made.bytes()]


def with_branch():
    """The same with a branch, which isn't taken, to the end of the second."""
    made = Written()
    text = made.section(b'.text')
    text.words(XOR, ADD, RET, SHIFT, ADD, RET)
    text.words(branch(1, ZERO, ZERO, 20 - len(text.content)))
    return started(text, made)


def apart():
    """The same, each in a section of its own."""
    made = Written()
    for k, word in enumerate((XOR, SHIFT)):
        made.section(b'.text.%d' % k).words(word, ADD, RET)
    return started(made.section(b'.text'), made)


def named_by_data(addend):
    """A word of data names the place this many bytes into the second function."""
    made = Written()
    text = made.section(b'.text')
    text.words(XOR, MORE, ADD, RET)
    symbol = made.symbol(b'second', home=text, value=text.words(SHIFT, MORE, ADD, RET))
    made.section(b'.data', PROGBITS, DATA_FLAGS).reloc(R_32, symbol, addend, (0,))
    return started(text, made, symbol)


def hosts(*tails):
    """Functions with these ends, of which `_start` calls the last."""
    made = Written()
    text = made.section(b'.text')
    for k, words in enumerate(tails):
        symbol = made.symbol(b'f%d' % k, home=text, value=text.words(*words))
    return started(text, made, symbol)


def compressed(count):
    """Two functions in halfwords, whose ends have in common this many sums and `c.jr ra`."""
    made = Written()
    made.flags = RVC
    text = made.section(b'.text', align=2)
    text.halves(0x0505, *[0x0515] * count, 0x8082)
    symbol = made.symbol(b'second', home=text, value=text.halves(0x0509, *[0x0515] * count, 0x8082))
    return started(text, made, symbol)


def of_two_sizes():
    """Three functions with the same end, of 4 bytes in the first two, so that both stay, and of 6 in the third."""
    made = Written()
    made.flags = RVC
    text = made.section(b'.text', align=2)
    text.halves(0x0505, 0x0515, 0x8082, 0x0509, 0x0515, 0x8082)
    symbol = made.symbol(b'third', home=text, value=text.halves(0x050D))
    text.words(ADD)
    text.halves(0x8082)
    return started(text, made, symbol)


def sized():
    """Functions and symbols that begin or end in a tail, and behind it."""
    made = Written()
    text = made.section(b'.text')
    text.words(XOR, ADD, MORE, RET, SHIFT, ADD, MORE, RET)
    for k, (value, size) in enumerate(((0, 16), (16, 16), (20, 12), (24, 8), (28, 4), (32, 0), (18, 2), (20, 6), (0, 100))):
        made.symbol(b'l%d' % k, home=text, value=value, size=size, bind=LOCAL)
    return started(text, made)


def over_a_tail():
    """A loop whose branch and jump, without relocations, lead over a tail that is removed."""
    made = Written()
    text = made.section(b'.text')
    text.words(ADD, MORE, NOP, RET)
    made.symbol(b'_start', home=text, value=len(text.content))
    text.words(addi(A0, ZERO, 0), jal(ZERO, 24), XOR, ADD, MORE, NOP, RET, addi(A0, A0, 1), addi(A1, ZERO, 9),
               branch(4, A0, A1, -32), *EXIT_WORDS)
    return [made.bytes()]


def far_apart():
    """A branch that just reaches what stands at a multiple of 256, and no longer does once a tail in front of it is removed."""
    made, text = object_with()
    front, near, far = made.section(b'.text.front'), made.section(b'.text.near'), made.section(b'.text.far', align=256)
    text.reloc(CALL, made.symbol(b'near', home=near), 0, CALL_WORDS)
    text.words(*EXIT_WORDS)
    front.words(*[NOP] * 54, ADD, MORE, RET, XOR, ADD, MORE, RET)
    near.reloc(BRANCH, made.symbol(b'far', home=far), 0, (branch(0, ZERO, ZERO, 0),))
    near.words(*[NOP] * 1021)
    far.words(RET)
    return [made.bytes()]


def padding_with_symbol():
    """A padding whose relocation has a symbol: the same addend from there leads to the end of the code, and then beyond it."""
    made, text = object_with(*EXIT_WORDS)
    last = made.symbol(b'last', home=text)
    text.reloc(ALIGN, last, 12, [NOP] * 3)
    text.words(XOR, ADD, MORE, RET, SHIFT)
    last.value = text.words(ADD, MORE, RET)
    return [made.bytes()]


def says(group, what, files, *ended, **how):
    """How `merge` of files ends."""
    rewritten.says(group, MERGING, what, files, *ended, **how)


def merged_by_hand(group):
    """small lists with equal ends of functions, with the lines that say what was removed, and what can't be written"""
    counts, none = 'tails {}\nbytes {}\n', (0, b'tails 0\nbytes 0\n')

    def removes(what, files, tails, size, known=None):
        says(group, what, files, 0, counts.format(tails, size).encode(), known=known)
    removes('two ends', two((XOR, ADD, RET), (SHIFT, ADD, RET)), 1, 4, rewritten.exits(11))
    removes('no item before them', two((ADD, RET), (ADD, RET)), 1, 4)
    removes('nothing but them', alone(), 1, 4, rewritten.exits(8))
    removes('ends that begin with an exit', with_exits(), 1, 8, rewritten.exits(6))
    removes('an address behind them', address_behind(), 1, 8, rewritten.exits(92))
    removes('a padding behind them', padding_behind(), 1, 8, rewritten.exits(20))
    says(group, 'the end alone', two((XOR, RET), (SHIFT, RET)), *none)
    says(group, 'a branch to the end', with_branch(), *none)
    says(group, 'in two sections', apart(), *none)
    removes('data names the end', named_by_data(12), 0, 0)
    removes('data names the item before', named_by_data(8), 1, 4)
    removes('data names the first item', named_by_data(4), 1, 8)
    removes('another register', two((ADD, jalr(ZERO, T0)), (ADD, jalr(ZERO, RA))), 0, 0)
    removes('a jump that links', two((ADD, MORE, jalr(RA, RA)), (ADD, MORE, jalr(RA, RA))), 0, 0)
    removes('`auipc` in both', two((ADD, auipc(T0), MORE, RET), (ADD, auipc(T0), MORE, RET)), 1, 4)
    removes('a relocation in the first', two((XOR, MORE, ADD, RET), (SHIFT, MORE, ADD, RET), entry=(LO12_I, 4)), 1, 4)
    removes('a hint in the second', two((XOR, MORE, ADD, RET), (SHIFT, MORE, ADD, RET), entry=(RELAX, 20)), 1, 8)
    removes('a weak symbol inside', two((XOR, MORE, ADD, RET), (SHIFT, MORE, ADD, RET), symbol={'value': 24, 'bind': WEAK}), 1, 4)
    removes('a function inside', two((XOR, MORE, ADD, RET), (SHIFT, MORE, ADD, RET),
                                     symbol={'value': 24, 'bind': LOCAL, 'kind': FUNCTION_TYPE}), 1, 4)
    removes('a label inside', two((XOR, MORE, ADD, RET), (SHIFT, MORE, ADD, RET), symbol={'value': 24, 'bind': LOCAL}), 1, 8)
    removes('the longest counts', hosts((XOR, RET), (XOR, MORE, ADD, RET), (SHIFT, MORE, ADD, RET)), 1, 8)
    removes('a removed tail is no host', hosts((XOR, ADD, RET), (XOR, MORE, ADD, RET), (SHIFT, MORE, ADD, RET)), 2, 8)
    removes('the first of equal ones', of_two_sizes(), 1, 2)
    removes('sums of 2 bytes, one', compressed(1), 0, 0)
    removes('sums of 2 bytes, two', compressed(2), 1, 2)
    removes('symbols with sizes', sized(), 1, 8)
    removes('a branch over a tail', over_a_tail(), 1, 12)
    says(group, 'a second start', [THREE, THREE], 121, err=b'refused 1 9 Duplicate _start\n')
    says(group, 'no start', [Written().bytes()], 121, err=b'refused 0 16 NoEntry\n')
    says(group, 'names that are shared', [rewritten.shared_names(object_with(*EXIT_WORDS)[0], 5)], 119,
         err=b'broken 0 17 TooLarge\n')
    says(group, 'a branch that no longer reaches', far_apart(), 119, err=b'broken 0 15 Range\n')
    says(group, 'a padding with a symbol', padding_with_symbol(), 119, err=b'broken 0 14 BadTarget\n')
    written_by_hand(group)


def written_by_hand(group):
    """What `merge` writes of a section: its words, the relocations' offsets, types and addends, and the symbols' values."""
    leave = *CALL_WORDS, *EXIT_WORDS
    written(group, 'a jump to the first', two((XOR, ADD, RET), (SHIFT, ADD, RET)),
            (XOR, ADD, RET, SHIFT, 0xFF5FF06F, addi(A0, ZERO, 3), *leave), [(24, CALL, 0)], {b'second': 12, b'_start': 20})
    written(group, 'nothing but a jump to it', alone(), (ADD, RET, 0xFF9FF06F), [], {b'second': 8, b'_start': 0})
    written(group, 'a jump to the exit', with_exits(),
            (XOR, ECALL, ADD, RET, SHIFT, 0xFF1FF06F, addi(A0, ZERO, 3), addi(A7, ZERO, 93), *CALL_WORDS, addi(A0, ZERO, 50),
             *EXIT_WORDS), [(32, CALL, 0)], {b'second': 16, b'_start': 24})
    written(group, 'an address', address_behind(),
            (XOR, ADD, MORE, RET, SHIFT, 0xFF1FF06F, auipc(A1), lw(A0, A1), *leave),
            [(24, PCREL_HI20, 4), (28, PCREL_LO12_I, 0), (32, CALL, 0)],
            {b'second': 16, b'_start': 24, b'.Lhigh': 24, b'numbers': 0})
    written(group, 'a padding', padding_behind(),
            (XOR, ADD, MORE, RET, SHIFT, 0xFF1FF06F, *[NOP] * 3, addi(A0, ZERO, 4), *leave), [(24, ALIGN, 12), (40, CALL, 0)],
            {b'second': 16, b'_start': 36})


def written(group, what, files, words, entries, values):
    """The same of one object."""
    folder = group.folder()
    folder.run(('merge', '--out', 'left', *folder.write_list(files)))
    left = Object(folder.read('left0.o'))
    group.same(what, left.sections[1].content, words_of(*words))
    group.same(f'{what}: relocations', [(at, kind, addend) for at, _, kind, addend in relocations(left, 1)], entries)
    group.same(f'{what}: symbols', {name: value for _, name, value, *_ in left.named_symbols()}, values)
    folder.remove()


def merged_programs(group):
    """programs that C compilers made, and random lists, with equal ends of functions shared: the same output and status"""
    rewritten.compared_programs(group, MERGING, some_list)
    for folder, line in zip(ONE_SECTION, (b'tails 4\nbytes 24\n', b'tails 3\nbytes 12\n')):
        says(group, f'monitor by {folder}', objects_of('monitor', folder), 0, line, known=rewritten.known_of('monitor'))


def merged_files(group):
    """names that can't be put, which leave those before them, and files that stand under them"""
    files = two((XOR, ADD, RET), (SHIFT, ADD, RET))
    rewritten.put_objects(group, 'merge', [*files, THREE.replace(b'_start', b'_other')])
