"""Objects without the code that nothing reaches: what `gc` writes, prints and refuses, against the model and by hand."""
from collected_objects import COLLECTING
from made_objects import made_list
from zcld_tools.elf import ABS, BRANCH, CALL, DATA_FLAGS, LOCAL, NONE, PROGBITS, RELAX, RVC, R_32, SECTION_TYPE, WEAK
from zcld_tools.instructions import A0, CALL_WORDS, EXIT_WORDS, NOP, RET, ZERO, addi, branch
from zcld_tools.objects import Written, object_with

from checks import rewritten
from checks.made_files import THREE


def three(*, is_named=False):
    """The program of three instructions, and a second section of code of 8 bytes, which a word of data may name."""
    made, text = object_with(addi(A0, ZERO, 3), *EXIT_WORDS)
    spare = made.section(b'.text.spare')
    spare.words(NOP, RET)
    symbol = made.symbol(b'spare', home=spare)
    if is_named:
        made.section(b'.data', PROGBITS, DATA_FLAGS).reloc(R_32, symbol, 0, (0,))
    return [made.bytes()]


def chain():
    """Sections of code of which each names the next but one: half of them are reached. One that isn't names two that are."""
    made = Written()
    texts = [made.section(b'.text.%d' % k) for k in range(9)]
    symbols = [made.symbol(b'_start' if k == 0 else b'f%d' % k, home=text) for k, text in enumerate(texts)]
    for k, text in enumerate(texts):
        if k + 2 < len(texts):
            text.reloc(CALL, symbols[k + 2], 0, CALL_WORDS)
        text.words(*EXIT_WORDS)
    texts[7].reloc(CALL, symbols[2], 0, CALL_WORDS)
    return [made.bytes()]


def named_by(bind):
    """A section that only a symbol of this binding names, and one that only a hint for the linker does."""
    made, text = object_with()
    first, second = made.section(b'.text.first'), made.section(b'.text.second')
    first.words(RET)
    second.words(RET)
    symbols = made.symbol(b'first', home=first, bind=bind), made.symbol(b'second', home=second)
    text.reloc(CALL, symbols[0], 0, CALL_WORDS)
    text.reloc(RELAX, symbols[1])
    text.reloc(NONE, symbols[1])
    text.words(*EXIT_WORDS)
    return [made.bytes()]


def dropped_homes():
    """Symbols of dropped sections, of section 0 and of none, of unreached code, and a second weak `_start`."""
    made, text = object_with(*EXIT_WORDS)
    notes = made.section(b'.comment', PROGBITS, 0)
    notes.content += b'made by hand\0'
    spare = made.section(b'.text.spare')
    spare.words(NOP, NOP, RET)
    made.symbol(b'note', home=notes, value=5, bind=LOCAL)
    made.symbol(b'', home=notes, kind=SECTION_TYPE, bind=LOCAL)
    made.symbol(b'absent')
    made.symbol(b'fixed', home=ABS, value=0x1234)
    made.symbol(b'inside', home=spare, value=8, size=4)
    other, _ = object_with(NOP, *EXIT_WORDS)
    other.symbols[0].bind = WEAK
    other.symbol(b'note')
    return [made.bytes(), other.bytes()]


def far_apart():
    """A branch that just reaches what stands at a multiple of 256, and no longer does once code in front of it is left out."""
    made, text = object_with()
    spare, near, far = made.section(b'.text.spare'), made.section(b'.text.near'), made.section(b'.text.far', align=256)
    text.reloc(CALL, made.symbol(b'near', home=near), 0, CALL_WORDS)
    text.words(*EXIT_WORDS)
    spare.words(*[NOP] * 61)
    near.reloc(BRANCH, made.symbol(b'far', home=far), 0, (branch(0, ZERO, ZERO, 0),))
    near.words(*[NOP] * 1021)
    far.words(RET)
    return [made.bytes()]


def shared_names(count, name=b'_start'):
    """Symbols that share a name of a megabyte."""
    made, _ = object_with(*EXIT_WORDS, name=name)
    return rewritten.shared_names(made, count)


def compressed():
    """The same program in halfwords, with a section that nothing names."""
    made, text = object_with()
    made.flags, text.align = RVC, 2
    text.halves(0x450D)
    text.words(*EXIT_WORDS)
    spare = made.section(b'.text.spare', align=2)
    spare.halves(0x0001, 0x8082)
    return [made.bytes()]


def says(group, what, files, *ended, **how):
    """How `gc` of files ends."""
    rewritten.says(group, COLLECTING, what, files, *ended, **how)


def collected_by_hand(group):
    """small lists without code that nothing reaches, with the lines that say how much is kept, and what can't be written"""
    says(group, 'a section that nothing names', three(), 0, b'sections 1 of 2\ncode 12 of 20\n')
    says(group, 'one that data names', three(is_named=True), 0, b'sections 2 of 2\ncode 20 of 20\n')
    says(group, 'each names the next but one', chain(), 0, b'sections 5 of 9\ncode 72 of 136\n')
    for bind, what in ((LOCAL, 'a local symbol'), (WEAK, 'a weak symbol')):
        says(group, f'{what} alone names it', named_by(bind), 0, b'sections 2 of 3\ncode 20 of 24\n')
    says(group, 'symbols of what is dropped', dropped_homes(), 0, b'sections 1 of 3\ncode 8 of 32\n')
    says(group, 'compressed code', compressed(), 0, b'sections 1 of 2\ncode 10 of 14\n')
    says(group, 'a second start', [THREE, THREE], 121, err=b'refused 1 9 Duplicate _start\n')
    says(group, 'no start', [Written().bytes()], 121, err=b'refused 0 16 NoEntry\n')
    says(group, 'names that are shared', [shared_names(5)], 119, err=b'broken 0 17 TooLarge\n')
    says(group, 'names in one of several', [THREE, *(shared_names(3, b'f%d' % k) for k in range(11))], 119,
         err=b'broken 11 17 TooLarge\n')
    says(group, 'a branch that no longer reaches', far_apart(), 119, err=b'broken 0 15 Range\n')


def collected_programs(group):
    """programs that C compilers made, and random lists, without code that nothing reaches: the same output and status"""
    rewritten.compared_programs(group, COLLECTING, made_list)


def collected_files(group):
    """names that can't be put, which leave those before them, and files that stand under them"""
    rewritten.put_objects(group, 'gc', [*three(), THREE.replace(b'_start', b'_other')])
