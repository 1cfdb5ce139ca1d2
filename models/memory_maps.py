"""Memory maps with the extensions of a chip, and the words that give them, as docs/FORMATS.md has them ("The memory map"); and the
names of sections of code that stay as they are ("Fixed sections")."""
import itertools
import os
import re

from zcld_tools.elf import EXECUTE
from zcld_tools.images import EVERY, PAGE, STANDARD, Extensions, MemoryMap, segments

# Each option of a map.
ADDRESSES = '--text', '--data', '--stack-low', '--stack'
OPTIONS = *ADDRESSES, '--extensions'
# The option that names what stays as it is.
FIXED = '--fixed'
# The words for extensions.
WORDS = {'zca' + ''.join(f'_{name}' for name, has in zip(Extensions._fields, row) if has): Extensions(*row)
         for row in itertools.product((False, True), repeat=3)}
# The values of options that are missing, but for the stack's low end.
USUAL = {'--text': f'{STANDARD.text:08x}', '--data': f'{STANDARD.data:08x}', '--stack': f'{STANDARD.stack_high:08x}',
         '--extensions': next(word for word, has in WORDS.items() if has == EVERY)}
# Data and both ends of the stack are multiples of this.
STEP = 16
# The least room for code, the most bytes of data, and the size of a stack whose low end isn't given.
CODE_ROOM, MOST_DATA, STACK_SIZE = 0xF0000, 0x400000, 0x100000
# The highest that a stack may end, and that data and code may begin: the global pointer reaches a page beyond the most data.
LAST_STACK, LAST_DATA = (1 << 32) - STEP, (1 << 32) - MOST_DATA - PAGE
LAST_TEXT = LAST_DATA - CODE_ROOM


def map_at(text, data, stack, low=None, extensions=EVERY):
    """The map whose code and data begin, and whose stack ends and begins at these addresses; or none if no link may be made for
    it."""
    low = max(0, stack - STACK_SIZE) if low is None else low
    if text == 0 or text % PAGE or any(at % STEP for at in (data, stack, low)):
        return None
    if data < text + CODE_ROOM or data > LAST_DATA or not data <= low < stack < 1 << 32:
        return None
    return MemoryMap(text, data, low, stack, extensions)


def map_in(values):
    """The map of options' values, or none."""
    given = {**USUAL, **values}
    words = {name: given[name] for name in ADDRESSES if name in given}
    if given['--extensions'] not in WORDS or not all(re.fullmatch('[0-9a-f]{8}', word) for word in words.values()):
        return None
    text, data, low, stack = (int(words[name], 16) if name in words else None for name in ADDRESSES)
    return map_at(text, data, stack, low, WORDS[given['--extensions']])


def word_of(extensions):
    """The word for extensions."""
    return next(word for word, has in WORDS.items() if has == extensions)


def names_in(value):
    """The names of sections in a value of the option that fixes them; or none if one is empty or is there twice."""
    names = os.fsencode(value).split(b',')
    return tuple(names) if all(names) and len({*names}) == len(names) else None


def words_of_names(names):
    """The words that fix the sections of these names, if there are any."""
    return [FIXED, os.fsdecode(b','.join(names))] if names else []


def values_of(memory):
    """The value of each option of a map."""
    return dict(zip(OPTIONS, (*(f'{at:08x}' for at in memory[:4]), word_of(memory.extensions))))


def words_of_map(memory):
    """The words of a map, with an option for each part of it."""
    return [word for pair in values_of(memory).items() for word in pair]


def some_words_of_map(rng, memory):
    """The words of a map in any order, mostly without those that make no difference."""
    usual = {**USUAL, '--stack-low': f'{max(0, memory.stack_high - STACK_SIZE):08x}'}
    kept = [pair for pair in values_of(memory).items() if pair[1] != usual[pair[0]] or rng.random() < 0.1]
    return [word for pair in rng.sample(kept, len(kept)) for word in pair]


# ---- maps by chance


def made_map(rng):
    """A map by chance, often one whose parts touch, that lies at an end of the addresses, or that has little RAM."""
    text = rng.choice((PAGE, STANDARD.text, 1 << 31, LAST_TEXT, PAGE * rng.randrange(1, LAST_TEXT // PAGE + 1)))
    data = text + CODE_ROOM
    data += rng.choice((0, STEP * rng.randrange((LAST_DATA - data) // STEP + 1)))
    return with_stack(rng, text, data)._replace(extensions=made_extensions(rng))


def with_stack(rng, text, data):
    """The map with a stack behind data: of 1 MiB, or another size, behind the most data, or fewer."""
    if rng.random() < 0.3:
        first = min(LAST_STACK, data + MOST_DATA + STACK_SIZE)
        return map_at(text, data, rng.choice((first, LAST_STACK, first + STEP * rng.randrange((LAST_STACK - first) // STEP + 1))))
    low = min(data + rng.choice((2048, 4096, 0x8000, 0x80000, MOST_DATA, 1 << 30)), LAST_STACK - STEP)
    size = rng.choice((STEP, 64, 512, 4096, 0x8000, STACK_SIZE, 1 << 24))
    return map_at(text, data, min(low + size, LAST_STACK), low)


def made_names(rng, objects):
    """Names of sections of code by chance: of some of these objects' or of their kin, and sometimes others; or none."""
    found = sorted({read.name_of(it) for read in objects for k, it in enumerate(read.sections) if read.is_code(k)} - {None})
    starts = {name[:at] for name in found for at in range(1, len(name)) if name[at:at + 1] == b'.'}
    usable = [name for name in (*found, *found, *sorted(starts), b'.text.', b'.tex', b'.data', b'absent')
              if name and b',' not in name and name.isascii() and not name.startswith(b'-')]
    return tuple({rng.choice(usable): None for _ in range(rng.choice((0, 1, 1, 2, 3, 20)))})


def made_extensions(rng):
    """All extensions, most often, or some of them."""
    return EVERY if rng.random() < 0.3 else rng.choice([*WORDS.values()])


def with_room(rng, memory, size):
    """A map whose RAM has room for this many bytes of data, just so or with some more, or for fewer."""
    room = max(0, STEP * (-(-size // STEP) + rng.choice((-1, 0, 0, 0, 0, 1, 4, 100))))
    low = min(memory.data + room, LAST_STACK - STEP)
    stack = min(low + rng.choice((STEP, 256, 4096, 4096, 4096, 4096)), LAST_STACK)
    return memory._replace(stack_low=low, stack_high=stack)


def last_data(memory):
    """The end of data at the latest."""
    return min(memory.data + MOST_DATA, memory.stack_low)


def lies_in(image, memory):
    """Whether the segments of an image of a link lie where a map has code and data."""
    def places(segment):
        return (memory.text, memory.data) if segment.flags & EXECUTE else (memory.data, last_data(memory))

    return all(low <= segment.address and segment.address + segment.size <= high
               for segment in segments(image) for low, high in [places(segment)])
