"""Small objects and images, as docs/FORMATS.md has them, and what a link of them leaves."""
from size_report import Left
from zcld_tools.images import COMPRESSED, TEXT_AT, image_bytes
from zcld_tools.instructions import (A0, A1, A2, A7, ECALL, EXIT_WORDS, READ_CALL, SP, T0, WRITE_CALL, ZERO, addi, branch,
                                     jal, words_of)
from zcld_tools.objects import object_with
from zcld_tools.programs import CERTIFICATE

MIB = 1 << 20
OLD = b'what was there'


def object_of(code, name=b'_start'):
    """An object whose code is in section 1, with a global symbol where it begins."""
    made, text = object_with(name=name)
    text.content += code
    return made.bytes()


def image_of(text, sizes=None):
    """The image whose text has instructions of these sizes, from words of 4 bytes each. Without sizes each word is kept."""
    return image_of_several([text], [sizes or (4,) * (len(text) // 4)], 0)


def image_of_several(texts, sizes, entry):
    """The same of section 1 of each of several objects; the entry is this many bytes into the text."""
    at, places = TEXT_AT, {}
    for i, sizes_of_one in enumerate(sizes):
        for k, size in enumerate((*sizes_of_one, 0)):
            places[i, 1, 4 * k] = at
            at += size
    return image_bytes(b''.join(texts), places, b'', 0, TEXT_AT + entry, COMPRESSED)


def image_of_items(sections, align=2):
    """The image of one section of each of several objects, by its items: the size in the object, and what is written for it. A
    section begins at a multiple of a number, and the run at the first."""
    text, places = bytearray(), {}
    for i, items in enumerate(sections):
        text += bytes(-len(text) % align)
        offset = 0
        for size, written in (*items, (0, b'')):
            places[i, 1, offset] = TEXT_AT + len(text)
            text += written
            offset += size
    return image_bytes(bytes(text), places, b'', 0, TEXT_AT, COMPRESSED)


def left_of_several(texts, sizes, entry):
    """What `zc` leaves of objects with this code: the image, and a report of items that are written by themselves, of which none
    is a far jump."""
    all_sizes = [size for sizes_of_one in sizes for size in sizes_of_one]
    report = report_of(4 * len(all_sizes), sum(all_sizes), len(all_sizes), all_sizes.count(2))
    return Left(image_of_several(texts, sizes, entry), CERTIFICATE, report)


def report_of(plain, small, items, short):
    """The report of texts of these lengths, with this many items, each of which is written by itself and none as a far jump, and
    so many of them in two bytes."""
    rows = {'plain text': plain, 'zc text': small, 'items': items, 'short': short,
            **dict.fromkeys(('long', 'push', 'pop', 'move', 'table', 'slots', 'net'), 0)}
    return ''.join(f'{name} {number}\n' for name, number in rows.items()).encode()


def left_of(text, sizes=None):
    """The same of one object."""
    return left_of_several([text], [sizes or (4,) * (len(text) // 4)], 0)


# ---- programs that exit

EXIT = words_of(*EXIT_WORDS)


def exit_code(status):
    return words_of(addi(A0, ZERO, status)) + EXIT


def long_code(words):
    """So many words, none of which has a short form, with an exit at the end."""
    return words_of(*[addi(T0, T0, 100)] * (words - 3)) + exit_code(503)


THREE, OTHER = object_of(exit_code(3)), object_of(exit_code(4), b'other')
# "c.li a0,3" and "c.li a0,4" (Zca), and the rest as it is
THREE_TEXT, OTHER_TEXT = bytes.fromhex('0d45') + EXIT, bytes.fromhex('1145') + EXIT
SHORT_SIZES = 2, 4, 4
THREE_LEFT = left_of(THREE_TEXT, SHORT_SIZES)
THREE_IMAGE = THREE_LEFT.image
LARGE, LARGE_LEFT = object_of(long_code(16384)), left_of(long_code(16384))


# ---- programs that read and write


def call_of_stack(number, descriptor, size, offset=0):
    """A call for this many bytes of the stack, from an offset of sp on."""
    return addi(A0, ZERO, descriptor), addi(A1, SP, offset), addi(A2, ZERO, size), addi(A7, ZERO, number), ECALL


READ_WORDS = call_of_stack(READ_CALL, 0, 1024)


def write_words(stream):
    """A write of as many bytes as were read."""
    return addi(A2, A0), addi(A0, ZERO, stream), addi(A7, ZERO, WRITE_CALL), ECALL


# In a loop: the whole input is copied to standard output, and then the exit has the status 0.
COPY_CODE = words_of(addi(SP, SP, -1024), *READ_WORDS, branch(0, A0, ZERO, 24), *write_words(1), jal(ZERO, -40)) + EXIT
COPY, COPY_IMAGE = object_of(COPY_CODE), image_of(COPY_CODE)
# Straight code: what is read first goes to standard output, what is read then to standard error.
TWICE = object_of(words_of(addi(SP, SP, -1024), *READ_WORDS, *write_words(1), *READ_WORDS, *write_words(2)) + exit_code(0))
