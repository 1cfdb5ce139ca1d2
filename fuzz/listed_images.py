#!/usr/bin/env python3
"""Compares what `list` prints of images by chance with the model's listing, and reads each listing back.

    fuzz/listed_images.py [--seed S] [--count N] [--models] [PROGRAM]

PROGRAM is build/zcld if none is given; with --models there is none. Images are those that both links make of random lists, and
of the C programs in examples/; and ones that no link makes: with several segments in any order, code that ends inside a word,
zeros behind code, and empty segments. Of three images one has bytes changed: it may be bad, and else its listing counts. The
model (models/listing.py) reads each listing back to the segments of the image. It prints counts, and stops at the first
difference with status 1.
"""
import argparse
import collections
import os
import random
import re
import sys
import tempfile

sys.path[:0] = (os.path.join(os.path.dirname(os.path.abspath(__file__)), os.pardir, it) for it in ('scripts', 'models'))

from checks.by_chance import random_word
from checks.c_programs import FOLDERS, STATUSES, objects_of
from checks.harness import Folder
from fuzz import MUTATIONS
from made_objects import made_list
from listing import listed, read_list, segments_of
from object_items import first_fault
from plain_link import plain
from zc_link import zc
from zcld_tools import programs
from zcld_tools.elf import EXECUTABLE, EXECUTE, HEADER, PROGRAM_HEADER, READABLE, RVC, TSO, WRITABLE, Part, file_header
from zcld_tools.files import random_bytes
from zcld_tools.images import DATA_AT, TEXT_AT, load_header
from zcld_tools.instructions import halves_of, words_of

DATA_ROOM, MOST_SEGMENTS, OTHER_KIND = 4 << 20, 16, 4
READ_ONLY_CODE, FLAGS_OF_DATA = READABLE | EXECUTE, (0, READABLE, WRITABLE, READABLE | WRITABLE)


# ---- images


def made_code(rng, size):
    """So many bytes of code: halfwords and words of all kinds, known ones most of all."""
    made = b''
    while len(made) < size:
        which = rng.randrange(4)
        made += (words_of(random_word(rng)) if which == 0 else words_of(rng.getrandbits(32) | 3) if which == 1 else
                 halves_of(rng.getrandbits(16) & ~3 | rng.randrange(3)))
    return made[:size]


def some_size(rng):
    return rng.choice((0, 1, 2, 3, 4, 5, 6, 7, 15, 16, 17, 31, 32, 33, rng.randrange(200), rng.randrange(5000)))


def parts_in(rng, low, high, count, is_code):
    """Segments that follow each other between two addresses, some of them empty: flags, address, bytes and zeros."""
    at, made = low, []
    for _ in range(count):
        at += rng.choice((0, 0, 1, 2, 4, rng.randrange(3000)))
        size, zeros = some_size(rng), rng.choice((0, 0, 1, 16, rng.randrange(40_000)))
        zeros = max(0, min(zeros, high - at - size))
        content = (made_code if is_code else random_bytes)(rng, size)
        flags = READ_ONLY_CODE if is_code and rng.random() < 0.8 else EXECUTE if is_code else rng.choice(FLAGS_OF_DATA)
        made.append((flags, at, content, zeros))
        at += size + zeros
    return made


def entry_of(rng, parts):
    """An even address in a segment of code, or at its end; none if there is none."""
    found = [(at + k) & ~1 for flags, at, content, _ in parts if flags & EXECUTE
             for k in (0, 1, rng.randrange(len(content) + 1), len(content)) if at <= (at + k) & ~1 <= at + len(content)]
    return rng.choice(found) if found else None


def executable_of(parts, entry, flags=0, others=()):
    """An executable without sections, with these segments, and program headers of another kind at some indices among theirs."""
    headers, content = [], b''
    start = HEADER + PROGRAM_HEADER * (len(parts) + len(others))
    for kind, at, data, zeros in parts:
        headers.append(load_header(Part(content=data, address=at), start + len(content), zeros, kind, 4))
        content += data
    for index in others:
        headers.insert(index, OTHER_KIND.to_bytes(4, 'little') + bytes([0xFF] * 28))
    return file_header(EXECUTABLE, 0, 0, 0, entry=entry, flags=flags, segments=len(headers)) + b''.join(headers) + content


def odd_image(rng):
    """An image that no link makes."""
    parts = parts_in(rng, TEXT_AT + rng.choice((0, 1, 2, 100)), DATA_AT, rng.choice((1, 1, 2, 5)), True)
    parts += parts_in(rng, DATA_AT + rng.choice((0, 1, 4096)), DATA_AT + DATA_ROOM, rng.choice((0, 1, 1, 4, 11)), False)
    if rng.random() < 0.1:
        parts.append((READ_ONLY_CODE, DATA_AT - 3, made_code(rng, 3), 0))
    if rng.random() < 0.2:
        # at the ends of where data may lie, and empty
        parts.append((READABLE, rng.choice((DATA_AT, DATA_AT + DATA_ROOM)), b'', 0))
    rng.shuffle(parts)
    others = [rng.randrange(len(parts) + 1) for _ in range(rng.choice((0, 0, 1, 3)))]
    entry = entry_of(rng, parts)
    return None if entry is None or len(parts) > MOST_SEGMENTS else executable_of(parts, entry, rng.choice((0, RVC, TSO, RVC | TSO)), others)


def image_of_link(rng):
    """An image of a random list, or of a C program; none if the list has a fault."""
    if rng.random() < 0.15:
        files = objects_of(rng.choice(list(STATUSES)), rng.choice(FOLDERS))
    else:
        files = made_list(rng, rng.random() < 0.1)
    return None if first_fault(files) else rng.choice((plain, zc))(files)[0]


def some_image(rng):
    made = None
    while made is None:
        made = (odd_image if rng.random() < 0.6 else image_of_link)(rng)
    return made


def changed(rng, image):
    made = bytearray(image)
    for _ in range(rng.choice((1, 1, 2))):
        rng.choice(MUTATIONS)(rng, made)
    return bytes(made)


# ---- what is compared


def wrong_of(image):
    """Says whether the model's listing isn't read back to the image's segments."""
    return None if read_list(listed(image)) == segments_of(image) else 'the model reads back another image'


def look(folder, rng, counts):
    """Says what differs of an image, if anything does. Without a folder only the model is tried."""
    image = some_image(rng)
    is_whole = rng.random() < 0.66
    if folder is None:
        counts['images'] += 1
        counts['segments'] += len(segments_of(image))
        return wrong_of(image)
    image = image if is_whole else changed(rng, image)
    folder.write('image', image)
    ended = folder.run(('list', 'image'))
    if not is_whole and ended.status == 125 and not ended.out and re.fullmatch(rb'bad image [1-4]\n', ended.err):
        counts['bad images'] += 1
        return None
    if (ended.status, ended.err) != (0, b''):
        return f'status {ended.status}, {ended.err[:100]}'
    counts['listed' if is_whole else 'changed and listed'] += 1
    if ended.out != listed(image):
        lines = zip(ended.out.split(b'\n'), listed(image).split(b'\n'))
        return f'{next((pair for pair in lines if pair[0] != pair[1]), "another length")}'
    return wrong_of(image)


def main():
    words = argparse.ArgumentParser(description='Compares listings of images with those of a model.')
    words.add_argument('--seed', type=int, default=1)
    words.add_argument('--count', type=int, default=1000)
    words.add_argument('--models', action='store_true')
    words.add_argument('program', nargs='?', default=programs.BUILT)
    given, counts = words.parse_args(), collections.Counter()
    program = None if given.models else programs.built(given.program)
    for seed in range(given.seed, given.seed + given.count):
        with tempfile.TemporaryDirectory() as place:
            wrong = look(program and Folder(program, place), random.Random(f'listed {seed}'), counts)
        if wrong:
            sys.exit(f'seed {seed}: {wrong}')
    print(f'{given.count} images: ' + ', '.join(f'{count} {what}' for what, count in sorted(counts.items())))


if __name__ == '__main__':
    main()
