#!/usr/bin/env python3
"""Measures how long `list` takes for images of growing size.

    bench/listings.py [--repeats R] [PROGRAM]        PROGRAM is build/zcld if none is given

Code is made by rule: halfwords of all rows and words of all opcodes by chance, and of data there is as much. Each call is made
R times, all calls in turn and in an order that changes. A time is the least of the processor's, and the program is the whole
process, from its start to its end. Standard output goes nowhere.
"""
import os
import random
import subprocess
import sys
import tempfile

sys.path[:0] = (os.path.join(os.path.dirname(os.path.abspath(__file__)), os.pardir, it) for it in ('scripts', 'models', 'fuzz'))

from listed_images import made_code
from zcld_tools.files import random_bytes, write
from zcld_tools.images import COMPRESSED, TEXT_AT, image_bytes
from zcld_tools.measured import Call, Runs, milliseconds, table, words_of_bench
from zcld_tools.programs import built

KIB, SIZES = 1 << 10, (0, 16, 64, 256)


def made_image(size):
    """An image with so many bytes of code, and of data."""
    rng = random.Random(size)
    return image_bytes(made_code(rng, size), {}, random_bytes(rng, size), 0, TEXT_AT, COMPRESSED)


def main():
    given = words_of_bench('Measures listings of images.', 9).parse_args()
    program = built(given.program)
    with tempfile.TemporaryDirectory() as folder:
        paths = {size: os.path.join(folder, f'{size}.elf') for size in SIZES}
        for size, path in paths.items():
            write(path, made_image(size * KIB))
        calls = {size: Call([program, 'list', path]) for size, path in paths.items()}
        runs = Runs(calls.values(), given.repeats)
        runs.say()
        rows = []
        for size, call in calls.items():
            text = subprocess.run(call.words, check=True, capture_output=True).stdout
            rows.append((size, text.count(b'\n'), f'{len(text):,}', milliseconds(call.processor), call.peak() or '-'))
        table(('KiB of code, and of data', 'lines', 'bytes of text', 'ms', 'KiB of memory'), rows)


if __name__ == '__main__':
    main()
