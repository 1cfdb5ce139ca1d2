#!/usr/bin/env python3
"""The report that `zc` prints of a link, as docs/FORMATS.md has it ("The report").

    models/size_report.py FILE...

prints the report of the files, or says their first fault. It is independent of the program, so that both can be compared: the
counts are those of the layout in zc_link.py, and the savings, the slots and the net those of its table. The number of sections that
stay as they are is only there if any names of such are given.
"""
import os
import sys
from typing import NamedTuple

sys.path.insert(0, os.path.join(os.path.dirname(os.path.abspath(__file__)), os.pardir, 'scripts'))

from certificates import lines_of
from object_items import without_fault
from zc_link import link_of
from zcld_tools.images import STANDARD


class Left(NamedTuple):
    """What a link leaves: the image, the text of its certificate, and its report."""

    image: bytes
    certificate: bytes
    report: bytes


def report(linked):
    """The report of a link."""
    link, savings, certificate = linked
    _, plain_end = link.code.plain_layout()
    rows = {'plain text': plain_end - link.memory.text, 'zc text': link.length(), **link.counts(), 'slots': len(certificate.slots),
            'net': certificate.net}
    lines = [*(f'{name} {number}' for name, number in rows.items()), *lines_of(savings, certificate.slots)]
    if link.code.names:
        lines.append(f'fixed {len(link.code.fixed)}')
    return ''.join(line + '\n' for line in lines).encode()


def left_by_zc(files, memory=STANDARD, names=()):
    """What `zc` leaves of files without a fault."""
    linked = link_of(files, memory, names)
    return Left(linked.link.image(), linked.certificate_text(), report(linked))


def main():
    print(report(link_of(without_fault(sys.argv[1:]))).decode(), end='')


if __name__ == '__main__':
    main()
