#!/usr/bin/env python3
"""Certificates of jump tables (docs/FORMATS.md, "The certificate"): what a text says, what its slots save, the bound by
its prices, and whether a checker may say yes.

    models/certificates.py FILE...

says of each file `net N`, `rejected`, or which line of it is bad. It is independent of the program, so that both can be
compared.
"""
import collections
import re
import sys

LIMIT, MOST_SLOTS, LOW_SLOTS = 8 << 20, 256, 32
HEAD = b'zcld certificate 1'
NUMBER = rb'(0|[1-9][0-9]*)'
WORD, LONG = 1 << 32, 1 << 64
# Where a saving has its numbers of sites.
JUMPS, CALLS = 3, 4
# Each kind of line, and where its numbers end.
SAVING = re.compile(b' '.join([b'saving', *[NUMBER] * 5])), (1 << 16, 1 << 16, WORD, WORD, WORD)
SLOT = re.compile(b'slot ' + NUMBER), (WORD,)
PRICE = re.compile(b' '.join([b'price', *[NUMBER] * 3])), (WORD,) * 3
NET = re.compile(b'net ' + NUMBER), (LONG,)

Saving = collections.namedtuple('Saving', 'object section offset jump_sites call_sites')
Certificate = collections.namedtuple('Certificate', 'slots prices net')


class Bad(Exception):
    """Why a text is no certificate."""


def numbers(kind, line):
    """The numbers of a line of this kind, or None."""
    pattern, ends = kind
    found = pattern.fullmatch(line)
    if found is None:
        return None
    values = tuple(int(it) for it in found.groups())
    return values if all(value < end for value, end in zip(values, ends)) else None


class Lines:
    """The lines of a text, one after another. What has no line feed is no line."""

    def __init__(self, text):
        *self.lines, self.rest = text.split(b'\n')
        self.index = 0

    def take(self, kind):
        """The next line's numbers, if it is of this kind, and otherwise None: then the line stays."""
        values = numbers(kind, self.lines[self.index]) if self.index < len(self.lines) else None
        self.index += values is not None
        return values

    def bad(self):
        return Bad(f'line {self.index + 1}')

    def want(self, kind):
        values = self.take(kind)
        if values is None:
            raise self.bad()
        return values

    def want_text(self, wanted):
        if self.lines[self.index:self.index + 1] != [wanted]:
            raise self.bad()
        self.index += 1

    def want_end(self):
        if self.index < len(self.lines) or self.rest:
            raise self.bad()


def read_certificate(text):
    """The savings and the certificate of a text."""
    if len(text) > LIMIT:
        raise Bad('size')
    lines = Lines(text)
    lines.want_text(HEAD)
    savings = [Saving(*it) for it in iter(lambda: lines.take(SAVING), None)]
    slots = []
    while len(slots) < MOST_SLOTS and (slot := lines.take(SLOT)) is not None:
        slots += slot
    prices = lines.want(PRICE)
    net, = lines.want(NET)
    lines.want_text(b'end')
    lines.want_end()
    return savings, Certificate(slots, prices, net)


def lines_of(savings, slots):
    """The lines of savings and of slots, which a report has too."""
    return [*(f'saving {" ".join(map(str, it))}' for it in savings), *(f'slot {it}' for it in slots)]


def write_certificate(savings, certificate):
    """The text of savings and a certificate."""
    lines = [HEAD.decode(), *lines_of(savings, certificate.slots), f'price {" ".join(map(str, certificate.prices))}',
             f'net {certificate.net}', 'end']
    return ''.join(line + '\n' for line in lines).encode()


def saved(savings, slots):
    """What slots save, without the table's own bytes: each target that they name counts once in each part."""
    low, high = set(slots[:LOW_SLOTS]) - {0}, set(slots[LOW_SLOTS:]) - {0}
    return sum(2 * savings[k - 1].jump_sites for k in low) + sum(2 * savings[k - 1].call_sites for k in high)


def cost(slots):
    """The bytes of a table of these slots and of the code that sets it up."""
    return 4 * len(slots) + 12 if slots else 0


def bound(savings, prices):
    """What no table saves more than, by three prices."""
    jump, low, high = prices
    jumps, calls = [2 * it.jump_sites for it in savings], [2 * it.call_sites for it in savings]
    alone = sum(max(0, v - 4 - jump) for v in jumps) + 32 * jump - 12
    both = sum(max(0, v - low) for v in jumps) + 32 * low - 140 + sum(max(0, u - 4 - high) for u in calls) + 224 * high
    return max(0, alone, both)


def best(savings):
    """The first of three tables that saves the most: none, the jumps alone, or both; and the prices that show it."""
    def ranks(part, above):
        found = [k for k in range(len(savings)) if 2 * savings[k][part] > above]
        return sorted(found, key=lambda k: (-savings[k][part], k))

    def price(part, less, rank):
        found = sorted((max(0, 2 * it[part] - less) for it in savings), reverse=True)
        return found[rank] if rank < len(found) else 0

    low, high = ranks(JUMPS, 0)[:LOW_SLOTS], ranks(CALLS, 4)[:MOST_SLOTS - LOW_SLOTS]
    tables = ([], [k + 1 for k in ranks(JUMPS, 4)[:LOW_SLOTS]],
              [k + 1 for k in low] + ([0] * (LOW_SLOTS - len(low)) + [k + 1 for k in high] if high else []))
    nets = [saved(savings, slots) - cost(slots) for slots in tables]
    prices = price(JUMPS, 4, LOW_SLOTS), price(JUMPS, 0, LOW_SLOTS), price(CALLS, 4, MOST_SLOTS - LOW_SLOTS)
    return Certificate(tables[nets.index(max(nets))], prices, max(nets))


def accepts(savings, certificate):
    """Whether the net is what the slots save, and the bound by the prices."""
    if len(certificate.slots) > MOST_SLOTS or any(slot > len(savings) for slot in certificate.slots):
        return False
    net = saved(savings, certificate.slots) - cost(certificate.slots)
    return net == certificate.net == bound(savings, certificate.prices)


# ---- made certificates


def made_savings(rng, most=40):
    """Savings with few sites or many, sometimes with as many as a number can say."""
    most_sites = rng.choice((3, 40, 1000, WORD - 1))
    count = rng.choice((0, 1, 2, rng.randint(0, most), rng.randint(0, most)))
    return [Saving(rng.randrange(1 << 16), rng.randrange(1 << 16), rng.randrange(WORD), rng.randint(0, most_sites),
                   rng.randint(0, most_sites)) for _ in range(count)]


def made_certificate(rng, savings):
    """The best certificate, one that differs from it in a part, or any one."""
    made = best(savings)
    if rng.random() < 0.4:
        return made
    slots = rng.choice((made.slots, made.slots[::-1], made.slots + [rng.randint(0, len(savings))],
                        [rng.randint(0, len(savings) + (rng.random() < 0.1)) for _ in range(rng.randint(0, 258))]))
    any_prices = tuple(rng.choice((0, rng.randint(0, 40), rng.randrange(WORD))) for _ in range(3))
    prices = rng.choice((made.prices, any_prices))
    exact = saved(savings, slots) - cost(slots) if all(slot <= len(savings) for slot in slots) else 0
    net = rng.choice((made.net, max(0, exact), bound(savings, prices), rng.randrange(LONG)))
    return Certificate(slots, prices, net)


def changed(rng, text):
    """A text with a slip: a number, a space, a line feed or a line."""
    lines = text.split(b'\n')
    k = rng.randrange(len(lines))
    which = rng.randrange(9)
    if which == 0:
        return text[:-1]
    if which == 1:
        return text + rng.choice((b'\n', b' ', b'end\n', b'x', b'\0'))
    if which == 2:
        del lines[k]
    elif which == 3:
        lines.insert(k, rng.choice((lines[k], b'', b'slot 0', b'saving 0 0 0 0 0', b'price 0 0 0', b'net 0', b'end')))
    elif which == 4:
        lines[k] = re.sub(rb'\b([0-9])', rb'0\1', lines[k], count=1)
    elif which == 5:
        lines[k] = re.sub(rb'[0-9]+$', str(rng.choice((1 << 16, WORD, LONG, WORD - 1, LONG - 1))).encode(), lines[k])
    elif which == 6:
        lines[k] = lines[k].replace(b' ', rng.choice((b'  ', b'', b'\t', b' +', b' -')), 1)
    elif which == 7:
        lines[k] = rng.choice((lines[k] + b' ', b' ' + lines[k], lines[k] + b' 0', lines[k] + b'\r', lines[k].upper()))
    else:
        at = rng.randrange(len(text))
        return text[:at] + bytes([rng.choice((text[at] ^ 1, 0x20, 0x0A, 0x30))]) + text[at + 1:]
    return b'\n'.join(lines)


def made_text(rng, most=40):
    """The text of a made certificate, or one with some slips."""
    savings = made_savings(rng, most)
    text = write_certificate(savings, made_certificate(rng, savings))
    for _ in range(rng.choice((0, 0, 1, 1, 2))):
        text = changed(rng, text)
    return text


def answer(text):
    """What the checker prints for a text."""
    try:
        savings, certificate = read_certificate(text)
    except Bad as bad:
        return f'bad certificate {bad}'
    return f'net {certificate.net}' if accepts(savings, certificate) else 'rejected'


def main():
    for path in sys.argv[1:]:
        with open(path, 'rb') as file:
            print(f'{path}: {answer(file.read())}')


if __name__ == '__main__':
    main()
