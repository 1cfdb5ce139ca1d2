#!/usr/bin/env python3
"""Tries other jump tables against the one that is picked.

    fuzz/other_tables.py [--seed S] [--count N]

A case is fixed by the seed and its number: targets with some jump and call sites each. Checked are:

- the certificate that is picked for them is accepted;
- no table that is tried saves more: random ones, ones that are nearly as picked, and for few targets all that matter.

The status is 1 if a check failed.
"""
import argparse
import itertools
import os
import random
import sys

sys.path.insert(0, os.path.join(os.path.dirname(os.path.abspath(__file__)), os.pardir, 'models'))

from certificates import LOW_SLOTS, MOST_SLOTS, Saving, accepts, best, cost, saved


def made_targets(rng):
    """Targets with few sites or many, often with the same ones, as many as a part of the table has slots, or nearly."""
    most = rng.choice((1, 2, 3, 5, 9, 40, 1 << 30))
    near = [slots + more for slots in (0, LOW_SLOTS, MOST_SLOTS - LOW_SLOTS) for more in (-1, 0, 1, 2)]
    count = max(0, rng.choice((1, 2, 3, 4, 40, 260, 400, *near)))
    kinds = [(rng.randint(0, most), rng.randint(0, most)) for _ in range(rng.randint(1, 6))]
    sites = [rng.choice(kinds) if rng.random() < 0.5 else (rng.randint(0, most), rng.randint(0, most)) for _ in range(count)]
    return [Saving(0, 1, 4 * k, jumps, calls) for k, (jumps, calls) in enumerate(sites)]


def any_slots(rng, savings):
    """Slots with holes, and with targets that have several."""
    length = rng.choice((0, 1, LOW_SLOTS - 1, LOW_SLOTS, LOW_SLOTS + 1, MOST_SLOTS, rng.randint(0, MOST_SLOTS)))
    return [rng.randint(0, len(savings)) for _ in range(length)]


def near_slots(rng, savings, slots):
    """Slots of which some are cut off, emptied, or lead elsewhere."""
    slots = slots[:rng.randint(0, len(slots))] if rng.random() < 0.3 else list(slots)
    for _ in range(rng.randint(1, 4)):
        if slots:
            slots[rng.randrange(len(slots))] = rng.randint(0, len(savings))
    return slots


def all_slots(savings):
    """The shortest slots for each choice of targets in each part."""
    numbers = range(1, len(savings) + 1)
    choices = [list(some) for n in range(len(savings) + 1) for some in itertools.combinations(numbers, n)]
    for low, high in itertools.product(choices, choices):
        yield low + ([0] * (LOW_SLOTS - len(low)) + high if high else [])


def others(rng, savings, slots):
    yield from (any_slots(rng, savings) for _ in range(8))
    yield from (near_slots(rng, savings, slots) for _ in range(8))
    if len(savings) <= 4:
        yield from all_slots(savings)


def failure(rng):
    """What is wrong in a case, or None."""
    savings = made_targets(rng)
    certificate = best(savings)
    if not accepts(savings, certificate):
        return f'not accepted: {certificate} for {savings}'
    for slots in others(rng, savings, certificate.slots):
        if saved(savings, slots) - cost(slots) > certificate.net:
            return f'more than {certificate.net} by {slots} for {savings}'
    return None


def main():
    arguments = argparse.ArgumentParser(description='Tries other jump tables against the one that is picked.')
    arguments.add_argument('--seed', type=int, default=1)
    arguments.add_argument('--count', type=int, default=1000)
    given = arguments.parse_args()
    wrong = 0
    for number in range(given.count):
        what = failure(random.Random(f'{given.seed} {number}'))
        if what:
            wrong += 1
            print(f'WRONG: case {number}, {what}')
    print(f'seed {given.seed}: {given.count} tables, {wrong} wrong')
    return wrong > 0


if __name__ == '__main__':
    sys.exit(main())
