#!/usr/bin/env python3
"""Compares what `merge` writes of random lists of objects with what the model makes of them, and runs both.

    fuzz/merged_objects.py [--seed S] [--count N] [PROGRAM]

PROGRAM is build/zcld if none is given. Two lists of three are made for equal tails (made_tails.py), the others for all else. What
must be the same, as in `models/tail_merge.py`, is said in fuzz/rewritten_objects.py. It prints counts, and stops at the first
difference with status 1.
"""
import os
import sys

sys.path[:0] = (os.path.join(os.path.dirname(os.path.abspath(__file__)), os.pardir, it) for it in ('scripts', 'models'))

from made_objects import made_list
from made_tails import tails_list
from rewritten_objects import Rewriting
from tail_merge import lines, merged

# A step into a removed tail takes the jump to the host's as well.
MERGING = Rewriting('merge', merged, lines, 2)


def some_list(rng, is_odd):
    """A list of one of both kinds."""
    return rng.choice((made_list, tails_list, tails_list))(rng, is_odd)


if __name__ == '__main__':
    MERGING.compare('Compares objects with equal tails shared with those of a model.', some_list)
