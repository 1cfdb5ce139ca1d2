#!/usr/bin/env python3
"""Compares what `gc` writes of random lists of objects with what the model leaves of them, and runs both.

    fuzz/collected_objects.py [--seed S] [--count N] [PROGRAM]

PROGRAM is build/zcld if none is given. What must be the same, as in `models/section_gc.py`, is said in fuzz/rewritten_objects.py. It
prints counts, and stops at the first difference with status 1.
"""
import os
import sys

sys.path[:0] = (os.path.join(os.path.dirname(os.path.abspath(__file__)), os.pardir, it) for it in ('scripts', 'models'))

from made_objects import made_list
from rewritten_objects import Rewriting
from section_gc import collected, lines

COLLECTING = Rewriting('gc', collected, lines)

if __name__ == '__main__':
    COLLECTING.compare('Compares objects without the code that nothing reaches with those of a model.', made_list)
