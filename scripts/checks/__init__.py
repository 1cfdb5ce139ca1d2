"""The checks of scripts/check_program, by their kind, and what they use.

`harness` runs the program in folders and counts checks, `made_files` has small objects and images, and `strace` gives faults to
system calls. The models that the program is compared with are those of models/, and what feeds them is in fuzz/.
"""
import os
import sys

from zcld_tools import TOP

sys.path[:0] = (os.path.join(TOP, it) for it in ('fuzz', 'models'))
