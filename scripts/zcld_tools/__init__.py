"""What the scripts, the benches and the fuzzer share.

`elf` has the numbers and records of the file format, and lays files out; over it `objects` writes objects, and `images` writes
images and reads the segments of executables. `instructions` puts instructions together and takes them apart, `files` reads and
writes files, `programs` runs programs and says how they ended, `allocations` refuses them memory, and `measured` measures how
long they take. `lines` is what the tools for users read and say.

Nothing here comes from the program that is checked, so the models in models/ use it too; and `linked` uses the models,
which finds sections and symbols in images.
"""
import os

TOP = os.path.dirname(os.path.dirname(os.path.dirname(os.path.abspath(__file__))))
