"""What the tools for users read and write, and what they say in one line if they can't."""
import argparse
import os
import sys

from zcld_tools import files


class Bad(Exception):
    """What can't be done, in one line."""


class Words(argparse.ArgumentParser):
    """Words whose errors are lines of the script."""

    def error(self, message):
        raise Bad(message)


def read(path):
    try:
        return files.read(path)
    except OSError as why:
        raise Bad(f'{path}: {why.strerror}') from None


def write(path, data):
    try:
        files.write(path, data)
    except OSError as why:
        raise Bad(f'{path}: {why.strerror}') from None


def say(line):
    print(f'{os.path.basename(sys.argv[0])}: {line}', file=sys.stderr)


def show(lines):
    """Prints lines, as bytes."""
    try:
        for line in lines:
            sys.stdout.buffer.write(line + b'\n')
        sys.stdout.buffer.flush()
    except OSError as why:
        # what is left of the lines goes nowhere when Python ends
        os.dup2(os.open(os.devnull, os.O_WRONLY), sys.stdout.fileno())
        raise Bad(f'standard output: {why.strerror}') from None


def status_of(work):
    """The status of a script that does its work: what this gives, or 2 if it can't be done, which is said."""
    try:
        return work() or 0
    except (Bad, OSError) as why:
        say(why)
        return 2
