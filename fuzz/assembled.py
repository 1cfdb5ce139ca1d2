"""Code of words in compressed form, as an assembler makes it (RISC-V unprivileged manual, "C Extension for Compressed
Instructions"; RISC-V Zc specification 1.0, "Zcb")."""
import itertools

from halfwords import short_form
from zcld_tools.instructions import (branch_distance, halves_of, is_branch, is_jal, jal_distance, with_branch, with_jump,
                                     words_of)


def shortest(word):
    """The bytes of a word in its short form, or as it is if it has none."""
    half = short_form(word)
    return words_of(word) if half is None else halves_of(half)


def short_code(*words):
    """The bytes of words, each in its short form if it has one."""
    return b''.join(map(shortest, words))


def distance(word):
    """How far a branch or `jal` leads, or none of any other word."""
    return branch_distance(word) if is_branch(word) else jal_distance(word) if is_jal(word) else None


def with_distance(word, to):
    return with_branch(word, to) if is_branch(word) else with_jump(word, to)


def compressed(words):
    """The bytes of words in their short forms. Their branches and jumps lead to words among them, and still do."""
    leads = [None if distance(word) is None else k + distance(word) // 4 for k, word in enumerate(words)]
    sizes = [len(shortest(word if to is None else with_distance(word, 0))) for word, to in zip(words, leads)]
    while True:
        at = [0, *itertools.accumulate(sizes)]
        made = [word if to is None else with_distance(word, at[to] - at[k]) for k, (word, to) in enumerate(zip(words, leads))]
        longer = [k for k, word in enumerate(made) if sizes[k] < len(shortest(word))]
        if not longer:
            return b''.join(shortest(word) if size == 2 else words_of(word) for word, size in zip(made, sizes))
        for k in longer:
            sizes[k] = 4
