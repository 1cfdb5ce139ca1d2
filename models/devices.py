"""Texts of devices, where devices lie, and what they answer, as docs/FORMATS.md has them ("Devices").

It is independent of the program, so that both can be compared.
"""
import re
from typing import NamedTuple

from zcld_tools.images import STANDARD

LIMIT = 8 << 20
TITLE = b'zcld devices 1'
DEVICE = re.compile(rb'device ([0-9a-f]{8}) ([0-9a-f]{8})')
OUTPUT = re.compile(rb'output ([0-9a-f]{8})')
# Lines that are one word, and stand there once at most.
ALONE = 'registers', 'reset'
BYTES = re.compile(rb'(answer|then)((?: [0-9a-f]{2})*)')


class BadDevices(Exception):
    """The first fault of a text, in the words of its line."""


# ---- what is answered


class Answers:
    """Bytes that are taken from the front: first these, and then some again and again. `taken` says how many were taken."""

    def __init__(self, first, again=b''):
        self.first, self.again, self.taken = bytes(first), bytes(again), 0

    def take(self, count):
        """The next bytes, or all that are left."""
        part = self.first[self.taken:self.taken + count]
        if self.again and len(part) < count:
            start = max(0, self.taken - len(self.first)) % len(self.again)
            copies = self.again * (2 + (count - len(part)) // len(self.again))
            part += copies[start:start + count - len(part)]
        self.taken += len(part)
        return part


class Devices(NamedTuple):
    """Where devices lie, as first addresses and ends; the addresses whose stored bytes appear on standard output; unless
    standard input is read and answered, the bytes that are in its place, and those that follow them again and again; whether
    there are control and status registers; and whether runs start with sp not set."""

    ranges: list = ()
    outputs: frozenset = frozenset()
    own: tuple = None
    registers: bool = False
    reset: bool = False

    def have(self, at, size):
        """Whether an access lies in one of them as a whole."""
        return any(low <= at and at + size <= end for low, end in self.ranges)

    def shown(self, at, stored):
        """Those of the bytes that are stored from an address on which appear on standard output."""
        return bytes(byte for k, byte in enumerate(stored) if at + k in self.outputs)

    def input(self, stream):
        """What a run takes of standard input: all of it, or nothing."""
        return stream.read() if self.own is None else b''

    def answers(self, given):
        """What is read and answered in a run that took these bytes of standard input."""
        return Answers(given) if self.own is None else Answers(*self.own)


NO_DEVICES = Devices()

# ---- texts


def spelled(line):
    """What a line spells: its word, and a range, an address, bytes, or none of these; or nothing."""
    if line in (word.encode() for word in ALONE):
        return line.decode(), None
    if found := DEVICE.fullmatch(line):
        return 'device', (int(found[1], 16), int(found[1], 16) + int(found[2], 16))
    if found := OUTPUT.fullmatch(line):
        return 'output', int(found[1], 16)
    if found := BYTES.fullmatch(line):
        return found[1].decode(), bytes.fromhex(found[2].decode())
    return None


def may_follow(lines, word, value, memory):
    """Whether a line may stand behind these."""
    if lines and lines[-1][0] == 'then':
        return False
    if word in ('answer', 'then'):
        return word == 'answer' or value != b''
    if word in ALONE:
        return (word, value) not in lines
    ranges = [other for kind, other in lines if kind == 'device']
    if word == 'output':
        return any(low <= value < end for low, end in ranges)
    low, end = value
    return (low < end <= 1 << 32 and (end <= memory.text or memory.stack_high <= low)
            and not any(low < other_end and other_low < end for other_low, other_end in ranges))


def lines_in(text, memory=STANDARD):
    """The lines of a text behind its first one."""
    if len(text) > LIMIT:
        raise BadDevices('size')
    *lines, rest = text.split(b'\n')
    made = []
    for number, line in enumerate(lines, 1):
        found = spelled(line) if number > 1 else None
        if line != TITLE if number == 1 else found is None or not may_follow(made, *found, memory):
            raise BadDevices(f'line {number}')
        made += [found] if found else []
    if rest or not lines:
        raise BadDevices(f'line {len(lines) + 1}')
    return made


def read_devices(text, memory=STANDARD):
    """The devices that a text names."""
    lines = lines_in(text, memory)

    def of(word):
        return [value for kind, value in lines if kind == word]

    own = (b''.join(of('answer')), b''.join(of('then'))) if of('answer') or of('then') else None
    return Devices(of('device'), frozenset(of('output')), own, *(of(word) != [] for word in ALONE))


def devices_fault(text, memory=STANDARD):
    """The first fault of a text, or none."""
    try:
        lines_in(text, memory)
    except BadDevices as why:
        return str(why)
    return None


def devices_text(lines):
    """The text of lines."""
    words = {'device': lambda value: f' {value[0]:08x} {value[1] - value[0]:08x}', 'output': lambda value: f' {value:08x}',
             'answer': lambda value: ''.join(f' {byte:02x}' for byte in value)}
    words |= {'then': words['answer'], **{word: lambda _: '' for word in ALONE}}
    return '\n'.join((TITLE.decode(), *(word + words[word](value) for word, value in lines), '')).encode()
