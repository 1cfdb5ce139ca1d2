#!/usr/bin/env python3
"""The listing of an image, and what a listing spells (docs/FORMATS.md, "The listing"; RISC-V unprivileged manual, "RV32/64G
Instruction Set Listings" and "RVC Instruction Set Listings"; RISC-V Zc specification 1.0, "Zcb", "Zcmp", "Zcmt").

    models/listing.py IMAGE | --read LISTING

prints the listing of an image without a fault; or the address, the size, the kind and the bytes of each segment that a listing
spells, or the number of its first bad line. It is independent of the program, so that both can be compared. The way back goes
by the names and operands of lines, and asks nothing of what made them.
"""
import os
import re
import struct
import sys
from typing import NamedTuple

sys.path.insert(0, os.path.join(os.path.dirname(os.path.abspath(__file__)), os.pardir, 'scripts'))

from expansions import bits, expanded, joined
from object_items import is_known
from zc_machine import LIST_FORMS, frame_of, moved_registers
from zcld_tools.elf import EXECUTE
from zcld_tools.files import read
from zcld_tools.images import segments
from zcld_tools.instructions import (EBREAK, ECALL, JVT, OPCODE_AUIPC, OPCODE_BRANCH, OPCODE_FENCE, OPCODE_IMMEDIATE,
                                     OPCODE_JAL, OPCODE_JALR, OPCODE_LOAD, OPCODE_LUI, OPCODE_REGISTER, OPCODE_STORE,
                                     OPCODE_SYSTEM, S0, branch_distance, jal_distance, low_part, signed, words_of, halves_of)

TITLE, END, ROW = 'zcld list 1', 'end', 16
MOST_BYTES = 1 << 28

BRANCHES = {0: 'beq', 1: 'bne', 4: 'blt', 5: 'bge', 6: 'bltu', 7: 'bgeu'}
LOADS, STORES = {0: 'lb', 1: 'lh', 2: 'lw', 4: 'lbu', 5: 'lhu'}, {0: 'sb', 1: 'sh', 2: 'sw'}
IMMEDIATES = {0: 'addi', 2: 'slti', 3: 'sltiu', 4: 'xori', 6: 'ori', 7: 'andi'}
SHIFTS = {(0, 1): 'slli', (0, 5): 'srli', (0x20, 5): 'srai'}
OPERATIONS = {**{(0, f3): name for f3, name in enumerate(('add', 'sll', 'slt', 'sltu', 'xor', 'srl', 'or', 'and'))},
              (0x20, 0): 'sub', (0x20, 5): 'sra',
              **{(1, f3): name for f3, name in enumerate(('mul', 'mulh', 'mulhsu', 'mulhu', 'div', 'divu', 'rem', 'remu'))}}


class Segment(NamedTuple):
    """A segment of an image: its address, whether it is code, its size in memory, and its bytes in the file."""

    at: int
    is_code: bool
    size: int
    content: bytes


def segments_of(image):
    return [Segment(it.address, bool(it.flags & EXECUTE), it.size, it.content) for it in segments(image)]


# ---- the listing


def named(word):
    """The name and the operands of a word of RV32IM, or none."""
    opcode, f3, f7 = word & 0x7F, word >> 12 & 7, word >> 25
    rd, first, second = (f'x{word >> at & 31}' for at in (7, 15, 20))
    if opcode in (OPCODE_LUI, OPCODE_AUIPC):
        return ['lui' if opcode == OPCODE_LUI else 'auipc', rd, word >> 12]
    if opcode == OPCODE_JAL:
        return ['jal', rd, jal_distance(word)]
    if opcode == OPCODE_JALR and f3 == 0:
        return ['jalr', rd, first, low_part(word)]
    if opcode == OPCODE_FENCE and f3 == 0:
        return ['fence', word >> 15 << 5 | word >> 7 & 31]
    if opcode == OPCODE_SYSTEM:
        found = {ECALL: ['ecall'], EBREAK: ['ebreak']}.get(word)
        return ['csrrw', rd, first] if f3 == 1 and word >> 20 == JVT else found
    rows = {OPCODE_BRANCH: (BRANCHES.get(f3), first, second, branch_distance(word)),
            OPCODE_LOAD: (LOADS.get(f3), rd, first, low_part(word)),
            OPCODE_STORE: (STORES.get(f3), first, second, low_part(word)),
            OPCODE_REGISTER: (OPERATIONS.get((f7, f3)), rd, first, second),
            OPCODE_IMMEDIATE: (IMMEDIATES.get(f3), rd, first, low_part(word)) if f3 not in (1, 5) else
                              (SHIFTS.get((f7, f3)), rd, first, word >> 20 & 31)}
    found = rows.get(opcode, (None,))
    return list(found) if found[0] else None


def short_name(half):
    """The name of a halfword of Zca or Zcb that expands to a word."""
    row, register = half >> 13, bits(half, 11, 7)
    if half & 3 == 0:
        bytes_and_pairs = ('c.lbu', 'c.lh' if bits(half, 6) else 'c.lhu', 'c.sb', 'c.sh')
        return {0: 'c.addi4spn', 2: 'c.lw', 6: 'c.sw', 4: bytes_and_pairs[bits(half, 11, 10)]}[row]
    if half & 3 == 1:
        return ('c.addi', 'c.jal', 'c.li', 'c.addi16sp' if register == 2 else 'c.lui', operation_name(half), 'c.j', 'c.beqz',
                'c.bnez')[row]
    if row != 4:
        return {0: 'c.slli', 2: 'c.lwsp', 6: 'c.swsp'}[row]
    if bits(half, 6, 2):
        return 'c.add' if bits(half, 12) else 'c.mv'
    return ('c.jalr' if register else 'c.ebreak') if bits(half, 12) else 'c.jr'


def operation_name(half):
    row, which = bits(half, 11, 10), bits(half, 12) << 2 | bits(half, 6, 5)
    if row < 3:
        return ('c.srli', 'c.srai', 'c.andi')[row]
    if which == 7:
        return 'c.not' if bits(half, 4, 2) else 'c.zext.b'
    return ('c.sub', 'c.xor', 'c.or', 'c.and', None, None, 'c.mul')[which]


def named_short(half):
    """The name and the operands of a halfword of Zca, Zcb, Zcmp or Zcmt, or none."""
    word = expanded(half)
    if word is not None:
        return [short_name(half), *named(word)[1:]]
    return named_fused(half)


def named_fused(half):
    if half & 3 != 2 or half >> 13 != 5:
        return None
    frame, row, which = frame_of(half), bits(half, 12, 10), bits(half, 6, 5)
    if frame:
        return [frame.form, bits(half, 7, 4), frame.size]
    if row == 0:
        return ['cm.jt' if bits(half, 9, 2) < 32 else 'cm.jalt', bits(half, 9, 2)]
    if row == 3 and which in (1, 3):
        first, second = moved_registers(half)
        if which == 3 or first != second:
            return ['cm.mvsa01' if which == 1 else 'cm.mva01s', f'x{first}', f'x{second}']
    return None


def byte_line(content):
    return ' '.join(('.byte', *(f'{byte:02x}' for byte in content)))


def code_lines(content):
    """The lines of code, each with how many bytes it stands for."""
    at = 0
    while at < len(content):
        left, is_word = len(content) - at, content[at] & 3 == 3
        if left == 1 or left < 4 and is_word:
            yield left, byte_line(content[at:])
            return
        value, = struct.unpack_from('<I' if is_word else '<H', content, at)
        words = named(value) if is_word else named_short(value)
        unknown = ('.word', f'{value:08x}') if is_word else ('.half', f'{value:04x}')
        size = 4 if is_word else 2
        yield size, ' '.join(map(str, words or unknown))
        at += size


def data_lines(content):
    for at in range(0, len(content), ROW):
        yield len(content[at:at + ROW]), byte_line(content[at:at + ROW])


def line_at(at, text):
    """A line, whose address is taken modulo 2^32."""
    return f'{at & 0xFFFFFFFF:08x} {text}'


def lines_of(segment):
    """The lines of a segment, the one that says where it is among them."""
    yield f'segment {segment.at:08x} {segment.size} {"code" if segment.is_code else "data"}'
    at = segment.at
    for size, line in (code_lines if segment.is_code else data_lines)(segment.content):
        yield line_at(at, line)
        at += size
    if segment.size > len(segment.content):
        yield line_at(at, f'.zero {segment.size - len(segment.content)}')


def listing(parts):
    """The listing of segments."""
    return ''.join(line + '\n' for line in (TITLE, *(line for part in parts for line in lines_of(part)), END)).encode()


def listed(image):
    """What `list` writes of an image without a fault."""
    return listing(segments_of(image))


# ---- operands, by what they are and where an instruction has them


def is_number(text):
    return re.fullmatch('0|[1-9][0-9]*', text) is not None


class Register:
    """A register: the code that stands for each that may be named, from a place of the instruction on."""

    def __init__(self, codes, at=0, width=0):
        self.codes, self.at, self.mask = codes, at, (1 << width) - 1 << at

    def read(self, text):
        code = self.codes.get(text)
        return None if code is None else code << self.at


def registers(numbers, lowest=0):
    return {f'x{number}': number - lowest for number in numbers}


class Number:
    """A number whose pieces are in the instruction, as in `joined` of expansions.py. It has a sign if it is told of how many bits;
    it may be written as the last so many bits of a wider number; and there may be one that it isn't, or few that it is."""

    def __init__(self, *pieces, sign=None, wide=None, least=None, values=None):
        self.pieces, self.sign, self.wide, self.least, self.values = pieces, sign, wide, least, values
        self.mask = sum((1 << high - low + 1) - 1 << low for high, low in (self.ends(piece) for piece in pieces))

    @staticmethod
    def ends(piece):
        return piece[1], piece[-1]

    def value(self, text):
        is_negative = text.startswith('-') and self.sign and not self.wide
        if not is_number(text[is_negative:]) or is_negative and text == '-0':
            return None
        value = int(text)
        return signed(value, self.wide) if self.wide and value >> self.wide == 0 else value

    def read(self, text):
        value = self.value(text)
        if value is None or value == self.least or self.values and value not in self.values:
            return None
        made = sum((value >> piece[0] & (1 << high - low + 1) - 1) << low
                   for piece, (high, low) in ((piece, self.ends(piece)) for piece in self.pieces))
        back = joined(made, *self.pieces)
        return made if value == (signed(back, self.sign) if self.sign else back) else None


class Text:
    """What is always the same."""

    mask = 0

    def __init__(self, text):
        self.text = text

    def read(self, text):
        return 0 if text == self.text else None


FIVE, SOME, SMALL = registers(range(32)), registers(range(1, 32)), registers(range(8, 16), 8)
NOT_SP = {name: code for name, code in FIVE.items() if code != 2}
SAVED = {**registers((S0, S0 + 1), S0), **registers(range(18, 24), 16)}
RD, RS1, RS2 = (Register(FIVE, at, 5) for at in (7, 15, 20))
AT_7, AT_2, SOME_7, SOME_2 = Register(FIVE, 7, 5), Register(FIVE, 2, 5), Register(SOME, 7, 5), Register(SOME, 2, 5)
LOW, HIGH = Register(SMALL, 2, 3), Register(SMALL, 7, 3)
X0, X1, X2 = Text('x0'), Text('x1'), Text('x2')


# ---- instructions by name (the manual's listings, and the Zc specification's)


class Row:
    """An instruction: the bits that it always has, and its operands."""

    def __init__(self, own, *operands):
        self.own, self.operands = own, operands

    def read(self, texts):
        """The instruction with these operands, or none. Two that are one field must be the same."""
        made, known = self.own, 0
        if len(texts) != len(self.operands):
            return None
        for operand, text in zip(self.operands, texts):
            found = operand.read(text)
            if found is None or (made ^ found) & operand.mask & known:
                return None
            made, known = made | found, known | operand.mask
        return made


LOW_I, LOW_S = Number((0, 31, 20), sign=12), Number((5, 31, 25), (0, 11, 7), sign=12)
FAR_B = Number((12, 31), (5, 30, 25), (1, 11, 8), (11, 7), sign=13)
FAR_J = Number((20, 31), (1, 30, 21), (11, 20), (12, 19, 12), sign=21)
UPPER, AMOUNT, REST = Number((0, 31, 12)), Number((0, 24, 20)), Number((5, 31, 15), (0, 11, 7))


def word_rows():
    """The words, by their names."""
    rows = {'lui': Row(0x37, RD, UPPER), 'auipc': Row(0x17, RD, UPPER), 'jal': Row(0x6F, RD, FAR_J),
            'jalr': Row(0x67, RD, RS1, LOW_I), 'fence': Row(0x0F, REST), 'ecall': Row(0x73), 'ebreak': Row(0x100073),
            'csrrw': Row(0x01701073, RD, RS1)}
    for opcode, names, operands in ((0x63, BRANCHES, (RS1, RS2, FAR_B)), (0x03, LOADS, (RD, RS1, LOW_I)),
                                    (0x23, STORES, (RS1, RS2, LOW_S)), (0x13, IMMEDIATES, (RD, RS1, LOW_I))):
        rows.update((name, Row(f3 << 12 | opcode, *operands)) for f3, name in names.items())
    for opcode, names, operands in ((0x13, SHIFTS, (RD, RS1, AMOUNT)), (0x33, OPERATIONS, (RD, RS1, RS2))):
        rows.update((name, Row(f7 << 25 | f3 << 12 | opcode, *operands)) for (f7, f3), name in names.items())
    return rows


SIX, SHORT_AMOUNT = Number((5, 12), (0, 6, 2), sign=6), Number((0, 6, 2))
OF_FOUR, OF_BYTE = Number((3, 12, 10), (2, 6), (6, 5)), Number((0, 6), (1, 5))
FAR_CJ = Number((11, 12), (4, 11), (8, 10, 9), (10, 8), (6, 7), (7, 6), (1, 5, 3), (5, 2), sign=12)
FAR_CB = Number((8, 12), (3, 11, 10), (6, 6, 5), (1, 4, 3), (5, 2), sign=9)


def short_rows():
    """The halfwords of Zca, Zcb and Zcmt, and the moves of Zcmp, by their names."""
    pair = Number((1, 5))
    rows = {
        'c.addi4spn': Row(0x0000, LOW, X2, Number((4, 12, 11), (6, 10, 7), (2, 6), (3, 5), least=0)),
        'c.lw': Row(0x4000, LOW, HIGH, OF_FOUR), 'c.sw': Row(0xC000, HIGH, LOW, OF_FOUR),
        'c.lbu': Row(0x8000, LOW, HIGH, OF_BYTE), 'c.lhu': Row(0x8400, LOW, HIGH, pair), 'c.lh': Row(0x8440, LOW, HIGH, pair),
        'c.sb': Row(0x8800, HIGH, LOW, OF_BYTE), 'c.sh': Row(0x8C00, HIGH, LOW, pair),
        'c.addi': Row(0x0001, AT_7, AT_7, SIX), 'c.jal': Row(0x2001, X1, FAR_CJ), 'c.li': Row(0x4001, AT_7, X0, SIX),
        'c.addi16sp': Row(0x6101, X2, X2, Number((9, 12), (4, 6), (6, 5), (7, 4, 3), (5, 2), sign=10, least=0)),
        'c.lui': Row(0x6001, Register(NOT_SP, 7, 5), Number((5, 12), (0, 6, 2), sign=6, wide=20, least=0)),
        'c.srli': Row(0x8001, HIGH, HIGH, SHORT_AMOUNT), 'c.srai': Row(0x8401, HIGH, HIGH, SHORT_AMOUNT),
        'c.andi': Row(0x8801, HIGH, HIGH, SIX), 'c.sub': Row(0x8C01, HIGH, HIGH, LOW), 'c.xor': Row(0x8C21, HIGH, HIGH, LOW),
        'c.or': Row(0x8C41, HIGH, HIGH, LOW), 'c.and': Row(0x8C61, HIGH, HIGH, LOW), 'c.mul': Row(0x9C41, HIGH, HIGH, LOW),
        'c.zext.b': Row(0x9C61, HIGH, HIGH, Text('255')), 'c.not': Row(0x9C75, HIGH, HIGH, Text('-1')),
        'c.j': Row(0xA001, X0, FAR_CJ), 'c.beqz': Row(0xC001, HIGH, X0, FAR_CB), 'c.bnez': Row(0xE001, HIGH, X0, FAR_CB),
        'c.slli': Row(0x0002, AT_7, AT_7, SHORT_AMOUNT),
        'c.lwsp': Row(0x4002, SOME_7, X2, Number((5, 12), (2, 6, 4), (6, 3, 2))), 'c.jr': Row(0x8002, X0, SOME_7, Text('0')),
        'c.mv': Row(0x8002, AT_7, X0, SOME_2), 'c.ebreak': Row(0x9002), 'c.jalr': Row(0x9002, X1, SOME_7, Text('0')),
        'c.add': Row(0x9002, AT_7, AT_7, SOME_2), 'c.swsp': Row(0xC002, X2, AT_2, Number((2, 12, 9), (6, 8, 7))),
        'cm.mvsa01': Row(0xAC22, Register(SAVED, 7, 3), Register(SAVED, 2, 3)),
        'cm.mva01s': Row(0xAC62, Register(SAVED, 7, 3), Register(SAVED, 2, 3)),
        'cm.jt': Row(0xA002, Number((0, 9, 2), values=range(32))),
        'cm.jalt': Row(0xA002, Number((0, 9, 2), values=range(32, 256)))}
    return rows


def frame_texts():
    """The pushes and pops, by their texts."""
    found = {}
    for which, form in LIST_FORMS.items():
        for number in range(4, 16):
            base = 64 if number == 15 else (number - 4) // 4 * 16 + 16
            for more in range(4):
                found[f'{form} {number} {base + 16 * more}'] = 0xA002 | which << 8 | number << 4 | more << 2
    return found


WORDS, SHORTS, FRAMES = word_rows(), short_rows(), frame_texts()


def code_in(text):
    """The bytes of a line of code that holds an instruction, a word or a halfword, or none."""
    name, *texts = text.split(' ')
    if text in FRAMES:
        return halves_of(FRAMES[text])
    if name in WORDS:
        found = WORDS[name].read(texts)
        return None if found is None else words_of(found)
    if name in SHORTS:
        found = SHORTS[name].read(texts)
        # two moves to one register are reserved
        return None if found is None or name == 'cm.mvsa01' and texts[0] == texts[1] else halves_of(found)
    return unknown_in(text)


def unknown_in(text):
    """The bytes of a halfword or a word that isn't in the tables."""
    found = re.fullmatch(r'\.half ([0-9a-f]{4})|\.word ([0-9a-f]{8})', text)
    if found is None:
        return None
    value = int(found[1] or found[2], 16)
    if (value & 3 == 3) == bool(found[1]):
        return None
    if found[1]:
        return None if is_short(value) else halves_of(value)
    return None if is_known(value) or value & 0xFFF0707F == JVT << 20 | 1 << 12 | OPCODE_SYSTEM else words_of(value)


def is_short(half):
    """Whether a halfword is in the tables: it expands to a word, or is one of Zcmp or Zcmt that isn't reserved."""
    if half & 3 != 2 or half >> 13 != 5:
        return expanded(half) is not None
    row, which = bits(half, 12, 10), bits(half, 6, 5)
    is_move = row == 3 and (which == 3 or which == 1 and bits(half, 9, 7) != bits(half, 4, 2))
    return row == 0 or is_move or bits(half, 12, 8) in LIST_FORMS and bits(half, 7, 4) >= 4


def bytes_in(text):
    found = re.fullmatch(r'\.byte((?: [0-9a-f]{2})+)', text)
    return None if found is None else bytes.fromhex(found[1])


# ---- texts


class BadLine(Exception):
    """The number of the first line that can't stand where it does."""


class TooLarge(Exception):
    """A text of more bytes than are read."""


class Reading:
    """The segments so far. Of the last one there are bytes to come, or only zeros, or nothing."""

    def __init__(self):
        self.segments, self.last, self.is_begun, self.is_over = [], None, False, False
        self.content, self.is_zero_next, self.left = bytearray(), False, 0

    def take(self, line):
        """Takes a line; false if it can't stand here."""
        if not self.is_begun:
            self.is_begun = line == TITLE
            return self.is_begun
        if self.is_over:
            return False
        return self.inside(line) if self.left else self.between(line)

    def between(self, line):
        found = re.fullmatch('segment ([0-9a-f]{8}) (0|[1-9][0-9]*) (code|data)', line)
        if line == END:
            self.is_over = True
        elif found is None or int(found[2]) >= 1 << 32:
            return False
        self.close()
        if found:
            self.last = Segment(int(found[1], 16), found[3] == 'code', int(found[2]), b'')
            self.content, self.is_zero_next, self.left = bytearray(), False, self.last.size
        return True

    def close(self):
        if self.last:
            self.segments.append(self.last._replace(content=bytes(self.content)))
        self.last = None

    def inside(self, line):
        text = line[9:]
        if line != line_at(self.last.at + len(self.content), text):
            return False
        if text == f'.zero {self.left}':
            self.left = 0
            return True
        found = None if self.is_zero_next else self.code(text) if self.last.is_code else self.row(text)
        if found is None or len(found) > self.left:
            return False
        self.content += found
        self.left -= len(found)
        return True

    def code(self, text):
        found = bytes_in(text)
        if found is None:
            return code_in(text)
        self.is_zero_next = True
        return found if len(found) == 1 or len(found) < 4 and found[0] & 3 == 3 else None

    def row(self, text):
        found = bytes_in(text)
        self.is_zero_next = found is not None and len(found) < ROW
        return None if found is None or len(found) > ROW else found


def read_list(text):
    """The segments that a listing spells."""
    if len(text) > MOST_BYTES:
        raise TooLarge
    *lines, rest = text.decode('latin-1').split('\n')
    reading = Reading()
    for number, line in enumerate(lines, 1):
        if not reading.take(line):
            raise BadLine(number)
    if rest or not reading.is_over:
        raise BadLine(len(lines) + 1)
    return reading.segments


def main():
    if sys.argv[1] != '--read':
        sys.stdout.buffer.write(listed(read(sys.argv[1])))
        return
    try:
        for it in read_list(read(sys.argv[2])):
            print(f'{it.at:08x} {it.size} {"code" if it.is_code else "data"} {it.content.hex()}')
    except BadLine as why:
        sys.exit(f'bad line {why}')


if __name__ == '__main__':
    main()
