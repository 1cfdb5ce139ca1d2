"""Makes objects by chance whose relocations lie close together: fields that overlap, and fields that just don't."""
from object_items import OF_TWO_BYTES
from zcld_tools.elf import (ALIGN, BRANCH, CALL, DATA_FLAGS, GOT_HI20, HI20, JAL, LO12_I, LO12_S, PROGBITS, RELAX, RVC, RVC_BRANCH,
                            RVC_JUMP, R_32)
from zcld_tools.instructions import (A0, A1, CALL_WORDS, EXIT_WORDS, NOP, RA, SHORT_NOP, T0, addi, branch, halves_of, jal, lui, sw,
                                     words_of)
from zcld_tools.objects import Reloc, object_with

# Types, each with words of its kind; and what compressed code has beside them, with halfwords: `c.bnez a0` and `c.j`.
FITTING = tuple((kind, words_of(*words)) for kind, words in (
    (R_32, (NOP,)), (HI20, (lui(T0),)), (LO12_I, (addi(T0, T0),)), (LO12_S, (sw(T0, T0),)), (JAL, (jal(RA),)),
    (BRANCH, (branch(0, A0, A1),)), (CALL, CALL_WORDS)))
SHORT_FITTING = ((RVC_BRANCH, halves_of(0xE101)), (RVC_JUMP, halves_of(0xA001)), (ALIGN, halves_of(SHORT_NOP)))
# Types of entries that are put in between: most often one with a field of 2 bytes.
BETWEEN = (*OF_TWO_BYTES, *OF_TWO_BYTES, *OF_TWO_BYTES, R_32, RELAX, GOT_HI20)


def close_relocs(rng):
    """An object of code and data: some of its words have a relocation, and up to two more lie anywhere among them."""
    made, text = object_with()
    made.flags = rng.choice((0, RVC))
    data = made.section(b'.data', PROGBITS, DATA_FLAGS)
    for section, rows in ((text, FITTING + SHORT_FITTING * 2 if made.flags else FITTING), (data, ((R_32, words_of(0)),))):
        for _ in range(4):
            kind, content = rng.choice(rows)
            if rng.random() < 0.6:
                section.reloc(kind, made.symbols[0], len(content) if kind == ALIGN else 0)
            section.add(content)
    for section in rng.choice(((), (text,), (data,), (text, data))):
        for _ in range(rng.choice((1, 1, 2))):
            entry = Reloc(rng.randrange(-2, len(section.content) + 2), rng.choice(BETWEEN), None, 0)
            section.relocs.insert(rng.randrange(len(section.relocs) + 1), entry)
    text.words(*EXIT_WORDS)
    return made.bytes()
