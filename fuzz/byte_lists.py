"""Lists whose code has what Zcb has a form for, in each form, and what it nearly has one for (RISC-V Zc specification 1.0, "Zcb")."""
from compressed_code import compress_some
from zcld_tools.elf import DATA_FLAGS, HI20, LO12_I, LO12_S, LOCAL, NOBITS
from zcld_tools.instructions import (A0, A1, A2, A3, A4, A5, A7, ECALL, EXIT_WORDS, S0, S1, T0, T1, WRITE_CALL, ZERO, addi, add,
                                     immediate, load, lui, of_format_r, store)
from zcld_tools.objects import object_with

SIZE = 16
# Registers that hold where the bytes are, one of which no form of Zcb has; and those that hold numbers.
BASES, NUMBERS = (S0, A1, T0), (A0, A2, A3, A4, A5, S1, T1)
LOADS, STORES = (0, 1, 4, 5), (0, 1)


def access(rng, base, offset):
    """A load or a store of a byte or a half, at an offset that it may have."""
    is_load, number = rng.random() < 0.5, rng.choice(NUMBERS)
    f3 = rng.choice(LOADS if is_load else STORES)
    at = offset & ~1 if f3 & 1 else offset
    return load(f3, number, base, at) if is_load else store(f3, number, base, at)


def operation(rng):
    """`mul`, `andi` with 255, `xori` with -1, and their neighbours."""
    to, other = rng.choice(NUMBERS), rng.choice(NUMBERS)
    source = rng.choice((to, to, to, other))
    return rng.choice((of_format_r(1, 0, to, source, other), of_format_r(1, 0, to, other, source), of_format_r(1, 3, to, source, other),
                       immediate(7, to, source, rng.choice((255, 255, 254, 31))),
                       immediate(4, to, source, rng.choice((-1, -1, -2, 1))), add(to, source, other)))


def byte_list(rng):
    """The files of a list of one object, which writes its bytes and exits."""
    made, text = object_with()
    bytes_at = made.symbol(b'bytes', home=made.section(b'.bss', NOBITS, DATA_FLAGS, size=SIZE), bind=LOCAL)
    for base in BASES:
        text.reloc(HI20, bytes_at, 0, (lui(base),))
        text.reloc(LO12_I, bytes_at, 0, (addi(base, base),))
    text.words(*(addi(number, ZERO, rng.randrange(-2048, 2048)) for number in NUMBERS))
    for _ in range(rng.choice((5, 30, 30, 200))):
        which = rng.randrange(10)
        if which < 5:
            text.words(access(rng, rng.choice(BASES), rng.randrange(rng.choice((4, 6)))))
        elif which < 8:
            text.words(operation(rng))
        else:
            word, base, addend = access(rng, T1, 0), rng.choice((T1, A5, A5, A5)), rng.choice((0, 0, 1, 2, 3, 4, 8))
            is_store = word & 127 == store(0, 0, 0) & 127
            addend &= ~(word >> 12 & 1)
            text.reloc(HI20, bytes_at, addend, (lui(base),))
            text.reloc(LO12_S if is_store else LO12_I, bytes_at, addend, (word & ~(31 << 15) | base << 15,))
            text.words(addi(base, ZERO, rng.randrange(99)))
    text.reloc(HI20, bytes_at, 0, (lui(A1),))
    text.reloc(LO12_I, bytes_at, 0, (addi(A1, A1),))
    text.words(addi(A0, ZERO, 1), addi(A2, ZERO, SIZE), addi(A7, ZERO, WRITE_CALL), ECALL, addi(A0, ZERO, 0), *EXIT_WORDS)
    compress_some(rng, [made])
    return [made.bytes()]
