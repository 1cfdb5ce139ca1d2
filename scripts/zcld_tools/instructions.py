"""Instructions of RV32IM and of the system, put together and taken apart (RISC-V unprivileged manual, "RV32I", "M" and "Zicsr";
privileged manual, "WFI"; RISC-V ELF psABI, "Relocations")."""
import struct

ZERO, RA, SP, T0, T1, T2, S0, S1, A0, A1, A2, A3, A4, A5, A6, A7 = 0, 1, 2, *range(5, 18)
T3 = 28
OPCODE_LOAD, OPCODE_FENCE, OPCODE_IMMEDIATE, OPCODE_AUIPC, OPCODE_STORE = 0x03, 0x0F, 0x13, 0x17, 0x23
OPCODE_REGISTER, OPCODE_LUI, OPCODE_BRANCH, OPCODE_JALR, OPCODE_JAL = 0x33, 0x37, 0x63, 0x67, 0x6F
OPCODE_SYSTEM = 0x73
NOP, ECALL, EBREAK, WFI = 0x00000013, 0x00000073, 0x00100073, 0x10500073
# The register of the jump table's address (RISC-V Zc specification 1.0, "Zcmt").
JVT = 0x017
SHORT_NOP = 0x0001
# What a7 holds at a call of the environment.
READ_CALL, WRITE_CALL, EXIT_CALL = 63, 64, 93


def signed(value, bits):
    """The number that this many bits are, with a sign."""
    return value - (1 << bits) if value >> bits - 1 & 1 else value


def words_of(*words):
    """The bytes of words."""
    return struct.pack(f'<{len(words)}I', *(word & 0xFFFFFFFF for word in words))


def halves_of(*halves):
    """The bytes of halfwords."""
    return struct.pack(f'<{len(halves)}H', *halves)


# ---- a word with another immediate


def with_high(word, value):
    """The upper 20 bits of what is left once the lower 12 are taken as a signed number."""
    return word & 0xFFF | (value + 0x800 & 0xFFFFF000)


def with_low(word, value):
    """The lower 12 bits, of a store or of what has them in one piece."""
    if is_store(word):
        return word & 0x01FFF07F | (value >> 5 & 127) << 25 | (value & 31) << 7
    return word & 0x000FFFFF | (value & 0xFFF) << 20


def with_branch(word, distance):
    return (word & 0x01FFF07F | (distance >> 12 & 1) << 31 | (distance >> 5 & 63) << 25 | (distance >> 1 & 15) << 8
            | (distance >> 11 & 1) << 7)


def with_jump(word, distance):
    return (word & 0xFFF | (distance >> 20 & 1) << 31 | (distance >> 1 & 1023) << 21 | (distance >> 11 & 1) << 20
            | (distance >> 12 & 255) << 12)


# ---- words


def of_format_r(f7, f3, to, first, second):
    """An operation on registers."""
    return f7 << 25 | second << 20 | first << 15 | f3 << 12 | to << 7 | OPCODE_REGISTER


def of_format_i(opcode, f3, to, source, value=0):
    return (value & 0xFFF) << 20 | source << 15 | f3 << 12 | to << 7 | opcode


def immediate(f3, to, source, value=0):
    """An operation on a register and a number."""
    return of_format_i(OPCODE_IMMEDIATE, f3, to, source, value)


def addi(to, source, value=0):
    return immediate(0, to, source, value)


def add(to, first, second):
    return of_format_r(0, 0, to, first, second)


def load(f3, to, base, offset=0):
    return of_format_i(OPCODE_LOAD, f3, to, base, offset)


def lw(to, base, offset=0):
    return load(2, to, base, offset)


def store(f3, source, base, offset=0):
    return with_low(source << 20 | base << 15 | f3 << 12 | OPCODE_STORE, offset)


def sw(source, base, offset=0):
    return store(2, source, base, offset)


def lui(to, upper=0):
    return (upper & 0xFFFFF) << 12 | to << 7 | OPCODE_LUI


def auipc(to):
    return to << 7 | OPCODE_AUIPC


def constant(to, value):
    """Both words, lui and addi, that give a register a number."""
    return [with_high(lui(to), value), addi(to, to, value)]


def jal(to, distance=0):
    return with_jump(to << 7 | OPCODE_JAL, distance)


def jalr(to, base, offset=0):
    return of_format_i(OPCODE_JALR, 0, to, base, offset)


def branch(f3, first, second, distance=0):
    return with_branch(second << 20 | first << 15 | f3 << 12 | OPCODE_BRANCH, distance)


def csr(f3, to, number, source):
    """A read, a write or a change of bits of a control and status register, by a register or a number of five bits."""
    return of_format_i(OPCODE_SYSTEM, f3, to, source, number)


RET = jalr(ZERO, RA)
# The exit, whose status is in a0; and a call, whose distance is left open.
EXIT_WORDS, CALL_WORDS = (addi(A7, ZERO, EXIT_CALL), ECALL), (auipc(RA), jalr(RA, RA))


# ---- what a word is


def is_branch(word):
    return word & 0x7F == OPCODE_BRANCH and word >> 12 & 7 not in (2, 3)


def is_jal(word):
    return word & 0x7F == OPCODE_JAL


def is_jalr(word):
    return word & 0x707F == OPCODE_JALR


def is_lui(word):
    return word & 0x7F == OPCODE_LUI


def is_auipc(word):
    return word & 0x7F == OPCODE_AUIPC


def is_store(word):
    return word & 0x7F == OPCODE_STORE and word >> 12 & 7 <= 2


def is_system(word):
    """An instruction of Zicsr, but for those of the jump table's register; or `wfi`."""
    return word == WFI or word & 0x7F == OPCODE_SYSTEM and word >> 12 & 3 != 0 and word >> 20 != JVT


def low_part(word):
    """The lower 12 bits that a word has, with their sign."""
    return signed(word >> 20 if not is_store(word) else word >> 25 << 5 | word >> 7 & 31, 12)


def branch_distance(word):
    return signed(word >> 31 << 12 | (word >> 7 & 1) << 11 | (word >> 25 & 63) << 5 | (word >> 8 & 15) << 1, 13)


def jal_distance(word):
    return signed(word >> 31 << 20 | (word >> 12 & 255) << 12 | (word >> 20 & 1) << 11 | (word >> 21 & 1023) << 1, 21)
