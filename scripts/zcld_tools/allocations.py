"""Runs a program one of whose allocations is refused, on Linux and x86-64.

The program is stopped at each call of `malloc`, `calloc` and `realloc` of the C library, by ptrace. The one of a given number
returns that there is no memory, and from then on the program runs by itself.
"""
import ctypes
import os
import re
import struct
from typing import NamedTuple

from zcld_tools.files import read
from zcld_tools.programs import Ended

ALLOCATING = b'malloc', b'calloc', b'realloc'
# Requests of ptrace, and the registers' places among those that it gives (<sys/user.h>).
TRACE_ME, PEEK, POKE, CONTINUE, STEP, GET_REGISTERS, SET_REGISTERS, DETACH = 0, 1, 4, 7, 9, 12, 13, 17
REGISTERS, RAX, RIP, RSP = 27, 10, 16, 19
BREAK = 0xCC
# The types of sections that list symbols, and how the header of a section and a symbol are laid out (System V gABI, ELF-64).
SYMTABS, SECTION, SYMBOL = (2, 11), '<2I4Q2I2Q', '<IBBHQQ'

LIBC = ctypes.CDLL(None, use_errno=True)
LIBC.ptrace.restype = ctypes.c_long
LIBC.ptrace.argtypes = ctypes.c_long, ctypes.c_int, ctypes.c_void_p, ctypes.c_void_p


def ask(request, pid, address=0, value=0):
    """A request of ptrace."""
    ctypes.set_errno(0)
    answer = LIBC.ptrace(request, pid, address, value)
    if ctypes.get_errno():
        raise OSError(ctypes.get_errno(), f'ptrace {request}')
    return answer


def symbols(path):
    """The value of each function of a program or library of 64 bits, by its name; and where it is entered."""
    data = read(path)
    entry, at = struct.unpack_from('<Q8xQ', data, 24)
    size, count = struct.unpack_from('<2H', data, 58)
    headers = [struct.unpack_from(SECTION, data, at + size * k) for k in range(count)]
    found = {}
    for _, kind, _, _, offset, length, link, *_ in headers:
        for symbol in range(offset, offset + length, 24) if kind in SYMTABS else ():
            name, _, _, home, value, _ = struct.unpack_from(SYMBOL, data, symbol)
            start = headers[link][4] + name
            if home:
                found[data[start:data.index(b'\0', start)]] = value
    return found, entry


class Mapped(NamedTuple):
    """A file that is mapped in a process: its path, and how far its addresses are moved."""

    path: str
    moved: int


def mapped(pid, pattern):
    """The first file that a process has mapped whose path matches, or none."""
    with open(f'/proc/{pid}/maps', encoding='utf-8') as lines:
        for line in lines:
            start, _, _, _, _, *path = line.split(None, 5)
            if path and re.search(pattern, path[0].strip()):
                return Mapped(path[0].strip(), int(start.split('-')[0], 16))
    return None


class Traced:
    """A process that is stopped at breakpoints."""

    def __init__(self, words, folder, out, err):
        self.kept, self.status = {}, None
        self.pid = os.fork()
        if not self.pid:
            begin(words, folder, out, err)
        self.wait()

    def wait(self):
        """Waits until the process stops or ends. Says whether it has stopped."""
        _, status = os.waitpid(self.pid, 0)
        if os.WIFSTOPPED(status):
            return True
        self.status = os.waitstatus_to_exitcode(status)
        return False

    def word(self, address):
        return ask(PEEK, self.pid, address) & (1 << 64) - 1

    def break_at(self, address):
        self.kept[address] = word = self.word(address)
        ask(POKE, self.pid, address, word & ~0xFF | BREAK)

    def clear(self, address):
        ask(POKE, self.pid, address, self.kept.pop(address))

    def registers(self):
        block = ctypes.create_string_buffer(8 * REGISTERS)
        ask(GET_REGISTERS, self.pid, 0, ctypes.addressof(block))
        return list(struct.unpack(f'<{REGISTERS}Q', block))

    def set_registers(self, registers):
        block = ctypes.create_string_buffer(struct.pack(f'<{REGISTERS}Q', *registers), 8 * REGISTERS)
        ask(SET_REGISTERS, self.pid, 0, ctypes.addressof(block))

    def run(self):
        """Runs to the next breakpoint, and gives its registers with the pc there, or none if the process ended."""
        ask(CONTINUE, self.pid)
        while self.wait():
            registers = self.registers()
            if registers[RIP] - 1 in self.kept:
                registers[RIP] -= 1
                return registers
            ask(CONTINUE, self.pid)
        return None

    def pass_by(self, registers):
        """Makes the instruction at a breakpoint, which stays."""
        address = registers[RIP]
        self.clear(address)
        self.set_registers(registers)
        ask(STEP, self.pid)
        if self.wait():
            self.break_at(address)

    def leave(self, registers):
        """Makes a call whose first instruction is at a breakpoint return 0, and lets the process run by itself to its end."""
        for address in [*self.kept]:
            self.clear(address)
        registers[RIP] = self.word(registers[RSP])
        registers[RSP] += 8
        registers[RAX] = 0
        self.set_registers(registers)
        ask(DETACH, self.pid)
        self.wait()


def begin(words, folder, out, err):
    """Becomes the program, in a new process."""
    try:
        os.chdir(folder)
        for descriptor, file in enumerate((os.open(os.devnull, os.O_RDONLY), out, err)):
            os.dup2(file, descriptor)
        ask(TRACE_ME, 0)
        os.execv(words[0], words)
    finally:
        os._exit(127)


def stopped_at_entry(words, folder, out, err):
    """A process whose libraries are loaded, stopped where its program begins, with breakpoints at what allocates."""
    traced = Traced(words, folder, out, err)
    program = mapped(traced.pid, re.escape(words[0]) + '$')
    entry = program.moved + symbols(program.path)[1]
    traced.break_at(entry)
    registers = traced.run()
    traced.clear(entry)
    traced.set_registers(registers)
    library = mapped(traced.pid, r'/libc\.so\.6$|/libc-[0-9.]+\.so$')
    values = symbols(library.path)[0]
    for name in ALLOCATING:
        traced.break_at(library.moved + values[name])
    return traced


def run_without(number, words, folder):
    """Runs a program in a folder, and refuses the allocation of this number, from 1 on. Gives how it ended and what it wrote, or
    none for that if it made fewer, and how many it made up to then."""
    paths = [os.path.join(folder, name) for name in ('stdout', 'stderr')]
    with open(paths[0], 'wb') as out, open(paths[1], 'wb') as err:
        traced, count = stopped_at_entry(words, folder, out.fileno(), err.fileno()), 0
        while (registers := traced.run()) is not None:
            count += 1
            if count == number:
                traced.leave(registers)
                break
            traced.pass_by(registers)
    ended = Ended(traced.status, *map(read, paths))
    for path in paths:
        os.remove(path)
    return ended, count
