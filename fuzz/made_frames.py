"""Frames by chance: how functions save registers and restore them. Most are a push and a pop, and some are so nearly."""
from groups import CLEAR, LISTS, MOST_FRAME, PUSH
from zc_machine import SAVED, Frame
from zcld_tools.instructions import NOP, RA, RET, SP, T0, addi, lw, sw

# How code goes on once the registers are restored: it does, or it returns, or sets a0 to 0 too, by the place where it does.
GOES_ON, RETURNS, CLEARS_FIRST, CLEARS_THEN, CLEARS_LAST = ENDINGS = range(5)


def sizes(number):
    """Sizes of frames of a list: those of one halfword, and those of which a second instruction, short or long, moves sp by the
    rest."""
    own = Frame(PUSH, number, 0).size
    return [[own + 16 * more for more in range(4)], list(range(own + 64, min(own + 48 + 496, MOST_FRAME) + 1, 16)),
            list(range(own + 48 + 512, MOST_FRAME + 1, 16))]


class Saved:
    """Registers and where each is saved in a frame of this many bytes."""

    def __init__(self, number, size):
        registers = Frame(PUSH, number, 0).registers
        self.size, self.places = size, {register: size - 4 * (j + 1) for j, register in enumerate(registers)}

    def stores(self, rng):
        """The words that save them, in any order."""
        words = [sw(register, SP, at) for register, at in self.places.items()]
        rng.shuffle(words)
        return [addi(SP, SP, -self.size), *words]

    def loads(self, rng, ending):
        """The words that restore them, in any order, and what comes with them."""
        words = [lw(register, SP, at) for register, at in self.places.items()]
        rng.shuffle(words)
        before = [CLEAR] * (ending == CLEARS_FIRST)
        raised = [*[CLEAR] * (ending == CLEARS_THEN), addi(SP, SP, self.size), *[CLEAR] * (ending == CLEARS_LAST)]
        return before + words + raised + [RET] * (ending != GOES_ON)


# ---- what is nearly right, and does the same


def swap(rng, saved):
    """Two registers have each other's slots."""
    first, second = rng.sample(list(saved.places), 2)
    saved.places[first], saved.places[second] = saved.places[second], saved.places[first]


def turn(_, saved):
    """ra has the highest slot, as compilers usually have it."""
    saved.places = dict(zip(saved.places, list(saved.places.values())[::-1]))


def leave_out(rng, saved):
    """A register isn't saved."""
    saved.places.pop(rng.choice([it for it in saved.places if it != RA]), None)


def replace(rng, saved):
    """Another register is saved in the slot of one."""
    others = [register for register in SAVED if register not in saved.places]
    if others:
        saved.places[rng.choice(others)] = saved.places.pop(rng.choice([it for it in saved.places if it != RA]))


def lower(_, saved):
    """All slots lie a word lower."""
    if min(saved.places.values()) >= 4:
        saved.places = {register: at - 4 for register, at in saved.places.items()}


def grow(rng, saved):
    """The frame has some bytes more above the slots."""
    saved.size += rng.choice((4, 8, 12, 16) if saved.size < MOST_FRAME else (4, 8, 12))


SLIPS = (swap, turn, leave_out, replace, lower, grow)


def made_frame(rng, is_right):
    """A frame of any list and size, right or with a slip."""
    number = rng.choice(LISTS)
    whole, short, long = sizes(number)
    saved = Saved(number, rng.choice(rng.choice((whole, whole, short, long))))
    if not is_right and len(saved.places) > 1:
        rng.choice(SLIPS)(rng, saved)
    return saved


def slip_between(rng, words):
    """Another word somewhere among those of a frame: one of them again, or one that does nothing."""
    at = rng.randrange(1, len(words))
    again = words[at - 1] if words[at - 1] & 0xFFFFF != addi(SP, SP) else NOP
    words.insert(at, rng.choice((again, NOP, addi(T0, T0, 1))))
