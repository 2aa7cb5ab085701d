"""The sending side of five extended coverage blocks, written from docs/FORMATS.md and docs/REFUSALS.md alone.

A bit is the int 0 or 1. Messages, words and bursts are lists of bits. Counting starts at 0.
An entry of a placement is ("coded", place) or ("fixed", bit); a placement is the list of its outer entries.
"""

from collections import namedtuple

BURST = 116
FIXED0 = ("fixed", 0)


class Refusal(Exception):
    """A refused call: its number, the layer where it arose, and its detail (a tuple of numbers)."""

    def __init__(self, number, layer, *detail):
        super().__init__(number, layer, detail)
        self.number, self.layer, self.detail = number, layer, detail

    def __str__(self):
        return " ".join(["refused", str(self.number), self.layer] + [str(d) for d in self.detail])


# ---- Code parts and blocks ------------------------------------------------------------------------------------------

# A polynomial is written as the powers that have the coefficient 1.
CONTROL = (18, 17, 14, 13, 11, 10, 8, 7, 6, 3, 2, 0)
HEADER = (8, 6, 3, 0)
DATA = (12, 11, 10, 8, 5, 4, 0)

TAIL_BITING, ZERO_TAIL = "tail-biting", "zero tail"


class Part(namedtuple("Part", "message word ending polynomial dropped")):
    """Message length, word length, ending, polynomial, and the set of the coded places that are not sent."""

    def degree(self):
        return max(self.polynomial)

    def coded(self):
        return 3 * (self.word + (6 if self.ending == ZERO_TAIL else 0))

    def kept(self):
        return [place for place in range(self.coded()) if place not in self.dropped]


def evenly(coded, count):
    return {i * coded // count for i in range(count)}


CCCH_D_DROPPED = evenly(318, 202)
PACCH_D_DROPPED = evenly(294, 180)
PACCH_U_DROPPED = evenly(246, 130)
PACCH_U_48_DROPPED = evenly(222, 116)
HEADER_DROPPED = {place for place in range(72) if place % 3 == 2}
DATA_DROPPED = {r + 21 * j for r in (2, 5, 8, 10, 11, 14, 17, 20) for j in range(28)} - {
    73, 136, 199, 262, 325, 388, 451, 514}

# Layers are functions from a placement to a placement; the blocks themselves are listed further down.
Block = namedtuple("Block", "name parts bursts most_repeats layers totals slots")


# ---- Checks ---------------------------------------------------------------------------------------------------------

def check_length(buffer, length, asked):
    if length is not None and length != asked:
        raise Refusal(1, "parity", buffer)


def check_bits(row):
    for index, bit in enumerate(row):
        if bit not in (0, 1):
            raise Refusal(2, "parity", index)


# ---- Parity ---------------------------------------------------------------------------------------------------------

def remainder(row, polynomial):
    """Long division over GF(2). The first bit of the row and of the remainder belongs to the highest power."""
    degree = max(polynomial)
    divisor = [1 if power in polynomial else 0 for power in range(degree, -1, -1)]
    rest = [0] * max(0, degree - len(row)) + list(row)
    for start in range(len(rest) - degree):
        if rest[start] == 1:
            for i in range(degree + 1):
                rest[start + i] ^= divisor[i]
    return rest[len(rest) - degree:]


def write_word(part, message, room=None):
    """The message with its right parity. `room` is the length of the output buffer, where that is to be tested."""
    check_length(1, len(message), part.message)
    check_length(2, room, part.word)
    check_bits(message)
    rest = remainder(list(message) + [0] * part.degree(), part.polynomial)
    return list(message) + [1 - bit for bit in rest]


def right_parity(part, word):
    check_length(1, len(word), part.word)
    check_bits(word)
    return all(bit == 1 for bit in remainder(word, part.polynomial))


# ---- Convolutional code ---------------------------------------------------------------------------------------------

# Which of w(k), w(k-1) ... w(k-6) each of the three sums takes.
SUMS = ((0, 2, 3, 5, 6), (0, 1, 2, 3, 6), (0, 1, 4, 6))


def code_word(part, word, room=None):
    """A shift register of six bits, youngest first, fed bit by bit."""
    check_length(1, len(word), part.word)
    check_length(2, room, part.coded())
    check_bits(word)
    if part.ending == TAIL_BITING:
        register, fed = list(reversed(word[-6:])), list(word)
    else:
        register, fed = [0] * 6, list(word) + [0] * 6
    coded = []
    for bit in fed:
        window = [bit] + register
        for delays in SUMS:
            coded.append(sum(window[delay] for delay in delays) % 2)
        register = window[:6]
    return coded


# ---- Placements -----------------------------------------------------------------------------------------------------
# Each layer starts from fixed zeros and writes the entries from below to their places, in the order of the entries.

def kept_lists(parts):
    """The bottom of a pile: the kept places of all parts, coded places counted through the whole block."""
    outer, before = [], 0
    for part in parts:
        outer += [("coded", before + place) for place in part.kept()]
        before += part.coded()
    return outer


def flags(below):
    outer = [FIXED0] * 424
    free = [place for place in range(424) if place not in (25, 82, 139, 401)]
    for place, entry in zip(free, below):
        outer[place] = entry
    return outer


def interleaver_place(k):
    """(B, j) of entry k."""
    return k % 4, 2 * ((49 * k) % 53) + (k % 8) // 4


def interleaver(below):
    outer = [FIXED0] * 424
    for k, entry in enumerate(below[:424]):
        b, j = interleaver_place(k)
        outer[106 * b + j] = entry
    return outer


def straight(bursts):
    def layer(below):
        outer = [FIXED0] * (BURST * bursts)
        for b in range(bursts):
            for i, entry in enumerate(below[:116]):
                outer[BURST * b + i] = entry
        return outer
    return layer


def split_by_two(below):
    outer = [FIXED0] * (BURST * 4)
    for b, middle in enumerate(((0, 0), (0, 1), (0, 1), (1, 0))):
        for i, entry in enumerate(below[:114]):
            outer[BURST * b + (i if i < 57 else i + 2)] = entry
        outer[BURST * b + 57] = ("fixed", middle[0])
        outer[BURST * b + 58] = ("fixed", middle[1])
    return outer


def split_by_ten(below):
    outer = [FIXED0] * (BURST * 4)
    for number, entry in enumerate(below[:424]):
        b, i = divmod(number, 106)
        outer[BURST * b + (i if i < 53 else i + 10)] = entry
    return outer


def pile(block):
    placement = kept_lists(block.parts)
    for layer in block.layers:
        placement = layer(placement)
    return placement


# ---- Blocks ---------------------------------------------------------------------------------------------------------
# Name, parts, bursts, most repeats, layers over the kept lists, permitted M, permitted p (None: p is not looked at).

BLOCKS = {block.name: block for block in (
    Block("CCCH/D", (Part(88, 106, TAIL_BITING, CONTROL, CCCH_D_DROPPED),),
          2, 32, (straight(2),), (1, 8, 16, 32), None),
    Block("PACCH/D", (Part(80, 98, TAIL_BITING, CONTROL, PACCH_D_DROPPED),),
          4, 16, (split_by_two,), (1, 4, 8, 16), (2, 4)),
    Block("PACCH/U", (Part(64, 82, TAIL_BITING, CONTROL, PACCH_U_DROPPED),),
          4, 16, (straight(4),), (1, 4, 8, 16), (2, 4)),
    Block("PACCH/U/48", (Part(56, 74, TAIL_BITING, CONTROL, PACCH_U_48_DROPPED),),
          4, 48, (straight(4),), (48,), (2, 4)),
    Block("MCS-1'/48", (Part(16, 24, TAIL_BITING, HEADER, HEADER_DROPPED),
                        Part(178, 190, ZERO_TAIL, DATA, DATA_DROPPED)),
          4, 48, (flags, interleaver, split_by_ten), (48,), (2, 4)),
)}


# ---- Sending --------------------------------------------------------------------------------------------------------

def send(block, message, room=None):
    """The bursts of a message, as a list of lists of 116 bits."""
    check_length(1, len(message), sum(part.message for part in block.parts))
    check_length(2, room, BURST * block.bursts)
    check_bits(message)
    coded, left = [], list(message)
    for part in block.parts:
        own, left = left[:part.message], left[part.message:]
        coded += code_word(part, write_word(part, own))
    row = [coded[value] if kind == "coded" else value for kind, value in pile(block)]
    return [row[BURST * b:BURST * (b + 1)] for b in range(block.bursts)]


# ---- Timeslots ------------------------------------------------------------------------------------------------------

def to_timeslot(block, total, repeat, slots, burst):
    """From M, m, p and B to (B', pn)."""
    if total not in block.totals:
        raise Refusal(9, "timing", 1)
    if not 0 <= repeat < total:
        raise Refusal(9, "timing", 2)
    if block.slots is not None and slots not in block.slots:
        raise Refusal(9, "timing", 3)
    if not 0 <= burst < block.bursts:
        raise Refusal(3, "placement", burst)
    if block.slots is None:
        return burst + 2 * repeat, 0
    return burst + 4 * (repeat // slots), repeat % slots


def from_timeslot(block, total, slots, order, slot):
    """From M, p, B' and pn to (m, B)."""
    if total not in block.totals:
        raise Refusal(9, "timing", 1)
    if block.slots is not None and slots not in block.slots:
        raise Refusal(9, "timing", 3)
    if not 0 <= slot < (1 if block.slots is None else slots):
        raise Refusal(9, "timing", 3)
    if block.slots is None:
        repeat, burst = order // 2, order % 2
    else:
        repeat, burst = slots * (order // 4) + slot, order % 4
    if not 0 <= repeat < total:
        raise Refusal(9, "timing", 2)
    return repeat, burst
