"""Answers the commands of docs/CONSOLE-SENDING.md: one a line on standard input, answered on standard output."""

import os
import re
import sys

sys.dont_write_bytecode = True
sys.path.append(os.path.join(os.path.dirname(os.path.abspath(__file__)), "..", "reference"))

import ec  # noqa: E402

HELP = (
    "block NAME          the block to code: CCCH/D, PACCH/D, PACCH/U, PACCH/U/48 or MCS-1'/48",
    "send BITS           the bursts of a message",
    "slot M P m B        where burst B of repeat m goes, of M repeats on P slots",
    "repeat M P B' PN    the repeat and burst that burst B' of slot PN is",
    "help                this list",
)
DIGITS = b"0123456789"
LARGEST = b"18446744073709551615"


class Error(Exception):
    """A line that is no command."""


# ---- Words ----------------------------------------------------------------------------------------------------------
# What a word stands for. A word is bytes, or None where the line has no more words.

def only_digits(word):
    return all(byte in DIGITS for byte in word)


def name(word):
    if word is None:
        raise Error("the name of a block is missing")
    for block in ec.BLOCKS.values():
        if word == block.name.encode("ascii"):
            return block
    raise Error("there is no such block: try help")


def bits(word):
    if word is None:
        raise Error("the bits are missing")
    if not only_digits(word):
        raise Error("bits are written 0 and 1")
    return [byte - ord("0") for byte in word]


def number(word):
    if word is None:
        raise Error("a number is missing")
    # Without its leading zeros the longer number is the larger one, and int() never sees a long word.
    short = word.lstrip(b"0") or b"0"
    if not only_digits(word) or (len(short), short) > (len(LARGEST), LARGEST):
        raise Error("numbers are whole, from 0 to %s" % LARGEST.decode("ascii"))
    return int(short)


WORDS = {b"block": (name,), b"send": (bits,), b"slot": (number,) * 4, b"repeat": (number,) * 4, b"help": ()}


# ---- Commands -------------------------------------------------------------------------------------------------------

def send(block, message):
    return ["burst %d %s" % (b, "".join(map(str, burst))) for b, burst in enumerate(ec.send(block, message))]


def slot(block, total, slots, repeat, burst):
    return ["burst %d slot %d" % ec.to_timeslot(block, total, repeat, slots, burst)]


def repeat(block, total, slots, order, slot):
    return ["repeat %d burst %d" % ec.from_timeslot(block, total, slots, order, slot)]


CALLS = {b"send": send, b"slot": slot, b"repeat": repeat}


def parse(line, words):
    """The command and what its words stand for. The first thing wrong is told."""
    try:
        line.decode("utf-8")
    except UnicodeDecodeError:
        raise Error("the line is not text")
    command, words = words[0], words[1:]
    if command not in WORDS:
        raise Error("there is no such command: try help")
    asked = WORDS[command]
    values = [read(words[i] if i < len(words) else None) for i, read in enumerate(asked)]
    if len(words) > len(asked):
        raise Error("there are more words than the command takes")
    return command, values


class Console:
    """The number of the line and the block named last."""

    def __init__(self):
        self.line, self.block = 0, None

    def command(self, line, words):
        command, values = parse(line, words)
        if command == b"help":
            return HELP
        if command == b"block":
            self.block = values[0]
            return ["block " + self.block.name]
        if self.block is None:
            raise Error("there is no block yet: name one with block")
        return CALLS[command](self.block, *values)

    def answer(self, line):
        """The lines that answer one line of input, which is bytes."""
        self.line += 1
        # Only a line feed ends a line, only these four separate words.
        words = [word for word in re.split(rb"[ \t\f\r]+", line.rstrip(b"\n")) if word]
        if not words or line.startswith(b"#"):
            return []
        try:
            return self.command(line, words)
        except ec.Refusal as refusal:
            return [str(refusal)]
        except Error as error:
            return ["error %d %s" % (self.line, error)]


def main():
    console = Console()
    for line in sys.stdin.buffer:
        for text in console.answer(line):
            sys.stdout.buffer.write(text.encode("ascii") + b"\n")
        sys.stdout.buffer.flush()


if __name__ == "__main__":
    main()
