"""Compares console.py with the texts of docs/CONSOLE-SENDING.md, typed from there, and with the bursts of docs/FORMATS.md.
Then it makes the stored session again and compares it."""

import os
import sys

sys.dont_write_bytecode = True
sys.path.append(os.path.join(os.path.dirname(os.path.abspath(__file__)), "..", "reference"))

import console  # noqa: E402
import vectors  # noqa: E402
from check import B, ZERO_BURSTS, report, same  # noqa: E402

HELP = """
    block NAME          the block to code: CCCH/D, PACCH/D, PACCH/U, PACCH/U/48 or MCS-1'/48
    send BITS           the bursts of a message
    slot M P m B        where burst B of repeat m goes, of M repeats on P slots
    repeat M P B' PN    the repeat and burst that burst B' of slot PN is
    help                this list
"""

NOT_TEXT = "the line is not text"
NO_COMMAND = "there is no such command: try help"
NO_NAME = "the name of a block is missing"
NO_SUCH_BLOCK = "there is no such block: try help"
BITS_MISSING = "the bits are missing"
BAD_BITS = "bits are written 0 and 1"
NUMBER_MISSING = "a number is missing"
BAD_NUMBER = "numbers are whole, from 0 to 18446744073709551615"
MORE_WORDS = "there are more words than the command takes"
NO_BLOCK = "there is no block yet: name one with block"
ERRORS = {NOT_TEXT, NO_COMMAND, NO_NAME, NO_SUCH_BLOCK, BITS_MISSING, BAD_BITS, NUMBER_MISSING, BAD_NUMBER, MORE_WORDS,
          NO_BLOCK}

# A session: each line with its answer, or with what is wrong, or None where it is skipped.
SESSION = (
    (b"send 01\n", NO_BLOCK), (b"slot 1 2 3 4\n", NO_BLOCK), (b"repeat 1 2 3 4\n", NO_BLOCK),
    (b"send\n", BITS_MISSING), (b"send 01 1\n", MORE_WORDS), (b"slot 1 2 3\n", NUMBER_MISSING),
    (b"block\n", NO_NAME), (b"block ccch/d x\n", NO_SUCH_BLOCK), (b"block CCCH/D x\n", MORE_WORDS),
    (b"send 01\n", NO_BLOCK), (b"\n", None), (b" \t\f\r\n", None), (b"#\xff\n", None), (b" #\n", NO_COMMAND),
    (b"\xff\n", NOT_TEXT), (b"block CCCH/D \xff\n", NOT_TEXT), (b"x \xff\n", NOT_TEXT), (b"x y\n", NO_COMMAND),
    (b"\tblock\fPACCH/D\r\n", "block PACCH/D"), (b"block PACCH/D/\n", NO_SUCH_BLOCK),
    (b"slot 16 4 5 2\n", "burst 6 slot 1"), (b"slot 16 2 5 2\n", "burst 10 slot 1"),
    (b"repeat 16 4 6 1\n", "repeat 5 burst 2"), (b"repeat 16 2 10 1\n", "repeat 5 burst 2"),
    (b"slot 3 3 3 4\n", "refused 9 timing 1"), (b"slot 16 3 16 4\n", "refused 9 timing 2"),
    (b"slot 16 3 5 4\n", "refused 9 timing 3"), (b"slot 16 4 5 4\n", "refused 3 placement 4"),
    (b"repeat 16 3 64 9\n", "refused 9 timing 3"), (b"repeat 16 4 64 4\n", "refused 9 timing 3"),
    (b"repeat 16 4 18446744073709551615 0\n", "refused 9 timing 2"),
    (b"repeat 16 4 18446744073709551616 0\n", BAD_NUMBER),
    (b"repeat 16 4 " + b"0" * 9000 + b"6 1\n", "repeat 5 burst 2"),
    (b"repeat 16 4 " + b"9" * 9000 + b" 1\n", BAD_NUMBER), (b"slot x\n", BAD_NUMBER), (b"slot 1 -2\n", BAD_NUMBER),
    (b"slot 1 2 3 \xc2\xb2 5\n", BAD_NUMBER), (b"slot 1 2 3 4 x\n", MORE_WORDS), (b"slot\n", NUMBER_MISSING),
    (b"send 2\n", "refused 1 parity 1"), (b"send " + b"0" * 17 + b"2" * 63 + b"\n", "refused 2 parity 17"),
    (b"send 01x 0\n", BAD_BITS), (b"send \xd9\xa0\n", BAD_BITS), (b"help x\n", MORE_WORDS), (b"Help\n", NO_COMMAND),
    (b"slot 16 4 5 2", "burst 6 slot 1"),
)


def check_console():
    talk = console.Console()
    for number, (line, wanted) in enumerate(SESSION, 1):
        wanted = "error %d %s" % (number, wanted) if wanted in ERRORS else wanted
        same("console %r" % line[:40], list(talk.answer(line)), [] if wanted is None else [wanted])
    same("help", list(talk.answer(b"help\n")), [line.strip() for line in HELP.strip().split("\n")])
    for name, burst in ZERO_BURSTS:
        same("console block", talk.answer(b"block " + name.encode("ascii") + b"\n"), ["block " + name])
        rows = talk.answer(b"send " + b"0" * sum(part.message for part in B[name].parts) + b"\n")
        same(name + " console lines", len(rows), B[name].bursts)
        same(name + " console burst 0", rows[0], "burst 0 " + burst)


def check_stored():
    """The stored session is what vectors.py and console.py make, and has every error."""
    talk, lines = console.Console(), []
    for line in vectors.text().split(b"\n"):
        lines += talk.answer(line)
    folder = os.path.join(os.path.dirname(os.path.abspath(__file__)), "..", "crates", "ecsend")
    for name, made in (("stdin", vectors.text()), ("stdout", "".join(line + "\n" for line in lines).encode("ascii"))):
        with open(os.path.join(folder, name), "rb") as file:
            same("stored " + name + " is what the tools make", file.read() == made, True)
    same("stored errors", {line.split(" ", 2)[2] for line in lines if line.startswith("error ")}, ERRORS)


check_console()
check_stored()
report()
