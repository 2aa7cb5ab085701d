"""Reads commands from standard input, one a line, and answers on standard output. `help` lists the commands."""

import re
import sys

sys.dont_write_bytecode = True

import ec  # noqa: E402

HELP = (
    "header BITS    16 bits of a header: its parity, its coded bits, and those that are sent",
    "help           this list",
)


class Error(Exception):
    """A line that is no command."""


def row(name, bits):
    return "%s %d bits %s" % (name, len(bits), "".join(str(bit) for bit in bits))


def header(bits):
    part = ec.BLOCKS["MCS-1'/48"].parts[0]
    try:
        word = ec.write_word(part, bits)
        coded = ec.code_word(part, word)
    except ec.Refusal as refusal:
        return [str(refusal)]
    return [
        row("message", word[:part.message]),
        row("parity", word[part.message:]),
        row("word", word),
        row("coded", coded),
        row("kept", [coded[place] for place in part.kept()]),
    ]


def answer(line, words):
    """The lines that answer one command. Words are bytes."""
    try:
        line.decode("utf-8")
    except UnicodeDecodeError:
        raise Error("the line is not text")
    if words[0] == b"help":
        if len(words) > 1:
            raise Error("there are more words than the command takes")
        return HELP
    if words[0] == b"header":
        if len(words) < 2:
            raise Error("the bits are missing")
        if any(byte not in b"0123456789" for byte in words[1]):
            raise Error("bits are written 0 and 1")
        if len(words) > 2:
            raise Error("there are more words than the command takes")
        return header([byte - ord("0") for byte in words[1]])
    raise Error("there is no such command: try help")


def main():
    # Read as bytes: only a line feed ends a line, only these four separate words.
    for number, line in enumerate(sys.stdin.buffer, 1):
        words = [word for word in re.split(rb"[ \t\f\r]+", line.rstrip(b"\n")) if word]
        if not words or line.startswith(b"#"):
            continue
        try:
            lines = answer(line, words)
        except Error as error:
            lines = ["error %d %s" % (number, error)]
        for text in lines:
            sys.stdout.buffer.write(text.encode("ascii") + b"\n")
        sys.stdout.buffer.flush()


if __name__ == "__main__":
    main()
