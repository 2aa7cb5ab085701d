"""Prints the stored input of the console, always the same: python3 tools/vectors.py > crates/ecsend/stdin

With --random N SEED it prints N random lines instead, right and broken ones, for comparisons outside the gate.
"""

import itertools
import os
import random
import sys

sys.dont_write_bytecode = True
sys.path.append(os.path.join(os.path.dirname(os.path.abspath(__file__)), "..", "reference"))

import ec  # noqa: E402

LARGEST = 2 ** 64 - 1
SEED = 48
MESSAGES = 48
BLOCKS = list(ec.BLOCKS.values())

lines = []


def say(*words):
    """One line. A word is bytes, or is written as text."""
    lines.append(b" ".join(word if isinstance(word, bytes) else str(word).encode("utf-8") for word in words))


def note(text):
    say("#", text)


def length(block):
    return sum(part.message for part in block.parts)


# ---- Messages -------------------------------------------------------------------------------------------------------

def single(size, place, digit="1"):
    return "0" * place + digit + "0" * (size - place - 1)


def random_bits(source, size):
    # getrandbits alone is sure to give the same in every version of Python.
    return "".join(str(source.getrandbits(1)) for _ in range(size))


def messages(block, source):
    size = length(block)
    spread = [i * (size - 1) // 11 for i in range(12)]
    if block.name == "MCS-1'/48":
        spread = sorted(set(spread + [15, 16, 193]))
    fixed = ["0" * size, "1" * size]
    fixed += [single(size, place) for place in spread]
    fixed += [("10" * size)[:size], ("01" * size)[:size]]
    note("%s: zeros, ones, single bits, alternating bits" % block.name)
    say("block", block.name)
    for message in fixed:
        say("send", message)
    note("%s: random messages" % block.name)
    for _ in range(MESSAGES - len(fixed)):
        say("send", random_bits(source, size))


def refused_messages(block, source):
    size = length(block)
    good = random_bits(source, size)
    note("%s: wrong lengths" % block.name)
    for message in (good[:-1], good + "0", good + "1", "0", "1", good * 2, "0" * 5000):
        say("send", message)
    note("%s: digits that are no bits" % block.name)
    say("send", "2" + good[1:])
    say("send", good[:-1] + "9")
    for digit in range(2, 10):
        place = (digit - 1) * (size - 1) // 9
        say("send", good[:place] + str(digit) + good[place + 1:])
    if block.name == "MCS-1'/48":
        say("send", single(size, 15, "2"))
        say("send", single(size, 16, "2"))
    note("%s: two and more such digits" % block.name)
    say("send", good[:7] + "3" + good[8:21] + "2" + good[22:])
    say("send", "9" + good[1:-1] + "2")
    say("send", "2" * size)
    note("%s: such a digit and a wrong length" % block.name)
    say("send", "2" + good[2:])
    say("send", good[:-2] + "2")
    say("send", good + "2")
    say("send", "2" + good)
    say("send", "2")
    note("%s: a message again" % block.name)
    say("send", good)


# ---- Timeslots ------------------------------------------------------------------------------------------------------

def there_and_back(block, total, slots, repeat, burst):
    order, slot = ec.to_timeslot(block, total, repeat, slots, burst)
    say("slot", total, slots, repeat, burst)
    say("repeat", total, slots, order, slot)


def slots_of(block):
    return (0,) if block.slots is None else block.slots


def timeslots(block):
    say("block", block.name)
    for total in block.totals:
        for slots in slots_of(block):
            note("%s: M %d on %d slots, each burst there and back" % (block.name, total, slots))
            for repeat in range(total):
                for burst in range(block.bursts):
                    there_and_back(block, total, slots, repeat, burst)
    if block.slots is None:
        note("%s: p is not looked at" % block.name)
        for i, slots in enumerate((1, 2, 3, 4, 5, 7, 99, LARGEST - 1, LARGEST)):
            there_and_back(block, 32, slots, 31 - 3 * i, i % 2)
            there_and_back(block, 1, slots, 0, i % 2)


def wrong_totals(block):
    some = {0, 1, 2, 3, 4, 5, 6, 7, 8, 9, 12, 15, 16, 17, 24, 31, 32, 33, 47, 48, 49, 64, 96, LARGEST}
    some |= {2 ** power + block.totals[-1] for power in (8, 16, 32, 63)}
    return sorted(some - set(block.totals))


def wrong_repeats(total):
    return (total, total + 1, 2 * total, 2 ** 32, 2 ** 63, LARGEST - 1, LARGEST)


def wrong_bursts(block):
    return (block.bursts, block.bursts + 1, 7, 116, 2 ** 32, LARGEST - 1, LARGEST)


WRONG_SLOTS = (0, 1, 3, 5, 6, 8, 2 ** 32 + 2, 2 ** 32 + 4, 2 ** 63, LARGEST - 1, LARGEST)
WRONG_ORDERS = (2 ** 32, 2 ** 32 + 1, 2 ** 63, 2 ** 63 + 1, LARGEST - 15, LARGEST - 3, LARGEST - 1, LARGEST)


def wrong_slot_numbers(block, slots):
    first = 1 if block.slots is None else slots
    return (first, first + 1, 7, 2 ** 32, LARGEST - 1, LARGEST)


def refused(call):
    try:
        call()
    except ec.Refusal:
        return True
    return False


def late_orders(block, total, slots):
    """Each (B', pn) whose m is just not below M."""
    numbers = (0,) if block.slots is None else range(slots)
    for order in range(block.bursts * (total + 2)):
        for number in numbers:
            if refused(lambda: ec.from_timeslot(block, total, slots, order, number)):
                earlier = order - 2 * block.bursts
                if earlier < 0 or not refused(lambda: ec.from_timeslot(block, total, slots, earlier, number)):
                    yield order, number


def several_wrong(right, wrong):
    """Two, three or all four numbers wrong, each in its two ways, the others right."""
    for ways in itertools.product((0, 1, 2), repeat=4):
        if ways.count(0) <= 2:
            yield [right[i] if way == 0 else wrong[i][way - 1] for i, way in enumerate(ways)]


def refused_timeslots(block):
    bursts, last = block.bursts, block.totals[-1]
    slots = slots_of(block)
    say("block", block.name)
    note("%s: M is not permitted" % block.name)
    for total in wrong_totals(block):
        say("slot", total, slots[-1], 0, 0)
        say("repeat", total, slots[-1], 0, 0)
    for total in block.totals:
        for p in slots:
            note("%s: M %d on %d slots, one number wrong" % (block.name, total, p))
            for repeat in wrong_repeats(total):
                say("slot", total, p, repeat, 0)
            for burst in wrong_bursts(block):
                say("slot", total, p, total - 1, burst)
            for number in wrong_slot_numbers(block, p):
                say("repeat", total, p, 0, number)
            for order, number in late_orders(block, total, p):
                say("repeat", total, p, order, number)
            for order in WRONG_ORDERS:
                say("repeat", total, p, order, 0)
                if block.slots is not None:
                    say("repeat", total, p, order, p - 1)
    note("%s: other p" % block.name)
    for total in (block.totals[0], last):
        for p in WRONG_SLOTS:
            say("slot", total, p, total - 1, bursts - 1)
            say("repeat", total, p, bursts - 1, 0)
            say("repeat", total, p, 0, p)
    note("%s: several numbers wrong" % block.name)
    totals, others = (3, LARGEST), (3, LARGEST)
    right, wrong = (last, slots[0], last - 1, bursts - 1), (totals, others, (last, LARGEST), (bursts, LARGEST))
    for numbers in several_wrong(right, wrong):
        say("slot", *numbers)
    numbers = wrong_slot_numbers(block, slots[0])
    right, wrong = (last, slots[0], 1, 0), (totals, others, (bursts * last, LARGEST), (numbers[0], LARGEST))
    for numbers in several_wrong(right, wrong):
        say("repeat", *numbers)


# ---- Errors ---------------------------------------------------------------------------------------------------------

NOT_TEXT = (b"\xff", b"\xfe\xff", b"\x80", b"\xc3", b"\xc3(", b"\xc0\xb0", b"\xe2\x82", b"\xed\xa0\x80",
            b"\xf4\x90\x80\x80", b"\xf0\x80\x80\xb0", b"\xf8\x88\x80\x80\x80")

NO_NUMBERS = (b"18446744073709551616", b"18446744073709551617", b"18446744073709551625", b"18446744073709551700",
              b"20000000000000000000", b"99999999999999999999", b"100000000000000000000", b"184467440737095516150",
              b"340282366920938463463374607431768211456", b"0000018446744073709551616", b"9" * 5000,
              b"+1", b"-1", b"-0", b"+", b"-", b"1.0", b"1.", b".5", b".", b"0x10", b"10h", b"ff", b"1e1", b"1_0",
              b"1,0", b"1/1", b"1:", b"'1'", b'""', b"1#", b"#1", b"1\0", b"\0", b"1\v", b"nan", b"x",
              "\u0661".encode(), "\u00b2".encode(), "\uff11".encode(), "1\u00a0".encode(), "\u00bd".encode())

NO_BITS = (b"x", b"01x", b"x01", b"01-10", b"+1", b"-1", b"0.1", b"0b01", b"0x1", b"01/", b"01:", b"01,10", b"0_1",
           b"#", b"'01'", b"OI", b"0\0", b"01\v10", "\u0660\u0661".encode(), "\uff10\uff11".encode(),
           "01\u00a0".encode())

NO_BLOCKS = (b"ccch/d", b"CCCH/d", b"CCCH/D/", b"/CCCH/D", b"CCCH", b"CCCH/", b"CCCH/U", b"CCCHD", b"CCCH//D",
             b"CCCH\\D", b"EC-CCCH/D", b"PACCH", b"PACCH/D/", b"PACCH/D/48", b"PACCH/U/", b"PACCH/U/4", b"PACCH/U/048",
             b"PACCH/U/48/", b"pacch/u/48", b"MCS-1/48", b"MCS-1'", b"MCS-1'/48/", b"MCS-1'/48'", b"mcs-1'/48",
             b"MCS-1''/48", b"MCS-2'/48", "MCS-1\u2019/48".encode(), b"MCS\xe2\x88\x921'/48", b"'CCCH/D'", b"CCCH/D\0",
             b"CCCH/D\v", b"NAME", b"0", b"-", b"#", b"block")

NO_COMMANDS = (b"Block CCCH/D", b"BLOCK CCCH/D", b"blocks", b"bloc", b"blockCCCH/D", b"SEND 0", b"send0", b"sends 01",
               b"Slot 1 2 0 0", b"slots 1 2 0 0", b"repeats 1 2 0 0", b"HELP", b"helphelp", b"help: me", b"help;", b"?",
               b"quit", b"exit", b"header 0000000000000000", b"01", b"CCCH/D", b"x send 01", b"-", b"/", b"\0",
               b"help\0", b"help\v", b"\vhelp", b"\xef\xbb\xbfhelp", "help\u00a0".encode(), "\u00a0".encode(),
               "\u0085".encode(), "\u2003help".encode(), b"\x1a", b"\x7f", b" # no comment", b"\t# no comment",
               b"\r#", b"\f# no comment", b"//", b"send\v01", b"sl\0ot 1 2 0 0", b"h" * 5000)


def before_any_block():
    note("No block was named yet")
    for line in (b"send 0101", b"send 0", b"send 2", b"slot 1 2 0 0", b"slot 0 0 0 0", b"repeat 1 2 0 0",
                 b"repeat 3 3 3 3", b"\tsend\t01\t\r"):
        say(line)
    note("The words come first")
    for line in (b"send", b"send x", b"send 01 10", b"send x 10", b"slot", b"slot 1 2 3", b"slot 1 2 3 x", b"slot x",
                 b"slot 1 2 3 4 5", b"repeat", b"repeat 1", b"repeat 1 2 3 18446744073709551616", b"repeat 1 2 3 4 x",
                 b"send \xff", b"nothing"):
        say(line)
    note("No block is named by these")
    for line in (b"block", b"block ccch/d", b"block CCCH/D PACCH/D", b"#block CCCH/D", b"# block CCCH/D", b"block \xff",
                 b"block CCCH/D \xff", b"Block CCCH/D"):
        say(line)
        say("send 01")
    note("Help")
    say("help")


def still(source):
    """The block stays what it was."""
    say("send", random_bits(source, 64))
    say("slot 16 4 15 3")


def errors(source):
    block = ec.BLOCKS["PACCH/U"]
    say("block", block.name)
    note("No text")
    for some in NOT_TEXT:
        say(some)
        say("send 01" + "0" * 61, some)
    say(b"help \xff")
    say(b"helf \xff")
    say(b"block CCCH/D\xc3")
    say(b"slot 1 2 3 \xff")
    say(b" \xff")
    say(b"\xe2\x82")
    say(b"\xac")
    note("Comments that are no text")
    for some in NOT_TEXT:
        say(b"#" + some)
    say(b"# block CCCH/D \xff")
    still(source)

    note("No command")
    for line in NO_COMMANDS:
        say(line)
    still(source)

    note("No block")
    for line in (b"block", b"block ", b" block\t\r"):
        say(line)
    for name in NO_BLOCKS:
        say("block", name)
    for line in (b"block ccch/d PACCH/D", b"block x y z", b"block CCCH / D", b"block EC CCCH/D"):
        say(line)
    still(source)
    note("A block and more")
    for line in (b"block CCCH/D x", b"block CCCH/D PACCH/D", b"block CCCH/D #", b"block PACCH/U 48",
                 b"block MCS-1'/48 \0"):
        say(line)
    still(source)

    note("No bits")
    for line in (b"send", b"send ", b" send\t\f\r"):
        say(line)
    for word in NO_BITS:
        say("send", word)
    say("send", single(64, 0, "x"))
    say("send", single(64, 63, "x"))
    say("send", single(64, 0, "2")[:-1] + "x")
    say("send x 01")
    say("send 01x 01")
    say("send", "2" * 64 + "x", "01")
    note("Bits and more")
    for words in ("01 10", "01 x", "2 2", "0 #", "0" * 32 + " " + "0" * 32, "0" * 64 + " x", "2" * 64 + " \0"):
        say("send", words)
    still(source)

    for command in ("slot", "repeat"):
        note("%s: a number is missing" % command)
        for words in ("", "1", "1 2", "1 2 3", "1  2  3", " 1 2 3 ", "16 4\t0\r", "3 3 3", "18446744073709551615",
                      "00"):
            say(command, words)
        note("%s: no number, in each place" % command)
        right = [b"16", b"4", b"0", b"0"]
        for place in range(4):
            for word in (b"x", b"-1", b"18446744073709551616", b"1.5"):
                say(command, *(right[:place] + [word] + right[place + 1:]))
        for i, word in enumerate(NO_NUMBERS):
            place = i % 4
            say(command, *(right[:place] + [word] + right[place + 1:]))
        note("%s: what stands further left is told" % command)
        for words in ("x", "1 x", "1 2 x", "x 1", "x y z u", "1 2 3 x 4", "x 2 3 4 5", "1 18446744073709551616",
                      "1 2 3 -4 x", "1 x 3 4 5 6"):
            say(command, words)
        note("%s: more words" % command)
        for words in ("1 2 3 4 5", "16 4 0 0 0", "16 4 0 0 x", "16 4 0 0 #", "3 3 3 3 3", "16 4 0 0 0 0 0 0",
                      "16 4 0 0 18446744073709551616"):
            say(command, words)
        note("%s: numbers" % command)
        zeros = "0" * 30
        for words in (zeros + "16 4 0 0", "16 " + zeros + "4 " + zeros + "3 " + zeros + "2", "016 04 03 02",
                      "16 4 3 " + zeros, "16 4 000 " + "0" * 5000, "16 4 " + "0" * 5000 + "3 2",
                      "16 4 18446744073709551615 2", "16 4 2 18446744073709551615", "16 4 000018446744073709551615 2",
                      "16 4 2 000018446744073709551615", "18446744073709551615 4 0 0", "16 18446744073709551615 0 0",
                      "16 4 18446744073709551609 0", "16 4 9999999999999999999 0"):
            say(command, words)

    note("help and more")
    for line in (b"help help", b"help me", b"help #", b"help \0", b"help block CCCH/D"):
        say(line)

    note("Blank lines")
    for line in (b"", b" ", b"   ", b"\t", b"\r", b"\f", b" \t\f\r ", b"\r\r"):
        say(line)
    for line in (b"#", b"##", b"#help", b"#\0"):
        say(line)
    note("Skipped lines are counted")
    for line in (b"block", b"", b"send", b"#", b"slot", b" \r", b"repeat x"):
        say(line)
    note("Separators")
    for line in (b"slot\t16\t4\t5\t2", b"slot 16 4 5 2\r", b"\tslot\t 16 \t4\r5\f2\f", b"\r\rslot\r16\r4\r5\r2\r\r",
                 b"\fslot\f16\f4\f5\f2", b"    slot    16    4    5    2    ", b"help\r", b" help\t", b"\thelp",
                 b"send\t" + b"01" * 32 + b"\r", b" \f send \f " + b"10" * 32 + b" \f\r", b"block\tPACCH/U/48\r",
                 b"send " + b"10" * 28 + b"\r", b"\rblock\rMCS-1'/48", b"send\r" + b"0" * 194, b"\fblock\f\tCCCH/D\t",
                 b"send\f" + b"1" * 88, b"slot 32 0 31 1\r", b"repeat 32 0 63 0\r"):
        say(line)
    note("A line without a line feed")
    say("block MCS-1'/48")
    say("repeat 48 4 47 3")


# ---- Random lines ---------------------------------------------------------------------------------------------------

def random_number(source, likely):
    value = source.choice(likely)
    if source.random() < 0.15:
        value = source.choice((source.randrange(70), source.getrandbits(source.randrange(1, 66)),
                               2 ** source.choice((8, 16, 32, 63, 64)) + source.randrange(-4, 5)))
    return b"0" * (source.randrange(40) if source.random() < 0.05 else 0) + str(value).encode("ascii")


def random_words(source, block):
    totals, last = block.totals, block.totals[-1]
    kind = source.randrange(40)
    if kind < 1:
        return [b"help"]
    if kind < 4:
        return [b"block", source.choice(BLOCKS).name.encode("ascii")]
    if kind < 6:
        return [b"block", source.choice(NO_BLOCKS)]
    if kind < 7:
        return [source.choice(NO_COMMANDS)]
    if kind < 8:
        return [bytes(source.randrange(256) for _ in range(source.randrange(1, 20)))]
    if kind < 18:
        size = length(block if source.random() < 0.9 else source.choice(BLOCKS)) + source.choice((0,) * 8 + (-1, 1))
        word = bytearray(random_bits(source, size).encode("ascii"))
        if source.random() < 0.2:
            for _ in range(source.randrange(1, 4)):
                word[source.randrange(size)] = source.choice(b"23456789")
        return [b"send", bytes(word)]
    slots = random_number(source, (2, 4) * 5 + (0, 3))
    total = random_number(source, totals)
    if kind < 29:
        return [b"slot", total, slots, random_number(source, range(last)), random_number(source, range(block.bursts))]
    order, number = random_number(source, range(block.bursts * last)), random_number(source, (0, 0, 0, 0, 1, 1, 2, 3))
    return [b"repeat", total, slots, order, number]


def broken(source, words):
    words = list(words)
    place = source.randrange(len(words))
    some = bytes([source.choice((source.randrange(256), source.randrange(32, 127), source.choice(b"0123456789")))])
    kind = source.randrange(6)
    if kind == 0:
        del words[place]
    elif kind == 1:
        words.insert(source.randrange(len(words) + 1), source.choice(words))
    elif kind == 2:
        words.append(source.choice((b"0", b"x", b"#", "\u00e9".encode(), some)))
    elif kind == 3:
        words[place] = source.choice((source.choice(NO_NUMBERS), source.choice(NO_BITS), source.choice(NOT_TEXT)))
    else:
        where = source.randrange(len(words[place]) + 1)
        words[place] = words[place][:where] + some + words[place][where + (kind == 4):]
    return words


def separators(source, least):
    if source.random() < 0.8:
        return b" " * least
    return bytes(source.choice(b" \t\f\r") for _ in range(source.randrange(least, 4)))


def random_line(source, block):
    if source.random() < 0.03:
        return separators(source, 0)
    words = random_words(source, block)
    while words and source.random() < 0.15:
        words = broken(source, words)
    line = separators(source, 0)
    for i, word in enumerate(words):
        line += (separators(source, 1) if i else b"") + word
    line += separators(source, 0)
    if source.random() < 0.02:
        line = b"#" + line
    return line.replace(b"\n", b"\v")


def random_lines(count, seed):
    source = random.Random(seed)
    block = source.choice(BLOCKS)
    for _ in range(count):
        line = random_line(source, block)
        # The block that was most likely named last, so that most calls are good ones.
        words = line.split()
        if len(words) == 2 and words[0] == b"block":
            block = ec.BLOCKS.get(words[1].decode("latin-1"), block)
        say(line)


# ---- All of it ------------------------------------------------------------------------------------------------------

def stored():
    source = random.Random(SEED)
    before_any_block()
    for block in BLOCKS:
        messages(block, source)
        refused_messages(block, source)
    for block in BLOCKS:
        timeslots(block)
    for block in BLOCKS:
        refused_timeslots(block)
    errors(source)


def text():
    """The stored input. Its last line has no line feed."""
    lines.clear()
    stored()
    return b"\n".join(lines)


def main():
    if len(sys.argv) == 1:
        sys.stdout.buffer.write(text())
    elif len(sys.argv) == 4 and sys.argv[1] == "--random":
        random_lines(int(sys.argv[2]), int(sys.argv[3]))
        sys.stdout.buffer.write(b"".join(line + b"\n" for line in lines))
    else:
        sys.exit("usage: vectors.py [--random N SEED]")


if __name__ == "__main__":
    main()
