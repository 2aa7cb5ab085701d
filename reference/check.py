"""Compares ec.py with the figures of docs/FORMATS.md and docs/REFUSALS.md. The figures are typed from there."""

import random
import sys

sys.dont_write_bytecode = True

import ec  # noqa: E402

agree, differ = 0, 0


def same(what, found, wanted):
    global agree, differ
    if found == wanted:
        agree += 1
    else:
        differ += 1
        print("differs: %s\n  found  %r\n  wanted %r" % (what, found, wanted))


def refused(what, call, *wanted):
    """The call is refused by number, layer and detail."""
    try:
        found = ("answered", call())
    except ec.Refusal as refusal:
        found = (refusal.number, refusal.layer) + refusal.detail
    same(what, found, wanted)


def bits(text):
    return [int(digit) for digit in text]


B = ec.BLOCKS
MCS = B["MCS-1'/48"]
RANDOM = random.Random(45003)

# Block, part: message, word, ending, coded places, kept, bursts, most repeats, degree, dropped.
PARTS = (
    ("CCCH/D", 0, 88, 106, "tail-biting", 318, 116, 2, 32, 18, 202),
    ("PACCH/D", 0, 80, 98, "tail-biting", 294, 114, 4, 16, 18, 180),
    ("PACCH/U", 0, 64, 82, "tail-biting", 246, 116, 4, 16, 18, 130),
    ("PACCH/U/48", 0, 56, 74, "tail-biting", 222, 106, 4, 48, 18, 116),
    ("MCS-1'/48", 0, 16, 24, "tail-biting", 72, 48, 4, 48, 8, 24),
    ("MCS-1'/48", 1, 178, 190, "zero tail", 588, 372, 4, 48, 12, 216),
)

POLYNOMIALS = {
    18: "D^18 + D^17 + D^14 + D^13 + D^11 + D^10 + D^8 + D^7 + D^6 + D^3 + D^2 + 1",
    8: "D^8 + D^6 + D^3 + 1",
    12: "D^12 + D^11 + D^10 + D^8 + D^5 + D^4 + 1",
}

# Right parity of the zero message, and of zeros with a last bit 1, by degree.
PARITY = {
    18: ("111111111111111111", "011001001000110010"),
    8: ("11111111", "10110110"),
    12: ("111111111111", "001011001110"),
}


def check_parts():
    for name, number, message, word, ending, coded, kept, bursts, repeats, degree, dropped in PARTS:
        block, title = B[name], "%s part %d " % (name, number)
        part = block.parts[number]
        same(title + "message", part.message, message)
        same(title + "word", part.word, word)
        same(title + "ending", part.ending, ending)
        same(title + "coded", part.coded(), coded)
        same(title + "kept", len(part.kept()), kept)
        same(title + "bursts", block.bursts, bursts)
        same(title + "most repeats", block.most_repeats, repeats)
        same(title + "degree", part.degree(), degree)
        powers = " + ".join("D^%d" % power if power else "1" for power in part.polynomial)
        same(title + "polynomial", powers, POLYNOMIALS[degree])
        same(title + "dropped", len(part.dropped), dropped)
        same(title + "dropped and kept", dropped + kept, coded)
        same(title + "dropped places are coded places", part.dropped <= set(range(coded)), True)
        same(title + "kept is increasing", all(a < b for a, b in zip(part.kept(), part.kept()[1:])), True)
        # Limits of any code part.
        same(title + "limits", part.message >= 1 and 6 <= part.word <= 256 and 1 <= part.degree() <= 24, True)
        same(title + "word is message and degree", part.word, part.message + part.degree())
        check_parity(title, part, degree)
        check_code(title, part)
    same("five blocks", len(B), 5)
    for block in B.values():
        same(block.name + " limits", 1 <= block.bursts <= 4 and 1 <= block.most_repeats <= 48, True)
        same(block.name + " coded places", sum(part.coded() for part in block.parts) <= 1024, True)


def check_parity(title, part, degree):
    zeros = [0] * part.message
    last = zeros[:-1] + [1]
    same(title + "parity of zeros", ec.write_word(part, zeros)[part.message:], bits(PARITY[degree][0]))
    same(title + "parity of a last 1", ec.write_word(part, last)[part.message:], bits(PARITY[degree][1]))
    same(title + "zero word has wrong parity", ec.right_parity(part, [0] * part.word), False)
    message = [RANDOM.getrandbits(1) for _ in range(part.message)]
    word = ec.write_word(part, message)
    same(title + "message stands first", word[:part.message], message)
    same(title + "remainder of ones", ec.remainder(word, part.polynomial), [1] * degree)
    wrong = [word[:i] + [1 - word[i]] + word[i + 1:] for i in range(part.word)]
    same(title + "one wrong bit is seen", any(ec.right_parity(part, row) for row in wrong), False)


def check_code(title, part):
    """The shift register against the three sums, and linearity."""
    one, two = ([RANDOM.getrandbits(1) for _ in range(part.word)] for _ in range(2))
    n = part.word

    def w(k):
        if part.ending == "tail-biting":
            return one[k % n]
        return one[k] if 0 <= k < n else 0

    sums = []
    for k in range(part.coded() // 3):
        sums.append((w(k) + w(k - 2) + w(k - 3) + w(k - 5) + w(k - 6)) % 2)
        sums.append((w(k) + w(k - 1) + w(k - 2) + w(k - 3) + w(k - 6)) % 2)
        sums.append((w(k) + w(k - 1) + w(k - 4) + w(k - 6)) % 2)
    same(title + "sums", ec.code_word(part, one), sums)
    both = ec.code_word(part, [a ^ b for a, b in zip(one, two)])
    same(title + "linear", both, [a ^ b for a, b in zip(ec.code_word(part, one), ec.code_word(part, two))])


def check_one_bit():
    """A single 1 in a word of zeros spells the three sums."""
    for ending, word, coded in (("zero tail", "1000000", "111 011 110 110 001 100 111" + " 000" * 6),
                                ("tail-biting", "0000001", "011 110 110 001 100 111 111")):
        part = ec.Part(6, 7, ending, (1, 0), set())
        same(ending + " one bit", ec.code_word(part, bits(word)), bits(coded.replace(" ", "")))


def check_puncturing():
    ends = (
        ("CCCH/D", [2, 5, 8, 10, 13, 16], [312, 315, 317], [0, 1, 3, 4, 6, 7], [313, 314, 316]),
        ("PACCH/D", [2, 5, 7, 10, 12, 15], [288, 291, 293], [0, 1, 3, 4, 6, 8], [289, 290, 292]),
        ("PACCH/U", [2, 4, 6, 8, 10, 12], [241, 243, 245], [0, 1, 3, 5, 7, 9], [240, 242, 244]),
        ("PACCH/U/48", [2, 4, 6, 8, 10, 12], [217, 219, 221], [0, 1, 3, 5, 7, 9], [216, 218, 220]),
    )
    for name, first_kept, last_kept, first_dropped, last_dropped in ends:
        part = B[name].parts[0]
        kept, dropped = part.kept(), sorted(part.dropped)
        same(name + " first kept", kept[:6], first_kept)
        same(name + " last kept", kept[-3:], last_kept)
        same(name + " first dropped", dropped[:6], first_dropped)
        same(name + " last dropped", dropped[-3:], last_dropped)
        same(name + " closed form", kept, [(part.coded() * (j + 1) - 1) // len(kept) for j in range(len(kept))])
    header, data = MCS.parts
    same("header closed form", header.kept(), [3 * (j // 2) + j % 2 for j in range(48)])
    grid = {r + 21 * j for r in (2, 5, 8, 10, 11, 14, 17, 20) for j in range(28)}
    same("data grid", len(grid), 224)
    same("data exceptions", sorted(grid - data.dropped), [10 + 21 * 3 + 63 * i for i in range(8)])
    same("data keeps 73", 73 in data.kept(), True)
    same("data drops 52", 52 in data.dropped, True)
    ccch = B["CCCH/D"].parts[0]
    same("CCCH/D drops 316", 316 in ccch.dropped, True)
    same("CCCH/D pc(14)", ccch.kept()[14], 41)
    lookalike = {i * 317 // 201 for i in range(202)}
    kept = [place for place in range(318) if place not in lookalike]
    same("lookalike count", len(lookalike), 202)
    same("lookalike first fourteen", kept[:14], ccch.kept()[:14])
    same("lookalike pc(14)", kept[14], 40)
    same("lookalike drops 317 and keeps 316", (317 in lookalike, 316 in kept), (True, True))
    coded = ec.code_word(header, ec.write_word(header, [0] * 16))
    same("coded bits of the zero header", coded,
         bits("001010100010011111000000000000000000000000000000111100010100101001110110"))
    row = [coded[place] for place in header.kept()]
    same("kept bits of the zero header", row, bits("000110010111000000000000000000001110011010001111"))
    same("the same in pieces", row, bits("00011001011100" + 18 * "0" + "1110011010001111"))


def check_placements():
    # Numbered entries, so that a place tells which entry it shows.
    entries = [("coded", i) for i in range(424)]
    zero = ("fixed", 0)

    bottom = ec.kept_lists(MCS.parts)
    same("MCS-1'/48 bottom outer", len(bottom), 420)
    same("MCS-1'/48 bottom header", bottom[:48], [("coded", place) for place in MCS.parts[0].kept()])
    same("MCS-1'/48 bottom data", bottom[48:], [("coded", 72 + place) for place in MCS.parts[1].kept()])
    same("MCS-1'/48 header below 72", max(place for _, place in bottom[:48]) < 72, True)
    same("MCS-1'/48 data from 72 to 659", all(72 <= place <= 659 for _, place in bottom[48:]), True)

    table = (entries[0:25] + [zero] + entries[25:81] + [zero] + entries[81:137] + [zero] + entries[137:398] + [zero]
             + entries[398:420])
    same("flags", ec.flags(entries[:420]), table)
    same("flags outer", len(table), 424)
    ends = ((24, 24), (26, 25), (81, 80), (83, 81), (138, 136), (140, 137), (400, 397), (402, 398), (423, 419))
    for k, entry in ends:
        same("flags place %d" % k, ec.flags(entries[:420])[k], ("coded", entry))

    places = [106 * b + j for b, j in map(ec.interleaver_place, range(424))]
    same("interleaver hits every place once", sorted(places), list(range(424)))
    same("interleaver j below 106", all(0 <= ec.interleaver_place(k)[1] < 106 for k in range(424)), True)
    seen = [("coded", (265 * (b + 4 * (j % 2)) + 384 * (j // 2)) % 424) for b in range(4) for j in range(106)]
    same("interleaver from outside", ec.interleaver(entries), seen)
    same("entry 4", ec.interleaver_place(4), (0, 75))
    same("entry 4 outer", places[4], 75)
    same("entry 423", ec.interleaver_place(423), (3, 9))
    same("entry 423 outer", places[423], 327)
    split = ec.split_by_ten(ec.interleaver(entries))
    same("entry 4 in burst 0", split.index(("coded", 4)), 85)
    same("entry 423 in burst 3", split.index(("coded", 423)), 116 * 3 + 9)

    for b in range(4):
        burst = ec.split_by_ten(entries)[116 * b:116 * b + 116]
        same("split by ten %d" % b, burst,
             entries[106 * b:106 * b + 53] + [zero] * 10 + entries[106 * b + 53:106 * b + 106])
        middle = [("fixed", bit) for bit in bits(("00", "01", "01", "10")[b])]
        burst = ec.split_by_two(entries[:114])[116 * b:116 * b + 116]
        same("split by two %d" % b, burst, entries[:57] + middle + entries[57:114])
    same("straight", ec.straight(2)(entries[:116]), entries[:116] * 2)
    same("straight over a short list", ec.straight(4)(entries[:106]), (entries[:106] + [zero] * 10) * 4)

    # Block: coded places, outer counts from the bottom up, times shown, fixed places.
    piles = (
        ("CCCH/D", 318, [116, 232], 2, 0),
        ("PACCH/D", 294, [114, 464], 4, 8),
        ("PACCH/U", 246, [116, 464], 4, 0),
        ("PACCH/U/48", 222, [106, 464], 4, 40),
        ("MCS-1'/48", 660, [420, 424, 424, 464], 1, 44),
    )
    for name, coded, counts, times, fixed in piles:
        block = B[name]
        same(name + " coded places", sum(part.coded() for part in block.parts), coded)
        placement = ec.kept_lists(block.parts)
        kept, outer = {place for _, place in placement}, [len(placement)]
        for layer in block.layers:
            placement = layer(placement)
            outer.append(len(placement))
        same(name + " outer counts", outer, counts)
        same(name + " outer is bursts", outer[-1], 116 * block.bursts)
        shown = [place for kind, place in placement if kind == "coded"]
        same(name + " shows kept places only, all of them", set(shown), kept)
        same(name + " times shown", {shown.count(place) for place in kept}, {times})
        same(name + " fixed", sum(kind == "fixed" for kind, _ in placement), fixed)
        if times > 1:
            for b in range(block.bursts):
                burst = placement[116 * b:116 * b + 116]
                once = sorted(place for kind, place in burst if kind == "coded") == sorted(kept)
                same("%s once in burst %d" % (name, b), once, True)
    top = ec.pile(B["PACCH/U/48"])
    same("PACCH/U/48 end of each burst", [top[116 * b + 106:116 * b + 116] for b in range(4)], [[zero] * 10] * 4)


# Burst 0 of the zero message.
ZERO_BURSTS = (
    ("CCCH/D", "10011100000000000000000000000000000000000000000000000000000"
               "000000000000000000000000000000000000010101011000011111110"),
    ("PACCH/D", "10010100000000000000000000000000000000000000000000000000000"
                "000000000000000000000000000000000000101010100111100011110"),
    ("PACCH/U", "11101011000000000000000000000000000000000000000000000000000"
                "000000000000000000000000000000011011000101101101110110110"),
    ("PACCH/U/48", "11101011000000000000000000000000000000000000000000000000000"
                   "000000000000000000000110101101011011101101101100000000000"),
    ("MCS-1'/48", "00000000000000000000001000000000000000001000000000000000000"
                  "000000100000000100000000001000000000000000000000100000000"),
)


def check_sending():
    sizes = (("CCCH/D", 88, 232), ("PACCH/D", 80, 464), ("PACCH/U", 64, 464), ("PACCH/U/48", 56, 464),
             ("MCS-1'/48", 194, 464))
    for name, message, output in sizes:
        block = B[name]
        row = [RANDOM.getrandbits(1) for _ in range(message)]
        bursts = ec.send(block, row)
        flat = [bit for burst in bursts for bit in burst]
        same(name + " output", (len(flat), [len(burst) for burst in bursts]), (output, [116] * block.bursts))
        same(name + " output is bits", set(flat) <= {0, 1}, True)
        same(name + " the same again", ec.send(block, row, output), bursts)
        refused(name + " short message", lambda: ec.send(block, [2] + row[2:], 0), 1, "parity", 1)
        refused(name + " long message", lambda: ec.send(block, row + [0]), 1, "parity", 1)
        refused(name + " output before bits", lambda: ec.send(block, [2] + row[1:], output - 1), 1, "parity", 2)
        refused(name + " last byte", lambda: ec.send(block, row[:-1] + [2]), 2, "parity", message - 1)
        refused(name + " first bad byte", lambda: ec.send(block, row[:5] + [255] + row[6:-1] + [2]), 2, "parity", 5)
        for part in block.parts:
            word = [0] * part.word
            refused("word from a message", lambda: ec.write_word(part, []), 1, "parity", 1)
            refused("word room", lambda: ec.write_word(part, [2] * part.message, 1), 1, "parity", 2)
            refused("word bits", lambda: ec.write_word(part, [0, 2] + [0] * (part.message - 2)), 2, "parity", 1)
            refused("check length", lambda: ec.right_parity(part, word[1:]), 1, "parity", 1)
            refused("check bits", lambda: ec.right_parity(part, word[1:] + [3]), 2, "parity", part.word - 1)
            refused("code length", lambda: ec.code_word(part, word[1:], 0), 1, "parity", 1)
            refused("code room", lambda: ec.code_word(part, [2] + word[1:], 0), 1, "parity", 2)
            refused("code bits", lambda: ec.code_word(part, [2] + word[1:]), 2, "parity", 0)
    for name, burst in ZERO_BURSTS:
        zeros = [0] * sum(part.message for part in B[name].parts)
        same(name + " burst 0 of zeros", ec.send(B[name], zeros)[0], bits(burst))
    refused("first data byte", lambda: ec.send(MCS, [0] * 16 + [2] + [0] * 177), 2, "parity", 16)


def check_undone(block, total, p, seen):
    """The inverse call answers for what the forward call gives, is undone by it, and is refused for all else."""
    for order in range(block.bursts * (total + 1)):
        for slot in range(1 if block.name == "CCCH/D" else p):
            what = "%s M %d p %d B' %d pn %d" % (block.name, total, p, order, slot)
            if (order, slot) in seen:
                m, b = ec.from_timeslot(block, total, p, order, slot)
                same(what, ec.to_timeslot(block, total, m, p, b), (order, slot))
            else:
                refused(what, lambda: ec.from_timeslot(block, total, p, order, slot), 9, "timing", 2)


def check_timeslots():
    permitted = (
        ("CCCH/D", (1, 8, 16, 32), (0, 1, 2, 3, 4, 99, 2 ** 64 - 1)),
        ("PACCH/D", (1, 4, 8, 16), (2, 4)),
        ("PACCH/U", (1, 4, 8, 16), (2, 4)),
        ("PACCH/U/48", (48,), (2, 4)),
        ("MCS-1'/48", (48,), (2, 4)),
    )
    for name, totals, slots in permitted:
        block = B[name]
        last = totals[-1]
        for total in range(100):
            if total not in totals:
                refused("%s M %d" % (name, total), lambda: ec.to_timeslot(block, total, 99, 9, 9), 9, "timing", 1)
                refused("%s M %d back" % (name, total), lambda: ec.from_timeslot(block, total, 9, 9, 9), 9, "timing", 1)
        for total in totals:
            for p in slots:
                seen = set()
                for m in range(total):
                    for b in range(block.bursts):
                        order, slot = ec.to_timeslot(block, total, m, p, b)
                        seen.add((order, slot))
                        same("%s M %d p %d m %d B %d" % (name, total, p, m, b),
                             ec.from_timeslot(block, total, p, order, slot), (m, b))
                same("%s M %d p %d one to one" % (name, total, p), len(seen), total * block.bursts)
                check_undone(block, total, p, seen)
                refused(name + " m", lambda: ec.to_timeslot(block, total, total, 9, 9), 9, "timing", 2)
                refused(name + " m found", lambda: ec.from_timeslot(block, total, p, 4 * total, 0), 9, "timing", 2)
                refused(name + " large", lambda: ec.from_timeslot(block, total, p, 2 ** 64 - 1, 0), 9, "timing", 2)
                refused(name + " burst", lambda: ec.to_timeslot(block, total, 0, p, block.bursts),
                        3, "placement", block.bursts)
        if name == "CCCH/D":
            refused(name + " pn", lambda: ec.from_timeslot(block, last, 4, 9999, 1), 9, "timing", 3)
        else:
            for p in (0, 1, 3, 5, 8):
                refused(name + " p", lambda: ec.to_timeslot(block, last, 0, p, 9), 9, "timing", 3)
                refused(name + " p back", lambda: ec.from_timeslot(block, last, p, 9999, 0), 9, "timing", 3)
            refused(name + " pn 2", lambda: ec.from_timeslot(block, last, 2, 9999, 2), 9, "timing", 3)
            refused(name + " pn 4", lambda: ec.from_timeslot(block, last, 4, 9999, 4), 9, "timing", 3)
    for name in ("PACCH/D", "PACCH/U", "PACCH/U/48", "MCS-1'/48"):
        last = B[name].totals[-1]
        same(name + " m 5 B 2 four slots", ec.to_timeslot(B[name], last, 5, 4, 2), (6, 1))
        same(name + " m 5 B 2 two slots", ec.to_timeslot(B[name], last, 5, 2, 2), (10, 1))
    same("CCCH/D m 5 B 1", ec.to_timeslot(B["CCCH/D"], 8, 5, 0, 1), (11, 0))


def check_texts():
    """The lines of docs/REFUSALS.md."""
    for line, refusal in (
        ("refused 1 parity 2", ec.Refusal(1, "parity", 2)),
        ("refused 2 parity 17", ec.Refusal(2, "parity", 17)),
        ("refused 3 placement 2", ec.Refusal(3, "placement", 2)),
        ("refused 6 parity 1 340", ec.Refusal(6, "parity", 1, 340)),
        ("refused 9 timing 1", ec.Refusal(9, "timing", 1)),
    ):
        same(line, str(refusal), line)


def report():
    """How many figures agree; ends the program, with status 1 if one differs."""
    if differ:
        print("%d figures differ" % differ)
    print("%d figures agree" % agree)
    sys.exit(1 if differ else 0)


if __name__ == "__main__":
    check_parts()
    check_one_bit()
    check_puncturing()
    check_placements()
    check_sending()
    check_timeslots()
    check_texts()
    report()
