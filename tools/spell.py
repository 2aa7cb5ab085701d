"""Brings the definitions and lemmas of this repository to one spelling: words in snake case, types and facts in camel case.

usage: python3 tools/spell.py [FOLDER]     once, on the tree that port.py of the kit has turned

Names that the prover makes (goals, loops, invariants) are not in the list and stay; so do functions, exported names,
strings, inputs and outputs. Only whole names are turned, in the sources, definitions, proofs, edits and pages.
"""

import os
import re
import sys

FACTS = """
Bit-string Block-message Coding-is-linear Every-message-is-sent-in-one-way Figures-hold First-no-bit Kept-lists
One-remainder One-sending One-word Part-encoded Part-written Right-parity Stages-of The-word-of Word-of
""".split()

WORDS = """
added-bits after-last-one all-by-formula all-test around-flags around-ten around-two before-sum below-leading bit-cases
bit-code bit-codes bits-check bits-check-from bits-fail bits-of-bits bits-of-long bits-pass bits-passed block-limits
block-line block-name burst-line bursts-least bursts-most by-burst by-formula code-small coded-bits coded-most coded-sum
coded-word coded-word-sum coded-words control-generator data-count data-dropped data-generator data-place degree-least
degree-most detail-of detail-text digit-values drop-step dropped-of dropped-residues encoded-cons encoded-more
encoded-none even-at figures-of first-flags first-no-bit flagged-sound go-binary go-ends go-within header-bits
header-count header-dropped header-generator header-kept header-long header-rule header-then-data in-order-sound
interleaved-sound keeps-first keeps-last kept-long kept-residues large-kept large-step layer-of layer-text lead-same
leaves-computed leaves-more leaves-moved length-check length-passed length-sum listed-sound made-right mcs-place
message-and-parity message-below-places message-length moved-fixed moved-within of-message on-slot one-or-two one-parity
one-remainder one-sending one-slot over-sound padded-bits padded-long parity-of parts-limits pile-coded pile-placing
pile-sound place-low read-bits-of read-zeros read-lt refusal-line refused-line repeat-at repeat-line repeats-least
repeats-most residue-place rule-of same-list same-maps same-pair same-words second-flags sent-of shown-all shown-at
shown-bit slot-line slots-permitted slots-used some-message split-by-ten split-by-ten-sound split-by-two
split-by-two-sound stage-line straight-sound string-check string-made string-passes sum-maps sum-word sums-sum
table-limits table-tested tested-all tested-figure tested-limits tested-pair tested-place tested-same tested-word
total-permitted unless-passed within-limits word-least word-most writing-check writing-made writing-passes xor-again
xor-both xor-double xor-equal xor-leading xor-pairs zero-or-large zeros-bits read-append read-cons
""".split()

# A dash stays where it joins two names; and a word of the older library is spelled as today's.
OTHERS = {"read-append": "read-append", "read-cons": "read-cons", "read-bits-of": "read-bits_of", "getD-sum": "get_or-sum"}

TURNED = {w: w.replace("-", "_") for w in WORDS}
TURNED |= {f: "".join(part[0].upper() + part[1:] for part in f.split("-")) for f in FACTS}
TURNED |= OTHERS

NAME = r"[\w'·-]"
PATTERN = re.compile(rf"(?<!{NAME})(" + "|".join(map(re.escape, sorted(TURNED, key=len, reverse=True))) + rf")(?!{NAME})")


def pages(root):
    for folder, dirs, files in os.walk(root):
        dirs[:] = sorted(d for d in dirs if d not in ("out", "target", ".git"))
        for f in sorted(files):
            path = os.path.join(folder, f)
            inside = os.path.relpath(path, root).split(os.sep)[0]
            if (inside == "crates" and f.endswith((".rt", ".antt", ".edit"))) or (inside == "docs" and f in ("ARCHITECTURE.md", "DECISIONS.md")):
                yield path


def main(root):
    turned = 0
    for path in pages(root):
        with open(path, encoding="utf-8") as it:
            old = it.read()
        new = PATTERN.sub(lambda m: TURNED[m.group(1)], old)
        if new != old:
            with open(path, "w", encoding="utf-8") as it:
                it.write(new)
            turned += 1
    print(f"{turned} files turned")


if __name__ == "__main__":
    main(sys.argv[1] if len(sys.argv) > 1 else ".")
