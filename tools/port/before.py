#!/usr/bin/env python3
"""Run before port.py: tells apart the names of this repository that would fall together.

usage: tools/port/before.py   at the top of the checkout

- `entry_at`, a variable of two proofs, is a word of today's library in snake case, for which port.py would leave out every step for older spellings.
- Of two names that become one in snake case, as the definition `lineOf` and the lemma `line-of`, the lemma gets the ending `lem`.
"""
import pathlib
import re

LEMMAS = """
added-up after-all all-kept alone-of alone-rows apart-by at-place cannot-be closest-rows column-at earned-by edge-level entries-back entries-from
entry-at entry-back entry-kept entry-lines entry-with fault-by first-at first-fault first-of first-place fork-entry greatest-children greatest-parents
greatest-to in-four in-order in-run join-map judge-with kinds-of label-at least-children least-in least-parents least-to left-in level-kept level-of
line-of line-row lines-in lone-from looked-up name-kept named-unshown names-kept new-left no-number no-row nodes-from none-apart none-made-up of-entry
of-kind of-row of-type pair-at pair-fault parent-of read-as records-to records-with reshape-with row-back row-deep row-of row-with rows-from shape-back
shape-with shown-of signed-bits sources-left sum-of-type summarise-with sure-down text-of tokens-from too-short total-in total-with tree-of two-leases
type-number type-of types-meet up-to value-at way-of word-first work-with wrong-at wrong-row
""".split()
EDGE = r"[\s(){}\[\];,.]"
LEMMA = re.compile(rf"(?<![^\s(){{}}\[\];,.])({'|'.join(map(re.escape, LEMMAS))})(?![^\s(){{}}\[\];,.])")

for path in sorted(pathlib.Path("crates").glob("**/*.antt")):
    text = path.read_text(encoding="utf-8")
    parts = re.split(r"(--[^\n]*)", text)
    new = "".join(p if p.startswith("--") else LEMMA.sub(r"\1-lem", p) for p in parts)
    if path.parts[1:4] == ("lines", "proofs", "count"):
        new = new.replace(" entry_at ", " entryPlace ")
    if new != text:
        path.write_text(new, encoding="utf-8")
