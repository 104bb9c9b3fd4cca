#!/usr/bin/env python3
"""Writes the closing lists of proofs by `tie.spec` anew, by the goals that today's check has, in its order.

usage: tools/port/closings.py CRATE FUNCTION..   at the top of the checkout, FUNCTION as tree.put_marked

A goal that a declaration of the file answers gets its name, every other one a search.
"""
import json
import pathlib
import re
import subprocess
import sys
import tempfile


def main(crate, functions):
    root = pathlib.Path("crates", crate)
    with tempfile.TemporaryDirectory() as there:
        subprocess.run(["rt", "check", "--generated", there, "--old-names"], cwd=root, stdout=subprocess.DEVNULL, stderr=subprocess.DEVNULL)
        names = json.loads(pathlib.Path(there, "names.json").read_text(encoding="utf-8"))
    by_path = {m.split(".", 1)[1].rsplit(".Lts", 1)[0]: v for m, v in names.items() if ".Lts" in m}
    for path in functions:
        of = by_path[path]
        p = root / "proofs" / pathlib.Path(*path.split(".")) / "Proof.antt"
        text = p.read_text(encoding="utf-8")
        answered = {goal: name for name, goal in re.findall(r"^([\w'-]+) :\s+tie\.Need-([\w'-]+)", text, re.M)}
        m = re.search(r"\(\s*tie\.spec(.*)\)\s*$", text, re.S)
        heads = re.findall(r"(?:invariant|decreases)-[\w'-]+", m.group(1))[: 2 * len(of["loops"])]
        wanted = [new for _, new in of["needs"]]
        lost = [g for g in answered if g not in wanted]
        if lost:
            print(f"{crate}: {path}: no goal today: {', '.join(lost)}")
        items = heads + [answered.get(g) or "(λ c. search rules)" for g in wanted]
        p.write_text(text[: m.start()] + "(tie.spec\n    " + "\n    ".join(items) + ")\n", encoding="utf-8")


if __name__ == "__main__":
    main(sys.argv[1], sys.argv[2:])
