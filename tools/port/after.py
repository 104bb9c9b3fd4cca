#!/usr/bin/env python3
"""Run after port.py: brings the names of this repository's definitions, lemmas and fields to the spelling of today's library.

usage: tools/port/after.py [--names]   at the top of a checkout that port.py has turned

A word is in snake case: firstPlace is first_place, tests1-3 is tests1_3. A dash stays only where it joins names of definitions, as in
sets-append. Types, facts and modules keep their capitals. The crate `bytes`, whose name a library of the toolchain has, is `octets`.
Must-fail edits and the pages were brought over by hand, by the same table. With --names it only prints the table.
"""
import os
import pathlib
import re
import sys

SEPARATORS = r"\s(){}\[\];,."
TOKEN = re.compile(rf"[^{SEPARATORS}]+")
SIGNATURE = re.compile(rf"^\s*(?:(?:pub|abbrev|unfoldable)\s+)*([^{SEPARATORS}:]+)\s*(?:\{{.*)?:(?=\s|$)", re.M)
DEFINED = re.compile(rf"^(?:(?:pub|abbrev|unfoldable)\s+)+([^{SEPARATORS}:]+)\s*:(?=\s|$)", re.M)
NAMED = re.compile(rf"^\s*(?:pub )?(?:record|data) ([^{SEPARATORS}:]+)", re.M)
USE = re.compile(r"^\s*(?:ghost )?use ([^{;\n]*?)\.\{([^}]*)\}", re.M)
CRATE = "bytes"
CRATE_NOW = "octets"


def files(*kinds):
    for kind in kinds:
        yield from sorted(pathlib.Path("crates").glob(kind))


def is_own(path, crates):
    parts = path.split(".")
    return parts[0] == "Rattle" and len(parts) > 1 and parts[1] in crates


def snake(word):
    word = re.sub(r"([a-z0-9])([A-Z])", lambda m: m.group(1) + "_" + m.group(2).lower(), word)
    return word[0] + word[1:].replace("-", "_")


def table():
    crates = {p.name for p in pathlib.Path("crates").iterdir()}
    own, defined, kit, functions = set(), set(), set(), set()
    for p in files("*/specs/**/*.antt", "*/proofs/*.antt"):
        text = re.sub(r"--[^\n]*", "", p.read_text(encoding="utf-8"))
        own |= set(SIGNATURE.findall(text)) | set(NAMED.findall(text))
        if "/specs/" in str(p):
            defined |= set(DEFINED.findall(text))
    for p in files("**/*.antt", "*/src/**/*.rt"):
        text = p.read_text(encoding="utf-8")
        for path, names in USE.findall(text):
            if not is_own(path, crates):
                kit |= {n.split(" as ")[0].strip() for n in names.split(",")}
        if p.suffix == ".rt":
            functions |= set(re.findall(r"\bfn (\w+)", text))
    words = {snake(n) for n in defined if n[:1].islower()} | {n for n in kit if re.fullmatch(r"[a-z_0-9]+", n)}
    turned = {}
    for n in own - kit:
        if not n[:1].islower() or not re.fullmatch(r"[\w'-]+", n) or not re.search(r"[A-Z-]", n):
            continue
        parts = [re.sub(r"([a-z0-9])([A-Z])", lambda m: m.group(1) + "_" + m.group(2).lower(), q) for q in n.split("-")]
        new = "-".join(parts) if len(parts) > 1 and all(q in words for q in parts) else "_".join(parts)
        if new != n:
            turned[n] = new
    return turned, own, kit, functions


def clashes(turned, own, kit):
    said = []
    back = {}
    for old, new in sorted(turned.items()):
        back.setdefault(new, []).append(old)
        if new in own:
            back[new].append(new)
        if new in kit:
            back[new].append(new + " of the library")
    for new, olds in sorted(back.items()):
        if len(olds) > 1:
            said.append((new, olds))
    return said


def respelled(text, turned):
    """Code by its tokens, and of a comment what stands between backquotes or can be nothing but a name."""
    def word(m):
        return turned.get(m.group(0), m.group(0))

    def comment(line):
        line = re.sub(r"`[^`\n]*`", lambda m: TOKEN.sub(word, m.group(0)[1:-1]).join("``"), line)
        return re.sub(r"\b[a-z]+[A-Z]\w*\b", word, line)

    parts = re.split(r"((?:--|//)[^\n]*)", text)
    return "".join(comment(p) if p[:2] in ("--", "//") else TOKEN.sub(word, p) for p in parts)


def moved(text, rust):
    text = re.sub(rf"(?<![\w.])Rattle\.{CRATE}\.", f"Rattle.{CRATE_NOW}.", text)
    if rust:
        text = re.sub(rf"(?<![\w:]){CRATE}::", f"{CRATE_NOW}::", text)
    return text


def main():
    turned, own, kit, functions = table()
    said = clashes(turned, own, kit)
    if "--names" in sys.argv or said:
        for old, new in sorted(turned.items()):
            print(old, new)
        for new, olds in said:
            print("clash:", new, olds)
        return 1 if said else 0
    for p in files("**/*.antt", "*/src/**/*.rt"):
        text = p.read_text(encoding="utf-8")
        new = moved(respelled(text, turned), p.suffix == ".rt")
        if new != text:
            p.write_text(new, encoding="utf-8")
    pathlib.Path("crates", CRATE).rename(pathlib.Path("crates", CRATE_NOW))
    listed = pathlib.Path("crates.txt")
    listed.write_text(re.sub(rf"\b{CRATE}\b", CRATE_NOW, listed.read_text(encoding="utf-8")), encoding="utf-8")
    pathlib.Path("tools/port/names.txt").write_text("".join(f"{a} {b}\n" for a, b in sorted(turned.items())), encoding="utf-8")
    return 0


if __name__ == "__main__":
    raise SystemExit(main())
