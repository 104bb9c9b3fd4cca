#!/usr/bin/env python3
"""Run on a crate after after.py: gives the names of goals, places and steps in proofs that close by `tie.spec` as today's check makes them.

usage: tools/port/ties.py CRATE..   at the top of the checkout

For each crate it has the check list old and new names (rt check --generated DIR --old-names), and renames by function. It prints what it can't match.
"""
import json
import pathlib
import re
import subprocess
import sys
import tempfile

FIELDS = {"pre": "requires", "inv": "invariant", "taken": "true", "left": "false", "came": "branch", "well-formed": "well_formed"}
FROM = "48de9be"  # the commit of after.py's outcome: a file that differs from it in its goals was turned before
TOKEN = re.compile(r"--[^\n]*|[^\s(){}.;,\[\]]+")


def norm(word):
    return re.sub(r"-+", "-", word.replace("_", "-"))


def table(names):
    needs = {norm(b): b for a, b in names["needs"]}
    needs.update({norm(a): b for a, b in names["needs"]})
    places, steps = {}, {}
    for (old, _, step, *_), new in zip(names["places"], names["places_by_name"]):
        places[norm(old)] = new
        if step[0]:
            steps[norm(step[0])] = step[1]
    loops = {norm(a): b for (a, b), _ in names["loops"]}
    return needs, places, steps, loops


def fields_of(record, lts):
    m = re.search(rf"pub record {re.escape(record)} : Type 0 where\n((?:(?!\n\n).)*)", lts, re.S)
    return re.findall(r"^\s*pub ([\w'-]+) :", m.group(1), re.M) if m else []


def lasts_of(lts):
    """By the name of a call's step, the fields of what it leaves in what it was lent."""
    out = {}
    for step, last in re.findall(r"pub record Step-After-([\w'-]+) : Type 0 where\n(?:(?!\n\n).)*?pub new : (Last-\d+)", lts, re.S):
        m = re.search(rf"pub record {last} .*?where\n((?:(?!\n\n).)*)", lts, re.S)
        out[norm(re.sub(r"-unread$", "", step))] = re.findall(r"^\s*pub ([\w'-]+) :", m.group(1), re.M) if m else []
    return out


def turned(text, names, args, lasts, source, said):
    needs, places, steps, loops = table(names)
    out, last = [], 0
    for m in TOKEN.finditer(text):
        word = m.group(0)
        if word.startswith("--") or text.rfind("\nuse ", 0, m.start()) > text.rfind("\n", 0, m.start()) - 1:
            continue
        before = text[max(0, m.start() - 4) : m.start()]
        new = word
        if before.endswith("tie."):
            for head in ("Need-", "invariant-", "decreases-", "shown-"):
                if word.startswith(head):
                    of = needs if head == "Need-" else loops
                    key = norm(word[len(head) :])
                    if key not in of and key.startswith("overflow-"):
                        key = key[len("overflow-") :]
                    new = head + of[key] if key in of else word
                    if key not in of:
                        said.append(word)
                    break
            else:
                new = places.get(norm(word), word)
                if norm(word) not in places and word not in ("spec", "close", "Start"):
                    said.append(word)
        elif before.endswith("."):
            if word[0] == "«":
                word = word[1:-1]
            prior = re.search(r"([^\s(){}.;,\[\]]+)\.$", text[max(0, m.start() - 60) : m.start()])
            owner = prior.group(1).strip("«»") if prior else ""
            if re.fullmatch(r"t\d+", word) and int(word[1:]) <= len(args):
                out.append(text[last : m.start()] + args[int(word[1:]) - 1])
                last = m.end()
                continue
            if steps.get(norm(word), "") == word.replace("-", "_") + "-1" and owner not in ("c", "before"):
                continue
            if "-" in word and norm(word) not in steps and word.replace("-", "_") in source:
                out.append(text[last : m.start()] + word.replace("-", "_"))
                last = m.end()
                continue
            if owner == "new" and word.isdigit():
                call = re.search(r"([^\s(){}.;,\[\]]+)\.new\.$", text[max(0, m.start() - 90) : m.start()])
                key = steps.get(norm(call.group(1)), call.group(1)) if call else ""
                of = lasts.get(norm(key), [])
                if int(word) < len(of):
                    out.append(text[last : m.start()] + of[int(word)])
                    rest = re.match(r"(?:\.1)*\.0(?![\w.])", text[m.end() :])
                    last = m.end() + (rest.end() if rest else 0)
                continue
            if owner in ("args", "new", "initial", "loop") or norm(owner) in steps or owner in steps.values():
                steps_here = {}
            else:
                steps_here = steps
            plain = word[:-4] if word.endswith("_lem") and norm(word) not in steps_here else word
            new = FIELDS.get(word) or (word if word == "result" else steps_here.get(norm(plain), word))
        if new != word:
            out.append(text[last : m.start()] + new)
            last = m.end()
    new = "".join(out) + text[last:]
    new = re.sub(r"\bnot-(?:true|false) _ ", "", new)
    return re.sub(r"(⊎_elim\b(?:(?!\n\n).)*?\.branch)(?![\w-])", r"\1-raw", new, flags=re.S)


def argument(text, at):
    """Where the argument that begins at `at`, past blanks, begins and ends."""
    while at < len(text) and text[at].isspace():
        at += 1
    start, depth = at, 0
    while at < len(text):
        if text[at] in "([{":
            depth += 1
        elif text[at] in ")]}":
            if depth == 0:
                break
            depth -= 1
        elif depth == 0 and (text[at].isspace() or text[at] == ","):
            break
        at += 1
    return start, at


def branches(lts):
    """By the name of a step at which branches join, the fields of the record of each branch."""
    found = {}
    for place, body in re.findall(r"pub record ([\w'-]+) : Type 0 where\n((?: +pub [^\n]*\n)+)", lts):
        for step, of in re.findall(r"pub ([\w'-]+) : Step-([\w'-]+)", body):
            if of.startswith("Joined"):
                found.setdefault(step, of)
    out = {}
    for step, of in found.items():
        ways = re.findall(rf"pub record (By-\d+-{re.escape(of)}-[\w'-]+) : Type 0 where\n((?:(?!\n\n).)*)", lts, re.S)
        out[step] = [re.findall(r"^\s*pub ([\w'-]+) :", body, re.M) for _, body in ways]
    return out


def by_fields(text, ways, said):
    at = 0
    while (at := min((i for i in (text.find("⊎_elim ", at), text.find("⊎_elim\n", at)) if i >= 0), default=-1)) >= 0:
        at += len("⊎_elim")
        spans, end = [], at
        for _ in range(3):
            start, end = argument(text, end)
            spans.append((start, end))
        m = re.search(r"\.([\w'-]+)\.branch-raw\)*$", text[spans[2][0] : spans[2][1]])
        if not m or m.group(1) not in ways:
            said.append("a branch: " + text[spans[2][0] : spans[2][1]][:60])
            continue
        fields = ways[m.group(1)]
        for i in (1, 0):
            start, end = spans[i]
            arg = text[start:end]
            v = re.match(r"\(λ ([\w']+)\.", arg)
            if v and i < len(fields):
                arg = re.sub(rf"(?<![\w.'-]){re.escape(v.group(1))}\.(\d)(?!\d)", lambda k: f"{v.group(1)}.{fields[i][int(k.group(1))]}" if int(k.group(1)) < len(fields[i]) else k.group(0), arg)
                text = text[:start] + arg + text[end:]
            elif not re.match(r"\(λ _\.", arg):
                said.append("a branch's answer: " + arg[:60])
    return text


def closing(text, names, said):
    m = re.search(r"\(\s*tie\.spec(.*)\)\s*$", text, re.S)
    if not m:
        return text
    body, depth, n, inside = m.group(1), 0, 0, False
    for token in re.finditer(r"[()]|[^\s()]+", re.sub(r"--[^\n]*", "", body)):
        t = token.group(0)
        if t == "(":
            n += depth == 0
            depth += 1
        elif t == ")":
            depth -= 1
        elif depth == 0:
            n += 1
    wanted = len(names["needs"]) + 2 * len(names["loops"])
    if n != wanted:
        said.append(f"closing list has {n} for {wanted}")
    if n == wanted + 1:
        return re.sub(r"(\(tie\.spec\s+)\(λ c\. search rules\)\s*", r"\1", text, count=1)
    return text


def goals(text):
    return re.findall(r"tie\.[^\s(){}.;,\[\]]+", text)


def main(crates):
    for crate in crates:
        root = pathlib.Path("crates", crate)
        with tempfile.TemporaryDirectory() as there:
            for more in (["--old-names"], []):
                subprocess.run(["rt", "check", "--generated", there, *more], cwd=root, stdout=subprocess.DEVNULL, stderr=subprocess.DEVNULL)
            listed = pathlib.Path(there, "names.json")
            names = json.loads(listed.read_text(encoding="utf-8")) if listed.exists() else {}
            made = pathlib.Path(there, f"Rattle-{crate}-proofs")
            lts = {".".join(p.relative_to(made).parts[:-1]): p.read_text(encoding="utf-8") for p in made.glob("**/Lts.antt")}
        by_path = {m.split(".", 1)[1].rsplit(".Lts", 1)[0]: v for m, v in names.items() if ".Lts" in m}
        source = {w for q in root.glob("src/**/*.rt") for w in re.findall(r"[a-z]\w*", q.read_text(encoding="utf-8"))}
        for p in sorted(root.glob("proofs/**/Proof.antt")):
            path = ".".join(p.parts[3:-1])
            text = p.read_text(encoding="utf-8")
            if "tie.spec" not in text:
                print(f"{crate}: {path}: by hand")
                continue
            before = subprocess.run(["git", "show", f"{FROM}:{p}"], capture_output=True, text=True).stdout
            if before and goals(before) != goals(text):
                print(f"{crate}: {path}: turned before")
                continue
            if path not in by_path:
                print(f"{crate}: {path}: not listed")
                continue
            said = []
            new = turned(text, by_path[path], fields_of("Args", lts.get(path, "")), lasts_of(lts.get(path, "")), source, said)
            new = re.sub(r"^(pub )?[\w'-]+[-_]spec :", f"pub {p.parts[-2].lstrip('+')}_spec :", new, flags=re.M)
            new = re.sub(r"^[\w'-]+[-_]spec =", f"{p.parts[-2].lstrip('+')}_spec =", new, flags=re.M)
            if "⊎_elim" in new and path in lts:
                new = by_fields(new, branches(lts[path]), said)
            new = closing(new, by_path[path], said)
            if said:
                print(f"{crate}: {path}: {', '.join(said)}")
            if new != text:
                p.write_text(new, encoding="utf-8")


if __name__ == "__main__":
    main(sys.argv[1:])
