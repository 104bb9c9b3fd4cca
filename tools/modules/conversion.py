"""Converting the labels of stored files with the library's own call: the list as numbers, the program that makes the call, its answer.

No rule of a list is tested here. tools/modules/convert_labels.c makes the call; it is compiled where it is older than the library.
"""
import contextlib, os, struct, subprocess, sys, typing

import archive, usage
from table_text import Wrong, whole

GREATEST = 2**16 - 1
SETTING = "x86_64_cc", "x86_64_no_cc", "x86_64_run", "x86_64_no_run"


class List(typing.NamedTuple):
    """The numbers, old label and new one in turn, and for each pair its line in the text."""
    numbers: list
    lines: list


class Answer(typing.NamedTuple):
    """The call's answer. For refusal 26 `what` is "row" or "entry" and `label` the one at fault; the files are empty where it is refused."""
    number: int
    place: int
    rows: int
    entries: int
    what: str
    label: int
    table: bytes
    shape: bytes


class Failed(Exception):
    """Why there is no answer."""


# ---- the list
def read_number(line, word):
    number = whole(word)
    if number is None or not 0 <= number <= GREATEST:
        raise Wrong(line, f'"{word}" is no label: a line is an old label and its new one, two numbers of at most {GREATEST}')
    return number


def read_list(text):
    """A pair on each line that says something. A number alone at the end is passed on, for the library to refuse; one before that would have
    every number after it read wrongly."""
    numbers, lines = [], []
    for line, words in enumerate(text.split("\n"), 1):
        said = words.split("#")[0].split()
        if not said:
            continue
        if len(numbers) % 2:
            raise Wrong(lines[-1], f"old label {numbers[-1]} has no new one beside it")
        if len(said) > 2:
            raise Wrong(line, f'a line is an old label and its new one, and "{said[2]}" is one word too many')
        numbers += [read_number(line, word) for word in said]
        lines.append(line)
    return List(numbers, lines)


# ---- the program that makes the call
def setting():
    """How C is compiled for the library and run on this machine, as tools/modules/x86_64.sh says it."""
    asked = "; ".join(f'printf "%s\\n" "${name}"' for name in SETTING)
    done = subprocess.run(["bash", "-c", f". tools/modules/x86_64.sh; {asked}"], cwd=archive.ROOT, stdout=subprocess.PIPE, text=True, check=True)
    return dict(zip(SETTING, done.stdout.split("\n")))


def compile_to(made, compiler):
    """Compiles under a name of this process first, so that what is cut off is never run."""
    made.parent.mkdir(parents=True, exist_ok=True)
    part = made.with_suffix(f".{os.getpid()}")
    words = "-std=c99 -pedantic -Wall -Wextra -Werror -O2 -static -Iinclude tools/modules/convert_labels.c".split()
    done = subprocess.run([compiler, *words, archive.LIBRARY, "-o", part], cwd=archive.ROOT, stdout=subprocess.PIPE, stderr=subprocess.STDOUT, text=True)
    if done.returncode:
        raise Failed(f"{done.stdout[-3000:]}tools/modules/convert_labels.c is not compiled: {compiler} said what stands above")
    part.replace(made)


def program():
    """The words that run it, once it is as new as what it is made from."""
    with contextlib.redirect_stdout(sys.stderr):
        archive.build_where_needed()
    found, made = setting(), archive.ROOT / "target/convert_labels/convert_labels"
    sources = [archive.ROOT / file for file in (archive.LIBRARY, "include/silmezga.h", "tools/modules/convert_labels.c")]
    if not made.exists() or made.stat().st_mtime < max(file.stat().st_mtime for file in sources):
        if not found["x86_64_cc"]:
            usage.not_run(found["x86_64_no_cc"])
        compile_to(made, found["x86_64_cc"])
    if found["x86_64_no_run"]:
        usage.not_run(found["x86_64_no_run"])
    return [word for word in (found["x86_64_run"], str(made)) if word]


def read_answer(said, table, shape):
    """The answer from what the program wrote, all of which must be there."""
    head, _, files = said.partition(b"\n")
    words = head.decode("ascii", "replace").split(" ")
    if len(words) != 6 or not all(word.isdigit() for word in words[:4] + words[5:]):
        raise Failed("the program that makes the call gave no answer")
    number, place, rows, entries, label = (int(word) for word in words[:4] + words[5:])
    if len(files) != (0 if number else len(table) + len(shape)):
        raise Failed("the program that makes the call ended before all was written")
    return Answer(number, place, rows, entries, words[4], label, files[:len(table)], files[len(table):])


def convert(words, levels, table, shape, numbers):
    """What the call answers; `words` run the program."""
    given = table + shape + struct.pack(f"<{len(numbers)}H", *numbers)
    done = subprocess.run([*words, str(levels), str(len(table)), str(len(shape))], input=given, stdout=subprocess.PIPE)
    if done.returncode:
        raise Failed(f"the program that makes the call ended with status {done.returncode}")
    return read_answer(done.stdout, table, shape)
