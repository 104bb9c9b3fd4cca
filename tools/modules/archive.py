"""The static libraries for C: where they are, how they are built, and that they are as new as the code."""
import os, pathlib, shutil, subprocess, sys

import usage

ROOT = pathlib.Path(__file__).resolve().parents[2]
# the crates that have one: the calls, and the totals above them
CALLS, TOTALS = "silmezga_c", "totals_c"
COMMAND = "tools/staticlib"


def library(crate):
    """Where the library of a crate is."""
    return f"target/staticlib/lib{crate}.a"


LIBRARY = library(CALLS)


def thin(crate):
    """The crate that is built as the library of a crate, over that one: the toolchain builds a crate as a library for other crates or as one for C."""
    return f"{crate}_c"


def needs_building(crate):
    """Is there no library, or one that is older than the code?"""
    code = [ROOT / "crates.txt", *ROOT.glob("crates/*/src/**/*.rt")]
    made = ROOT / library(crate)
    return not made.exists() or made.stat().st_mtime < max(path.stat().st_mtime for path in code)


def put(crate):
    """Puts what the toolchain made where the library is to be: whole, or not at all."""
    made, there = ROOT / "crates" / thin(crate) / "out" / f"lib{thin(crate)}.a", ROOT / library(crate)
    there.parent.mkdir(parents=True, exist_ok=True)
    part = there.with_suffix(f".{os.getpid()}")
    shutil.copyfile(made, part)
    part.replace(there)


def make(crate, **more):
    """Builds the library of a crate, and says how the toolchain ended."""
    done = subprocess.run(["rt", "lib"], cwd=ROOT / "crates" / thin(crate), stdin=subprocess.DEVNULL, text=True, **more)
    if not done.returncode:
        put(crate)
    return done


def build(crate):
    if not shutil.which("rt"):
        usage.not_run(f"{library(crate)} is not there or is older than the code, and there is no command rt on the path to build it with")
    print(f"building {library(crate)}: {COMMAND} {crate}", flush=True)
    done = make(crate, stdout=subprocess.PIPE, stderr=subprocess.STDOUT)
    if done.returncode:
        sys.exit(f"{done.stdout[-3000:]}the library is not built: {COMMAND} {crate} said what stands above")


def build_where_needed(crate=CALLS):
    if needs_building(crate):
        build(crate)
