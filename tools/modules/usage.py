"""The words after a command, and how it ends where this machine lacks what it needs."""
import argparse, sys

# the status of a command that has not run: neither passed nor failed
NOT_RUN = 3


def about(text):
    """A parser whose help is the command's own text, line by line as it stands there."""
    return argparse.ArgumentParser(description=text, formatter_class=argparse.RawDescriptionHelpFormatter)


def cases_and_seed(text, cases):
    """How many cases, and the seed that they are drawn from."""
    words = about(text)
    words.add_argument("cases", nargs="?", type=int, default=cases, metavar="CASES", help=f"{cases:,} where nothing is said")
    words.add_argument("seed", nargs="?", type=int, default=1, metavar="SEED", help="1 where nothing is said")
    said = words.parse_args()
    return said.cases, said.seed


def not_run(why):
    print(f"NOT RUN: {why}", file=sys.stderr)
    sys.exit(NOT_RUN)
