"""Random tapes and totals from a seed, for request 6 of document 02: values in range, at its ends and past them, entries that the shape has or not, and
totals handed in, such as some tapes have, at the end of what they can be, or past it."""
import cases
from totals import MOST_SUM, MOST_TAPES, MOST_VALUE, Tape, Total


def with_values(table, levels, value):
    """The table with the value of each whole record replaced, by the next that is given."""
    width = 12 + 2 * levels
    records = [table[i:i + width] for i in range(0, len(table), width)]
    return b"".join(b[:width - 8] + value().to_bytes(8, "little", signed=True) if len(b) == width else b for b in records)


def in_range(rng):
    """A value from -10^12 to 10^12, often at an end of that or of what some number of bytes holds."""
    ends = [MOST_VALUE, MOST_VALUE, MOST_VALUE - 1, 2**31, 2**32, 2**39, 255, 1, 0]
    return rng.choice([rng.choice(ends), -rng.choice(ends), rng.randint(-MOST_VALUE, MOST_VALUE), rng.randint(-999, 999)])


def off_range(rng):
    """A value that is not, by one or by far."""
    far = [2**40, -2**40, 2**62, 2**63 - 1, -2**63, rng.choice([-1, 1]) * rng.randint(MOST_VALUE + 1, 2**63 - 1)]
    return rng.choice([MOST_VALUE + 1, -MOST_VALUE - 1, rng.choice(far)])


def some_entry(rng, entries):
    """An entry that the shape has, for the most part."""
    if entries and rng.random() > 0.08:
        return rng.randrange(entries)
    return rng.choice([entries, entries, entries + 1, 16, 255, 256, 2**32, 2**64 - 1])


def tape(rng, levels=6, harm=0.2, off=(0, 0, 0, 0.1, 0.4), **sizes):
    """A table, of which so large a part of the values may be out of range; a shape, and an entry. In some tables all values are at one end."""
    table, shape = cases.case(rng, levels=levels, harm=harm, **sizes)
    part, end = rng.choice(off), rng.choice([None, None, None, MOST_VALUE, -MOST_VALUE])
    table = with_values(table, levels, lambda: off_range(rng) if rng.random() < part else in_range(rng) if end is None else end)
    return Tape(table, shape, some_entry(rng, len(shape) // (4 + 2 * levels)), levels)


def total(rng):
    """Sums and a number of tapes that may be a total, or of which something is one past it, or far."""
    tapes = rng.choice([0, 1, 2, 998, 999, 999, 999, 1000, 1001, 2**32, 2**64 - 1, *(rng.randrange(MOST_TAPES) for _ in range(3))])
    most = min(tapes, MOST_TAPES) * MOST_SUM
    sums = [rng.choice([0, most, -most, rng.randint(-most, most), rng.randint(-most, most)]) for _ in range(2)]
    if rng.random() < 0.3:
        sums[rng.randrange(2)] = rng.choice([most + 1, most + 1, -most - 1, -most - 1, most + MOST_SUM, 2**63 - 1, -2**63])
    return Total(*sums, tapes)
