"""A seller's portfolio of fans, made up by rule: the same facts lessee over lease over asset, and asset over lease over lessee.

The portfolio's value is its closing day. A lessee's is the open balance in cents, below 0 where the lessee is owed; a lease's the monthly
rent, a payment's the sum paid and an asset's the book value, all in cents. A meter's is its number and a reading's the hours run.
"""
import hashlib, typing

LESSEES = 45
# one is drawn for each lessee, lease, or whatever is counted, so what stands often comes often
LEASES = (1, 1, 1, 1, 2, 2, 2, 3, 3, 7)
FANS = (1,) * 16 + (2, 2, 3, 4, 6)
PAYMENTS = (0, 0, 0, 1, 1, 2)
READINGS = (4, 4, 4, 5, 6)


class Fan(typing.NamedTuple):
    value: int
    meters: list


class Lease(typing.NamedTuple):
    rent: int
    payments: list
    fans: list


class Lessee(typing.NamedTuple):
    balance: int
    leases: list


# ---- the facts
def drawn(low, high, *key):
    """A number from low to high that the key alone settles, on every machine alike."""
    return low + int.from_bytes(hashlib.sha256(repr(key).encode()).digest()[:8], "little") % (high - low + 1)


def one_of(choices, *key):
    return choices[drawn(0, len(choices) - 1, *key)]


def meter(key):
    hours = drawn(0, 9000, "hours", key)
    readings = []
    for quarter in range(one_of(READINGS, "readings", key)):
        hours += drawn(300, 2100, "run", key, quarter)
        readings.append(("reading", hours, []))
    return "meter", drawn(100000, 999999, "meter", key), readings


def fan(key):
    """The first fan of each lessee has a meter, and most others do."""
    metered = key[1:] == (0, 0) or drawn(1, 10, "metered", key) < 8
    return Fan(100 * drawn(900, 48000, "fan", key), [meter(key)] if metered else [])


def lease(key):
    fans = [fan(key + (i,)) for i in range(one_of(FANS, "fans", key))]
    rent = sum(f.value for f in fans) // 4800 * 100
    return Lease(rent, [("payment", 3 * rent, [])] * one_of(PAYMENTS, "payments", key), fans)


def lessee(key):
    leases = [lease(key + (i,)) for i in range(one_of(LEASES, "leases", key))]
    return Lessee(drawn(-50000, 400000, "balance", key) if drawn(1, 3, "open", key) == 1 else 0, leases)


def facts():
    return [lessee((i,)) for i in range(LESSEES)]


# ---- the two trees, as (label, value, what is beneath)
def portfolio(beneath):
    return "portfolio", 20260930, beneath


def by_lessee():
    def asset(f):
        return "asset", f.value, f.meters

    def leased(l):
        return "lease", l.rent, l.payments + [asset(f) for f in l.fans]

    return portfolio([("lessee", s.balance, [leased(l) for l in s.leases]) for s in facts()])


def by_asset():
    def asset(s, l, f):
        return "asset", f.value, f.meters + [("lease", l.rent, [("lessee", s.balance, [])] + l.payments)]

    return portfolio([asset(s, l, f) for s in facts() for l in s.leases for f in l.fans])


def text(tree, level=0):
    label, value, beneath = tree
    return f"{'  ' * level}{label} {value}\n" + "".join(text(t, level + 1) for t in beneath)
