"""A seller's portfolio with sub-leases, made up by rule: a lessee leases fans and lets some of them on to lessees of its own, who do so too.

A lessee stands beneath the lease that it holds a part of, so a sub-lease is on level 5 and what is let on once more on level 7. Values are those of
the portfolio of fans; a sub-lessee's balance is owed to the lessee above.
"""
from fans import drawn, meter, one_of, portfolio

LESSEES = 26
# one is drawn for each lease or whatever is counted, so what stands often comes often; by how often it is let on
LEASES = (1, 1, 2), (1, 1, 1, 2), (1,)
FANS = (1, 1, 2, 3), (1, 1, 1, 2), (1, 1, 2)
SUB_LESSEES = (0, 0, 1, 1, 2), (0, 0, 1)


def asset(key, depth):
    """A fan; on the last level there is no place for a meter beneath it."""
    metered = depth < 2 and drawn(1, 10, "let metered", key) < 5
    return "asset", 100 * drawn(900, 48000, "let fan", key), [meter(key)] if metered else []


def lease(key, depth):
    assets = [asset(key + (i,), depth) for i in range(one_of(FANS[depth], "let fans", key))]
    rent = sum(value for _, value, _ in assets) // 4800 * 100
    payments = [("payment", 3 * rent, [])] * drawn(0, 1, "let payments", key)
    sub_lessees = one_of(SUB_LESSEES[depth], "sub-lessees", key) if depth < 2 else 0
    return "lease", rent, payments + assets + [lessee(key + ("sub", i), depth + 1) for i in range(sub_lessees)]


def lessee(key, depth=0):
    balance = drawn(-50000, 400000, "let balance", key) if drawn(1, 3, "let open", key) == 1 else 0
    return "lessee", balance, [lease(key + (i,), depth) for i in range(one_of(LEASES[depth], "let leases", key))]


def by_lessee():
    return portfolio([lessee((i,)) for i in range(LESSEES)])
