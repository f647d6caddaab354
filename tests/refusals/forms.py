"""What a case is, and the records that it hands in, as `stdin` codes them."""
import sys

READS = sys.argv[1:] == ["stdin"]
BEFORE, ANEW, BUFFERS = "; state as before", "; empty beside it", "; buffers as before"
POWER_BEFORE, POWER_ANEW = "; power 0" + BEFORE, "; power 0" + ANEW

# Parts of coefficients, as `part` in numbers.rt numbers them; an imaginary part counts a hundredfold.
(ZERO, ONE, MINUS, MINUS_ZERO, LIMIT, OVER, MINUS_LIMIT, MINUS_OVER, INFINITY, NAN, HALF_LIMIT, LARGE, MINUS_LARGE, ROOT, TWO, HALF,
 WHOLE, WHOLE_1, MINUS_WHOLE, MINUS_WHOLE_1, NEXT, GAP, MINUS_GAP, TINY) = range(24)
I = 100


def case(entry, name, numbers, answer, beside=""):
    """answer: None where the call is accepted, a number, a number with its site, or the entries of a row as a string."""
    if READS:
        print(*numbers, f"{entry}, {name}")
        return
    if answer is None:
        told = "accepted"
    elif isinstance(answer, str):
        told = f"accepted, entries {answer}; rest as before"
    elif isinstance(answer, tuple):
        told = f"refused {answer[0]} site {answer[1]}{beside}"
    else:
        told = f"refused {answer}{beside}"
    print(f"{entry}, {name}: {told}")


def record(count, *places):
    """A product with up to two places (site, letter) written."""
    (s, x), (t, y) = (list(places) + [(0, 0)] * 2)[:2]
    return count * 1000000 + s * 10000 + x * 1000 + t * 10 + y


def on(site, letter):
    return record(1, (site, letter))


def two(s, x, t, y):
    return record(2, (s, x), (t, y))


def outer(count, first, last):
    """A product with its first and its last place written."""
    return 100000000 + record(count, first, last)


EMPTY, X0, Y0, Z0, X1, Z1, X3, Z30 = 0, on(0, 1), on(0, 2), on(0, 3), on(1, 1), on(1, 3), on(3, 1), on(30, 3)
ALL = 31000000
BAD = on(31, 1)

# A product amiss by each clause of number 0.
AMISS = [
    ("count 32", 32000000), ("sites 3 and 3", two(3, 1, 3, 2)), ("sites 3 and 2", two(3, 1, 2, 2)), ("a site 31", on(31, 3)),
    ("sites 3 and 31", two(3, 1, 31, 2)), ("a letter 0", on(3, 0)), ("a letter 4", on(3, 4)), ("letters 1 and 0", two(3, 1, 4, 0)),
    ("letters 1 and 4", two(3, 1, 4, 4)), ("a site past the count", record(1, (3, 1), (5, 0))), ("a letter past the count", record(1, (3, 1), (0, 2))),
    ("a site in the last place", outer(1, (3, 1), (30, 0))), ("a letter in the last place", outer(1, (3, 1), (0, 2))),
    ("count 30 of 31 places", 30000000), ("a site past count 0", record(0, (5, 0))), ("a letter past count 0", record(0, (0, 2))),
]


def terms(count, fill=0, value=ONE, at=64, key=EMPTY, coefficient=ZERO):
    """A set: `fill` keys filled in with a value, then one more term at a place, under a count."""
    return [fill, value, at, key, coefficient, count]


def one(coefficient, key=X0):
    return terms(1, at=0, key=key, coefficient=coefficient)


def second(key, coefficient, count=2, value=ONE):
    """X0 with a value, then another term, or past a count of 1."""
    return terms(count, fill=1, value=value, at=1, key=key, coefficient=coefficient)


def full(value=ONE, coefficient=ONE, key=Z1):
    """64 terms with a value, the last of them, which is 1Z, with a key and a coefficient of its own."""
    return terms(64, fill=64, value=value, at=63, key=key, coefficient=coefficient)


def targets(*pairs):
    """Three targets, each a spin and its target; the last one repeated, as a code of 0 would give spin 0 its own site."""
    codes = [1000 * spin + target for spin, target in pairs]
    return (codes + codes[-1:] * 2)[:3]


NONE = terms(0)
S = one(ONE)
TWICE = second(X0, ONE)
BOTH = second(Z0, ONE)
IDENTITY = one(ONE, EMPTY)
FULL = terms(64, fill=64)
FULL_BUT_ONE = terms(63, fill=63)
FULL_TWICE = full(key=X0)

# Coefficients given: number 5 and just inside it, in each part and in both.
REAL_PARTS = [
    ("2^300", LIMIT, None), ("over 2^300", OVER, 5), ("-2^300", MINUS_LIMIT, None), ("minus over 2^300", MINUS_OVER, 5), ("infinity", INFINITY, 5),
    ("NaN", NAN, 5),
]
PARTS = REAL_PARTS + [(f"{name} i", part * I, answer) for name, part, answer in REAL_PARTS] + [
    ("2^300 + 2^300 i", LIMIT + LIMIT * I, None), ("2^300 + over 2^300 i", LIMIT + OVER * I, 5), ("over 2^300 + 2^300 i", OVER + LIMIT * I, 5),
]


def parts_of(kind):
    return REAL_PARTS if kind == 2 else PARTS


# Sites, letters and spins past their limits.
FAR, FAR_LETTERS, FAR_SPINS = (31, 32, 63, 64, 255), (4, 5, 8, 255), (32, 33, 63, 64, 2 ** 32 - 1)
