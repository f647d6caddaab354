"""Chains of terms, and noise."""
from sets import *

# ---- chains

# one coefficient times another: number 5 for the result, and just inside it
REAL_RESULTS = [
    ("2^150 times 2^150", ROOT, ROOT, None), ("2^200 times 2^200", LARGE, LARGE, 5), ("2^300 times 1", LIMIT, ONE, None),
    ("2^300 times 1 + 2^-52", LIMIT, NEXT, 5), ("1 + 2^-52 times 2^300", NEXT, LIMIT, 5), ("-2^300 times 1", MINUS_LIMIT, ONE, None),
    ("-2^300 times 1 + 2^-52", MINUS_LIMIT, NEXT, 5), ("1 + 2^-52 times -2^300", NEXT, MINUS_LIMIT, 5),
]
RESULTS = [(name + how, s * x, t * y, answer) for how, x, y in [("", 1, 1), (", left times i", I, 1), (", right times i", 1, I), (", both times i", I, I)]
           for name, s, t, answer in REAL_RESULTS] + [
    ("2^300 + 2^300 i times 1", LIMIT + LIMIT * I, ONE, None), ("2^150 + 2^150 i times 2^150", ROOT + ROOT * I, ROOT, None),
    ("2^150 + 2^150 i times itself", ROOT + ROOT * I, ROOT + ROOT * I, 5),
]

# two sets that are multiplied, whatever the kind
CHAINED = [
    ("malformed left, 2 terms times 64", second(Z0, OVER), FULL, 0), ("malformed right, 2 terms times 64", BOTH, full(ONE, OVER), 0),
    ("malformed right, 2 terms times 65", BOTH, terms(65, fill=64), 0),
    ("1 term times 64", S, FULL, None), ("64 terms times 1", FULL, S, None), ("2 terms times 64", BOTH, FULL, 6),
    ("2 terms times 64, 2^200 times 2^200", second(Z0, LARGE, value=LARGE), terms(64, fill=64, value=LARGE), 6),
    ("64 terms, then 64 of 0", second(Z30, TINY), full(TINY, TINY), None), ("64 terms, then 1 of 2^-600 and 63 of 0", second(Z30, TINY), full(TINY, ONE), 6),
    ("the first of two over", one(NEXT), second(Z0, ONE, value=LIMIT), 5), ("the second of two over", one(NEXT), second(Z0, LIMIT), 5),
    ("the last of 64 over", one(NEXT), full(ONE, LIMIT), 5), ("the last of 64 at 2^300", S, full(ONE, LIMIT), None),
]


def multiplied():
    with_identity, large = second(EMPTY, ONE), terms(2, fill=2, value=LARGE, at=0, coefficient=LARGE)
    for code, kind, entry, beside in MULTIPLY:
        for name, s, t, answer in CHAINED + [
            ("2^400 cancelled", large, second(two(0, 1, 1, 1), MINUS_LARGE, value=LARGE), None),
            ("64 terms at most, 4 left", with_identity, terms(62, fill=162), None),
            ("65 terms at a step, 4 left", with_identity, terms(64, fill=164), 6),
            ("64 terms, then keys that are there", second(EMPTY, TWO), terms(62, fill=162), None),
        ]:
            case(entry, name, [code] + s + t, answer, beside)
        for name, s, t, answer in REAL_RESULTS if kind == 2 else RESULTS:
            case(entry, name, [code] + one(s) + one(t), answer, beside)
        for name, s, t, answer in REAL_RESULTS:
            case(entry, f"{name}, 0X and 0Y", [code] + one(s) + one(t, Y0), answer, beside)
            case(entry, f"{name}, 0Y and 0X", [code] + one(s, Y0) + one(t), answer, beside)
        for name, held, more, answer in sums_of(kind):
            case(entry, f"{name}, added up", [code] + with_identity + second(EMPTY, more, value=held), answer, beside)
    case("PauliOperator multiply", "64 terms, then 64 with 0 held", [30] + second(Z30, ZERO) + FULL, None)


def scaled():
    def call(name, s, value, answer):
        case("PauliOperator scale", name, [38] + s + [value], answer, BEFORE)

    for name, value, answer in PARTS:
        call(f"1 times {name}", S, value, answer)
        call(f"no terms, {name}", NONE, value, answer)
    for name, s, value, answer in RESULTS:
        call(name, one(s), value, answer)
    call("malformed, NaN", TWICE, NAN, 0)
    call("the first of two over", second(Y0, ONE, value=LIMIT), NEXT, 5)
    call("the second of two over", second(Y0, LIMIT), NEXT, 5)
    call("the last of 64 over", full(ONE, LIMIT), NEXT, 5)
    call("64 terms times 0", FULL, ZERO, None)
    call("0 held times 2^300", one(ZERO), LIMIT, None)


# ---- noise

def pairs():
    past, last = terms(0, at=0, key=X0), terms(1, fill=1, at=63, key=X1)
    for name, left, right, l, r, value, got, answer in [
        ("malformed left, empty right, NaN", S, S, BAD, EMPTY, NAN, 0, 0), ("malformed set, empty left", TWICE, TWICE, EMPTY, X0, ONE, 0, 0),
        ("empty left held", IDENTITY, S, X0, X0, ONE, 0, 0), ("empty right held", S, IDENTITY, X0, X0, ONE, 0, 0),
        ("left past the count", past, NONE, X0, X0, ONE, 0, 0), ("right past the count", NONE, past, X0, X0, ONE, 0, 0),
        ("left in the last place", last, S, X0, X0, ONE, 0, 0), ("right in the last place", S, last, X0, X0, ONE, 0, 0),
        ("empty left", S, S, EMPTY, X0, ONE, 4, 4), ("empty right", S, S, X0, EMPTY, ONE, 4, 4), ("both sides empty", S, S, EMPTY, EMPTY, ONE, 4, 4),
        ("empty left, 0", S, S, EMPTY, X0, ZERO, 4, 4), ("empty right, 0", S, S, X0, EMPTY, ZERO, 4, 4),
        ("both sides empty, -0", S, S, EMPTY, EMPTY, MINUS_ZERO, 4, 4),
        ("64 pairs, empty left, 0", FULL, FULL, EMPTY, Z30, ZERO, 4, 4), ("64 pairs, empty left, NaN", FULL, FULL, EMPTY, Z30, NAN, 4, 4),
        ("64 pairs, a new pair, NaN", FULL, FULL, X0, Z30, NAN, None, 5), ("64 pairs, a new pair with the left side of one", FULL, FULL, X0, Z30, ONE, None, 6),
        ("64 pairs, a new pair with the right side of one", FULL, FULL, Z30, X0, ONE, None, 6),
        ("64 pairs, a new pair with the sides of two", FULL, FULL, X0, X1, ONE, None, 6),
        ("64 pairs, one of unlike sides", FULL, full(key=Z30), Z1, Z30, ONE, None, None),
        ("64 pairs, one of unlike sides turned round", FULL, full(key=Z30), Z30, Z1, ONE, None, 6),
        ("64 pairs, two with one left side", FULL_TWICE, FULL, X0, X0, ONE, None, None),
        ("64 pairs, two with one right side", FULL, FULL_TWICE, X0, X0, ONE, None, None),
    ]:
        for entry, number in enumerate([got, answer, answer]):
            on_pairs(entry, name, left, right, l, r, value, number)


def add_full(name, w, s, t, value, answer):
    case(FULL_OPERATORS, name, [43] + w + w + s + t + [value], answer, BEFORE)


def full_operators():
    for name, s, t, answer in CHAINED:
        add_full(name, NONE, s, t, ONE, answer)
    for name, value, answer in PARTS:
        add_full(f"value {name}", S, S, S, value, answer)
        add_full(f"left the identity, value {name}", S, IDENTITY, S, value, answer)
    for name, s, t, answer in RESULTS:
        add_full(name, NONE, one(s), one(t), ONE, answer)
        add_full(f"{name} as value", NONE, one(s), S, t, answer)
    for name, held, more, answer in SUMS:
        add_full(name, one(held), one(more), S, ONE, answer)
    for name, s, t, value, answer in [
        ("left without terms", NONE, S, ONE, 4), ("right without terms", S, NONE, ONE, 4), ("right without terms, NaN", S, NONE, NAN, 4),
        ("left without terms, 0", NONE, S, ZERO, 4), ("right without terms, 0", S, NONE, ZERO, 4), ("both without terms, -0", NONE, NONE, MINUS_ZERO, 4),
        ("malformed left, right without terms, NaN", TWICE, NONE, NAN, 0), ("malformed right, left without terms, NaN", NONE, TWICE, NAN, 0),
        ("left the identity, right without terms", IDENTITY, NONE, ONE, 4), ("left the identity", IDENTITY, S, ONE, None),
        ("right the identity", S, IDENTITY, ONE, None), ("left the identity, 0", IDENTITY, S, ZERO, None), ("both with terms, 0", S, S, ZERO, None),
    ]:
        add_full(name, S, s, t, value, answer)


def full_operators_at_64():
    z, with_identity = one(ONE, Z30), second(EMPTY, ONE)
    add_full("63 pairs and one", FULL_BUT_ONE, z, z, ONE, None)
    add_full("64 pairs, malformed, and one", full(ONE, OVER), z, z, ONE, 0)
    for name, s, t, value, answer in [
        ("and one", z, z, ONE, 6), ("and one of i", z, z, ONE * I, 6), ("and one, malformed left", one(OVER, Z30), z, ONE, 0),
        ("and one, malformed right", z, one(OVER, Z30), ONE, 0), ("and one, NaN", z, z, NAN, 5), ("left without terms, 0", NONE, z, ZERO, 4),
        ("and one, 0", z, z, ZERO, None), ("and one, -0 i", z, z, MINUS_ZERO * I, None), ("and one that comes to 0", one(TINY, Z30), one(TINY, Z30), ONE, None),
        ("one that is there", S, S, ONE, None), ("one that is there and one", S, second(Z30, ONE), ONE, 6), ("left the identity", IDENTITY, z, ONE, None),
        ("right the identity", z, IDENTITY, ONE, None), ("one that is there and the identity on both sides", with_identity, with_identity, ONE, None),
        ("one struck out and one", S, second(Z30, ONE, value=MINUS), ONE, None),
        ("one and one struck out", one(ONE, X1), terms(2, fill=2, value=MINUS, at=0, key=Z30, coefficient=ONE), ONE, 6),
    ]:
        add_full(f"64 pairs, {name}", FULL, s, t, value, answer)


def remap(name, left, right, moves, answer):
    case(REMAP, name, [44] + left + right + targets(*moves), answer, BEFORE)


def remapping():
    three, five, seven, p, every = (one(ONE, key) for key in (X3, on(5, 1), on(7, 1), two(3, 1, 5, 2), ALL))
    for name, left, right, moves, answer in [
        ("malformed, target 31", TWICE, TWICE, [(0, 31)], 0), ("malformed, targets 4 and 4", second(two(3, 1, 5, 2), ZERO), BOTH, [(3, 4), (5, 4)], 0),
        ("targets 30 and 29", three, p, [(3, 30), (5, 29)], None), ("left target 31", three, seven, [(3, 31)], (1, 31)),
        ("right target 31", three, seven, [(7, 31)], (1, 31)), ("target 31 of a free spin", three, seven, [(5, 31)], None),
        ("targets 40 and 31 of one product", p, seven, [(3, 40), (5, 31)], (1, 40)), ("left targets 4 and 4", p, seven, [(3, 4), (5, 4)], (3, 4)),
        ("right targets 4 and 4", seven, p, [(3, 4), (5, 4)], (3, 4)), ("target 4 on both sides", three, five, [(3, 4), (5, 4)], None),
        ("left target 31, right target 40", five, three, [(3, 40), (5, 31)], (1, 31)),
        ("left target 40, right target 31", three, five, [(3, 40), (5, 31)], (1, 40)),
        ("left target 31, right targets 4 and 4", seven, p, [(3, 4), (5, 4), (7, 31)], (1, 31)),
        ("left targets 4 and 4, right target 31", p, seven, [(3, 4), (5, 4), (7, 31)], (3, 4)),
        ("left targets 9 and 4 each of two spins", every, S, [(1, 9), (2, 4)], (3, 4)),
        ("right targets 9 and 4 each of two spins", S, every, [(1, 9), (2, 4)], (3, 4)),
        ("left targets 9 and 4 each of two spins, 77", every, S, [(1, 9), (2, 4), (30, 77)], (1, 77)),
    ] + [(f"target {site}", three, five, [(3, site)], (1, site)) for site in FAR]:
        remap(name, left, right, moves, answer)


def remapping_two():
    """The pairs (0X, 5X) and (3X, 1X); then 0X and 3X5Y, each with itself."""
    left, right = second(X3, ONE), terms(2, fill=2, at=0, key=on(5, 1), coefficient=ONE)
    for name, moves, answer in [
        ("first left target 40, second left target 31", [(0, 40), (3, 31)], (1, 40)),
        ("first left target 31, second left target 40", [(0, 31), (3, 40)], (1, 31)),
        ("first right target 40, second left target 31", [(5, 40), (3, 31)], (1, 40)),
        ("first right target 40, second right target 31", [(5, 40), (1, 31)], (1, 40)), ("second left target 31", [(3, 31)], (1, 31)),
        ("second right target 31", [(1, 31)], (1, 31)), ("second left target 40, second right target 31", [(3, 40), (1, 31)], (1, 40)),
    ]:
        remap(name, left, right, moves, answer)
    both = second(two(3, 1, 5, 2), ONE)
    remap("second targets 4 and 4", both, both, [(3, 4), (5, 4)], (3, 4))
    remap("first target 31, second targets 4 and 4", both, both, [(0, 31), (3, 4), (5, 4)], (1, 31))
    remap("malformed second pair, first target 31", second(BAD, ONE), BOTH, [(0, 31)], 0)


def remapping_together():
    for name, held, more, answer in SUMS:
        s = second(X1, more, value=held)
        remap(f"{name}, apart", s, s, [(1, 6)], None)
        remap(f"{name}, together", s, s, [(1, 0)], answer)
    three = terms(3, fill=3, value=LIMIT, at=2, key=on(2, 1), coefficient=MINUS_LIMIT)
    remap("2^300, 2^300 and -2^300 together", three, three, [(1, 0), (2, 0)], None)
    remap("2^300 and 2^300 together, third target 31", three, three, [(1, 0), (2, 31)], (1, 31))
    remap("64 pairs, three together with three others", FULL, FULL, [(1, 0)], None)
