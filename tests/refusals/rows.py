"""Rows, in f64 and exact."""
from sets import *

# ---- rows

# the spins, and the entries of a row of X0 + Z0 with the noise (X0, X0); of 3X with its pair; of 0X + 4X5X + 2X with each product's pair
ENTRIES_OF = [(1, 2, 1, 3), (2, 2, 2, 6), (1, 2, 1, 3), (2, 2, 2, 6), (2, 2, 2, 4), (2, 4, 4, 10), (2, 4, 4, 10)]


def row(code, name, s, left, right, spins, place, answer, places=(16, 16, 16)):
    case(ROWS[code], name, [50 + code] + s + left + right + [spins, place, *places], answer, BUFFERS)


def rows(code):
    power, n, of_one, of_three = ENTRIES_OF[code]
    s, w, x = BOTH, one(TWO), one(ONE, X3)
    last = 2 ** (31 * power)
    for name, t, v, spins, place, answer in [
        ("malformed, 32 spins, row past all", TWICE, TWICE, 32, 2 ** 63, 0), ("malformed, row past the last", TWICE, TWICE, 1, 2 ** power, 0),
        ("malformed, site 0 of no spins", TWICE, TWICE, 0, 0, 0), ("malformed, 0.5", second(X0, HALF), second(X0, HALF), 1, 0, 0),
        ("31 spins", s, w, 31, 0, str(n)), ("32 spins, row past all", s, w, 32, 2 ** 63, 7), ("31 spins, row past all", s, w, 31, 2 ** 63, 9),
        ("1 spin, last row", s, w, 1, 2 ** power - 1, str(n)), ("1 spin, row past the last", s, w, 1, 2 ** power, 9),
        ("31 spins, last row", s, w, 31, last - 1, str(n)), ("31 spins, row past the last", s, w, 31, last, 9),
        ("no spins, no terms, row 0", NONE, NONE, 0, 0, "0"), ("no spins, no terms, row 1", NONE, NONE, 0, 1, 9),
        ("site 3 of 4 spins", x, x, 4, 0, str(of_one)), ("site 3 of 3 spins, row past the last", x, x, 3, 2 ** (3 * power), 9),
    ] + [(f"{spins} spins", s, w, spins, 0, 7) for spins in FAR_SPINS]:
        row(code, name, t, v, v, spins, place, answer)
    for name, places, answer in [
        ("exact places", (n, n, n), str(n)), ("one column less", (n - 1, n, n), 10), ("one real part less", (n, n - 1, n), 10),
        ("one imaginary part less", (n, n, n - 1), 10),
    ]:
        row(code, name, s, w, w, 1, 0, answer, places)
    row(code, "malformed, no places", TWICE, TWICE, TWICE, 1, 0, 0, (0, 0, 0))
    row(code, "site 0 of no spins, no places", s, w, w, 0, 0, (8, 0), (0, 0, 0))


def outside(code):
    three, eight = terms(3, fill=3, at=1, key=two(4, 1, 5, 1), coefficient=ONE), terms(8, fill=8, at=1, key=two(0, 1, 4, 3), coefficient=ONE)
    for name, s, spins, answer in [
        ("site 0 of no spins", S, 0, (8, 0)), ("3X of 3 spins", one(ONE, X3), 3, (8, 3)), ("3Y of 3 spins", one(ONE, on(3, 2)), 3, (8, 3)),
        ("3Z of 3 spins", one(ONE, on(3, 3)), 3, (8, 3)), ("30Z of 30 spins", one(ONE, Z30), 30, (8, 30)), ("0X, 4X5X, 2X of 2 spins", three, 2, (8, 5)),
        ("0X, 4X5X, 2X of 5 spins", three, 5, (8, 5)), ("0X, 4X5X, 2X of 6 spins", three, 6, str(ENTRIES_OF[code][3])),
        ("0X, 0X4Z, 2X to 7X of no spins", eight, 0, (8, 0)), ("0X, 0X4Z, 2X to 7X of 2 spins", eight, 2, (8, 4)),
        ("0X, 0X4Z, 2X to 7X of 4 spins", eight, 4, (8, 4)), ("0X, 0X4Z, 2X to 7X of 5 spins", eight, 5, (8, 5)),
        ("64 terms, 1 spin", FULL, 1, (8, 1)), ("64 terms, 30 spins", FULL, 30, (8, 30)),
    ]:
        row(code, name, s, s, s, spins, 0, answer)


def full_rows(code):
    """X on 31 sites, Y on 31 sites, 0Z and 1Z, with the pair of each: row 0 of 31 spins."""
    n = [32, 62, 32, 62, 32, 94, 94][code]
    large = 11 if code == 6 else str(n)
    for name, s, places, answer in [
        ("64 terms", FULL, n, str(n)), ("64 terms, a place less", FULL, n - 1, 10), ("64 terms of 2^300", full(LIMIT, LIMIT), n, large),
        ("64 terms of -2^300", full(MINUS_LIMIT, MINUS_LIMIT), n, large),
    ]:
        row(code, name, s, s, s, 31, 0, answer, (places, places, places))


# the spins, the row, and its entries by each of ROWS, a digit each
ZERO_SUMS = [
    ("Z0 with (Z0, Z0), row 0", one(ONE, Z0), one(ONE, Z0), 1, 0, "1010110"), ("Z0 with (Z0, Z0), row 1", one(ONE, Z0), one(ONE, Z0), 1, 1, "1111111"),
    ("Z0 with -i (Z0, Z0), row 1", one(ONE, Z0), one(MINUS * I, Z0), 1, 1, "1111110"),
    ("Z0 without noise, row 0", one(ONE, Z0), NONE, 1, 0, "1010000"), ("no terms with (Z0, Z0), row 0", NONE, one(ONE, Z0), 1, 0, "0000110"),
    ("0X - 0X1Z with its pairs, row 0", second(two(0, 1, 1, 3), MINUS), second(two(0, 1, 1, 3), MINUS), 2, 0, "1010220"),
    ("X0 - Y0 with its pairs, row 0", second(Y0, MINUS), second(Y0, MINUS), 1, 0, "1212242"),
    ("the identity without noise, row 0", IDENTITY, NONE, 1, 0, "1010000"),
]


def zero_sums(code):
    """Kept in rows of operators and noise, absent in commutators and exact rows; kept in open systems' rows where noise has the column."""
    for name, s, w, spins, place, entries in ZERO_SUMS:
        row(code, name, s, w, w, spins, place, entries[code])
    if code < 2:
        row(code, "0 held", one(ZERO), NONE, NONE, 1, 0, "10"[code])


def sides(code):
    """The pairs (0X, 0X), (left, right), (2X, 2X) to (7X, 7X)."""
    for left, right, spins, answer in [
        (4, 6, 2, 4), (6, 4, 2, 6), (1, 4, 2, 4), (1, 1, 2, 2), (3, 1, 3, 3), (1, 3, 3, 3), (9, 4, 4, 9), (1, 1, 5, 5), (30, 1, 8, 30), (1, 30, 8, 30),
    ]:
        l, r = (terms(8, fill=8, at=1, key=on(site, 3), coefficient=ONE) for site in (left, right))
        row(code, f"pairs on (0, 0), ({left}, {right}), (2, 2) to (7, 7) of {spins} spins", NONE, l, r, spins, 0, (8, answer))
    l, r = (terms(8, fill=8, at=1, key=key, coefficient=ONE) for key in (two(1, 2, 9, 3), on(20, 1)))
    row(code, "pairs on (0, 0), (1 and 9, 20), (2, 2) to (7, 7) of 9 spins", NONE, l, r, 9, 0, (8, 9))
    row(code, "pairs on (0, 0), (20, 1 and 9), (2, 2) to (7, 7) of 9 spins", NONE, r, l, 9, 0, (8, 20))
    l = terms(8, fill=8, at=1, key=Z1, coefficient=ONE)
    row(code, "pairs on (0, 0), (1, 1), (2, 2) to (7, 7) of 8 spins", NONE, l, l, 8, 0, "8")
    row(code, "two pairs with one left side", NONE, TWICE, BOTH, 1, 0, "4")
    row(code, "two pairs with one right side", NONE, BOTH, TWICE, 1, 0, "4")


def parts(code):
    s, w, far, farther = BOTH, one(TWO), one(ONE, on(4, 1)), one(ONE, on(5, 1))
    for name, t, v, spins, place, answer in [
        ("malformed Hamiltonian, row past the last", TWICE, w, 1, 4, 0), ("malformed noise, row past the last", s, TWICE, 1, 4, 0),
        ("malformed noise, Hamiltonian on 4 of 4 spins", far, TWICE, 4, 0, 0), ("malformed noise, Hamiltonian 0.5", one(HALF), TWICE, 1, 0, 0),
        ("Hamiltonian on 5, noise on 4 of 4 spins", farther, far, 4, 0, (8, 5)), ("Hamiltonian on 4, noise on 5 of 4 spins", far, farther, 4, 0, (8, 4)),
        ("Hamiltonian on 0, noise on 4 of 4 spins", s, far, 4, 0, (8, 4)), ("Hamiltonian on 4, noise on 0 of 4 spins", far, w, 4, 0, (8, 4)),
        ("Hamiltonian on 0 and 4, noise on 5 of 4 spins", second(on(4, 1), ONE), farther, 4, 0, (8, 4)),
        ("Hamiltonian on 0, 1 and 2, noise on 5 of 2 spins", terms(3, fill=3), farther, 2, 0, (8, 2)),
        ("Hamiltonian on 0, noise on 0, 1, 2 and 3 of 2 spins", s, terms(4, fill=4), 2, 0, (8, 2)),
    ]:
        row(code, name, t, v, v, spins, place, answer)


# parts that exact rows take, and that they refuse
TAKEN = [("2^40", WHOLE), ("-2^40", MINUS_WHOLE), ("2", TWO), ("-1", MINUS)]
REFUSED = [
    ("0.5", HALF), ("1 + 2^-52", NEXT), ("2^-600", TINY), ("2^40 + 1", WHOLE_1), ("-2^40 - 1", MINUS_WHOLE_1), ("2^200", LARGE), ("-2^300", MINUS_LIMIT),
]


def whole():
    """X0 and Y0 with (X0, X0) and (Y0, Y0)."""
    for name, part, answer in [(name, part, "4") for name, part in TAKEN] + [(name, part, 11) for name, part in REFUSED]:
        for whose, h, w in [
            ("Hamiltonian", one(part), one(TWO)), ("noise", S, one(part)), ("noise 2 and i times", S, one(TWO + part * I)),
            ("Hamiltonian, first of two", second(Y0, ONE, value=part), one(TWO)), ("Hamiltonian, second of two", second(Y0, part), one(TWO)),
            ("noise, first of two", S, second(Y0, TWO, value=part)), ("noise, second of two", S, second(Y0, part, value=TWO)),
            ("noise, second of two 2 and i times", S, second(Y0, TWO + part * I)),
        ]:
            row(6, f"{whose} {name}", h, w, w, 1, 0, answer)
    for name, h, w in [
        ("Hamiltonian 0.5", full(ONE, HALF), FULL), ("noise 0.5", FULL, full(ONE, HALF)), ("noise 1 + 0.5 i", FULL, full(ONE, ONE + HALF * I)),
    ]:
        row(6, f"64 terms and 64 pairs, last of the {name}", h, w, w, 31, 0, 11)
    row(6, "noise 2^40 + 2^40 i", S, one(WHOLE + WHOLE * I), S, 1, 0, "4")
    row(6, "noise 2 - 0 i", S, one(TWO + MINUS_ZERO * I), one(TWO), 1, 0, "4")
    half = one(HALF)
    row(6, "row past the last, noise 0.5", S, half, half, 1, 4, 9)
    row(6, "site 0 of no spins, noise 0.5", S, half, half, 0, 0, (8, 0))
    row(6, "noise 0.5, no places", S, half, half, 1, 0, 11, (0, 0, 0))
    row(6, "noise 2, no places", S, one(TWO), one(TWO), 1, 0, 10, (0, 0, 0))
