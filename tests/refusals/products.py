"""Single letters and products."""
from forms import *

# ---- single letters

def letters():
    for x, y, number in [(3, 3, None)] + [(far, 3, 2) for far in FAR_LETTERS] + [(3, far, 2) for far in FAR_LETTERS]:
        case("SinglePauliOperator multiply", f"letters {x} and {y}", [0, x, y], number)
        case("SingleDecoherenceOperator multiply", f"letters {x} and {y}", [1, x, y], number)
    for x, number in [(3, None)] + [(far, 2) for far in FAR_LETTERS]:
        for code, entry in [(2, "hermitian_conjugate"), (3, "decoherence_to_spin"), (4, "spin_to_decoherence")]:
            case(f"SingleDecoherenceOperator {entry}", f"letter {x}", [code, x], number)


# ---- products

WORDS = ["PauliProduct", "DecoherenceProduct"]
ALONE = [("well-formed", [X3], None)] + [(name, [bad], 0) for name, bad in AMISS]
SIDES = [(f"{name} left", [bad, X3], 0) for name, bad in AMISS] + [(f"{name} right", [X3, bad], 0) for name, bad in AMISS]


def on_product(kind, code, entry, cases, beside=BEFORE):
    for name, numbers, answer in cases:
        case(f"{WORDS[kind]} {entry}", name, [code, kind] + numbers, answer, beside)


def one_site(kind):
    on_product(kind, 10, "get", [(name, [bad, 0], 0) for name, bad in AMISS] + [("malformed, site 31", [BAD, 31], 0), ("site 30", [X3, 30], None)], "")
    on_product(kind, 10, "get", [(f"site {site}", [X3, site], (1, site)) for site in FAR], "")
    on_product(kind, 11, "set_pauli", [(name, [bad, 0, 1], 0) for name, bad in AMISS])
    on_product(kind, 11, "set_pauli", [(name, [good, 0, 1], None) for name, good in [
        ("31 sites", ALL), ("sites 3 and 4", two(3, 1, 4, 2)), ("site 30 held", Z30), ("letter 1 held", X3), ("letter 3 held", on(3, 3)),
    ]])
    on_product(kind, 11, "set_pauli", [(f"site {site}", [X3, site, 1], (1, site)) for site in FAR])
    on_product(kind, 11, "set_pauli", [(f"letter {letter}", [X3, 0, letter], 2) for letter in FAR_LETTERS])
    on_product(kind, 11, "set_pauli", [
        ("site 30", [X3, 30, 1], None), ("site 255, letter 0", [X3, 255, 0], (1, 255)), ("letter 3", [X3, 0, 3], None),
        ("site 31, letter 4", [X3, 31, 4], (1, 31)), ("malformed, letter 4", [BAD, 0, 4], 0), ("malformed, site 31", [BAD, 31, 1], 0),
        ("malformed, site 31, letter 4", [BAD, 31, 4], 0),
    ])


def whole_products(kind):
    q, far = two(3, 1, 5, 2), two(3, 1, 31, 2)
    on_product(kind, 12, "multiply", [("well-formed", [X3, X3], None)] + SIDES, POWER_BEFORE)
    on_product(kind, 12, "multiply", [("sites 3 and 31 left of 3Y", [far, on(3, 2)], 0), ("sites 3 and 31 right of 3Y", [on(3, 2), far], 0)], POWER_BEFORE)
    on_product(kind, 15, "cmp", [("well-formed", [X3, X3], None)] + SIDES, "")
    on_product(kind, 16, "hermitian_conjugate", ALONE, POWER_BEFORE)
    for name, numbers, answer in ALONE:
        case("DecoherenceProduct " + ["spin_to_decoherence", "decoherence_to_spin"][kind], name, [17, kind] + numbers, answer, POWER_ANEW)
    on_product(kind, 13, "concatenate", SIDES + [
        ("0Z and 0X", [Z0, X0], (3, 0)), ("3X5Y and 4Z6Z", [q, two(4, 3, 6, 3)], None), ("3X5Y and 4Z5Z", [q, two(4, 3, 5, 3)], (3, 5)),
        ("3X5Y and 3Z5Z", [q, two(3, 3, 5, 3)], (3, 3)),
    ])


def moved(kind):
    q = two(3, 1, 5, 2)
    on_product(kind, 14, "remap_qubits", ALONE)
    on_product(kind, 14, "remap_qubits", [(name, [p] + targets(*moves), answer) for name, p, moves, answer in [
        ("malformed, target 31", record(1, (3, 1), (5, 0)), [(3, 31)], 0), ("malformed, targets 4 and 4", two(3, 1, 5, 4), [(3, 4), (5, 4)], 0),
        ("target 31 of a free spin", q, [(7, 31)], None), ("target 31 of spin 0", X0, [(0, 31)], (1, 31)),
        ("targets 9 and 4 each of two spins", ALL, [(1, 9), (2, 4)], (3, 4)),
        ("targets 9 and 4 each of two spins, 77", ALL, [(1, 9), (2, 4), (30, 77)], (1, 77)),
    ]])
    on_product(kind, 14, "remap_qubits", [(f"target {site}", [X3] + targets((3, site)), (1, site)) for site in FAR])
    on_product(kind, 14, "remap_qubits", [(f"targets {third} and {fifth}", [q] + targets((3, third), (5, fifth)), answer) for third, fifth, answer in [
        (30, 0, None), (31, 0, (1, 31)), (0, 31, (1, 31)), (40, 31, (1, 40)), (31, 31, (1, 31)), (7, 7, (3, 7)), (7, 8, None),
    ]])


def product_rows():
    p = two(1, 1, 3, 2)
    for name, q, spins, row, answer in [(name, bad, 31, 0, 0) for name, bad in AMISS] + [(f"{n} spins", p, n, 0, 7) for n in FAR_SPINS] + [
        ("malformed, 32 spins", BAD, 32, 0, 0), ("malformed, 4 spins, row 16", BAD, 4, 16, 0), ("malformed, 3 spins", on(3, 4), 3, 0, 0),
        ("31 spins", p, 31, 0, None), ("32 spins, row past all", p, 32, 2 ** 63, 7), ("4 spins, row 15", p, 4, 15, None), ("4 spins, row 16", p, 4, 16, 9),
        ("31 spins, row 2^31 - 1", p, 31, 2 ** 31 - 1, None), ("31 spins, row 2^31", p, 31, 2 ** 31, 9), ("31 spins, row 2^63", p, 31, 2 ** 63, 9),
        ("3 spins, row 7", p, 3, 7, (8, 3)), ("3 spins, row 8", p, 3, 8, 9), ("1 spin, row 1", p, 1, 1, (8, 3)), ("30Z, 30 spins", Z30, 30, 0, (8, 30)),
        ("empty, no spins, row 0", EMPTY, 0, 0, None), ("empty, no spins, row 1", EMPTY, 0, 1, 9),
    ]:
        case("DecoherenceProduct sparse_matrix_entries_on_row", name, [18, 1, q, spins, row], answer)
