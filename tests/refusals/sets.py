"""Sets handed in; `get`, `set` and `add_operator_product`."""
from forms import *

# ---- sets handed in

KINDS = ["PauliOperator", "DecoherenceOperator", "PauliHamiltonian", "PauliLindbladNoiseOperator"]
NOISE = KINDS[3]
ENTRIES = ["get", "set", "add_operator_product"]
MULTIPLY = [
    (30, 0, "PauliOperator multiply", BEFORE), (31, 1, "DecoherenceOperator multiply", BEFORE), (32, 2, "PauliOperator from_hamiltonians", ANEW),
]
CHANGED = [
    (33, 0, "PauliOperator hermitian_conjugate", BEFORE), (34, 1, "DecoherenceOperator hermitian_conjugate", BEFORE),
    (35, 2, "PauliHamiltonian hermitian_conjugate", BEFORE), (36, 2, "PauliOperator from_hamiltonian", ANEW),
    (37, 0, "DecoherenceOperator from_pauli_operator", ANEW),
]
FULL_OPERATORS, REMAP, GROUP = NOISE + " add_noise_from_full_operators", NOISE + " remap_qubits", "PauliLindbladOpenSystem group"
ROWS = ["operator_row", "commutator_row", "hamiltonian_row", "hamiltonian_commutator_row", "noise_row", "row", "exact_row"]
WIDE = [31, 0, 324, 324, 324]


def takers():
    """Entries that take a set, but for rows: the entry, which of its sets, that set's kind, the numbers before it and after it, what stands beside a refusal."""
    for entry in range(3):
        beside = BEFORE if entry else ""
        for kind in range(3):
            yield f"{KINDS[kind]} {ENTRIES[entry]}", "", kind, [20 + entry, kind], [X0, ONE], beside
        yield f"{NOISE} {ENTRIES[entry]}", "", 3, [40 + entry], [X0, X0, ONE], beside
    for code, kind, entry, beside in MULTIPLY:
        yield entry, "left, ", kind, [code], IDENTITY, beside
        yield entry, "right, ", kind, [code] + IDENTITY, [], beside
    for code, kind, entry, beside in CHANGED:
        yield entry, "", kind, [code], [], beside
    yield "PauliOperator scale", "", 0, [38], [ONE], BEFORE
    yield FULL_OPERATORS, "noise, ", 3, [43], S + S + [ONE], BEFORE
    yield FULL_OPERATORS, "left, ", 1, [43] + NONE + NONE, S + [ONE], BEFORE
    yield FULL_OPERATORS, "right, ", 1, [43] + NONE + NONE + S, [ONE], BEFORE
    yield REMAP, "", 3, [44], [], BEFORE
    yield GROUP, "noise, ", 3, [45], S, BEFORE
    yield GROUP, "Hamiltonian, ", 2, [45] + S + S, [], BEFORE


def row_takers():
    for code, kind in enumerate([0, 0, 2, 2]):
        yield ROWS[code], "", kind, [50 + code], NONE + NONE + WIDE, BUFFERS
    yield ROWS[4], "", 3, [54] + NONE, WIDE, BUFFERS
    for code in (5, 6):
        yield ROWS[code], "Hamiltonian, ", 2, [50 + code], NONE + NONE + WIDE, BUFFERS
        yield ROWS[code], "noise, ", 3, [50 + code] + NONE, WIDE, BUFFERS


def sound(kind):
    """Sets just inside the limits of number 0."""
    yield "one term", S
    yield "two keys", second(Y0, ONE)
    yield "64 terms", FULL
    yield "64 terms of 2^300", full(LIMIT, LIMIT)
    yield "64 terms of -2^300", full(MINUS_LIMIT, MINUS_LIMIT)
    if kind != 2:
        yield "64 terms of 2^300 - 2^300 i", full(LIMIT + MINUS_LIMIT * I, LIMIT + MINUS_LIMIT * I)
        yield "i held", one(ONE * I)
    if kind != 3:
        yield "the empty product held", second(EMPTY, ONE)
    if kind == 0:
        yield "0 held", second(Y0, ZERO)
        yield "-0 held", second(Y0, MINUS_ZERO + MINUS_ZERO * I)


def unsound(kind):
    """Sets by each clause of number 0, but for those on products."""
    yield "count 65", terms(65, fill=64)
    yield "count 2^32 + 1", terms(2 ** 32 + 1, fill=1)
    yield "63 of 64 terms", terms(63, fill=64)
    yield "a key twice", TWICE
    yield "a key twice, at places 0 and 63", FULL_TWICE
    yield "a key twice, at places 62 and 63", full(key=Z0)
    yield "the empty product twice", terms(2)
    for name, part, answer in parts_of(kind):
        if answer == 5:
            yield f"{name} held", second(Y0, part)
    yield "over 2^300 held first", second(Y0, ONE, value=OVER)
    if kind == 3:
        yield "the empty product held", second(EMPTY, ONE)
    if kind != 0:
        yield "0 held", second(Y0, ZERO)
        yield "-0 held", second(Y0, MINUS_ZERO + MINUS_ZERO * I)
    past = [("a key", X1, ZERO), ("1", EMPTY, ONE), ("-0", EMPTY, MINUS_ZERO)]
    if kind != 2:
        past += [("i", EMPTY, ONE * I), ("-0 i", EMPTY, MINUS_ZERO * I)]
    for name, key, coefficient in past:
        yield f"{name} past the count", second(key, coefficient, 1)
        yield f"{name} in the last place", terms(1, fill=1, at=63, key=key, coefficient=coefficient)


def handed():
    """Every set just inside number 0 accepted, every set outside it refused, wherever a set is handed in."""
    for entry, which, kind, before, after, beside in takers():
        for name, s in sound(kind):
            case(entry, which + name, before + (s + s if kind == 3 else s) + after, None)
        if kind == 3:
            case(entry, which + "two pairs with one left side", before + TWICE + BOTH + after, None)
            case(entry, which + "two pairs with one right side", before + BOTH + TWICE + after, None)
    for entry, which, kind, before, after, beside in [*takers(), *row_takers()]:
        for name, s in unsound(kind):
            case(entry, which + name, before + (s + s if kind == 3 else s) + after, 0, beside)


# ---- get, set and add_operator_product

def on_set(kind, entry, name, s, key, value, answer):
    """get, set, add: 0, 1, 2. The pairs of noise are those of each product with itself."""
    if kind == 3:
        return on_pairs(entry, name, s, s, key, key, value, answer)
    case(f"{KINDS[kind]} {ENTRIES[entry]}", name, [20 + entry, kind] + s + [key, value], answer, BEFORE if entry else "")


def on_pairs(entry, name, left, right, l, r, value, answer):
    case(f"{NOISE} {ENTRIES[entry]}", name, [40 + entry] + left + right + [l, r, value], answer, BEFORE if entry else "")


def products_in_sets(kind):
    """Every clause of number 0 on products, held in a set and handed in as a key."""
    for entry in range(3):
        for name, p in AMISS:
            if kind < 3:
                on_set(kind, entry, f"{name} held", second(p, ONE), X0, ONE, 0)
                on_set(kind, entry, f"{name} in the key", S, p, ONE, 0)
            else:
                on_pairs(entry, f"{name} held left", second(p, ONE), BOTH, X0, X0, ONE, 0)
                on_pairs(entry, f"{name} held right", BOTH, second(p, ONE), X0, X0, ONE, 0)
                on_pairs(entry, f"{name} in the left key", S, S, p, X0, ONE, 0)
                on_pairs(entry, f"{name} in the right key", S, S, X0, p, ONE, 0)


def sets(kind):
    for entry in (1, 2):
        for name, value, answer in parts_of(kind):
            on_set(kind, entry, f"a new key, {name}", S, Y0, value, answer)
            on_set(kind, entry, f"a key that is there, {name}", one(HALF), X0, value, answer)
        on_set(kind, entry, "malformed set, NaN", TWICE, X0, NAN, 0)
        on_set(kind, entry, "malformed key, NaN", S, BAD, NAN, 0)
        on_set(kind, entry, "63 terms, a new key", FULL_BUT_ONE, Z30, ONE, None)
        on_set(kind, entry, "64 terms, malformed, a new key", FULL_TWICE, Z30, ONE, 0)
        for name, key, value, answer in [
            ("a new key", Z30, ONE, 6), ("a new key, 2^-600", Z30, TINY, 6), ("a malformed key", BAD, ONE, 0), ("a new key, NaN", Z30, NAN, 5),
            ("the first key", X0, ONE, None), ("the last key", Z1, ONE, None), ("a new key, 0", Z30, ZERO, None), ("a new key, -0", Z30, MINUS_ZERO, None),
            ("the last key, 0", Z1, ZERO, None), ("the last key, -1", Z1, MINUS, None),
        ]:
            on_set(kind, entry, f"64 terms, {name}", FULL, key, value, answer)
        if kind != 2:
            on_set(kind, entry, "64 terms, a new key, i", FULL, Z30, ONE * I, 6)
            on_set(kind, entry, "64 terms, a new key, NaN i", FULL, Z30, NAN * I, 5)
            on_set(kind, entry, "64 terms, a new key, -0 - 0 i", FULL, Z30, MINUS_ZERO + MINUS_ZERO * I, None)


# what is held, what is added: number 5 for the sum, and just inside it
REAL_SUMS = [
    ("2^299 and 2^299", HALF_LIMIT, HALF_LIMIT, None), ("2^300 and 2^200", LIMIT, LARGE, None), ("2^300 and 2^248", LIMIT, GAP, 5),
    ("2^300 and 2^300", LIMIT, LIMIT, 5), ("-2^300 and -2^200", MINUS_LIMIT, MINUS_LARGE, None), ("-2^300 and -2^248", MINUS_LIMIT, MINUS_GAP, 5),
    ("-2^300 and 2^300", MINUS_LIMIT, LIMIT, None),
]
SUMS = REAL_SUMS + [(f"{name}, times i", held * I, more * I, answer) for name, held, more, answer in REAL_SUMS]


def sums_of(kind):
    return REAL_SUMS if kind == 2 else SUMS


def added(kind):
    for name, held, more, answer in sums_of(kind):
        on_set(kind, 2, name, one(held), X0, more, answer)
    on_set(kind, 2, "-2^300 and over 2^300", one(MINUS_LIMIT), X0, OVER, 5)
    on_set(kind, 2, "64 terms, the last 2^300 and 2^248", full(ONE, LIMIT), Z1, GAP, 5)
    if kind != 2:
        on_set(kind, 2, "-2^300 i and over 2^300 i", one(MINUS_LIMIT * I), X0, OVER * I, 5)
