#!/usr/bin/env python3
"""Counts, in crates/*/src, the places that docs/DESIGN-PASS.md goes through, point by point; with -v lists them.

    python3 tools/places.py [-v]
"""
import collections
import glob
import re
import sys

VERBOSE = "-v" in sys.argv
FILES = {f: open(f).read() for f in sorted(glob.glob("crates/*/src/**/*.rt", recursive=True))}


def tell(point, name, found):
    print(f"{point}  {len(found):4}  {name}")
    if VERBOSE:
        for it in found:
            print(f"          {it}")


def code(text):
    """The text without comments, clauses and test modules."""
    text = re.sub(r"//[^\n]*", "", text)
    return re.sub(r"^\s*(requires|ensures|ghost)\b[^\n]*\n", "", text, flags=re.M)


def lines(pattern, what=code):
    found = []
    for f, text in FILES.items():
        for m in re.finditer(pattern, what(text), flags=re.M):
            found.append(f"{f}: {' '.join(m.group(0).split())}")
    return found


def items(word):
    """Each enum or struct with its body."""
    for f, text in FILES.items():
        for m in re.finditer(rf"\b{word} (\w+)[^\n{{;]*\{{\n(.*?)\n\}}", code(text), flags=re.S):
            yield f, m.group(1), m.group(2)


def functions():
    for f, text in FILES.items():
        text = code(text)
        for m in re.finditer(r"\bfn (\w+)(<[^>]*>)?\(", text):
            depth, i = 0, m.end() - 1
            while True:
                depth += {"(": 1, ")": -1}.get(text[i], 0)
                i += 1
                if depth == 0:
                    break
            params = text[m.end() : i - 1]
            start = text.find("{", i)
            end = text.find(";", i)
            if start < 0 or 0 <= end < start:
                continue
            depth, j = 0, start
            while True:
                depth += {"{": 1, "}": -1}.get(text[j], 0)
                j += 1
                if depth == 0:
                    break
            yield f, m.group(1), params, text[i:start], text[start:j]


def shape(text):
    """A function's text with types, names that begin in capitals, paths and numbers left open, and other names numbered in order."""
    names = {}
    out = []
    for word in re.findall(r"\w+|[^\w\s]", text):
        if re.fullmatch(r"(let|mut|if|else|while|for|in|match|return|true|false|self|fn|as|break|continue)", word):
            out.append(word)
        elif re.fullmatch(r"\d\w*", word) or re.fullmatch(r"[ui](8|16|32|64|size)|f64|bool|[A-Z]\w*", word):
            out.append("T")
        elif re.fullmatch(r"\w+", word):
            out.append(names.setdefault(word, f"n{len(names)}"))
        else:
            out.append(word)
    return " ".join(out)


# 1
given_or_not = []
for f, name, body in items("enum"):
    cases = re.findall(r"^\s*(\w+)(\([^)]*\))?,", body, flags=re.M)
    whole = [c for c, held in cases]
    if any(re.search(r"Refusal", held) for c, held in cases) or any(
        c in ("Nothing", "Free", "WasFree", "NotWhole", "None", "Absent", "Missing", "End") for c in whole
    ):
        given_or_not.append(f"{f}: enum {name}")
    elif whole in (["Less", "Equal", "Greater"],):
        given_or_not.append(f"{f}: enum {name} (std's Ordering)")
tell(1, "own enums of the shape of Option, Result or Ordering", given_or_not)
beside = []
for f, name, body in items("struct"):
    flag = re.search(r"^\s*(?:pub(?:\(crate\))? )?(outcome|answer|valid|room|good|ok|found|known|is_\w+|has_\w+|\w+): (bool|Outcome|SetAnswer)\b", body, flags=re.M)
    if flag:
        beside.append(f"{f}: struct {name} ({flag.group(1)})")
tell(1, "records with a flag or an outcome beside a value", beside)
# 2
groups = collections.defaultdict(list)
for f, name, params, result, body in functions():
    if len(body.split()) > 8:
        groups[shape(params + result + body)].append(f"{f}: fn {name}")
tell(2, "functions that differ from another only in types, names and constants", [it for g in groups.values() if len(g) > 1 for it in g])
groups = collections.defaultdict(list)
for f, name, body in items("struct"):
    groups[" ".join(re.findall(r"^\s*(?:pub(?:\(crate\))? )?(\w+):", body, flags=re.M))].append(f"{f}: struct {name}")
tell(2, "structs whose fields have the names of another's", [it for g in groups.values() if len(g) > 1 for it in g])
# 3
tell(3, "loops that count by hand (while)", lines(r"^\s*while [^\n]*"))
# 4
tell(4, "equality, order or copying by hand", [f"{f}: fn {n}" for f, n, p, r, b in functions() if re.search(r"^same|_same$|^eq$|^compare|^is_(same|equal)", n) and "bool" in r + n or n.startswith("compare")])
tell(4, "conversions by hand", lines(r"\b\w+(?:\.\w+|\([^()]*\))* as (?:u8|u16|u32|u64|usize|i64|f64)\b") + [f"{f}: fn {n}" for f, n, p, r, b in functions() if n in ("wide", "narrow", "small")])
tell(4, "printing by hand", lines(r"io::(write_all|print_decimal)\([^\n]*"))
# 5
together = collections.defaultdict(set)
for f, name, params, result, body in functions():
    ps = [" ".join(p.split()) for p in re.split(r",(?![^\[<(]*[\]>)])", params) if p.strip()]
    ps = [re.sub(r"^(c_|n_|out_|src_|dst_|a_|b_)", "", p) for p in ps]
    for k in range(len(ps) - 2):
        together[tuple(ps[k : k + 3])].add(f"{f}: fn {name}")
travelling = sorted({it for g in together.values() if len(g) > 2 for it in g})
tell(5, "functions with three parameters that stand together in three or more", travelling)
facts = collections.defaultdict(set)
for f, text in FILES.items():
    for m in re.finditer(r"\bfn (\w+)[^{};]*?\n\s*requires \{([^\n]*)\}\n", text):
        for fact in re.split(r" × ", m.group(2)):
            fact = re.sub(r"\b(p|q|s|t|l|r|self|sites|left|right|a|b)\b", "_", fact.strip(" ()"))
            facts[fact].add(f"{f}: fn {m.group(1)}")
tell(5, "functions that require a fact that three or more require", sorted({it for g in facts.values() if len(g) > 2 for it in g}))
# 6
tell(6, "records with a count beside arrays", [f"{f}: struct {n}" for f, n, b in items("struct") if re.search(r"count: usize", b) and re.search(r": \[", b)])
tell(6, "parallel arrays among parameters", [f"{f}: fn {n}" for f, n, p, r, b in functions() if len(re.findall(r": &(?:mut )?\[", p)) > 1])
# 7
tell(7, "switches on a number or an enum that says which step to run", lines(r"match \w+\[\d\] \{|match (change|kind|part|step) \{"))
