#!/usr/bin/env python3
"""Brings the definitions and lemmas of this repository to the spelling of the standard library.

usage: python3 tools/respell.py [--table] [FOLDER]      FOLDER is the top of the repository (default: this one)

Words are in snake case; a dash stays where it joins the names of two definitions. Types and modules keep upper camel case. What turns is what is declared in
crates/*/specs/*.antt and crates/*/proofs/*.antt: definitions, lemmas, fields, constructors and helpers, wherever .antt files, clauses, must-fail edits and
comments' code spans name them. Functions of src/, strings and what is printed keep their names. --table prints the names, writes nothing.
It names on lines 'falls together:' each two names that would become one. It was run once, on the commit before the one that brought it.
"""

import glob
import os
import re
import sys

WORD = re.compile(r"[^\s(){}.;,@\"«»\[\]\\`:=]+")
DECLARED = re.compile(r"^\s*(?:(?:abbrev|unfoldable|pub|data|record|ruleset|private) )*([^\s:(){},;.]+) (?:[({].*?[)}] )*:\s")
# words of the standard library that lemma names join
STD = "length map filter take drop reverse replicate get_or".split()
# lemmas that would fall together with a definition, everywhere or in one file
BY_HAND = {"has_room": "has_room_lem", "held_by": "held_by_lem", "on_line": "on_line_lem"}
IN_FILES = {
    "exact_rows/proofs/ExactWritingLaws.antt": {"all_small": "all_small_lem"},
    "exact_sums/proofs/ExactLaws.antt": {"all_small": "all_small_lem"},
    "chains/proofs/ValidAnswers.antt": {"convert_answer": "convert_answer_lem"},
}


def snake(word):
    """camelCase to camel_case; a capital that stands for itself (a letter such as Y, X or G) stays behind its underscore."""
    word = re.sub(r"(?<=[a-z0-9])([A-Z])(?=[a-z])", lambda m: "_" + m[1].lower(), word)
    return re.sub(r"(?<=[a-z0-9])([A-Z])", lambda m: "_" + m[1], word)


def one_case(part):
    return part if part[0].isupper() or part[0] in "ΣΠℤℕ" or part == "iY" or re.match(r"iY\d", part) else snake(part)


def known_names(root):
    found = set(STD)
    for f in glob.glob(os.path.join(root, "crates/*/specs/*.antt")):
        for line in open(f, encoding="utf-8"):
            m = re.match(r"(?:abbrev|unfoldable|pub| )+ ([^\s:(){},;.]+) :", line)
            if m and not m[1][0].isupper():
                found.add(one_case(m[1].replace("-", "_")))
    return found


def joined(name, known):
    """Groups the words into the longest known names; a dash stays between two of these, and before a symbol."""
    parts = [one_case(p) if p else "" for p in name.split("-")]
    if "" in parts:
        return name
    groups, i = [], 0
    while i < len(parts):
        k = next((k for k in range(len(parts), i, -1) if "_".join(parts[i:k]) in known), 0)
        groups.append(("_".join(parts[i : k or i + 1]), bool(k)))
        i = k or i + 1
    out, before = groups[0]
    for word, is_known in groups[1:]:
        out += ("-" if before and is_known else "_") + word
        before = is_known
    return out


def table(root):
    known = known_names(root)
    rows, all_names = {}, {}
    files = glob.glob(os.path.join(root, "crates/*/specs/*.antt")) + glob.glob(os.path.join(root, "crates/*/proofs/*.antt"))
    for f in sorted(files):
        for line in open(f, encoding="utf-8"):
            m = DECLARED.match(line)
            if m and not line.lstrip().startswith("--"):
                name = m[1]
                all_names.setdefault(name, f)
                if "-" in name or re.search(r"[a-z0-9][A-Z]", name):
                    new = joined(name, known)
                    if new != name:
                        rows[name] = new
    taken = {new: old for old, new in rows.items() if "-" not in old}
    for old, new in rows.items():
        if "-" in old and (new in taken or new in all_names):
            rows[old] = new + "_lem"
    return {**rows, **BY_HAND}, all_names


def turn(text, rows):
    return WORD.sub(lambda m: rows.get(m[0], m[0]), text)


def spans(text, rows):
    return re.sub(r"`([^`\n]*)`", lambda m: "`" + turn(m[1], rows) + "`", text)


def turn_antt(text, rows):
    out = []
    for line in text.split("\n"):
        at = re.search(r"(?:^|\s)--(?=\s|$)", line)
        code, comment = (line[: at.start()], line[at.start() :]) if at else (line, "")
        out.append(turn(code, rows) + spans(comment, rows))
    return "\n".join(out)


def turn_rt(text, rows):
    """Clauses and ghost items alone, and comments' code spans."""
    out, depth = [], 0
    for line in text.split("\n"):
        bare = line.lstrip()
        if bare.startswith("//"):
            out.append(spans(line, rows))
        elif depth > 0 or bare.startswith(("ghost ", "requires ", "ensures ", "requires* ", "ensures* ")):
            out.append(turn(line, rows))
            depth += line.count("{") - line.count("}")
        else:
            out.append(line)
    return "\n".join(out)


def turn_edit(text, rows):
    out, antt = [], False
    for line in text.split("\n"):
        if line.startswith("file:"):
            antt = line.endswith(".antt")
        if line.startswith(("old:", "new:")):
            head, rest = line[:4], line[4:]
            ghost = antt or re.match(r"\s*(ghost|requires|ensures)\b", rest) or re.search(r"[a-z][A-Z]|[◌≡]", rest)
            out.append(head + (turn(rest, rows) if ghost else rest))
        else:
            out.append(spans(line, rows))
    return "\n".join(out)


def main(argv):
    only_table = "--table" in argv
    argv = [a for a in argv if a != "--table"]
    root = argv[0] if argv else os.path.join(os.path.dirname(os.path.abspath(__file__)), "..")
    rows, names = table(root)
    back = {}
    for old, new in rows.items():
        back.setdefault(new, []).append(old)
    for new, olds in sorted(back.items()):
        if len(olds) > 1 or new in names:
            print("falls together:", new, *olds, names.get(new, ""))
    if only_table:
        for old in sorted(rows):
            print(old, rows[old], sep="\t")
        return 0
    for pattern, how in (("**/*.antt", turn_antt), ("src/**/*.rt", turn_rt), ("must-fail/*.edit", turn_edit)):
        for f in sorted(glob.glob(os.path.join(root, "crates/*", pattern), recursive=True)):
            if "/out/" in f:
                continue
            with open(f, encoding="utf-8") as it:
                old = it.read()
            here = next((more for end, more in IN_FILES.items() if f.endswith(end)), {})
            new = how(old, {**rows, **here})
            if new != old:
                with open(f, "w", encoding="utf-8") as it:
                    it.write(new)
    return 0


if __name__ == "__main__":
    raise SystemExit(main(sys.argv[1:]))
