"""Text vectors (stdin) to the flat form (stdout) that a program without strings can read; README.md describes it.
Counts of records by opcode go to stderr."""
import collections
import struct
import sys

# Question, argument forms, answer forms. The place in the list is the opcode: append only.
QUESTIONS = [
    ("P set", "pbb", "p"), ("P get", "pb", "b"), ("P mul", "pp", "pz"), ("P cat", "pp", "c"),
    ("P cmp", "pp", "s"), ("P conj", "p", "px"), ("P remap", "pm", "p"),
    ("D set", "pbb", "p"), ("D get", "pb", "b"), ("D mul", "pp", "pz"), ("D cat", "pp", "c"),
    ("D cmp", "pp", "s"), ("D conj", "p", "px"), ("D remap", "pm", "p"),
    ("toP", "p", "pz"), ("toD", "p", "pz"), ("prow", "pbr", "w"),
    ("opsP", "o", "t"), ("opsH", "o", "t"), ("opsD", "o", "t"), ("opsN", "q", "n"),
    ("mulP", "tt", "t"), ("mulH", "tt", "t"), ("mulD", "tt", "t"), ("scaleP", "txx", "t"),
    ("orowP", "tbr", "w"), ("orowH", "tbr", "w"), ("crowP", "tbr", "w"), ("crowH", "tbr", "w"), ("nrow", "nbr", "w"),
    ("scrowP", "tbrxx", "w"), ("sorowP", "tbrxx", "w"), ("row", "tnbr", "w"), ("list", "lbr", "tnw"),
    ("conjP", "t", "t"), ("conjD", "t", "t"), ("PtoD", "t", "t"), ("zmulP", "txxt", "t"), ("zopsP", "txxo", "t"),
    ("remapN", "nm", "n"),
    ("P1 mul", "bb", "bz"), ("D1 mul", "bb", "bx"), ("D1 conj", "b", "bx"), ("D1 toP", "b", "bz"), ("P1 toD", "b", "bz"),
    ("conjH", "t", "t"), ("HtoP", "t", "t"), ("zconjP", "txx", "t"), ("zPtoD", "txx", "t"),
]
OPCODES = {name: code for code, (name, _, _) in enumerate(QUESTIONS)}


def byte(text):
    return bytes([int(text)])


def number(text):
    return bytes.fromhex(text)[::-1]


def parts(text):
    re, im = text.split(":")
    return number(re) + number(im)


def product(text):
    items, site = [], ""
    for c in text.replace("I", ""):
        if c in "XYZ":
            items.append(bytes([int(site), "IXYZ".index(c)]))
            site = ""
        else:
            site += c
    return byte(len(items)) + b"".join(items)


def pair(text):
    left, right = text.split("/")
    return product(left) + product(right)


def listed(text, count, key):
    entries = [] if text == "-" else [e.split(":", 1) for e in text.split(",")]
    return struct.pack(count, len(entries)) + b"".join(key(k) + parts(x) for k, x in entries)


def terms(text):
    return listed(text, "<B", product)


def targets(text):
    return bytes(map(int, text.split(",")))


def joined(text):
    return b"\3" + byte(text[4:]) if text.startswith("no3@") else b"\0" + product(text)


def reply(text):
    return {"ok": b"\0", "free": b"\1", "no4": b"\4"}.get(text) or b"\2" + parts(text)


def call(words, key):
    verb, on, re, im = words
    return byte(["set", "add", "get"].index(verb)) + key(on) + number(re) + number(im)


def system_call(words):
    if words[0] == "F":
        left, right, re, im = words[1:]
        return b"\2" + terms(left) + terms(right) + number(re) + number(im)
    return b"\0" + call(words[1:], product) if words[0] == "H" else b"\1" + call(words[1:], pair)


def calls(text, answers, form):
    """Every call with its answer behind it."""
    both = list(zip(text.split(";"), answers.split(";"), strict=True))
    return byte(len(both)) + b"".join(form(c.split("|")) + reply(a) for c, a in both)


FORMS = {
    "p": product, "b": byte, "s": lambda text: struct.pack("<b", int(text)), "r": lambda text: struct.pack("<Q", int(text)),
    "x": number, "z": parts, "t": terms, "n": lambda text: listed(text, "<B", pair), "m": targets, "c": joined,
    "w": lambda text: listed(text, "<H", FORMS["r"]),
}
CALLS = {"o": lambda words: call(words, product), "q": lambda words: call(words, pair), "l": system_call}


def record(line):
    question, answer = (side.split() for side in line.split(" # ")[0].split(" = "))
    name = question.pop(0)
    if name not in OPCODES:
        name += " " + question.pop(0)
    _, arguments, answers = QUESTIONS[OPCODES[name]]
    body = byte(OPCODES[name])
    for form, text in zip(arguments, question, strict=True):
        body += calls(text, answer.pop(0), CALLS[form]) if form in CALLS else FORMS[form](text)
    for form, text in zip(answers, answer, strict=True):
        body += FORMS[form](text)
    return name, struct.pack("<H", len(body)) + body


def main():
    count, size = collections.Counter(), 0
    for line in sys.stdin:
        name, packed = record(line.rstrip("\n"))
        count[name] += 1
        size += len(packed)
        sys.stdout.buffer.write(packed)
    for code, (name, _, _) in enumerate(QUESTIONS):
        print(f"{code:3} {name:8} {count[name]:6}", file=sys.stderr)
    print(f"{count.total()} records, {size} bytes", file=sys.stderr)


main()
