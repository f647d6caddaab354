#!/usr/bin/env python3
"""report.py DOCS TIMES.csv..: writes the tables of DOCS/SPEED.md, between its marks, and DOCS/speed.svg, from the medians of the runs."""
import math
import re
import statistics
import sys

WIDTH, HEIGHT, MARGIN = 420, 300, 60
COLOURS = ["#1f5fa8", "#c0392b", "#2e7d32", "#b26a00"]


def read(paths):
    """(group, name, x, ns of the Rust or None, ns of ours), each the median of the runs"""
    runs = {}
    for path in paths:
        for line in open(path, encoding="utf-8"):
            group, name, x, rust, ours = line.strip().split(",")
            rust_times, our_times = runs.setdefault((group, name, int(x)), ([], []))
            rust_times.extend([float(rust)] if rust else [])
            our_times.append(float(ours))
    return [(*case, statistics.median(rusts) if rusts else None, statistics.median(ours)) for case, (rusts, ours) in runs.items()]


def time(ns):
    if ns is None:
        return ""
    return f"{ns:.0f} ns" if ns < 1000 else f"{ns / 1000:.1f} µs"


def tick(ns):
    """a power of ten"""
    return f"{ns:.0f} ns" if ns < 1e3 else f"{ns / 1e3:.0f} µs" if ns < 1e6 else f"{ns / 1e6:.0f} ms"


def ratio(rust, ours):
    """how many times faster ours is"""
    return "" if rust is None else f"{rust / ours:.2f}"


def cases(lines):
    """a call's lines together, in the order of first lines"""
    rows = ["| call | input | Rust | here | Rust / here |", "|---|---|---|---|---|"]
    calls, inputs = [line[0] for line in lines], [line[:2] for line in lines]
    for group, name, x, rust, ours in sorted(lines, key=lambda line: (calls.index(line[0]), inputs.index(line[:2]))):
        if not group.startswith("growth"):
            sites = f"; {x} sites" if x else ""
            rows.append(f"| {group} | {name}{sites} | {time(rust)} | {time(ours)} | {ratio(rust, ours)} |")
    return "\n".join(rows)


def growth(lines):
    rows = ["| what grows | input | at | Rust | here | Rust / here |", "|---|---|---|---|---|---|"]
    for group, name, x, rust, ours in lines:
        if group.startswith("growth"):
            rows.append(f"| {group} | {name} | {x} | {time(rust)} | {time(ours)} | {ratio(rust, ours)} |")
    return "\n".join(rows)


def panel(left, top, title, axis, series):
    """one plot, both axes logarithmic"""
    points = [p for _, values in series for p in values]
    xs, ys = [math.log10(x) for x, _ in points], [math.log10(y) for _, y in points]
    x0, x1, y0, y1 = min(xs), max(xs), math.floor(min(ys)), math.ceil(max(ys))
    place = lambda x, y: (
        left + MARGIN + (math.log10(x) - x0) / (x1 - x0) * (WIDTH - 2 * MARGIN),
        top + HEIGHT - MARGIN - (math.log10(y) - y0) / (y1 - y0) * (HEIGHT - 2 * MARGIN),
    )
    out = [f'<text x="{left + WIDTH / 2}" y="{top + 24}" text-anchor="middle" font-weight="bold">{title}</text>']
    out.append(f'<text x="{left + WIDTH / 2}" y="{top + HEIGHT - 14}" text-anchor="middle">{axis}</text>')
    for k in range(y0, y1 + 1):
        _, y = place(10**x0, 10**k)
        out.append(f'<line x1="{left + MARGIN}" y1="{y:.1f}" x2="{left + WIDTH - MARGIN}" y2="{y:.1f}" stroke="#ddd"/>')
        out.append(f'<text x="{left + MARGIN - 6}" y="{y + 4:.1f}" text-anchor="end">{tick(10.0**k)}</text>')
    for x in sorted({x for x, _ in points}):
        at, y = place(x, 10**y0)
        out.append(f'<text x="{at:.1f}" y="{y + 16:.1f}" text-anchor="middle">{x}</text>')
    for i, (name, values) in enumerate(series):
        colour, dash = COLOURS[i // 2], "" if i % 2 else ' stroke-dasharray="5 4"'
        line = " ".join("{:.1f},{:.1f}".format(*place(x, y)) for x, y in values)
        out.append(f'<polyline points="{line}" fill="none" stroke="{colour}" stroke-width="2"{dash}/>')
        out.append(f'<text x="{left + MARGIN + 8}" y="{top + 46 + 14 * i}" fill="{colour}">{"—" if i % 2 else "- -"} {name}</text>')
    return "\n".join(out)


def plot(lines):
    panels = [
        ("growth with terms", "Open-system row", "Hamiltonian terms, and as many pairs"),
        ("growth with sites", "Open-system row", "most sites of a product"),
        ("growth with n", "Open-system row", "spins"),
        ("growth of products", "Product times product", "sites on each side"),
    ]
    out = [
        f'<svg xmlns="http://www.w3.org/2000/svg" width="{2 * WIDTH}" height="{2 * HEIGHT}" font-family="sans-serif" font-size="11">',
        '<rect width="100%" height="100%" fill="white"/>',
    ]
    for i, (group, title, axis) in enumerate(panels):
        series = []
        for name in dict.fromkeys(l[1] for l in lines if l[0] == group):
            mine = [l for l in lines if l[:2] == (group, name)]
            series.append((f"Rust, {name}", [(l[2], l[3]) for l in mine]))
            series.append((f"here, {name}", [(l[2], l[4]) for l in mine]))
        out.append(panel(i % 2 * WIDTH, i // 2 * HEIGHT, title, axis, series))
    return "\n".join(out + ["</svg>", ""])


def main():
    docs, lines = sys.argv[1], read(sys.argv[2:])
    text = open(f"{docs}/SPEED.md", encoding="utf-8").read()
    for mark, table in (("cases", cases(lines)), ("growth", growth(lines))):
        text = re.sub(f"(<!-- {mark} -->\n).*?(<!-- end -->)", lambda m: m[1] + table + "\n" + m[2], text, flags=re.S)
    open(f"{docs}/SPEED.md", "w", encoding="utf-8").write(text)
    open(f"{docs}/speed.svg", "w", encoding="utf-8").write(plot(lines))


main()
