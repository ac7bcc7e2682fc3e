#!/usr/bin/env python3
"""plot.py CSV FOLDER: draws FOLDER/ratios.svg and FOLDER/growth.svg from what the driver wrote."""
import csv
import math
import sys
from pathlib import Path

COLOURS = {2: "#9ecae1", 10: "#4292c6", 16: "#807dba", 40: "#e6550d", 128: "#7f2704"}
KINDS = ["sparse", "dense", "commuting"]
SIDES = [("ours_us", "this library", "#7f2704"), ("theirs_us", "Rust original", "#4292c6")]
ROW = 30
LEFT, PANEL, GAP, TOP = 250, 290, 64, 96


def text(x, y, words, size=12, anchor="start", more=""):
    return f'<text x="{x:.1f}" y="{y:.1f}" font-size="{size}" text-anchor="{anchor}" {more}>{words}</text>'


def line(x1, y1, x2, y2, colour="#ccc", width=1.0):
    return f'<line x1="{x1:.1f}" y1="{y1:.1f}" x2="{x2:.1f}" y2="{y2:.1f}" stroke="{colour}" stroke-width="{width}"/>'


def mark(kind, x, y, colour):
    """A disc for sparse, a square for dense, a triangle for commuting lists."""
    style = f'fill="{colour}" stroke="#333" stroke-width="0.5"'
    if kind == "sparse":
        return f'<circle cx="{x:.1f}" cy="{y:.1f}" r="3.6" {style}/>'
    if kind == "dense":
        return f'<rect x="{x - 3.3:.1f}" y="{y - 3.3:.1f}" width="6.6" height="6.6" {style}/>'
    points = f"{x:.1f},{y - 4.2:.1f} {x - 4:.1f},{y + 3.2:.1f} {x + 4:.1f},{y + 3.2:.1f}"
    return f'<polygon points="{points}" {style}/>'


def scale(low, high, start, end):
    """A function from values to places on a logarithmic axis."""
    a, b = math.log10(low), math.log10(high)
    return lambda value: start + (end - start) * (math.log10(value) - a) / (b - a)


def ticks(low, high):
    """1, 2 and 5 times powers of ten within the range; powers of ten alone where the range is wide."""
    steps = (1, 2, 5) if math.log10(high / low) < 3.4 else (1,)
    powers = range(math.floor(math.log10(low)), math.ceil(math.log10(high)) + 1)
    return [s * 10.0**p for p in powers for s in steps if low <= s * 10.0**p <= high]


def svg(width, height, parts):
    head = f'<svg xmlns="http://www.w3.org/2000/svg" viewBox="0 0 {width:.0f} {height:.0f}" width="{width:.0f}" height="{height:.0f}" '
    body = "\n".join(parts)
    return f'{head}font-family="sans-serif">\n<rect width="100%" height="100%" fill="white"/>\n{body}\n</svg>\n'


def title(row):
    return row["call"] + (", " + row["case"] if row["case"] else "")


def once(values):
    return list(dict.fromkeys(values))


def legend(generators):
    parts = [text(LEFT, 44, "generators:")]
    x = LEFT + 84
    for count in generators:
        parts += [f'<rect x="{x}" y="34" width="12" height="12" fill="{COLOURS[count]}"/>', text(x + 17, 44, count)]
        x += 58
    x += 30
    for kind in KINDS:
        parts += [mark(kind, x, 40, "#bbb"), text(x + 10, 44, kind)]
        x += 92
    return parts


def column(row):
    """The panel of a row: the most qubits of a centralizer stand beside the most of the other calls."""
    return 128 if row["qubits"] == "63" else int(row["qubits"])


def panel(rows, names, qubits, start, span):
    """The marks of one number of qubits, a line of marks for each call and kind."""
    at = scale(*span, start, start + PANEL)
    bottom = TOP + ROW * len(names)
    more = "".join(f", centralizers {count}" for count in sorted({int(row["qubits"]) for row in rows} - {qubits}))
    parts = [text(start + PANEL / 2, TOP - 26, f"{qubits} qubits{more}", 13, "middle", 'font-weight="bold"')]
    for value in ticks(*span):
        parts += [line(at(value), TOP, at(value), bottom, "#e4e4e4"), text(at(value), TOP - 8, f"{value:g}", 11, "middle")]
    parts.append(line(at(1), TOP, at(1), bottom, "#000", 1.4))
    for row in rows:
        y = TOP + ROW * names.index(title(row)) + ROW * (0.22 + 0.28 * KINDS.index(row["kind"]))
        colour = COLOURS[int(row["generators"])]
        parts.append(line(at(float(row["low"])), y, at(float(row["high"])), y, "#333", 0.8))
        parts.append(mark(row["kind"], at(float(row["ratio"])), y, colour))
    return parts


def ratios(rows):
    names = once(title(row) for row in rows)
    values = [float(row[key]) for row in rows for key in ("ratio", "low", "high")]
    span = (min(0.5, min(values) * 0.9), max(values) * 1.15)
    qubits = sorted({column(row) for row in rows})
    width = LEFT + len(qubits) * (PANEL + GAP)
    parts = [text(LEFT, 20, "Time of the Rust original / time of this library (right of the black line: this library is faster)", 14)]
    parts += legend(sorted({int(row["generators"]) for row in rows}))
    for i, name in enumerate(names):
        y = TOP + ROW * i
        if i % 2 == 0:
            parts.append(f'<rect x="0" y="{y}" width="{width - GAP + 8}" height="{ROW}" fill="#f6f6f6"/>')
        parts.append(text(LEFT - 12, y + ROW / 2 + 4, name, 12, "end"))
    for i, count in enumerate(qubits):
        part = [row for row in rows if column(row) == count]
        parts += panel(part, names, count, LEFT + i * (PANEL + GAP), span)
    return svg(width, TOP + ROW * len(names) + 16, parts)


def curves(rows, name, start, span, wide):
    """Cost of either side by generators, as a multiple of its own cost at the fewest."""
    width, height, top = 300, 300, 70
    across, up = scale(*wide, start, start + width), scale(*span, top + height, top)
    parts = [text(start + width / 2, top - 12, name, 13, "middle", 'font-weight="bold"')]
    for value in ticks(*span):
        y = up(value)
        parts += [line(start, y, start + width, y, "#e4e4e4"), text(start - 6, y + 4, f"{value:g}", 11, "end")]
    for value in (1, 2, 4, 8, 16, 32, 64, 128):
        x = across(value)
        parts += [line(x, top, x, top + height, "#eee"), text(x, top + height + 16, value, 11, "middle")]
    parts.append(text(start + width / 2, top + height + 34, "generators", 12, "middle"))
    for key, _, colour in SIDES:
        first = float(rows[0][key])
        places = [(across(int(row["generators"])), up(float(row[key]) / first)) for row in rows]
        path = " ".join(f"{x:.1f},{y:.1f}" for x, y in places)
        parts.append(f'<polyline points="{path}" fill="none" stroke="{colour}" stroke-width="1.8"/>')
        parts += [f'<circle cx="{x:.1f}" cy="{y:.1f}" r="3" fill="{colour}"/>' for x, y in places]
    return parts


def growth(rows):
    names = once(title(row) for row in rows)
    groups = [[row for row in rows if title(row) == name] for name in names]
    highest = max(float(row[key]) / float(group[0][key]) for group in groups for row in group for key, _, _ in SIDES)
    parts = [text(60, 22, "Cost by number of generators, dense on 128 qubits, as a multiple of the cost at the fewest", 14)]
    for i, (_, words, colour) in enumerate(SIDES):
        x = 720 + 130 * i
        parts += [line(x, 18, x + 24, 18, colour, 2.5), text(x + 30, 22, words)]
    for i, (name, group) in enumerate(zip(names, groups)):
        parts += curves(group, name, 60 + 360 * i, (0.8, highest * 1.3), (0.9, 140))
    return svg(60 + 360 * len(names) - 30, 420, parts)


def main():
    source, folder = Path(sys.argv[1]), Path(sys.argv[2])
    rows = list(csv.DictReader(source.open()))
    for section, draw, name in (("calls", ratios, "ratios.svg"), ("growth", growth, "growth.svg")):
        part = [row for row in rows if row["section"] == section]
        if part:
            (folder / name).write_text(draw(part))


main()
