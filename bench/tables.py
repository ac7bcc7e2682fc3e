#!/usr/bin/env python3
"""tables.py CSV [--into FILE]: the figures that the driver wrote, as Markdown.

Prints them; with --into, each part replaces what stands in FILE between `<!-- figures: NAME -->` and `<!-- end -->`.
"""
import argparse
import csv
import datetime
import os
import re
import statistics
import subprocess
import sys
from pathlib import Path

KINDS = ["sparse", "dense", "commuting"]


def short(value):
    """Two or three digits that count."""
    if value < 9.95:
        return f"{value:.2f}"
    return f"{value:.1f}" if value < 99.5 else f"{value:.0f}"


def title(row):
    return row["call"] + (", " + row["case"] if row["case"] else "")


def once(values):
    return list(dict.fromkeys(values))


def number(row, key):
    return float(row[key])


def ratio(row):
    return f"{short(number(row, 'ratio'))} ({short(number(row, 'low'))} to {short(number(row, 'high'))})"


def times(row):
    return f"{short(number(row, 'ours_us'))} and {short(number(row, 'theirs_us'))}"


def table(heads, rows):
    return "\n".join("|" + "|".join(cells) + "|" for cells in [heads, ["-"] * len(heads), *rows])


def of(rows, section):
    return [row for row in rows if row["section"] == section]


def size(row):
    return f"{row['generators']} generators, {row['qubits']} qubits, {row['kind']}"


def measured(_rows):
    model = re.search(r"model name\s*: (.*)", Path("/proc/cpuinfo").read_text())
    machine = model.group(1) if model else "an unnamed processor"
    kit = subprocess.run(["rt", "version"], capture_output=True, text=True).stdout.split()[0]
    return f"Measured on {datetime.date.today()} on {machine}, {os.cpu_count()} cores, Linux, with {kit}."


def bars(rows):
    """The bars that this library is held to: the Rust at 40 generators on 128 qubits, every call, and M4RI."""
    calls = of(rows, "calls")
    at = {(title(row), row["kind"]): row for row in calls if (row["generators"], row["qubits"]) == ("40", "128")}
    names = ("standard_generators", "indexed_factorization_of, member", "indexed_factorization_of, non-member")
    held = [at[name, kind] for kind in ("dense", "commuting") for name in names if (name, kind) in at]
    cells = [[f"{title(row)}, {size(row)}", "50 or more", ratio(row), times(row)] for row in held]
    cells += costs(rows)
    lowest = min(calls, key=lambda row: number(row, "ratio"))
    cells.append([f"the lowest of all {len(calls)}: {title(lowest)}, {size(lowest)}", "1 or more", ratio(lowest), times(lowest)])
    cells += [[f"{title(row)}, {size(row)}", "1 or more", ratio(row), times(row)] for row in of(rows, "one qubit")]
    for shape in once((row["generators"], row["qubits"]) for row in of(rows, "matrices")):
        ways = [row for row in of(rows, "matrices") if (row["generators"], row["qubits"]) == shape]
        fastest = min(ways, key=lambda row: number(row, "ratio"))
        name = f"echelon form {shape[0]} by {2 * int(shape[1])}, the fastest of M4RI's ways ({fastest['case']})"
        cells.append([name, "1 or more", ratio(fastest), times(fastest)])
    return table(["what", "bar", "ratio (quartiles)", "ours and theirs, µs"], cells)


def costs(rows):
    """Ours alone: what the dearer of two costs in times of the other."""
    return [[f"{title(row)}, {size(row)}", bar, ratio(row), f"ours: {short(number(row, 'theirs_us'))} and {short(number(row, 'ours_us'))}"]
            for section, bar in (("many", "4 or less"), ("numbers", "1")) for row in of(rows, section)]


def by_call(rows):
    return spans(of(rows, "calls"), "ours and theirs there, µs")


def claims(rows):
    """What a claim costs in times of membership of the same element, ours alone."""
    part = of(rows, "claims")
    return spans(part, "membership and claim there, µs") if part else ""


def windows(rows):
    """A filled window beside the call on the roll of the checks inside, ours alone, and beside the Rust."""
    part = of(rows, "windows")
    at = {(row["call"], row["kind"], row["generators"], row["case"]): row for row in part}
    widths = once(row["generators"] for row in part)
    cells = []
    for name, kind in once((row["call"], row["kind"]) for row in part):
        pairs = [[at[name, kind, width, case] for case in ("window / roll", "beside the Rust")] for width in widths]
        cells.append([name, kind] + [f"{short(number(roll, 'theirs_us'))}; {ratio(roll)}; {ratio(rust)}" for roll, rust in pairs])
    return table(["call", "checks"] + widths, cells) if cells else ""


def spans(rows, times_of):
    cells = []
    for name in once(title(row) for row in rows):
        part = sorted((row for row in rows if title(row) == name), key=lambda row: number(row, "ratio"))
        middle = statistics.median(number(row, "ratio") for row in part)
        cells.append([name, str(len(part)), ratio(part[0]), times(part[0]), size(part[0]), short(middle), short(number(part[-1], "ratio"))])
    heads = ["call", "sizes", "lowest ratio (quartiles)", times_of, "at", "median", "highest"]
    return table(heads, cells)


def every_size(rows):
    texts = ["Columns are numbers of generators. A cell is the ratio, with its quartiles in brackets; then our time and the Rust's, in µs."]
    for kind in KINDS:
        for qubits in sorted({int(row["qubits"]) for row in of(rows, "calls")}):
            part = [row for row in of(rows, "calls") if (row["kind"], int(row["qubits"])) == (kind, qubits)]
            if part:
                texts.append(f"{kind} generators, {qubits} qubits\n\n{one_size(part)}")
    return "\n\n".join(texts)


def one_size(part):
    counts = sorted({int(row["generators"]) for row in part})
    at = {(title(row), int(row["generators"])): row for row in part}
    cells = [[name] + [f"{ratio(at[name, n])}; {times(at[name, n])}" if (name, n) in at else "" for n in counts]
             for name in once(title(row) for row in part)]
    return table(["call"] + [str(n) for n in counts], cells)


def growth(rows):
    texts = []
    for name in once(title(row) for row in of(rows, "growth")):
        part = [row for row in of(rows, "growth") if title(row) == name]
        cells = [[row["generators"], short(number(row, "ours_us")), short(number(row, "theirs_us")), ratio(row)] for row in part]
        texts.append(f"{name}, {part[0]['qubits']} qubits, {part[0]['kind']}\n\n"
                     + table(["generators", "ours, µs", "the Rust, µs", "ratio (quartiles)"], cells))
    return "\n\n".join(texts)


def matrices(rows):
    cells = [[f"{row['generators']} by {2 * int(row['qubits'])}", row["case"], short(number(row, "ours_us")), short(number(row, "theirs_us")),
              ratio(row)] for row in of(rows, "matrices")]
    return table(["matrix", "M4RI's way", "ours, µs", "M4RI, µs", "ratio (quartiles)"], cells) if cells else ""


PARTS = {"measured": measured, "bars": bars, "by call": by_call, "claims": claims, "windows": windows,
         "every size": every_size, "growth": growth, "matrices": matrices}


def replaced(text, name, part):
    start, end = f"<!-- figures: {name} -->\n", "\n<!-- end -->"
    before, found, rest = text.partition(start)
    _, closed, after = rest.partition(end)
    if not found or not closed:
        sys.exit(f"no part `{name}` in the file")
    return before + start + part + end + after


def main():
    parser = argparse.ArgumentParser(description=__doc__, formatter_class=argparse.RawDescriptionHelpFormatter)
    parser.add_argument("csv", type=Path)
    parser.add_argument("--into", type=Path)
    args = parser.parse_args()
    with args.csv.open() as file:
        rows = list(csv.DictReader(file))
    if args.into:
        text = args.into.read_text()
        for name, part in PARTS.items():
            text = replaced(text, name, part(rows))
        args.into.write_text(text)
        return
    for name in ("every size", "claims", "windows", "growth", "matrices"):
        part = PARTS[name](rows)
        if part:
            print(part + "\n")


if __name__ == "__main__":
    main()
