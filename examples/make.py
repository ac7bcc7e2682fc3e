#!/usr/bin/env python3
"""make.py [--oracle PROGRAM]

Writes the inputs of this folder (NAME.in) for the report program, and beside each the listing that it must give (NAME.out). The
listings come from a small model: the group is the set of all products, made by multiplying until nothing is new; rank, phases and
membership are read off it. The indexes are the row set that the echelon form names. PROGRAM is the oracle, where it is built
(compare/oracle): with it every listing is compared with the oracle's.
"""
import argparse
import os
import struct
import subprocess
import sys

HERE = os.path.dirname(os.path.abspath(__file__))
sys.path += [os.path.join(HERE, "..", "compare"), os.path.join(HERE, "..", "check")]

import roll  # noqa: E402
from calls import MOST_INPUT, hexed, report_rolls  # noqa: E402
from matrices import gauss_jordan, solve  # noqa: E402
from roll import Pauli, Refusal  # noqa: E402

IDENTITY = Pauli(0, (), ())
LAST = 2**32 - 1


# ---- Paulis as the field writes them

def word(letters):
    """`-XYZ`: a sign or none (`i` and `-i` too), then a letter for each qubit from 0 on."""
    e = {"": 0, "i": 1, "-": 2, "-i": 3}[letters.rstrip("IXYZ")]
    letters = letters.lstrip("-i")
    return Pauli((e + letters.count("Y")) % 4, places(letters, "XY"), places(letters, "ZY"))


def words(text):
    return [word(letters) for letters in text.split()]


def places(letters, which):
    return tuple(q for q, letter in enumerate(letters) if letter in which)


def on(letter, *qubits):
    """The same letter on some qubits."""
    numbers = tuple(sorted(qubits))
    return Pauli(len(numbers) % 4 if letter == "Y" else 0, numbers if letter in "XY" else (), numbers if letter in "ZY" else ())


def minus(pauli):
    return pauli._replace(e=(pauli.e + 2) % 4)


def times(a, b):
    """a times b: each Z that passes an X changes the sign."""
    swaps = len(set(a.z) & set(b.x))
    return Pauli((a.e + b.e + 2 * swaps) % 4, tuple(sorted(set(a.x) ^ set(b.x))), tuple(sorted(set(a.z) ^ set(b.z))))


def product(paulis):
    total = IDENTITY
    for pauli in paulis:
        total = times(total, pauli)
    return total


# ---- the model

def value(pauli):
    return pauli._replace(e=pauli.e % 4)


def group_of(generators):
    """All products of finitely many generators."""
    group, new = {IDENTITY}, {IDENTITY}
    while new:
        new = {times(a, g) for a in new for g in generators} - group
        group |= new
    return group


def rank_of(group):
    """The dimension of the space of the bits: there are 2 to its power of them."""
    return len({(pauli.x, pauli.z) for pauli in group}).bit_length() - 1


def phases_of(group):
    return sorted(pauli.e for pauli in group if not pauli.x and not pauli.z)


def is_abelian(generators):
    return all(times(a, b) == times(b, a) for a in generators for b in generators)


def row_of(pauli, support):
    return [int(q in pauli.x) for q in support] + [int(q in pauli.z) for q in support]


def indexes_of(generators, element):
    """The generators that the echelon form names for an element, or None."""
    support = sorted({q for g in generators for q in g.x + g.z})
    if not set(element.x + element.z) <= set(support):
        return None
    form = gauss_jordan([row_of(g, support) for g in generators], 2 * len(support))
    found = solve(*form, row_of(element, support))
    return None if found is None else [k for k, one in enumerate(found) if one]


def member_line(generators, group, number, element):
    indexes = indexes_of(generators, element)
    exponent = None
    if indexes is not None:
        exponent = (element.e - product([generators[k] for k in indexes]).e) % 4
    by_rows = exponent is not None and exponent in phases_of(group)
    assert by_rows == (value(element) in group), "membership by rows and signs is membership in the group"
    if not by_rows:
        return f"{number} not member"
    return " ".join([str(number), "member"] + [str(k) for k in indexes] + ["phase", str(exponent)])


def listing(given):
    """The closing listing of an input."""
    rolls = report_rolls(given)
    if rolls is None:
        return "refused 1 at 0 in roll 1\n"
    lists = []
    for which, raw in enumerate(rolls, 1):
        found = roll.read(raw)
        if isinstance(found, Refusal):
            return f"refused {found.number} at {found.place} in roll {which}\n"
        lists.append([value(pauli) for pauli in found])
    generators, elements = lists
    group = group_of(generators)
    phases = ",".join(str(e) for e in phases_of(group))
    lines = [f"rank {rank_of(group)} phases {phases} abelian {'yes' if is_abelian(generators) else 'no'}"]
    lines += [member_line(generators, group, number, element) for number, element in enumerate(elements)]
    return "".join(line + "\n" for line in lines)


# ---- codes

FIVE = words("XZZXI IXZZX XIXZZ ZXIXZ")
FIFTH = word("ZZXIX")
HAMMING = [(3, 4, 5, 6), (1, 2, 5, 6), (0, 2, 4, 6)]
STEANE = [on("X", *check) for check in HAMMING] + [on("Z", *check) for check in HAMMING]
# Nine qubits in three rows of three, 0 1 2 at the top.
SURFACE = [on("X", 0, 1), on("X", 1, 2, 4, 5), on("X", 3, 4, 6, 7), on("X", 7, 8),
           on("Z", 2, 5), on("Z", 0, 1, 3, 4), on("Z", 4, 5, 7, 8), on("Z", 3, 6)]
BACON_SHOR = [on("X", q, q + 3) for q in range(6)] + [on("Z", q, q + 1) for q in (0, 1, 3, 4, 6, 7)]
DOCUMENT = (words("XX ZZ"), [Pauli(0, (0, 1), (0, 1)), Pauli(2, (0, 1), (0, 1)), Pauli(0, (), (2,))])


def five_qubit_elements():
    logical_x, logical_z = word("XXXXX"), word("ZZZZZ")
    return [FIVE[0], minus(FIVE[0]), product(FIVE[:2]), minus(product(FIVE[:2])), FIFTH, minus(FIFTH), logical_x, logical_z,
            minus(logical_x), times(logical_x, FIVE[0]), times(logical_x, logical_z), word("XIIII"), word("IIYII"), word("IIIIZ"), IDENTITY]


def steane_elements():
    logical_x, logical_z = word("XXXXXXX"), word("ZZZZZZZ")
    short_x, short_z = on("X", 0, 1, 2), on("Z", 0, 1, 2)
    y_check = on("Y", *HAMMING[0])
    return [logical_x, logical_z, short_x, short_z, times(logical_x, short_x), times(logical_z, short_z), minus(times(logical_z, short_z)),
            y_check, minus(y_check), product(STEANE), minus(product(STEANE)), on("X", 0), on("Y", 3), on("Z", 6), on("X", 7)]


def surface_elements():
    logical_x, logical_z = on("X", 0, 3, 6), on("Z", 0, 1, 2)
    other_x, other_z = on("X", 1, 4, 7), on("Z", 3, 4, 5)
    moved_x, moved_z = times(logical_x, other_x), times(logical_z, other_z)
    return [logical_x, logical_z, times(logical_x, SURFACE[1]), other_x, other_z, moved_x, moved_z, minus(moved_x), minus(moved_z),
            times(logical_x, logical_z), times(SURFACE[1], SURFACE[5]), minus(times(SURFACE[1], SURFACE[5])), product(SURFACE),
            on("X", 4), on("Y", 4), on("Z", 4), on("X", 7, 8), on("X", 0, 3), on("Z", 9)]


def bacon_shor_elements():
    rows_x, columns_z = on("X", 0, 1, 2, 3, 4, 5), on("Z", 0, 3, 6, 1, 4, 7)
    return [rows_x, minus(rows_x), columns_z, times(BACON_SHOR[0], BACON_SHOR[6]), times(BACON_SHOR[6], BACON_SHOR[0]),
            on("X", 0, 1, 2), on("Z", 0, 3, 6), word("-I"), word("iI"), on("X", 4)]


def state_elements():
    return [word("ZZZZZZZ"), on("Z", 0, 1, 2), minus(on("Z", 0, 1, 2)), on("Z", 3, 4, 5, 6), word("XXXXXXX"), on("X", 0, 1, 2), word("-I")]


# ---- inputs

def joined(first, second):
    return struct.pack("<I", len(first)) + first + second


def given(generators, elements):
    return joined(roll.write(generators), roll.write(elements))


def without_exponent(raw, place):
    """The roll with the exponent of one Pauli missing."""
    at = 2 + 10 * place
    return raw[:at] + b"\0\0" + raw[at + 2:]


def wide(count, numbers):
    """So many elements with so many qubit numbers in all, as even as it goes, each on the first qubits."""
    each, more = divmod(numbers, count)
    return [Pauli(0, tuple(range(min(n, 127))), tuple(range(max(n - 127, 0)))) for n in [each + (k < more) for k in range(count)]]


def code_inputs():
    elements = five_qubit_elements()
    return {
        "document": given(*DOCUMENT),
        "empty": given([], [IDENTITY, word("-I"), on("X", 0)]),
        "five-qubit": given(FIVE, elements),
        "five-qubit-plus": given(FIVE + [word("XXXXX")], elements),
        "five-qubit-cyclic": given(FIVE + [FIFTH], elements),
        "five-qubit-wrong-sign": given(FIVE + [minus(FIFTH)], elements),
        "steane": given(STEANE, steane_elements()),
        "steane-zero": given(STEANE + [word("ZZZZZZZ")], state_elements()),
        "steane-one": given(STEANE + [word("-ZZZZZZZ")], state_elements()),
        "surface": given(SURFACE, surface_elements()),
        "surface-wrong-sign": given(SURFACE[:5] + [minus(SURFACE[5])] + SURFACE[6:], surface_elements()),
        "bacon-shor": given(BACON_SHOR, bacon_shor_elements()),
        "bell": given(words("XX ZZ -YY"), words("YY -YY -II XI")),
        "bell-wrong-sign": given(words("XX ZZ YY"), words("YY -YY -II XI")),
        "repetition": given(words("ZZI IZZ ZIZ"), words("ZIZ ZZI -ZIZ ZZZ") + [on("X", 0, 1, 2)]),
        "order-four": given([Pauli(0, (0,), (0,))], [Pauli(0, (0,), (0,)), word("Y"), word("-I"), word("iI")]),
        "wide-numbers": given([on("X", 65_535, 65_536), on("Z", 65_536, LAST)],
                              [on("X", 65_535, 65_536), on("X", 65_536), on("Z", 65_536, LAST), on("Z", 0, LAST)]),
        "last-qubit": given([on("X", LAST)], [on("X", LAST), on("X", 0)]),
    }


def refused_inputs():
    first, second = roll.write(STEANE), roll.write(steane_elements())
    whole = given(*DOCUMENT)
    small = roll.write(DOCUMENT[0])
    room = MOST_INPUT - 4 - len(small) - 2
    return {
        "missing-exponent": joined(without_exponent(first, 2), second),
        "missing-exponent-element": joined(first, without_exponent(second, 8)),
        "cut-short": whole[:-1],
        "cut-in-generators": whole[:4 + len(small) - 1],
        "no-length": whole[:3],
        "no-elements": whole[:4 + len(small)],
        "not-rising": joined(roll.write([Pauli(0, (1, 0), ())]), second),
        "longest": joined(small, roll.write(wide(126, (room - 10 * 126) // 4))),
        "too-long": joined(small, roll.write(wide(127, (room + 2 - 10 * 127) // 4))),
    }


# ---- files

def check_with_oracle(oracle, inputs):
    """Every listing without a refusal is the oracle's; to the others it says `bad`."""
    rolls = {name: report_rolls(raw) for name, raw in inputs.items()}
    asked = [name for name in inputs if rolls[name]]
    lines = "".join(f"report {hexed(rolls[name][0])} {hexed(rolls[name][1])}\n" for name in asked)
    answers = subprocess.run([oracle], input=lines.encode(), stdout=subprocess.PIPE, check=True).stdout.decode().split("\n")
    for name, answer in zip(asked, answers):
        text = listing(inputs[name])
        wanted = "bad" if text.startswith("refused") else "; ".join(text.split("\n")[:-1])
        assert answer == wanted, f"{name}: the oracle says {answer}"
    print(f"{len(asked)} of {len(inputs)} listings compared with the oracle")


def main():
    parser = argparse.ArgumentParser(description=__doc__, formatter_class=argparse.RawDescriptionHelpFormatter)
    parser.add_argument("--oracle")
    args = parser.parse_args()
    inputs = {**code_inputs(), **refused_inputs()}
    for name, raw in inputs.items():
        with open(os.path.join(HERE, name + ".in"), "wb") as file:
            file.write(raw)
        with open(os.path.join(HERE, name + ".out"), "w", encoding="ascii") as file:
            file.write(listing(raw))
    print(f"{len(inputs)} inputs written")
    if args.oracle:
        check_with_oracle(args.oracle, inputs)


if __name__ == "__main__":
    main()
