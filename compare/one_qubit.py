"""one_qubit.py SOURCES REPLAY [--lines REQUESTS LINES]

Compares what the program replay prints for operation 30, the product of two signed Paulis on one qubit by their numbers, with the Rust's
own product of the two as rolls, for all 256 pairs and for numbers past 15. The program `product` on rolls (operation 20) is asked for the
same Paulis on several qubits, as it takes these products from the table. SOURCES is the folder of the Rust's sources.

--lines REQUESTS LINES: the lines of a file, one for each request of another, are compared with those made here and with the program's.
"""
import argparse
import sys

import calls
import compare
import roll
from calls import Request
from roll import Pauli

PAST = (16, 17, 31, 255, 256, 65_536, 2**31, 2**32 - 1)
QUBITS = (0, 1, 63, 64, 127, 65_536, 2**32 - 1)


def numbered(number, qubit):
    """The Pauli with this number, on this qubit."""
    x, z = number // 8 % 2, number // 4 % 2
    return Pauli(number % 4, (qubit,) * x, (qubit,) * z)


def number_of(pauli):
    return 4 * (2 * len(pauli.x) + len(pauli.z)) + pauli.e % 4


def products(oracle):
    """The number of the product of each pair, by the Rust."""
    pairs = [(a, b) for a in range(16) for b in range(16)]
    text = "".join(f"product {roll.write([numbered(a, 0)]).hex()} 0 {roll.write([numbered(b, 0)]).hex()} 0\n" for a, b in pairs)
    answers = compare.run([oracle], text.encode()).decode().split("\n")
    return {pair: number_of(roll.read(bytes.fromhex(answer))[0]) for pair, answer in zip(pairs, answers)}


def told(found, a, b):
    product = found.get((a, b))
    return ("refused 8 at 0" if product is None else f"product {product}") + "; out - kept; work none"


def by_numbers():
    inside = [(a, b) for a in range(16) for b in range(16)]
    return inside + [(a, b) for n in PAST for a, b in ((n, 0), (15, n), (0, n), (n, 15), (n, n))]


def on_rolls(found):
    """Operation 20 on each pair, on several qubits and in rolls with another Pauli; whether the two anticommute, and the product's roll."""
    for qubit in QUBITS:
        for a in range(16):
            for b in range(16):
                first = roll.write([Pauli(1, (5,), (3, 9)), numbered(a, qubit)])
                second = roll.write([numbered(b, qubit), Pauli(3, (), (7,))])
                written = roll.write([numbered(found[a, b], qubit)])
                clash = (a // 8 % 2 * (b // 4 % 2) + a // 4 % 2 * (b // 8 % 2)) % 2
                request = Request(20, 0, 0, 1 + (a + b) % 255, 1, 0, len(written), 0, first, second)
                yield request, clash, written


def differ(what, wanted, got):
    sys.exit(f"the program's line differs\n  {what}\n  expected {wanted}\n  got      {got}")


def main():
    parser = argparse.ArgumentParser(description=__doc__, formatter_class=argparse.RawDescriptionHelpFormatter)
    parser.add_argument("sources")
    parser.add_argument("replay")
    parser.add_argument("--lines", nargs=2)
    args = parser.parse_args()
    _, oracle = compare.built_from(args.sources)
    found = products(oracle)
    pairs = by_numbers()
    requests = [Request(30, 0, 0, 7, a, b, 0, 0, b"", b"") for a, b in pairs]
    got = compare.run([args.replay], b"".join(r.raw() for r in requests)).decode().split("\n")
    for (a, b), line in zip(pairs, got):
        if line != told(found, a, b):
            differ(f"{a} times {b}", told(found, a, b), line)
    print(f"by numbers: {len(pairs)} lines equal, 256 of them products of the Rust")
    rolls = list(on_rolls(found))
    got = compare.run([args.replay], b"".join(r.raw() for r, _, _ in rolls)).decode().split("\n")
    for (r, clash, written), line in zip(rolls, got):
        wanted = calls.line(r, calls.Result(f"wrote {len(written)} {'anticommute' if clash else 'commute'}", written))
        if line != wanted:
            differ(r, wanted, line)
    print(f"on rolls: {len(rolls)} lines equal")
    if args.lines:
        with open(args.lines[0], "rb") as file:
            requests = list(calls.requests_in(file.read()))
        with open(args.lines[1], encoding="ascii") as file:
            wanted = file.read().split("\n")[:-1]
        got = compare.run([args.replay], b"".join(r.raw() for r in requests)).decode().split("\n")[:-1]
        mine = [told(found, r.a, r.b) for r in requests]
        if not mine == wanted == got:
            sys.exit(f"{args.lines[1]}: lines differ")
        print(f"{args.lines[1]}: {len(wanted)} lines equal to those made here and to the program's")


if __name__ == "__main__":
    main()
