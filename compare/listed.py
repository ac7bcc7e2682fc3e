#!/usr/bin/env python3
"""listed.py REPLAY [--seed S] [--count N]

Collects all pages of N random groups of rank up to 10 (operation 8), and compares the Paulis in them with membership of every Pauli on the
list's qubits, of any phase (operation 19), and their number with 2 to the power of the log2 size (operation 6); nothing here uses the oracle. The lists
are on at most five qubits, without a promise or with the true one. The counts of the pages are random, 0 and above 128 among them; each page starts
where the one before ended, until one is empty. REPLAY is the program (target/bin/replay after `sh tools/make.sh replay`).

Prints how many groups, pages and Paulis agree; ends with status 1 at the first group that does not.
"""
import argparse
import itertools
import os
import random
import sys

import brute
import calls
import roll
from brute import part_of
from calls import Request
from roll import Pauli

DEFAULT = 64
LARGEST = 128
COUNTS = (0, 0, 1, 2, 5, 16, 63, 64, 65, 100, 127, 128, 129, 1_000, 2**32 - 1)
NUMBERS = (0, 1, 2, 3, 7, 64, 127, 65_535, 65_536, 2**31, 2**32 - 1)
ROOM = 33_280
BLOCK = 50


def page_of(count):
    return DEFAULT if count == 0 else min(count, LARGEST)


def request(op, promise, first, second=b"", a=0, b=0):
    return Request(op, promise, 0, 251, a, b, ROOM, calls.WORK_WORDS, first, second)


def anticommute(p, q):
    return (len({*p.x} & {*q.z}) + len({*p.z} & {*q.x})) % 2 == 1


def made(rng):
    """A list, and its promise: absent, or the true one."""
    qubits = sorted(rng.sample(NUMBERS, rng.randrange(6)))
    paulis = [Pauli(rng.randrange(4), *(tuple(q for q in qubits if rng.random() < 0.5) for _ in "xz")) for _ in range(rng.randrange(12))]
    clash = any(anticommute(p, q) for p, q in itertools.combinations(paulis, 2))
    return paulis, rng.choice((0, 2 if clash else 1))


def everything(paulis):
    """Every Pauli on the list's qubits, of any phase, in rolls of at most 128."""
    sets = part_of(roll.support(paulis))
    found = [Pauli(e, x, z) for x in sets for z in sets for e in range(4)]
    return [found[k:k + LARGEST] for k in range(0, len(found), LARGEST)]


def members(rolls, lines):
    """The members among these Paulis, by the bytes of operation 19."""
    found = set()
    for paulis, line in zip(rolls, lines):
        written, at = calls.unhex(line.split()[5]), 0
        for pauli in paulis:
            if written[at]:
                found.add(pauli)
                at += 4 + 2 * int.from_bytes(written[at + 2:at + 4], "little")
            else:
                at += 1
    return found


def pages(rng, paulis, promise, size):
    """The pages in a row of a group of this size, the last one empty."""
    start = 0
    while True:
        count = rng.choice(COUNTS)
        yield request(8, promise, roll.write(paulis), a=start, b=count), min(page_of(count), size - start)
        if start == size:
            return
        start = min(start + page_of(count), size)


def stop(paulis, what):
    print(f"{roll.write(paulis).hex()}: {what}")
    sys.exit(1)


def compare(replay, rng, lists):
    """How many pages and Paulis agree."""
    logs = brute.run(replay, [request(6, promise, roll.write(paulis)) for paulis, promise in lists])
    asked, turned = [], []
    for (paulis, promise), line in zip(lists, logs):
        rolls = everything(paulis)
        asked.append([request(19, promise, roll.write(paulis), roll.write(part)) for part in rolls])
        turned.append((rolls, list(pages(rng, paulis, promise, 2 ** int(line.split(";")[0].split()[1])))))
    lines = iter(brute.run(replay, [r for part in asked for r in part] + [r for _, row in turned for r, _ in row]))
    told = [[next(lines) for _ in part] for part in asked]
    counts = [0, 0]
    for (paulis, _), (rolls, row), results in zip(lists, turned, told):
        collected = []
        for _, size in row:
            held = roll.read(brute.written_in(next(lines)))
            if not isinstance(held, list) or len(held) != size:
                stop(paulis, "a page has another size")
            collected += held
        if len({*collected}) != len(collected):
            stop(paulis, "a Pauli is listed twice")
        if {*collected} != members(rolls, results):
            stop(paulis, "the pages are not the members")
        counts[0] += len(row)
        counts[1] += len(collected)
    return counts


def main():
    parser = argparse.ArgumentParser(description=__doc__, formatter_class=argparse.RawDescriptionHelpFormatter)
    parser.add_argument("replay")
    parser.add_argument("--seed", type=int, default=1)
    parser.add_argument("--count", type=int, default=2000)
    args = parser.parse_args()
    if not os.access(args.replay, os.X_OK):
        sys.exit(f"{args.replay} is missing: `sh tools/make.sh replay` makes target/bin/replay")
    rng = random.Random(args.seed)
    total = [0, 0]
    for done in range(0, args.count, BLOCK):
        counts = compare(args.replay, rng, [made(rng) for _ in range(min(BLOCK, args.count - done))])
        total = [a + b for a, b in zip(total, counts)]
    print(f"{args.count} groups agree: {total[0]} pages, {total[1]} Paulis")


if __name__ == "__main__":
    main()
