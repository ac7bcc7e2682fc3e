#!/usr/bin/env python3
"""brute.py REPLAY [--seed S] [--count N]

Compares what the program replay writes for operations 17, 24 and 25 with all Paulis on four qubits; nothing here uses the oracle.

The common part: the roll must be accepted, and the group that it generates, found by multiplying, must hold exactly the Paulis that are in
both groups; where neither group holds the other, standard generators of the roll (operation 1) must be the roll again. The pairs are
all of lists of at most one Pauli on two qubits, of any phase, and 4 N random ones of up to four Paulis on three qubits, with any promises.

The centralizers: the group that the roll generates must hold exactly the Paulis on the named support, of any phase, that
commute with every Pauli of the list. Two Paulis commute where both products are the same. The lists are all of at most two Paulis on three qubits, of any phase, and N random ones of three or four. Operation 24 has each list;
operation 25 each list with every support on its three qubits, and with supports that have a fourth qubit too: all of these where the
list has at most one Pauli, else a random one. REPLAY is the program (target/bin/replay after `sh tools/make.sh replay`).

Prints how many requests agree; ends with status 1 at the first that does not.
"""
import argparse
import functools
import itertools
import os
import random
import struct
import subprocess
import sys

import calls
import roll
from calls import Request
from roll import Pauli

OWN = (0, 3, 9)    # the qubits of the lists
FURTHER = 5
QUBITS = (0, 3, 5, 9)
OUTPUT = 1024
BLOCK = 20_000


def part_of(qubits):
    """All sets of these qubits, rising."""
    return [part for n in range(len(qubits) + 1) for part in itertools.combinations(qubits, n)]


ALL = [Pauli(e, x, z) for e in range(4) for x in part_of(QUBITS) for z in part_of(QUBITS)]
PLACE = {pauli: k for k, pauli in enumerate(ALL)}


def on(qubits):
    """The places in ALL of the Paulis on these qubits."""
    return [k for k, pauli in enumerate(ALL) if {*pauli.x, *pauli.z} <= set(qubits)]


def times(left, right):
    """X and Z on one qubit anticommute: a sign for each Z of the left that passes an X of the right."""
    sign = 2 * len({*left.z} & {*right.x})
    return Pauli((left.e + right.e + sign) % 4, tuple(sorted({*left.x} ^ {*right.x})), tuple(sorted({*left.z} ^ {*right.z})))


# Sets of Paulis are numbers: bit k is the Pauli at place k of ALL.
def bits(places):
    return sum(1 << k for k in places)


PRODUCT = [[PLACE[times(left, right)] for right in ALL] for left in ALL]
COMMUTING = {g: bits(k for k in range(len(ALL)) if PRODUCT[g][k] == PRODUCT[k][g]) for g in on(OWN)}
ON = {named: bits(on(named)) for named in part_of(QUBITS)}


@functools.cache
def generated(generators):
    """The group: the identity times generators until nothing new comes."""
    group = fresh = {PLACE[Pauli(0, (), ())]}
    while fresh:
        fresh = {PRODUCT[k][g] for k in fresh for g in generators} - group
        group = group | fresh
    return bits(group)


@functools.cache
def group_of(written):
    """The group that a roll generates; none where it is refused or has a qubit that is in no support."""
    paulis = roll.read(written)
    if not isinstance(paulis, list) or any(pauli not in PLACE for pauli in paulis):
        return None
    return generated(tuple(PLACE[pauli] for pauli in paulis))


@functools.cache
def wanted(gs, named):
    """What commutes with these Paulis, on this support."""
    found = ON[named]
    for g in gs:
        found &= COMMUTING[g]
    return found


# ---- the common part

def pairs(rng, count):
    """Two lists, and the promises that are not to be read."""
    few = [()] + [(g,) for g in on(OWN[:2])]
    yield from ((gs, hs, 0, 0) for gs in few for hs in few)
    own = on(OWN)
    for _ in range(count):
        gs = tuple(rng.choice(own) for _ in range(rng.randrange(1, 5)))
        hs = tuple(rng.choice(own) for _ in range(rng.randrange(1, 5)))
        if rng.randrange(2):  # some products of the one, with any phase, in the other
            hs = tuple(product_of(rng, gs) for _ in hs[1:]) + hs[:1]
        yield gs, hs, rng.randrange(3), rng.randrange(3)


def product_of(rng, gs):
    found = rng.choice(on(()))
    for g in gs:
        found = PRODUCT[found][g] if rng.randrange(2) else found
    return found


def run(replay, requests):
    data = b"".join(request.raw() for request in requests)
    lines = subprocess.run([replay], input=data, stdout=subprocess.PIPE, check=True).stdout.decode().split("\n")
    if len(lines) != len(requests) + 1:
        sys.exit(f"{len(lines) - 1} lines for {len(requests)} requests: {lines[-2:]}")
    return lines[:-1]


def written_in(line):
    words = line.split()
    written = calls.unhex(words[3]) if words[0] == "wrote" else b""
    return written if line == f"wrote {len(written)}; out {written.hex()} kept; work zeroed" else None


def compare_common(replay, block):
    """How many of the pairs are such that neither group holds the other."""
    lines = run(replay, [Request(17, p, q, 90, 0, 0, OUTPUT, calls.WORK_WORDS, roll_of(gs), roll_of(hs)) for gs, hs, p, q in block])
    apart = []
    for (gs, hs, p, q), line in zip(block, lines):
        left, right = generated(gs), generated(hs)
        written = written_in(line)
        if written is None or group_of(written) != left & right:
            sys.exit(f"not the common part\n  left  {[ALL[g] for g in gs]}\n  right {[ALL[h] for h in hs]}\n  got   {line}")
        if left & right not in (left, right):
            apart.append(written)
    again = run(replay, [Request(1, 0, 0, 90, 0, 0, OUTPUT, calls.WORK_WORDS, written, b"") for written in apart])
    for written, line in zip(apart, again):
        if written_in(line) != written:
            sys.exit(f"not standard generators: {written.hex()}\n  {line}")
    return len(apart)


def compare_commons(replay, rng, count):
    made, total, apart = pairs(rng, count), 0, 0
    while block := list(itertools.islice(made, BLOCK)):
        apart += compare_common(replay, block)
        total += len(block)
    print(f"common: {total} requests agree, in {apart} of them neither group holds the other", flush=True)


# ---- requests

def lists(rng, count):
    own = on(OWN)
    for n in range(3):
        yield from itertools.product(own, repeat=n)
    for _ in range(count):
        yield tuple(rng.choice(own) for _ in range(rng.choice((3, 4))))


def requests(rng, count):
    """The call's number, the list and the named support of each request."""
    own_supports = part_of(OWN)
    others = [named for named in part_of(QUBITS) if FURTHER in named]
    for gs in lists(rng, count):
        yield 24, gs, tuple(roll.support([ALL[g] for g in gs]))
        for named in own_supports + (others if len(gs) < 2 else [rng.choice(others)]):
            yield 25, gs, named


@functools.cache
def roll_of(gs):
    return roll.write([ALL[g] for g in gs])


def raw(op, gs, named):
    second = struct.pack(f"<{len(named)}I", *named) if op == 25 else b""
    return Request(op, 0, 0, 165, 0, 0, OUTPUT, calls.WORK_WORDS, roll_of(gs), second).raw()


def stop(request, what, got):
    op, gs, named = request
    print(f"{what}\n  operation {op}\n  list      {[ALL[g] for g in gs]}\n  named     {named}\n  got       {got}")
    sys.exit(1)


def compare(block, replay):
    data = b"".join(raw(*request) for request in block)
    lines = subprocess.run([replay], input=data, stdout=subprocess.PIPE, check=True).stdout.decode().split("\n")
    if len(lines) != len(block) + 1:
        stop(block[min(len(lines), len(block)) - 1], f"{len(lines) - 1} lines for {len(block)} requests", lines[-2:])
    for request, line in zip(block, lines):
        words = line.split()
        written = calls.unhex(words[3]) if words[0] == "wrote" else b""
        if line != f"wrote {len(written)}; out {written.hex()} kept; work zeroed":
            stop(request, "the line is not that of a roll", line)
        if group_of(written) != wanted(request[1], request[2]):
            stop(request, "the roll generates another group", line)


def main():
    parser = argparse.ArgumentParser(description=__doc__, formatter_class=argparse.RawDescriptionHelpFormatter)
    parser.add_argument("replay")
    parser.add_argument("--seed", type=int, default=1)
    parser.add_argument("--count", type=int, default=5000)
    args = parser.parse_args()
    if not os.access(args.replay, os.X_OK):
        sys.exit(f"{args.replay} is missing: `sh tools/make.sh replay` makes target/bin/replay")
    compare_commons(args.replay, random.Random(f"{args.seed} common"), 4 * args.count)
    made = requests(random.Random(args.seed), args.count)
    counts = {24: 0, 25: 0}
    while block := list(itertools.islice(made, BLOCK)):
        compare(block, args.replay)
        for op, _, _ in block:
            counts[op] += 1
    print(f"centralizer: {counts[24]} requests agree; within: {counts[25]}; {group_of.cache_info().currsize} rolls")


if __name__ == "__main__":
    main()
