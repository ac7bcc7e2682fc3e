#!/usr/bin/env python3
"""store.py SOURCES [--seed S]

Writes stored/requests.bin, requests of every operation of the program replay made by the oracle's generator, and stored/lines.txt, the
line that each must give by the oracle's answer. They stand in the order of the operations. Nothing of the program is used; `compare.py
SOURCES REPLAY --count 0 --lines compare/stored/requests.bin compare/stored/lines.txt` compares its lines with these. SOURCES is the
folder of the Rust's sources. Prints how many requests there are of each operation with each pair of promises.
"""
import argparse
import collections
import os
import random

from calls import CALLS, PROMISES
from compare import built_from, expected, few_more, made

# How many requests of each operation, and the generators and qubits of their lists.
SIZES = [(120, 6, 5), (14, 12, 16), (2, 32, 40)]


def main():
    parser = argparse.ArgumentParser(description=__doc__, formatter_class=argparse.RawDescriptionHelpFormatter)
    parser.add_argument("sources")
    parser.add_argument("--seed", type=int, default=1)
    args = parser.parse_args()
    rng = random.Random(args.seed)
    pairs = []
    gen, oracle = built_from(args.sources)
    for op in CALLS:
        requests = [r for sizes in SIZES for r in made(op, gen, rng, *sizes)]
        pairs += expected(rng, requests, oracle, few_more)
    folder = os.path.join(os.path.dirname(os.path.abspath(__file__)), "stored")
    os.makedirs(folder, exist_ok=True)
    with open(os.path.join(folder, "requests.bin"), "wb") as file:
        file.write(b"".join(r.raw() for r, _ in pairs))
    with open(os.path.join(folder, "lines.txt"), "w", encoding="ascii") as file:
        file.write("".join(line + "\n" for _, line in pairs))
    counts = collections.Counter((r.op, PROMISES[r.p] + PROMISES[r.q]) for r, _ in pairs)
    for op, call in CALLS.items():
        print(f"{op} {call.name}: " + ", ".join(f"{promises} {n}" for (of, promises), n in sorted(counts.items()) if of == op))
    print(f"{len(pairs)} requests")


if __name__ == "__main__":
    main()
