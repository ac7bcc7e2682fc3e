#!/usr/bin/env python3
"""compare.py SOURCES REPLAY [--seed S] [--count N] [--damaged N] [--every] [--generators G] [--qubits Q] [--kinds A,B]
           [--lines REQUESTS LINES] [--bad] [--edges]

Builds the oracle (compare/oracle: the Rust behind a line protocol), makes random requests with its generator, N of each kind, answers
them with the oracle and with the program replay, and compares every line. SOURCES is the folder of the Rust's sources
(compare/oracle/README.md says how to get them), REPLAY the program (target/bin/replay after `sh tools/make.sh replay`).
Each call is lent an output of the size of its answer or a few bytes more, and 4,096 words or a few more.

--damaged N: N further requests of each kind with damaged rolls, numbers past a list, short areas and outputs, and lists at the limits.
The refusal, its number and its place come from the table of refusals in docs/REFERENCE.md (roll.py, calls.py), every other line from the
oracle; the oracle must answer `bad` exactly where the table refuses with 1 to 8 or 10.
--every: further one small request of each kind, its rolls cut at every place and every byte of them changed to every other value, and
so its named support.
--lines REQUESTS LINES: the lines of a file, one for each request of another, are compared with those made here and with the program's.
--bad: requests outside the program's bounds, each after a good one.
--edges: requests at the edges (edges.py), each with an output of the size of its answer, a byte less and a byte more.

Prints how many requests of each kind were compared, damaged ones by refusal; ends with status 1 at the first line that differs.
"""
import argparse
import collections
import os
import random
import struct
import subprocess
import sys

import calls
import damage
import edges
import roll
from calls import CALLS, PROMISES, Request, unhex
from roll import Pauli, Refusal

LAST = 25  # the last operation that replay has
NAMES = {call.name: op for op, call in CALLS.items()}
LISTING_OUTPUT = 131_072
BLOCK = 10_000


def run(program, data):
    return subprocess.run(program, input=data, stdout=subprocess.PIPE, check=True).stdout


# ---- requests

def whole(op, p=0, q=0, a=0, b=0, first=b"", second=b""):
    return Request(op, p, q, 1, a, b, 0, calls.WORK_WORDS, first, second)


def request_of(op, text):
    """The request of a line of the oracle's generator. Output and fill are chosen later."""
    w = text.split()[1:]
    if op <= 6 or op == 22:
        return whole(op, PROMISES.index(w[0]), first=unhex(w[1]))
    if op == 7:
        return whole(op, PROMISES.index(w[0]), a=int(w[3]), first=unhex(w[1]), second=unhex(w[2]))
    if op in (8, 23):
        return whole(op, PROMISES.index(w[0]), a=int(w[2]), b=int(w[3]), first=unhex(w[1]))
    if op in (9, 24):
        return whole(op, first=unhex(w[0]))
    if op == 25:
        named = [] if w[1] == "-" else [int(q) for q in w[1].split(",")]
        return whole(op, first=unhex(w[0]), second=struct.pack(f"<{len(named)}I", *named))
    if op in (10, 20):
        return whole(op, a=int(w[1]), b=int(w[3]), first=unhex(w[0]), second=unhex(w[2]))
    if op <= 13 or op == 21:
        return whole(op, first=unhex(w[0]), second=unhex(w[1]))
    if op <= 17:
        return whole(op, PROMISES.index(w[0]), PROMISES.index(w[2]), first=unhex(w[1]), second=unhex(w[3]))
    if op == 19:
        return whole(op, PROMISES.index(w[0]), first=unhex(w[1]), second=unhex(w[2]))
    rolls = [unhex(word) for word in w]
    return whole(op, first=struct.pack("<I", len(rolls[0])) + rolls[0] + rolls[1])


def with_number(rng, r):
    """A generator number for the calls on the joined list: the oracle's generator makes none."""
    if r.op not in (12, 13):
        return r
    count = sum(int.from_bytes(b[:2], "little") for b in (r.first, r.second))
    return r._replace(a=rng.randrange(max(count, 1)))


def made(op, gen, rng, count, generators, qubits):
    """Requests of the oracle's generator, lists of at most so many generators on so many qubits."""
    seed = rng.randrange(2**32)
    lines = run([gen, str(seed), CALLS[op].kind, str(count), str(generators), str(qubits)], b"").decode().split("\n")[:-1]
    return [with_number(rng, request_of(op, line)) for line in lines]


def lent(rng, r, found, output):
    """The request with its fill, its output and, where nothing is said of it, some more words."""
    size = 0 if isinstance(found, Refusal) else len(found.written)
    out = LISTING_OUTPUT if r.op == 18 else output(rng, size)
    more = rng.randrange(3) if r.work == calls.WORK_WORDS else 0
    return r._replace(fill=rng.randrange(1, 256), out=out, work=r.work + more)


def few_more(rng, size):
    return size + rng.randrange(4)


# ---- lines

def expected(rng, requests, oracle, output, heard=None):
    """Each request as it is sent, and its line. What the oracle answered is put behind what was heard."""
    pairs = []
    for r, answers in zip(requests, calls.ask(oracle, requests)):
        if heard is not None:
            heard.append(answers)
        found = calls.result(r, answers)
        if "panic" in answers or (answers[0] == "bad") != calls.is_bad(r, found, answers):
            stop(r, "the oracle and the table part", str(found), str(answers))
        r = lent(rng, r, found, output)
        pairs.append((r, calls.line(r, found)))
    return pairs


def stop(r, what, wanted, got):
    print(f"{what}\n  request  {r._replace(first=r.first.hex(), second=r.second.hex())}\n  expected {wanted}\n  got      {got}")
    sys.exit(1)


def compare(pairs, replay):
    got = run([replay], b"".join(r.raw() for r, _ in pairs)).decode().split("\n")
    for k, (r, wanted) in enumerate(pairs):
        if k >= len(got) or got[k] != wanted:
            stop(r, "the program's line differs", wanted, got[k] if k < len(got) else "nothing")
    if got[len(pairs):] != [""]:
        stop(pairs[-1][0], "lines follow", "nothing", got[len(pairs)])


def outcome(r, wanted):
    """The number of the refusal, 0 if there is none."""
    if r.op == 12:
        early = calls.refused_early(r)
        return early.number if early else 0
    words = (unhex(wanted.split()[3]).decode() if r.op == 18 else wanted).split()
    return int(words[1]) if words[0] == "refused" else 0


def counted(counts):
    return ", ".join(f"{f'refused {key}' if key else 'answered'}: {counts[key]}" for key in sorted(counts))


# ---- runs

def small(op):
    """A request on two small lists, for every operation."""
    first = roll.write([Pauli(0, (0, 2), ()), Pauli(1, (1,), (1, 3))])
    second = roll.write([Pauli(3, (2,), (0, 2))])
    if op == 18:
        return whole(op, first=struct.pack("<I", len(first)) + first + second)
    if op == 25:
        return whole(op, first=first, second=struct.pack("<2I", 1, 4))
    return whole(op, first=first, second=second if CALLS[op].rolls == 2 else b"")


def in_blocks(count):
    """The numbers of requests that are held at once."""
    return [min(BLOCK, count - k) for k in range(0, count, BLOCK)]


def compare_damaged(requests, rng, args, oracle, output=damage.output_for):
    """The count of each refusal."""
    pairs = expected(rng, requests, oracle, output)
    compare(pairs, args.replay)
    return collections.Counter(outcome(r, wanted) for r, wanted in pairs)


def generators(r):
    """How many generators the request's lists have: elements are not counted, joined lists are."""
    rolls = [r.first[4:] if r.op == 18 else r.first] + ([r.second] if 11 <= r.op <= 17 or r.op == 21 else [])
    return sum(int.from_bytes(b[:2], "little") for b in rolls)


def compare_kind(op, args, programs):
    """Whole requests, then damaged ones."""
    gen, oracle = programs
    name = CALLS[op].name
    rng = random.Random(f"{args.seed} {name}")
    sizes = args.generators, args.qubits
    large = same = 0
    for n in in_blocks(args.count):
        requests = made(op, gen, rng, n, *sizes)
        large += sum(generators(r) >= 40 for r in requests)
        heard = []
        compare(expected(rng, requests, oracle, few_more, heard), args.replay)
        same += sum(op == 17 and len(answers) > 1 and answers[2] for answers in heard)
    if args.count:
        rust = f", {same} of them the group of the Rust's own common part" if op == 17 else ""
        print(f"{name}: {args.count} lines equal, {large} of them with 40 or more generators{rust}", flush=True)
    counts = collections.Counter()
    for n in in_blocks(args.damaged):
        requests = [damage.damaged(rng, r) for r in made(op, gen, rng, n, *sizes)]
        counts += compare_damaged(requests, rng, args, oracle)
    if args.every:
        counts += compare_damaged(list(damage.every(small(op))), rng, args, oracle)
    if counts:
        print(f"{name}, damaged: {sum(counts.values())} lines equal; " + counted(counts), flush=True)
    return counts


def compare_lines(args, oracle):
    """The lines of a file, those made here, and for the operations that replay has the program's."""
    with open(args.lines[0], "rb") as file:
        requests = list(calls.requests_in(file.read()))
    with open(args.lines[1], encoding="ascii") as file:
        lines = file.read().split("\n")[:-1]
    assert len(requests) == len(lines)
    for r, answers, line in zip(requests, calls.ask(oracle, requests), lines):
        mine = calls.line(r, calls.result(r, answers))
        if mine != line:
            stop(r, "the file's line differs from the one made here", mine, line)
    have = [(r, line) for r, line in zip(requests, lines) if r.op <= LAST]
    compare(have, args.replay)
    print(f"{args.lines[1]}: {len(lines)} lines equal to those made here, {len(have)} to the program's")


def compare_bad(args):
    """Requests outside the bounds end the program after `bad request`, also where one follows; those at the bounds do not."""
    good = Request(0, 0, 0, 1, 0, 0, 0, 0, b"\0\0", b"")
    answer = "count 0; out - kept; work none"
    outside = [good._replace(op=200), good._replace(op=255), good._replace(fill=0), good._replace(p=3), good._replace(q=3),
               good._replace(p=255), good._replace(out=262_145), good._replace(work=40_961), good._replace(out=2**32 - 1),
               good._replace(work=2**32 - 1), good._replace(first=bytes(262_145)), good._replace(second=bytes(262_145))]
    named = good._replace(op=25, work=calls.WORK_WORDS)
    outside += [named._replace(second=bytes(n)) for n in (1, 2, 3, 5, 4097, 4 * 1025)]
    lined = good._replace(op=26, first=b"A", work=32_768)
    outside += [lined._replace(second=b) for b in (b"", bytes(3), bytes(15), bytes(17), b"\1" + bytes(15), b"\xff" * 4 + bytes(12))]
    outside += [good._replace(op=op, second=b) for op in (27, 28) for b in (b"", bytes(3), bytes(7), bytes(9), b"\1" + bytes(7), b"\xff" * 4 + bytes(4))]
    claimed = lambda n: good._replace(op=27, second=struct.pack("<I", 2) + bytes(2) + struct.pack("<I", n) + bytes(n))
    outside += [claimed(n) for n in (1, 3, 2047, 2049, 2 * 1025)]
    strings = good._replace(second=b"abc").raw()
    cases = [r.raw() + good.raw() for r in outside] + [strings[:k] for k in range(1, len(strings))]
    cases.append(strings[:20] + b"\xff" * 8 + good.raw())
    for case in cases:
        got = run([args.replay], good.raw() + case).decode()
        if got != f"{answer}\nbad request\n":
            stop(good, f"a request outside the bounds: {case[:40].hex()}", f"{answer}, bad request", got)
    inside = [(good._replace(out=262_144, work=40_960), answer), (good._replace(second=bytes(262_144)), answer),
              (good._replace(first=bytes(262_144)), "refused 1 at 0; out - kept; work none"),
              (named._replace(second=bytes(4 * 1024)), "refused 13 at 0; out - kept; work untouched"),
              (lined._replace(second=bytes(16)), "refused 14 at 0; out - kept; work untouched"),
              (claimed(2048), "refused 8 at 0; out - kept; work untouched"),
              (good._replace(op=28, second=bytes(8)), "refused 1 at 0; out - kept; work none"), (good, answer)]
    compare(inside, args.replay)
    print(f"outside the bounds: {len(cases)} requests end with `bad request`, {len(inside)} at the bounds are answered")


def compare_edges(args, oracle):
    """Requests at the edges, with outputs around the size of the answer."""
    requests = [r for r in edges.every() if r.op <= LAST]
    counts = collections.Counter()
    for more in (-1, 0, 1):
        counts += compare_damaged(requests, random.Random(args.seed), args, oracle, lambda rng, size: max(size + more, 0))
    print(f"edges: {sum(counts.values())} lines equal; " + counted(counts))


def arguments():
    parser = argparse.ArgumentParser(description=__doc__, formatter_class=argparse.RawDescriptionHelpFormatter)
    parser.add_argument("sources")
    parser.add_argument("replay")
    parser.add_argument("--seed", type=int, default=1)
    parser.add_argument("--count", type=int, default=1000)
    parser.add_argument("--damaged", type=int, default=0)
    parser.add_argument("--generators", type=int, default=6)
    parser.add_argument("--qubits", type=int, default=5)
    parser.add_argument("--kinds", default=",".join(call.name for op, call in CALLS.items() if op <= LAST))
    parser.add_argument("--every", action="store_true")
    parser.add_argument("--lines", nargs=2)
    parser.add_argument("--bad", action="store_true")
    parser.add_argument("--edges", action="store_true")
    return parser.parse_args()


def built_from(sources):
    """The oracle's generator and the oracle, built from the Rust's sources."""
    here = os.path.dirname(os.path.abspath(__file__))
    built = subprocess.run(["sh", os.path.join(here, "oracle", "build.sh"), sources], stdout=subprocess.PIPE, text=True)
    if built.returncode:
        sys.exit(1)  # build.sh has said why
    folder = os.path.join(os.path.dirname(built.stdout.strip()), "built", "release")
    return [os.path.join(folder, name) for name in ("gen", "oracle")]


def compare_kinds(args, programs):
    names = args.kinds.split(",")
    refused = sum((compare_kind(NAMES[name], args, programs) for name in names), collections.Counter())
    if args.count:
        print(f"all {args.count * len(names)} lines equal")
    if refused:
        print(f"all {sum(refused.values())} lines of damaged requests equal; " + counted(refused))


def main():
    args = arguments()
    if not os.access(args.replay, os.X_OK):
        sys.exit(f"{args.replay} is missing: `sh tools/make.sh replay` makes target/bin/replay")
    programs = built_from(args.sources)
    if args.lines:
        compare_lines(args, programs[1])
    if args.bad:
        compare_bad(args)
    if args.edges:
        compare_edges(args, programs[1])
    if args.count or args.damaged or args.every:
        compare_kinds(args, programs)


if __name__ == "__main__":
    main()
