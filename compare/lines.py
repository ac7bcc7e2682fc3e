#!/usr/bin/env python3
"""lines.py SOURCES REPLAY [--seed S] [--count N] [--damaged N] [--generators G] [--qubits Q] [--lines REQUESTS LINES]

Compares what the program replay prints for operation 26, a line that combines lists, with the single calls of the oracle made in the
line's order. Python's own parser reads the line, since `/`, `&` and `|` bind in Python as they do there; what it takes beside lines
(spaces, other names, calls, other operators) is found in its tree and refused. SOURCES is the folder of the Rust's sources
(compare/oracle/README.md says how to get them), REPLAY the program (target/bin/replay after `sh tools/make.sh replay`).

N random lines of every shape on rolls of the oracle's generator, of at most so many generators on so many qubits. --damaged N: N further
ones with damaged lines or rolls, letters whose roll was not sent, short areas and outputs. Then lines at the edges: 256 and 257 bytes,
parentheses 4 and 5 deep, 15 operands that wait, joined limits. --lines: the lines of a file, one for each request of another, are compared
with those made here and with the program's.

Prints how many requests were compared, by refusal; ends with status 1 at the first line that differs.
"""
import argparse
import ast
import collections
import os
import random
import struct
import sys
from typing import NamedTuple

import calls
import common
import compare
import damage
import roll
from calls import Request, hexed, unhex
from roll import Pauli, Refusal

LINE_WORDS = 32_768
LONGEST = 256
DEEPEST = 4
LETTERS = "ABCD"
SIGNS = {ast.Div: "/", ast.BitAnd: "&", ast.BitOr: "|"}
RANKS = {"/": 1, "&": 2, "|": 3}
BLOCK = 2_000


class Line(NamedTuple):
    text: bytes
    rolls: tuple
    out: int
    work: int

    def raw(self, fill):
        second = b"".join(struct.pack("<I", len(b)) + b for b in self.rolls)
        return Request(26, 0, 0, fill, 0, 0, self.out, self.work, self.text, second).raw()


class Operation(NamedTuple):
    sign: str
    left: object
    right: object


# ---- the form of a line

def tree_in(node):
    """A letter's number or an operation; none for what is no line."""
    if isinstance(node, ast.Name) and node.id in tuple(LETTERS):
        return LETTERS.index(node.id)
    if isinstance(node, ast.BinOp) and type(node.op) in SIGNS:
        left, right = tree_in(node.left), tree_in(node.right)
        if left is not None and right is not None:
            return Operation(SIGNS[type(node.op)], left, right)
    return None


def tree_of(text):
    if set(text) - set(b"ABCD/&|()"):
        return None
    try:
        return tree_in(ast.parse(text.decode(), mode="eval").body)
    except (SyntaxError, MemoryError):
        return None


def letters(tree):
    return {tree} if isinstance(tree, int) else letters(tree.left) | letters(tree.right)


def depth(text):
    """How many parentheses are open at the same time."""
    most = now = 0
    for b in text:
        now += (b == ord("(")) - (b == ord(")"))
        most = max(most, now)
    return most


def refused_early(line):
    """14, 15, then each roll that was sent, then 9."""
    tree = tree_of(line.text) if len(line.text) <= LONGEST else None
    if tree is None or any(not line.rolls[a] for a in letters(tree)):
        return Refusal(14, 0)
    if depth(line.text) > DEEPEST:
        return Refusal(15, 0)
    lists = roll.read_all(b for b in line.rolls if b)
    if isinstance(lists, Refusal):
        return lists
    return Refusal(9, 0) if line.work < LINE_WORDS else None


# ---- the single calls

WORDS = {"/": "quotient n {} n {}", "&": "common n {} n {}", "|": "join {} {}"}


def answers_of(oracle, asked):
    """What each single call tells: bytes or a refusal. The common part is worked out by common.py."""
    answers = common.asked(oracle, [WORDS[sign].format(hexed(left), hexed(right)) for sign, left, right in asked])
    told = [answer_of(left, right, answer) for (_, left, right), answer in zip(asked, answers)]
    parts = [k for k, (sign, _, _) in enumerate(asked) if sign == "&" and isinstance(told[k], bytes)]
    for k, (written, _) in zip(parts, common.parts(oracle, [asked[k][1:] for k in parts])):
        told[k] = written
    return told


def answer_of(left, right, answer):
    joined = roll.refused_joined(roll.read(left), roll.read(right), (2, 7))
    if (answer == "bad") != (joined is not None) or answer == "panic":
        sys.exit(f"the oracle and the table part: {answer}, {joined}")
    return joined or (Refusal(11, 0) if answer == "refused 11" else unhex(answer))


def operations(tree, rolls, found):
    """The operations of a tree whose operands are known, and its value where it is: bytes or a refusal."""
    if isinstance(tree, int):
        return [], rolls[tree]
    if id(tree) in found:
        return [], found[id(tree)]
    asked, left = operations(tree.left, rolls, found)
    if isinstance(left, Refusal):
        return [], left
    more, right = operations(tree.right, rolls, found)
    if left is None or right is None or isinstance(right, Refusal):
        return asked + more, None if left is None else right
    return [(tree, left, right)], None


def worked_out(oracle, jobs):
    """The value of each tree with its rolls: in rounds, each of which asks for what the one before made known."""
    found = {}
    while True:
        states = [operations(tree, rolls, found) for tree, rolls in jobs]
        asked = [one for ready, _ in states for one in ready]
        if not asked:
            return [value for _, value in states]
        told = answers_of(oracle, [(tree.sign, left, right) for tree, left, right in asked])
        found.update((id(tree), value) for (tree, _, _), value in zip(asked, told))


def results(oracle, lines):
    """The refusal (but 12) or the bytes of each line."""
    early = [refused_early(line) for line in lines]
    jobs = [(tree_of(line.text), line.rolls) for line, refused in zip(lines, early) if refused is None]
    values = iter(worked_out(oracle, jobs))
    late = [None if refused else next(values) for refused in early]
    return [refused or (value if isinstance(value, Refusal) else common.as_written(value)) for refused, value in zip(early, late)]


def told(line, found, early):
    """The line that the program must print."""
    if isinstance(found, bytes) and len(found) > line.out:
        found = Refusal(12, 0)
    if isinstance(found, Refusal):
        return f"refused {found.number} at {found.place}; out - kept; work {'untouched' if early else 'zeroed'}"
    return f"wrote {len(found)}; out {hexed(found)} kept; work zeroed"


# ---- lines

def random_tree(rng, operands):
    if operands == 1:
        return rng.randrange(4)
    left = rng.randrange(1, operands)
    return Operation(rng.choice("/&||&"), random_tree(rng, left), random_tree(rng, operands - left))


def text_of(rng, tree, extra, highest=3):
    """The line of a tree, with the parentheses that it needs and now and then some more."""
    if isinstance(tree, int):
        text, rank = LETTERS[tree], 0
    else:
        rank = RANKS[tree.sign]
        text = text_of(rng, tree.left, extra, rank) + tree.sign + text_of(rng, tree.right, extra, rank - 1)
    if rank > highest or rng.random() < extra:
        text = f"({text})"
    return text


def random_text(rng):
    """A line that may be too deep, but is not too long."""
    while True:
        text = text_of(rng, random_tree(rng, rng.choice((1, 2, 2, 3, 3, 4, 5, 6, 8, 12))), rng.choice((0, 0, 0.05, 0.2))).encode()
        if len(text) <= LONGEST:
            return text


def rolls_made(gen, rng, count, generators, qubits):
    """Four rolls for each line, of the oracle's generator of pairs."""
    pairs = [(r.first, r.second) for r in compare.made(11, gen, rng, 2 * count, generators, qubits)]
    return [pairs[2 * k] + pairs[2 * k + 1] for k in range(count)]


def related(rng, rolls):
    """Now and then a roll is the front of another or another one, so that quotients and common parts are met."""
    rolls = list(rolls)
    for k in range(4):
        if rng.randrange(3) == 0:
            paulis = roll.read(rng.choice(rolls))
            rolls[k] = roll.write(rng.sample(paulis, rng.randrange(len(paulis) + 1)))
    return rolls


def whole(rng, rolls):
    text = random_text(rng)
    return Line(text, tuple(related(rng, rolls)), 0, LINE_WORDS + rng.randrange(3))


def damaged_text(rng, text):
    k = rng.randrange(len(text))
    kind = rng.randrange(7)
    if kind == 0:
        return text[:k] + text[k + 1:]
    if kind == 1:
        return text[:k] + bytes([rng.choice(b"ABCDE@abcd/&|() \t\n0x\xff\0*+,")]) + text[k + 1:]
    if kind == 2:
        return text[:k] + bytes([rng.choice(b"ABCDE/&|() ")]) + text[k:]
    if kind == 3:
        return rng.choice((b"", text[:k], text[k:], text + text, b"(" + text, text + b")", b"()", b"A()", b"(A)(B)", b"A,B", b"A|", b"|A", b"//"))
    if kind == 4:
        n = rng.randrange(1, 8)
        return b"(" * n + text + b")" * n
    if kind == 5:
        return (text + rng.choice((b"|", b"&", b"/"))) * (LONGEST // (len(text) + 1) + rng.randrange(2)) + text
    return b"(" * rng.randrange(250, 259)


def damaged(rng, line):
    """One thing or two are wrong: the line, a roll, a roll not sent, the area; the output is chosen later."""
    rolls = list(line.rolls)
    for way in rng.sample(range(5), rng.choice((0, 1, 1, 1, 2))):
        k = rng.randrange(4)
        if way == 0:
            line = line._replace(text=damaged_text(rng, line.text))
        elif way == 1 and rolls[k]:
            rolls[k] = damage.damaged_roll(rng, rolls[k])
        elif way == 2:
            rolls[k] = b""
        elif way == 3:
            line = line._replace(work=rng.choice((0, 1, 4095, 4096, LINE_WORDS - 1, LINE_WORDS, 40_960)))
        elif way == 4 and roll.read(rolls[k] or b"\0\0") and rolls[k]:
            paulis = roll.read(rolls[k])
            if isinstance(paulis, list):
                rolls[k] = roll.write([p._replace(e=rng.randrange(256)) for p in paulis])
    return line._replace(rolls=tuple(rolls))


def edge_lines():
    """Lines at the limits of their form, and lists at the joined limits."""
    xs = roll.write([Pauli(0, (0,), ())])
    zs = roll.write([Pauli(7, (), (q,)) for q in range(65)])
    small = roll.write([Pauli(0, (0,), ()), Pauli(2, (), (1,))])
    rolls = (xs, small, zs, xs)
    deep = "A|B&C/(A|B&C/(A|B&C/(A|B&C/(A|B&C/D))))"
    texts = ["A&" * 127 + "A", "A&" * 127 + "AA", "A&" * 127 + "A&", "(" + "A&" * 126 + "A)", "((" + "A&" * 126 + "A)", "A&" * 128 + "A",
             "(" * 256, "(" * 257, ")" * 256, "((((A))))", "(((((A)))))", "(((((D)))))", "(A)|((((A))))", "(A)|(((((A)))))", deep,
             deep.replace("D", "(D)"), "B|" * 63 + "B", "B|" * 64 + "B", "C|C", "C&(C|C)", "(C|C)&A/B", "A/B&(C|C)", "A/B/A", "A/(B/A)", "B/A/A", ""]
    for text in texts:
        for k in range(5):
            sent = tuple(b"" if a == k else b for a, b in enumerate(rolls))
            yield Line(text.encode(), sent, 0, LINE_WORDS)
    wide = [roll.write([Pauli(0, (q,), ()) for q in range(low, low + 64)]) for low in (0, 32, 64, 65)]
    for text in ("A|B", "A|C", "A|D", "A&D", "A/D", "(A|B)&C", "A&C|D", "A&C|C", "A|B|C", "B&C|A"):
        yield Line(text.encode(), tuple(wide), 0, LINE_WORDS)
    last = 2**32 - 1
    high = [roll.write([Pauli(0, (q,), ()), Pauli(0, (0, 3, q), (q,))]) for q in (65_535, 65_536, last)] + [roll.write([Pauli(0, (last, 0), ())])]
    for text in ("A", "B", "C", "A|B", "A|C", "A&B", "B&C", "(A|B|C)/C", "(A|B)&(B|C)", "C&C", "A|B&C"):
        for sent in (tuple(high), tuple(high[:3]) + (b"",)):
            yield Line(text.encode(), sent, 0, LINE_WORDS)


# ---- runs

def compare_block(rng, lines, oracle, replay, output):
    found = results(oracle, lines)
    lines = [line._replace(out=output(rng, len(f) if isinstance(f, bytes) else 0)) for line, f in zip(lines, found)]
    got = compare.run([replay], b"".join(line.raw(rng.randrange(1, 256)) for line in lines)).decode().split("\n")
    counts = collections.Counter()
    for k, (line, f) in enumerate(zip(lines, found)):
        wanted = told(line, f, refused_early(line) is not None)
        if k >= len(got) or got[k] != wanted:
            rolls = [b.hex() for b in line.rolls]
            sys.exit(f"the program's line differs\n  line     {line.text}\n  rolls    {rolls}\n  expected {wanted}\n  got      {got[k:k + 1]}")
        counts[int(wanted.split()[1]) if wanted.startswith("refused") else 0] += 1
    if got[len(lines):] != [""]:
        sys.exit(f"lines follow: {got[len(lines):]}")
    return counts


def compare_lines(args, programs):
    gen, oracle = programs
    rng = random.Random(f"{args.seed} line")
    for name, count, change, output in (("lines", args.count, lambda line: line, compare.few_more),
                                        ("damaged", args.damaged, lambda line: damaged(rng, line), damage.output_for)):
        counts = collections.Counter()
        for start in range(0, count, BLOCK):
            made = rolls_made(gen, rng, min(BLOCK, count - start), args.generators, args.qubits)
            counts += compare_block(rng, [change(whole(rng, rolls)) for rolls in made], oracle, args.replay, output)
        if count:
            print(f"{name}: {sum(counts.values())} lines equal; " + compare.counted(counts), flush=True)
    counts = collections.Counter()
    for more in (-1, 0, 1):
        counts += compare_block(rng, list(edge_lines()), oracle, args.replay, lambda rng, size: max(size + more, 0))
    print(f"edges: {sum(counts.values())} lines equal; " + compare.counted(counts))


def compare_file(args, oracle):
    """Requests of operation 26, and their lines."""
    with open(args.lines[0], "rb") as file:
        requests = list(calls.requests_in(file.read()))
    with open(args.lines[1], encoding="ascii") as file:
        wanted = file.read().split("\n")[:-1]
    lines = [Line(r.first, four_strings(r.second), r.out, r.work) for r in requests]
    mine = [told(line, found, refused_early(line) is not None) for line, found in zip(lines, results(oracle, lines))]
    got = compare.run([args.replay], b"".join(r.raw() for r in requests)).decode().split("\n")
    for r, file_line, own, program in zip(requests, wanted, mine, got):
        if not file_line == own == program:
            sys.exit(f"the lines differ\n  line    {r.first}\n  file    {file_line}\n  here    {own}\n  program {program}")
    if not len(requests) == len(wanted) == len(got) - 1:
        sys.exit(f"{len(requests)} requests, {len(wanted)} lines, {len(got) - 1} of the program")
    print(f"{args.lines[1]}: {len(wanted)} lines equal to those made here and to the program's")


def four_strings(b):
    strings = []
    while b:
        n = int.from_bytes(b[:4], "little")
        strings.append(b[4:4 + n])
        b = b[4 + n:]
    return tuple(strings)


def main():
    parser = argparse.ArgumentParser(description=__doc__, formatter_class=argparse.RawDescriptionHelpFormatter)
    parser.add_argument("sources")
    parser.add_argument("replay")
    parser.add_argument("--seed", type=int, default=1)
    parser.add_argument("--count", type=int, default=1000)
    parser.add_argument("--damaged", type=int, default=0)
    parser.add_argument("--generators", type=int, default=6)
    parser.add_argument("--qubits", type=int, default=5)
    parser.add_argument("--lines", nargs=2)
    args = parser.parse_args()
    if not os.access(args.replay, os.X_OK):
        sys.exit(f"{args.replay} is missing: `sh tools/make.sh replay` makes target/bin/replay")
    programs = compare.built_from(args.sources)
    if args.lines:
        compare_file(args, programs[1])
    else:
        compare_lines(args, programs)


if __name__ == "__main__":
    main()
