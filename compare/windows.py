#!/usr/bin/env python3
"""windows.py SOURCES REPLAY [--seed S] [--count N] [--lines REQUESTS LINES]

Compares what the program replay prints for operation 29, steps 1 to 5, with a model of a window and with the oracle. SOURCES is the folder of
the Rust's sources (compare/oracle/README.md says how to get them), REPLAY the program (target/bin/replay after `sh tools/make.sh replay`).

The model keeps every check that was accepted, in order; inside are the last ones, as many as the width. Of a roll that is sent it tells the
refusal by the order of the checks: the roll's own (roll.py), 18 where it has not one Pauli, 7 for the qubits inside after the oldest has left.
The questions (standard generators, rank, phases, membership) must give the line of the call of that name on the roll of the checks inside,
without promise: refusals and areas from calls.py, everything else from the oracle.

Windows of each width from 1 to 64 in turn, until N checks are accepted: on few and on up to 128 qubits, numbers to the end of 32 bits, any
exponent byte, products of the checks inside, rolls that have no Pauli or several, damaged rolls (damage.py), and checks with just as many new
qubits that 127 to 130 are inside afterwards. Elements are members, members with another sign, members with one letter changed, or any others;
their rolls are damaged and their numbers past the list now and then; some work areas are short, and outputs are around the length of an
answer. Then widths outside 1 to 64; a small check, its roll cut at every place and every byte of it changed to every other value, each with a
question behind it; and scripts that end with `bad request`. --lines: the lines of a file, for the requests of another, are compared with those
made here and with the program's.

Prints how many lines agree, by outcome; ends with status 1 at the first that does not.
"""
import argparse
import collections
import functools
import os
import random
import struct
import sys
from typing import NamedTuple

import brute
import calls
import claims
import compare
import damage
import roll
from calls import WORK_WORDS, Request, Result
from roll import MOST_QUBITS, Pauli, Refusal

WIDEST = 64
LAST = 2**32 - 1
MOST_SCRIPT = 262_144
SEND, STANDARD, RANK, PHASES, MEMBER = range(1, 6)
QUESTIONS = {STANDARD: 1, RANK: 2, PHASES: 3, MEMBER: 7}  # the operation of the same question about a roll


class Step(NamedTuple):
    kind: int
    roll: bytes = b""
    number: int = 0

    def raw(self):
        number = struct.pack("<I", self.number) if self.kind == MEMBER else b""
        return bytes([self.kind]) + number + (claims.counted(self.roll) if self.kind in (SEND, MEMBER) else b"")


class Script(NamedTuple):
    width: int
    steps: tuple
    out: int
    work: int

    def request(self, fill):
        first = b"".join(step.raw() for step in self.steps)
        return Request(29, 0, 0, fill, self.width, 0, self.out, self.work, first, b"")


# ---- the model

class Window:
    """accepted: the checks that were, the first one first. room: how the qubits of each check went, for the counts that are printed."""

    def __init__(self, width):
        self.width, self.accepted, self.room = width, [], []

    def inside(self):
        return self.accepted[-self.width:]

    def send(self, b):
        """The refusal, which changes nothing, or none."""
        check = roll.read(b)
        if isinstance(check, Refusal):
            return check
        if len(check) != 1:
            return Refusal(18, 0)
        before = self.inside() + check
        count = roll.distinct(before[-self.width:])
        self.room.append((len(before) > self.width, roll.distinct(before), count))
        if count > MOST_QUBITS:
            return Refusal(7, 0)
        self.accepted += check
        return None

    def step(self, step, out, work):
        """What a step gives: a line, or the request of the same question about a roll."""
        if step.kind == SEND:
            return plain_line(self.send(step.roll), "sent")
        written = roll.write([check._replace(e=check.e % 4) for check in self.inside()])
        return Request(QUESTIONS[step.kind], 0, 0, 1, step.number, 0, out, work, written, step.roll)


def plain_line(refused, words):
    """The line of a step that takes no area."""
    return f"{f'refused {refused.number} at {refused.place}' if refused else words}; out - kept; work none"


def told(script, window):
    """What the making and each step give."""
    if not 1 <= script.width <= WIDEST:
        return [plain_line(Refusal(17, 0), "")]
    return [plain_line(None, "made")] + [window.step(step, script.out, script.work) for step in script.steps]


def results(oracle, requests):
    """The refusal (but 12) or the result of each question."""
    found = []
    for r, answers in zip(requests, calls.ask(oracle, requests)):
        found.append(calls.result(r, answers))
        if "panic" in answers or (answers[0] == "bad") != calls.is_bad(r, found[-1], answers):
            sys.exit(f"the oracle and the table part: {r}\n  {found[-1]}\n  {answers}")
    return found


def with_results(oracle, gives):
    """Of each script what it gives, the questions with their results."""
    asked = list(dict.fromkeys(one._replace(out=0) for script in gives for one in script if isinstance(one, Request)))
    known = dict(zip(asked, results(oracle, asked)))
    return [[(one, known[one._replace(out=0)]) if isinstance(one, Request) else one for one in script] for script in gives]


def line_of(one, out):
    return one if isinstance(one, str) else calls.line(one[0]._replace(out=out), one[1])


# ---- random checks and elements

def times_i(pauli, k):
    return pauli._replace(e=(pauli.e + k) % 4)


def with_any_byte(rng, paulis):
    """The same values in other bytes, now and then."""
    return [pauli._replace(e=pauli.e % 4 + 4 * rng.choice((0, 0, rng.randrange(64)))) for pauli in paulis]


def product_inside(rng, inside):
    """A product of some of the checks, in their order; the identity where there are none."""
    chosen = rng.sample(range(len(inside)), rng.choice((0, min(1, len(inside)), min(2, len(inside)), rng.randrange(len(inside) + 1))))
    return functools.reduce(brute.times, (inside[k] for k in sorted(chosen)), Pauli(0, (), ()))


def with_a_letter(pauli, q):
    return brute.times(pauli, Pauli(0, (q,), ()))


def new_numbers(rng, used, count):
    """So many numbers that are not used, from one of the ends of 32 bits or from anywhere."""
    found, far = set(), rng.choice((300, 2**16 + 300, LAST + 1))
    while len(found) < count:
        q = rng.randrange(far)
        found |= {q if rng.randrange(2) else LAST - q} - used
    return found


def check_at_the_limit(rng, window):
    """A check with so many new qubits that 127 to 130 are inside with it, and with some of those that are; or that many of its own."""
    before = window.inside() + [Pauli(0, (), ())]
    staying = set(roll.support(before[-window.width:]))
    count = min(max(rng.choice((127, 128, 128, 129, 130)) - len(staying), 0), 130)
    own = new_numbers(rng, staying, count) | set(rng.sample(sorted(staying), rng.randrange(min(len(staying), 4) + 1)))
    return damage.pauli_on(rng, sorted(own))


class Pool:
    """Where the checks of a script come from. crowded: how often one is sent that is at the limit of qubits. faulty: how often a roll is."""

    def __init__(self, rng, qubits=claims.Qubits):
        self.qubits, self.kind = qubits(rng), rng.randrange(3)
        self.crowded, self.faulty = rng.choice((0, 0, 0, 0.05, 0.2, 0.7)), rng.choice((0, 0.1, 0.3))

    def some(self, rng, count, within):
        return roll.read(self.qubits.roll(rng, [claims.some_product(rng, within, self.kind) for _ in range(count)]))

    def one(self, rng, beside=False):
        return self.some(rng, 1, self.qubits.beside(rng) if beside else self.qubits.own)[0]


def some_check(rng, pool, window):
    """One valid check."""
    if rng.random() < pool.crowded:
        return check_at_the_limit(rng, window)
    kind = rng.randrange(10)
    if kind == 0 and window.accepted:
        return times_i(product_inside(rng, window.inside()), rng.randrange(4))
    if kind == 1 and window.accepted:
        return times_i(rng.choice(window.inside()), rng.randrange(4))
    if kind == 2:
        return Pauli(rng.randrange(256), (), ())
    return pool.one(rng, kind == 3)


def of_another_count(rng, check, pool):
    """None, two or more Paulis; now and then near a limit of a roll, so that its own 2 or 7 comes first."""
    kind = rng.randrange(6)
    if kind < 3:
        return [[], [check, check], [check, pool.one(rng)]][kind]
    return damage.of_size(rng, [check]) if kind == 3 else pool.some(rng, rng.choice((2, 3, 5)), pool.qubits.own)


def some_send(rng, pool, window):
    check = some_check(rng, pool, window)
    is_faulty = rng.random() < pool.faulty
    paulis = of_another_count(rng, check, pool) if is_faulty and rng.randrange(3) == 0 else [check]
    b = roll.write(with_any_byte(rng, paulis))
    return Step(SEND, claims.damaged_roll(rng, b) if is_faulty and rng.randrange(2) else b)


def some_element(rng, pool, window):
    """A member, with another sign, with one letter more or less; or any other."""
    kind = rng.randrange(8)
    if kind >= 6:
        return pool.one(rng, kind == 7)
    found = product_inside(rng, window.inside())
    if kind == 4:
        found = with_a_letter(found, rng.choice(roll.support(window.inside()) or [0]))
    elif kind == 5:
        found = with_a_letter(found, rng.randrange(LAST + 1))
    return times_i(found, rng.randrange(4) if kind in (2, 3) else 0)


def some_member(rng, pool, window):
    others = pool.some(rng, rng.choice((0, 0, 1, 3)), pool.qubits.own)
    paulis, number = claims.placed(rng, others, some_element(rng, pool, window))
    b = roll.write(with_any_byte(rng, paulis))
    if rng.random() < pool.faulty:
        if rng.randrange(2):
            b = claims.damaged_roll(rng, b)
        if rng.randrange(2):
            number = claims.past(rng, b + b"\0\0")
    return Step(MEMBER, b, number)


def some_question(rng, pool, window):
    kind = rng.choice((STANDARD, RANK, PHASES, MEMBER, MEMBER))
    return some_member(rng, pool, window) if kind == MEMBER else Step(kind)


def some_area(rng):
    return rng.choice((WORK_WORDS - 1, WORK_WORDS - 1, 0, 1, 64)) if rng.randrange(12) == 0 else WORK_WORDS + rng.randrange(3)


def made(rng, width):
    """A script, whose output is chosen later."""
    pool, window = Pool(rng), Window(width)
    often = rng.choice((0.05, 0.2, 0.5))
    count = rng.choice((width // 2 + 1, width + 5, 2 * width + 10, 3 * width + 20, 100))
    steps, size, sent, refused = [], 0, 0, None
    while sent < count:
        ask = rng.random() < (0.5 if refused else often)
        step = some_question(rng, pool, window) if ask else some_send(rng, pool, window)
        size += len(step.raw())
        if size > MOST_SCRIPT:
            break
        steps.append(step)
        if step.kind == SEND:
            sent, refused = sent + 1, window.send(step.roll)
        else:
            refused = None
    steps += [Step(kind) for kind in (STANDARD, RANK, PHASES) if size + 3 <= MOST_SCRIPT]
    return Script(width, tuple(steps), 0, some_area(rng))


# ---- runs

def differ(script, k, wanted, got):
    done = [(step.kind, step.number, step.roll.hex()) for step in script.steps[:k]]
    sys.exit(f"the program's line differs\n  width    {script.width}\n  steps    {done}\n  lent     {script.out} and {script.work}\n"
             f"  expected {wanted}\n  got      {got}")


def program_lines(replay, scripts, rng, counts):
    """The program's lines of each script."""
    lines = compare.run([replay], b"".join(script.request(rng.randrange(1, 256)).raw() for script in scripts)).decode().split("\n")
    if len(lines) != sum(counts) + 1:
        sys.exit(f"{len(lines) - 1} lines for {sum(counts)} steps: {lines[-2:]}")
    at = 0
    for count in counts:
        yield lines[at:at + count]
        at += count


def lent(rng, script, gives):
    """The script with an output that is near the length of one of its answers, or long enough for all."""
    sizes = [len(one[1].written) for one in gives if not isinstance(one, str) and isinstance(one[1], Result)]
    size = max(sizes, default=0)
    if rng.randrange(4):
        return script._replace(out=size + rng.randrange(3))
    return script._replace(out=damage.output_for(rng, rng.choice([size] + [n for n in sizes if n])))


def compare_block(rng, scripts, oracle, replay, model=Window):
    """The count of each outcome, and the models after their scripts."""
    models = [model(script.width) for script in scripts]
    gives = with_results(oracle, [told(script, window) for script, window in zip(scripts, models)])
    scripts = [lent(rng, script, one) for script, one in zip(scripts, gives)]
    counts = collections.Counter()
    for script, give, got in zip(scripts, gives, program_lines(replay, scripts, rng, list(map(len, gives)))):
        for k, (one, line) in enumerate(zip(give, got)):
            wanted = line_of(one, script.out)
            if line != wanted:
                differ(script, k, wanted, line)
            counts[outcome(script.steps[k - 1].kind if k else 0, line)] += 1
    return counts, models


NAMES = ("making", "send", "standard", "rank", "phases", "member", "save", "return", "delete", "round")


def outcome(kind, line):
    words = line.split(";")[0].split()
    return f"{NAMES[kind]}: {' '.join(words[:2]) if words[0] in ('refused', 'not') else 'answered'}"


def printed(counts):
    return ", ".join(f"{name} {counts[name]}" for name in sorted(counts, key=lambda name: (name.split(":")[0], len(name), name)))


def rooms(models):
    """How often the limit of qubits was met, and how."""
    counts = collections.Counter()
    for full, before, after in (room for window in models for room in window.room):
        if after > MOST_QUBITS:
            counts["refused though the oldest leaves" if full else "refused with none leaving"] += 1
        elif before > MOST_QUBITS:
            counts["accepted since the oldest leaves"] += 1
        if after == MOST_QUBITS:
            counts["128 inside afterwards"] += 1
        if after == MOST_QUBITS + 1:
            counts["one too many"] += 1
    return counts


def compare_random(args, oracle):
    rng = random.Random(f"{args.seed} windows")
    counts, room, accepted, scripts, lived = collections.Counter(), collections.Counter(), 0, 0, 0
    while accepted < args.count:
        block = [made(rng, width) for width in range(1, WIDEST + 1)]
        found, models = compare_block(rng, block, oracle, args.replay)
        counts += found
        room += rooms(models)
        accepted += sum(len(window.accepted) for window in models)
        lived += sum(max(len(window.accepted) - window.width, 0) for window in models)
        scripts += len(block)
    sent = sum(n for name, n in counts.items() if name.startswith("send"))
    print(f"random: {sum(counts.values())} lines of {scripts} windows equal, {scripts // WIDEST} of each width; {sent} rolls sent, {accepted} checks "
          f"accepted, {lived} of them left\n  {printed(counts)}\n  qubits: {printed(room)}", flush=True)


def compare_widths(args, oracle, check):
    rng = random.Random(f"{args.seed} widths")
    steps = (Step(SEND, check), Step(RANK))
    outside = (0, 65, 66, 127, 128, 255, 256, 257, 320, 65_536, 65_537, 65_600, 2**31, 2**31 + 1, LAST - 1, LAST)
    counts, _ = compare_block(rng, [Script(width, steps, 0, WORK_WORDS) for width in outside + (1, WIDEST)], oracle, args.replay)
    print(f"widths: {sum(counts.values())} lines equal, {len(outside)} outside; {printed(counts)}")


def compare_every_byte(args, oracle, check):
    rng = random.Random(f"{args.seed} every byte")
    changed = [check[:k] for k in range(len(check))]
    changed += [check[:k] + bytes([value]) + check[k + 1:] for k in range(len(check)) for value in range(256) if value != check[k]]
    scripts = []
    for at in range(0, len(changed), 100):
        steps = [step for b in changed[at:at + 100] for step in (Step(SEND, b), Step(STANDARD))]
        scripts.append(Script(1 + at // 100 % 4, tuple(steps), 0, WORK_WORDS))
    counts, _ = compare_block(rng, scripts, oracle, args.replay)
    print(f"every byte: {sum(counts.values())} lines equal, {len(changed)} rolls; {printed(counts)}", flush=True)


def compare_bad(args, check, whole):
    """A byte that is no step, and a step cut short, end the program behind the lines of the steps before."""
    good = Script(2, (Step(SEND, check),), 0, WORK_WORDS).request(1)
    bad = [bytes([kind]) + rest for kind in (0, 10, 11, 128, 255) for rest in (b"", bytes(8), bytes(20))]
    bad += [step.raw()[:k] for step in whole for k in range(1, len(step.raw()))]
    bad += [bytes([SEND]) + b"\xff" * 4 + check, bytes([SEND]) + b"\xff" * 4, bytes([MEMBER]) + bytes(4) + b"\xff" * 4 + check]
    before = [plain_line(None, "made"), plain_line(None, "sent")]
    for b in bad:
        cut = good._replace(first=good.first + b)
        got = compare.run([args.replay], good.raw() + cut.raw() + good.raw()).decode()
        if got != "\n".join(before + before + ["bad request", ""]):
            sys.exit(f"no `bad request` behind {b.hex()}: {got}")
    refused = good._replace(a=0, first=b"\xff")
    got = compare.run([args.replay], refused.raw() + good.raw()).decode()
    if got != "\n".join([plain_line(Refusal(17, 0), "")] + before + [""]):
        sys.exit(f"a window that is not made has its script read: {got}")
    print(f"no steps: {len(bad)} scripts end with `bad request`")


# ---- a file's lines

def step_in(b, at):
    """The step of a script that stands there, and where the next one does."""
    kind, number, size = b[at], 0, 1
    if kind == MEMBER:
        number, size = struct.unpack_from("<I", b, at + 1)[0], 5
    if kind not in (SEND, MEMBER):
        return Step(kind), at + size
    start = at + size + 4
    end = start + struct.unpack_from("<I", b, start - 4)[0]
    return Step(kind, b[start:end], number), end


def script_in(r, read=step_in):
    steps, at = [], 0
    while at < len(r.first):
        step, at = read(r.first, at)
        steps.append(step)
    return Script(r.a, tuple(steps), r.out, r.work)


def compare_file(args, oracle, model=Window, read=step_in):
    with open(args.lines[0], "rb") as file:
        requests = list(calls.requests_in(file.read()))
    with open(args.lines[1], encoding="ascii") as file:
        wanted = file.read().split("\n")[:-1]
    scripts = [script_in(r, read) for r in requests]
    gives = with_results(oracle, [told(script, model(script.width)) for script in scripts])
    mine = [line_of(one, script.out) for script, give in zip(scripts, gives) for one in give]
    program = compare.run([args.replay], b"".join(r.raw() for r in requests)).decode().split("\n")[:-1]
    for k, (file_line, own, got) in enumerate(zip(wanted, mine, program)):
        if not file_line == own == got:
            sys.exit(f"line {k + 1} differs\n  file    {file_line}\n  here    {own}\n  program {got}")
    if not len(wanted) == len(mine) == len(program):
        sys.exit(f"{len(wanted)} lines in the file, {len(mine)} here, {len(program)} of the program")
    print(f"{args.lines[1]}: {len(wanted)} lines of {len(requests)} scripts equal to those made here and to the program's")


def arguments(text, count):
    parser = argparse.ArgumentParser(description=text, formatter_class=argparse.RawDescriptionHelpFormatter)
    parser.add_argument("sources")
    parser.add_argument("replay")
    parser.add_argument("--seed", type=int, default=1)
    parser.add_argument("--count", type=int, default=count)
    parser.add_argument("--lines", nargs=2)
    args = parser.parse_args()
    if not os.access(args.replay, os.X_OK):
        sys.exit(f"{args.replay} is missing: `sh tools/make.sh replay` makes target/bin/replay")
    return args


def main():
    args = arguments(__doc__, 100_000)
    _, oracle = compare.built_from(args.sources)
    if args.lines:
        compare_file(args, oracle)
        return
    check = roll.write([Pauli(1, (0, 2), (2, 5))])
    compare_widths(args, oracle, check)
    compare_every_byte(args, oracle, check)
    compare_bad(args, check, (Step(SEND, check), Step(MEMBER, check)))
    compare_random(args, oracle)


if __name__ == "__main__":
    main()
