#!/usr/bin/env python3
"""marks.py SOURCES REPLAY [--seed S] [--count N] [--lines REQUESTS LINES]

Compares what the program replay prints for operation 29 with steps 6 to 9, marks of a window and its round number, with a model. SOURCES,
REPLAY and the other steps are those of windows.py, which has the model of the window and asks the oracle.

The model of the marks: up to eight, by names of 8 bytes, each with the checks that were accepted up to it and the round number. A used name
is replaced; 20 for a new name while eight are held; 19 for a name that is not held, on return and on delete; both change nothing. Returning
restores checks and round and keeps the marks. The round counts accepted checks from 0 on; its largest value, 2^64 - 1, is not reached.

N random scripts on few qubits (--count), now and then on up to 128: sends, marks, questions and rounds in any order, with up to twelve names
that differ in one byte, zeros among them. Then for each byte of a name every other value of it, beside the name: neither is taken for the
other. Then names that are cut short. --lines: the lines of a file, for the requests of another, are compared with those made here and with
the program's.

Prints how many lines agree, by outcome; ends with status 1 at the first that does not.
"""
import collections
import random

import claims
import compare
import roll
import windows
from calls import WORK_WORDS
from roll import Pauli, Refusal
from windows import SEND, STANDARD, Script, Step, plain_line

SAVE, RETURN, DELETE, ROUND = range(6, 10)
MOST_MARKS = 8
NAME_BYTES = 8
LAST_ROUND = 2**64 - 1
BLOCK = 500


class Mark(Step):
    """A step on marks: its name stands where others have a roll."""

    def raw(self):
        return bytes([self.kind]) + self.roll


# ---- the model

class Marked(windows.Window):
    """noted: what became of each mark that was saved, for the counts that are printed."""

    def __init__(self, width):
        super().__init__(width)
        self.round, self.marks, self.noted = 0, {}, collections.Counter()

    def send(self, b):
        refused = super().send(b)
        if not refused:
            self.round = min(self.round + 1, LAST_ROUND)
        return refused

    def save(self, name):
        is_full = len(self.marks) == MOST_MARKS
        if name not in self.marks and is_full:
            return Refusal(20, 0)
        self.noted[("replaced" if name in self.marks else "new") + (" while eight are held" if is_full else "")] += 1
        self.marks[name] = tuple(self.accepted), self.round
        return None

    def back(self, name):
        if name not in self.marks:
            return Refusal(19, 0)
        accepted, self.round = self.marks[name]
        self.accepted = list(accepted)
        return None

    def delete(self, name):
        return None if self.marks.pop(name, None) else Refusal(19, 0)

    def step(self, step, out, work):
        if step.kind == SAVE:
            return plain_line(self.save(step.roll), "saved")
        if step.kind == RETURN:
            return plain_line(self.back(step.roll), "returned")
        if step.kind == DELETE:
            return plain_line(self.delete(step.roll), "deleted")
        if step.kind == ROUND:
            return plain_line(None, f"round {self.round}")
        return super().step(step, out, work)


# ---- random scripts

class Few(claims.Qubits):
    def __init__(self, rng):
        count = rng.randrange(1, 5)
        low = rng.choice((0, 65_534, windows.LAST - count))
        self.numbers, self.places, self.own = list(range(low, low + count + 1)), range(count + 1), (1 << count) - 1


def changed(name, k, value):
    return name[:k] + bytes([value]) + name[k + 1:]


def some_names(rng):
    """A name and others that differ from it in one byte each, often in the last or the first one."""
    name = rng.choice((bytes(NAME_BYTES), rng.randbytes(NAME_BYTES), b"mark" + bytes(4), b"round 10", b"\xff" * NAME_BYTES))
    found, count = {name}, rng.choice((2, 5, 9, 10, 12))
    places = rng.choice(((7,), (0,), (0, 7), range(NAME_BYTES)))
    while len(found) < count:
        found.add(changed(name, rng.choice(places), rng.choice((0, 1, 128, 255, rng.randrange(256)))))
    return sorted(found)


KINDS = (SEND,) * 6 + (SAVE,) * 5 + (RETURN,) * 3 + (DELETE,) * 2 + (ROUND,) * 2 + (STANDARD,) * 3
FILLING = KINDS + (SAVE,) * 12


def made(rng):
    """A script, whose output is chosen later."""
    width = rng.choice((1, 2, 2, 3, 4, 5, 8, windows.WIDEST))
    pool, window, names = windows.Pool(rng, claims.Qubits if rng.randrange(20) == 0 else Few), windows.Window(width), some_names(rng)
    if rng.randrange(10):
        pool.crowded = 0
    steps, size, kinds = [], 0, rng.choice((KINDS, FILLING))
    for _ in range(rng.choice((6, 12, 24, 48))):
        kind = rng.choice(kinds)
        if steps and steps[-1].kind in (RETURN, DELETE):
            kind = rng.choice((kind, STANDARD, ROUND))
        if kind == SEND:
            step = windows.some_send(rng, pool, window)
        elif kind == STANDARD:
            step = windows.some_question(rng, pool, window)
        else:
            step = Step(ROUND) if kind == ROUND else Mark(kind, rng.choice(names))
        size += len(step.raw())
        if size + 2 > windows.MOST_SCRIPT:
            break
        steps.append(step)
        if kind == SEND:
            window.send(step.roll)
    return Script(width, tuple(steps + [Step(STANDARD), Step(ROUND)]), 0, windows.some_area(rng))


# ---- runs

def compare_random(args, oracle):
    rng = random.Random(f"{args.seed} marks")
    counts, noted, total = collections.Counter(), collections.Counter(), 0
    while total < args.count:
        block = [made(rng) for _ in range(min(BLOCK, args.count - total))]
        found, models = windows.compare_block(rng, block, oracle, args.replay, Marked)
        counts += found
        noted += sum((window.noted for window in models), collections.Counter())
        total += len(block)
    print(f"random: {sum(counts.values())} lines of {total} scripts equal\n  {windows.printed(counts)}\n"
          f"  saved: {windows.printed(noted)}", flush=True)


def beside(name, other):
    """A mark of one name, then one of the other: each is found by its own name alone."""
    checks = [roll.write([Pauli(0, x, z)]) for x, z in (((0,), ()), ((), (0, 3)), ((5,), (5,)))]
    told = [Step(STANDARD), Step(ROUND)]
    steps = [Step(SEND, checks[0]), Mark(SAVE, name), Mark(RETURN, other), Mark(DELETE, other), Step(SEND, checks[1]), Mark(SAVE, other)]
    steps += [Step(SEND, checks[2]), Mark(RETURN, name)] + told + [Mark(RETURN, other)] + told
    steps += [Mark(DELETE, name), Mark(RETURN, name), Mark(DELETE, name), Mark(RETURN, other)] + told
    return Script(2, tuple(steps), 0, WORK_WORDS)


def compare_names(args, oracle):
    rng = random.Random(f"{args.seed} names")
    counts, total = collections.Counter(), 0
    for name in (bytes(NAME_BYTES), b"\xff" * NAME_BYTES, rng.randbytes(NAME_BYTES)):
        for k in range(NAME_BYTES):
            scripts = [beside(name, changed(name, k, value)) for value in range(256) if value != name[k]]
            counts += windows.compare_block(rng, scripts, oracle, args.replay, Marked)[0]
            total += len(scripts)
    print(f"names: {sum(counts.values())} lines of {total} scripts equal; {windows.printed(counts)}", flush=True)


def step_in(b, at):
    if b[at] in (SAVE, RETURN, DELETE):
        end = at + 1 + NAME_BYTES
        return Mark(b[at], b[at + 1:end]), end
    return windows.step_in(b, at)


def main():
    args = windows.arguments(__doc__, 100_000)
    _, oracle = compare.built_from(args.sources)
    if args.lines:
        windows.compare_file(args, oracle, Marked, step_in)
        return
    compare_names(args, oracle)
    windows.compare_bad(args, roll.write([Pauli(0, (3,), ())]), [Mark(kind, b"\1" * NAME_BYTES) for kind in (SAVE, RETURN, DELETE)])
    compare_random(args, oracle)


if __name__ == "__main__":
    main()
