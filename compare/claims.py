#!/usr/bin/env python3
"""claims.py REPLAY [--seed S] [--lists N] [--count N] [--lines REQUESTS LINES]

Compares what the program replay prints for operations 27 and 28, claims of membership and of absence, with a model; nothing here uses the
oracle. REPLAY is the program (target/bin/replay after `sh tools/make.sh replay`).

By multiplying out (brute.py's products): all lists of at most one generator on two qubits, of any phase, all of two generators with some
phases, and N of three and N of four (--lists). The elements are all Paulis on these qubits and a third one, of any phase. Every claim of
membership is made, of each set of indexes with each exponent 0 to 3, without a promise, with the true one and with the false one; and every
claim of absence, with each Pauli on the three qubits, of some phase. A claim of membership must be accepted exactly when the product of the
generators, times that power of i, is the element and the power is one of those of the group; with a false promise of those that operation 3
tells. A claim of absence must be accepted exactly when the witness commutes with all generators and not with the element. Then membership
(operation 7) is asked. Without a promise or with the true one: an element has a claim of membership that is accepted exactly when it is a
member, the one that operation 7 told is accepted, an element has a claim of absence that is accepted exactly when its sets are no product's,
and none has both.

Further N random requests of either operation (--count): up to 128 generators, each roll on up to 128 qubits of its own, numbers to the end of
32 bits, indexes that do not rise or are past the list, exponents above 3, numbers past a list, short areas, damaged rolls (damage.py), several
of these at once; and one small request of either with its rolls cut at every place and every byte of them changed to every other value. The
refusal comes from the order of the checks, each roll's from roll.py, the phases from operation 3. --lines: the lines of a file, one for each
request of another, are compared with those made here and with the program's.

Prints how many requests agree; ends with status 1 at the first that does not.
"""
import argparse
import collections
import itertools
import os
import random
import struct
import sys
from typing import NamedTuple

import brute
import calls
import compare
import damage
import roll
from brute import ALL, PLACE, PRODUCT
from calls import PROMISES, WORK_WORDS, Request
from common import Product
from roll import Pauli, Refusal

OWN = (0, 3)        # the qubits of the lists that are multiplied out
AROUND = (0, 3, 9)  # those of the elements and the witnesses
LAST = 2**32 - 1
BLOCK = 2_000


class Claim(NamedTuple):
    """sent: the indexes of 27, the witnesses' roll of 28. b: the exponent of 27, the witness's number of 28."""
    op: int
    p: int
    a: int
    b: int
    work: int
    generators: bytes
    elements: bytes
    sent: object

    def request(self, fill=165, out=3):
        last = self.sent if self.op == 28 else struct.pack(f"<{len(self.sent)}H", *self.sent)
        return Request(self.op, self.p, 0, fill, self.a, self.b, out, self.work, self.generators, counted(self.elements) + counted(last))


def counted(b):
    return struct.pack("<I", len(b)) + b


def told(op, found):
    """The line of a refusal, or of whether the claim is accepted."""
    refused = isinstance(found, Refusal)
    words = f"refused {found.number} at {found.place}" if refused else "accepted" if found else "not accepted"
    area = "none" if op == 28 else "untouched" if refused else "zeroed"
    return f"{words}; out - kept; work {area}"


def differ(what, wanted, got):
    sys.exit(f"the program's line differs\n  {what}\n  expected {wanted}\n  got      {got}")


def phases_told(replay, asked):
    """The phases that operation 3 tells of each roll with its promise."""
    lines = brute.run(replay, [Request(3, p, 0, 90, 0, 0, 0, WORK_WORDS, b, b"") for b, p in asked])
    found = []
    for line in lines:
        words = line.split("; ")
        if words[1:] != ["out - kept", "work zeroed"] or not words[0].startswith("phases "):
            differ("operation 3", "phases", line)
        found.append({int(phase) for phase in words[0].split()[1].split(",")})
    return found


# ---- by multiplying out

I = [PLACE[Pauli(e, (), ())] for e in range(4)]
ELEMENTS = brute.on(AROUND)
ROLLS = {k: counted(roll.write([ALL[k]])) for k in ELEMENTS}
SETS = {k: (ALL[k].x, ALL[k].z) for k in ELEMENTS}


def subsets(count):
    return brute.part_of(range(count))


def multiplied(gs, indexes):
    found = I[0]
    for i in indexes:
        found = PRODUCT[found][gs[i]]
    return found


def is_abelian(gs):
    return all(PRODUCT[g][h] == PRODUCT[h][g] for g in gs for h in gs)


def lists(rng, count):
    own = brute.on(OWN)
    plain = [k for k in own if ALL[k].e == 0]
    yield from [()] + [(g,) for g in own]
    for gs in itertools.product(plain, repeat=2):
        yield tuple(PRODUCT[g][rng.choice(I)] for g in gs)
    for n in (3, 4):
        for _ in range(count):
            yield tuple(rng.choice(own) for _ in range(n))


def claims_of_membership(gs):
    return [(indexes, exponent) for indexes in subsets(len(gs)) for exponent in range(4)]


def lines_of_membership(replay, gs, p, phases):
    """The claims that are accepted of each element, after every line is compared."""
    made = claims_of_membership(gs)
    claimed = [PRODUCT[multiplied(gs, indexes)][I[exponent]] for indexes, exponent in made]
    strings = [(exponent, counted(struct.pack(f"<{len(indexes)}H", *indexes))) for indexes, exponent in made]
    first = brute.roll_of(gs)
    requests = [Request(27, p, 0, 165, 0, exponent, 3, WORK_WORDS, first, ROLLS[k] + string) for k in ELEMENTS for exponent, string in strings]
    lines = iter(brute.run(replay, requests))
    accepted = {k: [] for k in ELEMENTS}
    for k in ELEMENTS:
        for claim, product in zip(made, claimed):
            wanted = product == k and claim[1] in phases
            line = next(lines)
            if line != told(27, wanted):
                differ(f"{[ALL[g] for g in gs]}, promise {PROMISES[p]}, {ALL[k]}: {claim}", told(27, wanted), line)
            if wanted:
                accepted[k].append(claim)
    return accepted


def lines_of_absence(replay, rng, gs):
    """How many claims are accepted of each element, after every line is compared."""
    witnesses = [PRODUCT[k][rng.choice(I)] for k in ELEMENTS if ALL[k].e == 0]
    apart = [w for w in witnesses if all(PRODUCT[w][g] == PRODUCT[g][w] for g in gs)]
    first = brute.roll_of(gs)
    pairs = [(k, w) for k in ELEMENTS for w in witnesses]
    lines = brute.run(replay, [Request(28, 0, 0, 165, 0, 0, 3, WORK_WORDS, first, ROLLS[k] + ROLLS[w]) for k, w in pairs])
    commuting, accepted = set(apart), dict.fromkeys(ELEMENTS, 0)
    for (k, w), line in zip(pairs, lines):
        wanted = w in commuting and PRODUCT[w][k] != PRODUCT[k][w]
        if line != told(28, wanted):
            differ(f"{[ALL[g] for g in gs]}, {ALL[k]}: {ALL[w]}", told(28, wanted), line)
        accepted[k] += wanted
    return accepted


def memberships(replay, gs, p):
    """The claim that operation 7 tells of each element, or none."""
    requests = [Request(7, p, 0, 90, 0, 0, 2 * len(gs), WORK_WORDS, brute.roll_of(gs), ROLLS[k][4:]) for k in ELEMENTS]
    found = {}
    for k, line in zip(ELEMENTS, brute.run(replay, requests)):
        words = line.replace(";", "").split()
        found[k] = None
        if words[0] == "member":
            b = calls.unhex(words[5])
            found[k] = struct.unpack(f"<{len(b) // 2}H", b), int(words[3])
    return found


def compare_agreement(gs, members, accepted, absent):
    """What claims tell of membership, and membership of claims, without a promise or with the true one."""
    group = brute.generated(gs)
    spanned = {SETS[multiplied(gs, indexes)] for indexes in subsets(len(gs))}
    counts = collections.Counter()
    for k in ELEMENTS:
        is_member = bool(group >> k & 1)
        inside = SETS[k] in spanned
        fits = (members[k] is not None) == is_member == bool(accepted[k])
        fits = fits and (not is_member or members[k] in accepted[k])
        fits = fits and bool(absent[k]) != inside and not (accepted[k] and absent[k])
        if not fits:
            sys.exit(f"claims and membership part\n  list     {[ALL[g] for g in gs]}\n  element  {ALL[k]}, {is_member} {inside}\n"
                     f"  told     {members[k]}\n  accepted {accepted[k]}, {absent[k]} of absence")
        counts["members" if is_member else "inside the span with another sign" if inside else "outside the span"] += 1
    return counts


def compare_list(replay, rng, gs):
    group = brute.generated(gs)
    own = {e for e in range(4) if group >> I[e] & 1}
    true = 1 if is_abelian(gs) else 2
    told_phases = phases_told(replay, [(brute.roll_of(gs), p) for p in range(3)])
    absent = lines_of_absence(replay, rng, gs)
    counts = collections.Counter({"lists": 1, "claims of absence": len(ELEMENTS) ** 2 // 4, "accepted of absence": sum(absent.values())})
    for p in range(3):
        honest = p in (0, true)
        if honest and told_phases[p] != own:
            differ(f"phases of {[ALL[g] for g in gs]}, promise {PROMISES[p]}", own, told_phases[p])
        accepted = lines_of_membership(replay, gs, p, told_phases[p])
        counts["claims of membership"] += len(ELEMENTS) * len(claims_of_membership(gs))
        counts["accepted of membership"] += sum(map(len, accepted.values()))
        counts["false promises that change the phases"] += told_phases[p] != own
        if honest:
            counts += compare_agreement(gs, memberships(replay, gs, p), accepted, absent)
    return counts


def compare_lists(replay, rng, count):
    counts = collections.Counter()
    for gs in lists(rng, count):
        counts += compare_list(replay, rng, gs)
    print("multiplied out: " + ", ".join(f"{name}: {n}" for name, n in counts.items()), flush=True)


# ---- the model of any request

def refused_early(claim):
    """Each roll's refusal in turn; 8 for the element, then for the witness or 16 for the claim's form; 9 where an area is taken."""
    rolls = [claim.generators, claim.elements] + ([claim.sent] if claim.op == 28 else [])
    lists = roll.read_all(rolls)
    if isinstance(lists, Refusal):
        return lists
    if claim.a >= len(lists[1]):
        return Refusal(8, 0)
    if claim.op == 28:
        return Refusal(8, 0) if claim.b >= len(lists[2]) else None
    rises = all(i < j for i, j in zip(claim.sent, claim.sent[1:]))
    if not rises or claim.b > 3 or any(i >= len(lists[0]) for i in claim.sent):
        return Refusal(16, 0)
    return Refusal(9, 0) if claim.work < WORK_WORDS else None


def clash(p, q):
    """Whether two Paulis anticommute: an odd number of qubits in the one's x and the other's z, or the other way."""
    return (len({*p.x} & {*q.z}) + len({*p.z} & {*q.x})) % 2 == 1


def is_accepted(claim, phases):
    generators, elements = roll.read(claim.generators), roll.read(claim.elements)
    element = elements[claim.a]
    if claim.op == 28:
        witness = roll.read(claim.sent)[claim.b]
        return clash(witness, element) and not any(clash(witness, g) for g in generators)
    x, z, e = set(), set(), 0
    for i in claim.sent:
        e += generators[i].e + 2 * len(z & {*generators[i].x})
        x ^= {*generators[i].x}
        z ^= {*generators[i].z}
    return (x, z) == ({*element.x}, {*element.z}) and (e + claim.b - element.e) % 4 == 0 and claim.b in phases


def founds(replay, made):
    """The refusal of each request, or whether the claim is accepted."""
    early = [refused_early(claim) for claim in made]
    asked = [claim for claim, refused in zip(made, early) if refused is None and claim.op == 27]
    phases = iter(phases_told(replay, [(claim.generators, claim.p) for claim in asked]))
    return [refused or is_accepted(claim, next(phases) if claim.op == 27 else None) for claim, refused in zip(made, early)]


# ---- random requests

class Qubits:
    """Qubit numbers, and the places of them that a roll may use, as bits."""

    def __init__(self, rng):
        count = rng.choice((1, 2, 3, 5, 8, 20, 64, 127, 128, 128))
        further = rng.choice((0, 0, 1, 3, 128))
        low, high = rng.choice(((0, 1), (0, 3), (65_530, 2), (2**31 - 20, 1), (LAST + 1 - count - further, 1), (0, 10_000_000)))
        self.numbers = sorted(rng.sample(range(low, low + high * (count + further)), count + further))
        self.places = range(count + further)
        self.own = self.some(rng, count)

    def some(self, rng, count):
        return sum(1 << k for k in rng.sample(self.places, min(count, 128, len(self.places))))

    def beside(self, rng):
        """The generators' own places, or others too, but no more than a roll may use."""
        return self.own if rng.randrange(3) else self.some(rng, rng.choice((1, 8, 128)))

    def roll(self, rng, products):
        named = lambda bits: tuple(q for q, k in zip(self.numbers, self.places) if bits >> k & 1)
        return roll.write([Pauli(p.e + 4 * rng.choice((0, 0, rng.randrange(64))), named(p.x), named(p.z)) for p in products])


def some_product(rng, within, kind):
    """A product on some of these places; of kind 1 few of them, of kind 2 with Z alone and of order two."""
    bits = lambda: rng.getrandbits(256) & within & (rng.getrandbits(256) & rng.getrandbits(256) if kind == 1 else -1)
    return Product(2 * rng.randrange(2), 0, bits()) if kind == 2 else Product(rng.randrange(4), bits(), bits())


def some_list(rng, within, most=128):
    """A list, some of which are products of those before."""
    kind = rng.randrange(3)
    found = []
    for _ in range(min(rng.choice((0, 1, 2, 3, 4, 6, 10, 20, 64, 127, 128)), most)):
        found.append(some_product(rng, within, kind))
        if rng.randrange(4) == 0:
            found[-1] = product_of(found, sorted(rng.sample(range(len(found)), rng.randrange(len(found)))))
    return found


def product_of(products, indexes):
    found = Product()
    for i in indexes:
        found = found.times(products[i])
    return found


def placed(rng, others, one):
    """A list with this one in it, and its number."""
    number = rng.randrange(len(others) + 1)
    return others[:number] + [one] + others[number:], number


def made_membership(rng):
    """A claim that holds where the group has its power of i; half of them are then changed."""
    qubits = Qubits(rng)
    generators = some_list(rng, qubits.own)
    n = len(generators)
    indexes = sorted(rng.sample(range(n), rng.choice((0, min(1, n), rng.randrange(n + 1), n))))
    exponent = rng.choice((0, 0, 1, 2, 3))
    element = product_of(generators, indexes).times(Product(exponent))
    change = rng.randrange(10)
    if change == 0:
        element = element.times(Product(rng.randrange(1, 4)))
    elif change == 1:
        exponent = (exponent + rng.randrange(1, 4)) % 4
    elif change == 2:
        element = Product(element.e, element.x ^ 1 << rng.choice(qubits.places), element.z)
    elif change == 3:
        element = Product(element.e, element.x, element.z ^ 1 << rng.choice(qubits.places))
    elif change == 4 and generators:
        indexes = sorted({*indexes} ^ {rng.randrange(len(generators))})
    elements, a = placed(rng, some_list(rng, qubits.beside(rng), 4), element)
    rolls = [qubits.roll(rng, products) for products in (generators, elements)]
    return Claim(27, rng.randrange(3), a, exponent, WORK_WORDS + rng.randrange(3), *rolls, tuple(indexes))


def clashing(p, q):
    return ((p.x & q.z).bit_count() + (p.z & q.x).bit_count()) % 2 == 1


def turned(p, witness, within, wanted):
    """The Pauli, times one on one place where that is needed and can be, so that it clashes with the witness or does not."""
    if clashing(p, witness) == wanted:
        return p
    x, z = witness.x & within, witness.z & within
    return p.times(Product(0, 0, x & -x) if x else Product(0, z & -z, 0))


def made_absence(rng):
    """A claim that holds where the places allow it; half of them are then changed."""
    qubits = Qubits(rng)
    beside, sent = qubits.beside(rng), qubits.beside(rng)
    witness = some_product(rng, sent, rng.randrange(3))
    generators = [turned(p, witness, qubits.own, False) for p in some_list(rng, qubits.own)]
    change = rng.randrange(6)
    if change == 0 and generators:
        k = rng.randrange(len(generators))
        generators[k] = turned(generators[k], witness, qubits.own, True)
    element = turned(some_product(rng, beside, rng.randrange(3)), witness, beside, change != 1)
    elements, a = placed(rng, some_list(rng, beside, 4), element)
    witnesses, b = placed(rng, some_list(rng, sent, 4), witness)
    rolls = [qubits.roll(rng, products) for products in (generators, elements, witnesses)]
    return Claim(28, rng.randrange(3), a, b, rng.choice((0, 1, WORK_WORDS - 1, WORK_WORDS)), *rolls)


# ---- faults

def past(rng, b):
    """A number past the list of a roll, or its last one."""
    n = int.from_bytes(b[:2], "little")
    return rng.choice((n, n, n + 1, n + 256, n + 65_536, 2**31, LAST, max(n - 1, 0)))


def damaged_roll(rng, b):
    return b if isinstance(roll.read(b), Refusal) else damage.damaged_roll(rng, b)


def damaged_indexes(rng, claim):
    """Indexes that repeat, fall, are past the list or are many; now and then they are still right."""
    found = list(claim.sent)
    n = int.from_bytes(claim.generators[:2], "little")
    kind = rng.randrange(6)
    if kind == 0:
        found.insert(rng.randrange(len(found) + 1), rng.choice(found or [0]))
    elif kind == 1 and len(found) > 1:
        k = rng.randrange(len(found) - 1)
        found[k], found[k + 1] = found[k + 1], found[k]
    elif kind == 2:
        found.append(rng.choice((n, n + 1, n + 256, 65_535)) % 65_536)
    elif kind == 3:
        found = list(range(rng.choice((n, n + 1, 128, 129, 1023, 1024))))
    elif kind == 4:
        found = [rng.choice((0, 1, 127, 65_535, rng.randrange(65_536))) for _ in range(rng.choice((2, 3, 128, 1024)))]
    else:
        found = [n] + found
    return claim._replace(sent=tuple(found[:1024]))


FAULTS = {
    "generators": lambda rng, c: c._replace(generators=damaged_roll(rng, c.generators)),
    "elements": lambda rng, c: c._replace(elements=damaged_roll(rng, c.elements)),
    "witnesses": lambda rng, c: c._replace(sent=damaged_roll(rng, c.sent)),
    "element": lambda rng, c: c._replace(a=past(rng, c.elements)),
    "witness": lambda rng, c: c._replace(b=past(rng, c.sent)),
    "indexes": damaged_indexes,
    "exponent": lambda rng, c: c._replace(b=rng.choice((4, 4, 5, 7, 256, 259, 65_536, 2**31, LAST))),
    "area": lambda rng, c: c._replace(work=rng.choice((0, 1, 64, WORK_WORDS - 1, WORK_WORDS - 1))),
}
WAYS = {27: ("generators", "elements", "element", "indexes", "exponent", "area"), 28: ("generators", "elements", "witnesses", "element", "witness")}


def faulty(rng, claim):
    """Nothing, one thing or several are wrong."""
    ways = WAYS[claim.op]
    for way in rng.sample(ways, rng.choice((0, 0, 0, 1, 1, 1, 2, 3, len(ways)))):
        claim = FAULTS[way](rng, claim)
    return claim


def every():
    """A small claim of either kind, each of its rolls cut at every place and each byte of them changed."""
    generators = roll.write([Pauli(0, (0, 2), ()), Pauli(1, (1,), (1, 3))])
    elements = roll.write([Pauli(3, (2,), (0, 2)), Pauli(0, (0, 2), ())])
    rolls = ("generators", "elements")
    for claim, names in ((Claim(27, 0, 1, 0, WORK_WORDS, generators, elements, (0,)), rolls),
                         (Claim(28, 0, 0, 0, 0, generators, elements, roll.write([Pauli(0, (1,), (1,)), Pauli(5, (), (3,))])), rolls + ("sent",))):
        for name in names:
            b = getattr(claim, name)
            yield from (claim._replace(**{name: b[:k]}) for k in range(len(b)))
            yield from (claim._replace(**{name: b[:k] + bytes([value]) + b[k + 1:]}) for k in range(len(b)) for value in range(256) if value != b[k])


# ---- runs

def compare_block(replay, rng, made):
    """The count of each outcome."""
    requests = [claim.request(rng.randrange(1, 256), rng.randrange(4)) for claim in made]
    counts = collections.Counter()
    for claim, r, found, line in zip(made, requests, founds(replay, made), brute.run(replay, requests)):
        if line != told(claim.op, found):
            differ(r._replace(first=r.first.hex(), second=r.second.hex()), told(claim.op, found), line)
        counts[line.split(" at ")[0].split(";")[0]] += 1
    return counts


def compare_random(replay, seed, count):
    for op, name, make in ((27, "membership", made_membership), (28, "absence", made_absence)):
        rng = random.Random(f"{seed} {name}")
        counts, total = collections.Counter(), 0
        while total < count:
            block = [faulty(rng, make(rng)) for _ in range(min(BLOCK, count - total))]
            counts += compare_block(replay, rng, block)
            total += len(block)
        print(f"random, {name}: {total} lines equal; {outcomes(counts)}", flush=True)
        made = [claim for claim in every() if claim.op == op]
        print(f"every byte, {name}: {len(made)} lines equal; {outcomes(compare_block(replay, rng, made))}", flush=True)


def outcomes(counts):
    return ", ".join(f"{name}: {counts[name]}" for name in sorted(counts, key=lambda name: (len(name.split()), name)))


def claim_in(r):
    """The claim of a request in a file."""
    end = 4 + int.from_bytes(r.second[:4], "little")
    last = r.second[end + 4:]
    sent = struct.unpack(f"<{len(last) // 2}H", last) if r.op == 27 else last
    return Claim(r.op, r.p, r.a, r.b, r.work, r.first, r.second[4:end], sent)


def compare_file(args):
    with open(args.lines[0], "rb") as file:
        requests = list(calls.requests_in(file.read()))
    with open(args.lines[1], encoding="ascii") as file:
        wanted = file.read().split("\n")[:-1]
    made = [claim_in(r) for r in requests]
    mine = [told(claim.op, found) for claim, found in zip(made, founds(args.replay, made))]
    for r, file_line, own, program in zip(requests, wanted, mine, brute.run(args.replay, requests)):
        if not file_line == own == program:
            differ(r, f"{file_line} in the file, {own} here", program)
    if len(requests) != len(wanted):
        sys.exit(f"{len(requests)} requests, {len(wanted)} lines")
    print(f"{args.lines[1]}: {len(wanted)} lines equal to those made here and to the program's")


def main():
    parser = argparse.ArgumentParser(description=__doc__, formatter_class=argparse.RawDescriptionHelpFormatter)
    parser.add_argument("replay")
    parser.add_argument("--seed", type=int, default=1)
    parser.add_argument("--lists", type=int, default=50)
    parser.add_argument("--count", type=int, default=20_000)
    parser.add_argument("--lines", nargs=2)
    args = parser.parse_args()
    if not os.access(args.replay, os.X_OK):
        sys.exit(f"{args.replay} is missing: `sh tools/make.sh replay` makes target/bin/replay")
    if args.lines:
        compare_file(args)
        return
    compare_random(args.replay, args.seed, args.count)
    compare_lists(args.replay, random.Random(f"{args.seed} lists"), args.lists)


if __name__ == "__main__":
    main()
