"""The common part of two groups, worked out here: the generators of every element that is in both. The oracle gives the order, the phases of
either group and standard generators; which elements are in both is found from the lists alone.
"""
import subprocess

import roll
from roll import Pauli

STEPS = {"0": 4, "0,2": 2, "0,1,2,3": 1}


def asked(oracle, questions):
    text = "".join(line + "\n" for line in questions)
    return subprocess.run([oracle], input=text.encode(), stdout=subprocess.PIPE, check=True).stdout.decode().split("\n")


class Product:
    """A product of Paulis: its exponent, and its sets as numbers."""

    def __init__(self, e=0, x=0, z=0):
        self.e, self.x, self.z = e, x, z

    def times(self, other):
        return Product((self.e + other.e + 2 * (self.z & other.x).bit_count()) % 4, self.x ^ other.x, self.z ^ other.z)

    def sets(self):
        return self.x, self.z


def products(paulis, places):
    bits = [(sum(1 << places[q] for q in p.x), sum(1 << places[q] for q in p.z)) for p in paulis]
    return [Product(p.e % 4, x, z) for p, (x, z) in zip(paulis, bits)]


def pairs_with_the_same_sets(left, right, count):
    """Products of the left list, each with one of the right list on the same sets: one for each relation of the rows of both."""
    width = 1 << count
    pivots, found = {}, []
    for p, q in [(p, Product()) for p in left] + [(Product(), q) for q in right]:
        while True:
            row = (p.x ^ q.x) | (p.z ^ q.z) * width
            if not row:
                found.append((p, q))
                break
            top = row.bit_length()
            if top not in pivots:
                pivots[top] = (p, q)
                break
            p, q = p.times(pivots[top][0]), q.times(pivots[top][1])
    return found


def independent(pairs):
    """Those whose sets are no sum of the sets before."""
    kept, pivots = [], {}
    for p, q in pairs:
        row = p.x | p.z << 200
        while row and row.bit_length() in pivots:
            row ^= pivots[row.bit_length()]
        if row:
            pivots[row.bit_length()] = row
            kept.append((p, q))
    return kept


def shared(p, q, a, b):
    """The exponent with which both groups have these sets: p is in the left group, whose phases have the step a, q in the right one; or none."""
    return next((e for e in range(4) if (e - p.e) % a == 0 and (e - q.e) % b == 0), None)


def both_have(left, right, a, b):
    """Generators of every element in both groups, as Paulis."""
    qubits = roll.support(left + right)
    places = {q: k for k, q in enumerate(qubits)}
    pairs = independent(pairs_with_the_same_sets(products(left, places), products(right, places), len(qubits)))
    apart = [pair for pair in pairs if shared(*pair, a, b) is None]
    pairs = [pair for pair in pairs if shared(*pair, a, b) is not None]
    pairs += [(p.times(apart[0][0]), q.times(apart[0][1])) for p, q in apart[1:]]
    found = [Product(shared(p, q, a, b), p.x, p.z) for p, q in pairs] + [Product(k) for k in range(0, 4, max(a, b))]
    named = lambda bits: tuple(q for k, q in enumerate(qubits) if bits >> k & 1)
    return [Pauli(p.e, named(p.x), named(p.z)) for p in found]


def as_written(b):
    return roll.write([pauli._replace(e=pauli.e % 4) for pauli in roll.read(b)])


def parts(oracle, pairs):
    """Of each pair of rolls the common part's roll, and whether the Rust's own `&` generates the same group."""
    questions = []
    for left, right in pairs:
        l, r = left.hex(), right.hex()
        questions += [f"compare n {l} n {r}", f"phases n {l}", f"phases n {r}", f"common n {l} n {r}"]
    answers = asked(oracle, questions)
    found, open_ones = [None] * len(pairs), []
    for k, (left, right) in enumerate(pairs):
        order, a, b, rust = answers[4 * k:4 * k + 4]
        if order == "none":
            open_ones.append((k, rust, both_have(roll.read(left), roll.read(right), STEPS[a], STEPS[b])))
        else:
            found[k] = as_written(right if order == "greater" else left), True
    standards = asked(oracle, [f"standard n {roll.write(paulis).hex()}" for _, _, paulis in open_ones])
    for (k, rust, _), standard in zip(open_ones, standards):
        found[k] = bytes.fromhex(standard), standard == rust
    return found
