"""Requests damaged in every way that the table of refusals names, made from whole ones. The same random numbers, the same requests."""
import struct

import roll
from calls import CALLS, WORK_WORDS
from roll import Pauli

NUMBERS = 2**32
LIMITS = (127, 128, 129, 130)


class Loose:
    """A roll whose parts need not fit each other."""

    def __init__(self, paulis):
        self.count = len(paulis)
        self.entries = []
        self.sets = []
        before = 0
        for e, x, z in paulis:
            self.entries.append([1, e, before, len(x), len(z)])
            self.sets += [list(x), list(z)]
            before += len(x) + len(z)

    def raw(self):
        table = b"".join(struct.pack("<BBIHH", *entry) for entry in self.entries)
        return struct.pack("<H", self.count) + table + b"".join(struct.pack("<I", q) for numbers in self.sets for q in numbers)


# ---- one thing wrong in a table or a body

def miscount(rng, loose):
    n = loose.count
    loose.count = rng.choice([0, n + 1, max(n - 1, 0), 128, 129, 130, 256 + n, 65_535]) % 65_536


def change_entry(rng, loose):
    if not loose.entries:
        return
    entry = rng.choice(loose.entries)
    kind = rng.randrange(6)
    if kind <= 1:
        entry[0] = 0 if kind == 0 else rng.choice([2, 3, 128, 255])
    elif kind == 2:
        entry[1] = rng.randrange(256)
    elif kind == 3:
        entry[2] = rng.choice([entry[2] + 1, entry[2] - 1, entry[2] ^ (1 << rng.randrange(32)), 0, rng.randrange(NUMBERS)]) % NUMBERS
    else:
        entry[kind - 1] = rng.choice([entry[kind - 1] + 1, entry[kind - 1] - 1, 0, 65_535, rng.randrange(65_536)]) % 65_536


def raise_qubit(rng, loose):
    numbers = rng.choice([s for s in loose.sets if s] or [[0]])
    k = rng.randrange(len(numbers))
    numbers[k] = rng.choice([65_535, 65_536, 65_536 + numbers[k], 2**31, NUMBERS - 1, rng.randrange(NUMBERS)]) % NUMBERS


def mix_set(rng, loose):
    """Two neighbours swapped, a number repeated, or a number moved to another set."""
    numbers = rng.choice([s for s in loose.sets if len(s) > 1] or [s for s in loose.sets if s] or [[0, 0]])
    k = rng.randrange(len(numbers))
    kind = rng.randrange(3)
    if kind == 0:
        numbers[k - 1], numbers[k] = numbers[k], numbers[k - 1]
    elif kind == 1:
        numbers[k] = numbers[k - 1]
    else:
        rng.choice(loose.sets or [[]]).append(numbers.pop(k))


PARTS = [miscount] + [change_entry] * 4 + [raise_qubit] * 2 + [mix_set] * 2


# ---- one thing wrong in the bytes

def cut(rng, b):
    """Cut in the count, in the table, at its end, in the bodies, between numbers, or by one byte."""
    bodies = 2 + 10 * int.from_bytes(b[:2], "little")
    place = rng.choice([rng.randrange(3), rng.randrange(bodies + 1), 2 + 10 * rng.randrange(bodies // 10 + 1), bodies,
                        bodies + rng.randrange(max(len(b) - bodies, 1)), len(b) - 4 * rng.randrange(3), len(b) - 1])
    return b[:max(place, 0)]


def lengthen(rng, b):
    more = rng.choice([1, 2, 3, 4, 8, 10, rng.randrange(1, 40)])
    return b + (bytes(more) if rng.randrange(2) else rng.randbytes(more))


def change_byte(rng, b):
    if not b:
        return b
    end = rng.choice([2, 2 + 10 * int.from_bytes(b[:2], "little"), len(b)])
    place = rng.randrange(max(min(end, len(b)), 1))
    value = rng.choice([b[place] ^ (1 << rng.randrange(8)), rng.randrange(256)])
    return b[:place] + bytes([value]) + b[place + 1:]


BYTES = [cut, lengthen, change_byte]


# ---- lists at the limits

def pauli_on(rng, qubits):
    """A Pauli whose support is these qubits."""
    x = {q for q in qubits if rng.randrange(2)}
    z = {q for q in qubits if q not in x or rng.randrange(3) == 0}
    return Pauli(rng.randrange(4), tuple(sorted(x)), tuple(sorted(z)))


def shared_out(rng, qubits, count):
    """Paulis that use these qubits, and now and then one of them twice."""
    parts = [[] for _ in range(count)]
    for q in qubits:
        rng.choice(parts).append(q)
        if rng.randrange(8) == 0:
            rng.choice(parts).append(q)
    return [pauli_on(rng, part) for part in parts]


def padded(rng, paulis, count):
    """At least so many Paulis: some that are there and the identity are put in between."""
    paulis = list(paulis)
    for _ in range(count - len(paulis)):
        paulis.insert(rng.randrange(len(paulis) + 1), rng.choice(paulis + [Pauli(rng.randrange(4), (), ())]))
    return paulis


def of_size(rng, paulis):
    """A whole roll near one of its limits: Paulis or distinct qubits."""
    if rng.randrange(2):
        return padded(rng, paulis, rng.choice(LIMITS))
    return shared_out(rng, rng.sample(range(NUMBERS), rng.choice(LIMITS)), 1 + rng.randrange(4))


def near_joined_limit(rng, left, right):
    """Two rolls, each within its limits, that are together near a limit."""
    if rng.randrange(2):
        total = max(rng.choice(LIMITS), len(left) + len(right))
        count = rng.randrange(max(len(left), total - 128), min(128, total - len(right)) + 1)
        return padded(rng, left, count), padded(rng, right, total - count)
    qubits = rng.sample(range(NUMBERS), rng.choice(LIMITS))
    middle = rng.randrange(len(qubits) - 128 if len(qubits) > 128 else 0, min(128, len(qubits)) + 1)
    common = rng.sample(qubits[:middle], min(middle, rng.randrange(3), 128 - len(qubits[middle:])))
    return shared_out(rng, qubits[:middle], 1 + rng.randrange(3)), shared_out(rng, qubits[middle:] + common, 1 + rng.randrange(3))


def of_rank(rng, rank):
    """A list of this rank: products of single Zs, or Xs on some places, and some products of the list itself."""
    letter = rng.randrange(3)
    base = [{k} | {j for j in range(k) if rng.randrange(4) == 0} for k in range(rank)]
    base += [rng.choice(base) ^ rng.choice(base) for _ in range(rng.randrange(3))]
    rng.shuffle(base)
    sets = [tuple(sorted(s)) for s in base]
    return [Pauli(rng.randrange(4), s if letter != 1 else (), s if letter != 0 else ()) for s in sets]


# ---- requests

def damaged_roll(rng, b):
    """A roll with some things wrong; now and then it is still right."""
    paulis = roll.read(b)
    large = rng.randrange(8) == 0
    loose = Loose(of_size(rng, paulis) if large else paulis)
    for _ in range(rng.choice([0, 0, 0, 1, 2] if large else [0, 1, 1, 1, 2, 3])):
        rng.choice(PARTS)(rng, loose)
    b = loose.raw()
    for _ in range(rng.choice([0, 0, 0, 0, 1, 2])):
        b = rng.choice(BYTES)(rng, b)
    return b


def damaged_rolls(rng, r):
    """The first, the second or both rolls damaged."""
    which = rng.randrange(1, 4) if CALLS[r.op].rolls == 2 else 1
    return r._replace(first=damaged_roll(rng, r.first) if which & 1 else r.first,
                      second=damaged_roll(rng, r.second) if which & 2 else r.second)


def damaged_numbers(rng, r):
    counts = [len(roll.read(b)) for b in (r.first, r.second)]
    if r.op in (12, 13):
        counts[0] += counts[1]
    if r.op == 7:
        counts[0] = counts[1]
    near = [rng.choice([n, n + 1, max(n - 1, 0), n + 256, n + 65_536, NUMBERS - 1, rng.randrange(NUMBERS)]) for n in counts]
    which = rng.randrange(1, 4)
    both = r.op in (10, 20)
    return r._replace(a=near[0] if which & 1 or not both else r.a, b=near[1] if which & 2 and both else r.b)


def damaged_work(rng, r):
    return r._replace(work=rng.choice([0, 1, 64, 2048, 4095, 4095, 4096, rng.randrange(WORK_WORDS)]))


def damaged_sizes(rng, r):
    """Two rolls near a joined limit, also for calls that do not count them together."""
    left, right = near_joined_limit(rng, roll.read(r.first), roll.read(r.second))
    return r._replace(first=roll.write(left), second=roll.write(right))


def damaged_support(rng, r):
    """A named support that is mixed, has a number twice or one of the highest, or is as large as may be, give or take one."""
    named = list(struct.unpack(f"<{len(r.second) // 4}I", r.second))
    own = set(roll.support(roll.read(r.first)))
    kind = rng.randrange(4)
    if kind == 0:
        named += rng.choice([named[:1], [0], [65_535], [65_536], [NUMBERS - 1]])
    elif kind == 1:
        rng.shuffle(named)
    elif kind == 2:
        named = sorted({*named, rng.choice([65_535, 65_536, NUMBERS - 1])})
    else:
        others = [q for q in range(200) if q not in own]
        rng.shuffle(others)
        named = sorted({*[q for q in named if q in own], *others[:max(rng.choice([62, 63, 64]) - len(own), 0)]})
    return r._replace(second=struct.pack(f"<{len(named)}I", *named))


def damaged_rank(rng, r):
    return r._replace(first=roll.write(of_rank(rng, rng.choice([15, 16, 17, 17, 18]))), a=rng.choice([0, 5, 60_000, 140_000]), b=1 + rng.randrange(9))


def ways_of(op):
    """What can be damaged in a request of an operation, besides the output."""
    ways = [damaged_rolls] * 6
    ways += [damaged_numbers] * 2 if op in (7, 10, 12, 13, 20) else []
    ways += [damaged_work] * 2 if CALLS[op].area else []
    ways += [damaged_sizes] if CALLS[op].rolls == 2 else []
    ways += [damaged_rank] if op in (8, 23) else []
    ways += [damaged_support] * 4 if op == 25 else []
    return ways


def damaged_input(rng, r):
    """The closing listing's input, its rolls damaged, its length wrong, cut, or too long."""
    end = 4 + int.from_bytes(r.first[:4], "little")
    first, second = r.first[4:end], r.first[end:]
    rolls = r._replace(op=7, first=first, second=second)
    rolls = rng.choice([damaged_rolls, damaged_rolls, damaged_rolls, damaged_sizes])(rng, rolls)
    length = len(rolls.first)
    if rng.randrange(5) == 0:
        length = rng.choice([0, 1, length + 1, max(length - 1, 0), length + len(rolls.second), length + len(rolls.second) + 1,
                             2**16 + length, 2**31, NUMBERS - 1, rng.randrange(NUMBERS)])
    b = struct.pack("<I", length) + rolls.first + rolls.second
    if rng.randrange(8) == 0:
        b = b[:rng.choice([0, 1, 2, 3, 4, rng.randrange(len(b) + 1)])]
    if rng.randrange(60) == 0:
        b += bytes(rng.choice([65_536, 65_537]) - len(b))
    return r._replace(first=b)


def idle_fields(rng, r):
    """Other values in the fields that the call does not take."""
    if r.op in (0, 1, 2, 9, 10, 11, 12, 13, 18, 20, 21, 22, 24, 25):
        r = r._replace(p=rng.randrange(3))
    if r.op < 14 or r.op >= 19:
        r = r._replace(q=rng.randrange(3))
    if r.op not in (7, 8, 10, 12, 13, 20, 23):
        r = r._replace(a=rng.randrange(NUMBERS))
    if r.op not in (8, 10, 20, 23):
        r = r._replace(b=rng.randrange(NUMBERS))
    if (CALLS[r.op].rolls == 1 and r.op != 25) or r.op == 18:
        r = r._replace(second=rng.randbytes(rng.randrange(20)))
    if not CALLS[r.op].area and r.op != 18:
        r = r._replace(work=rng.choice([0, 1, 4095, 4096]))
    return r


def damaged(rng, r):
    """A request with something wrong in it: nothing (the output is chosen later), one way, or two."""
    if r.op == 18:
        return idle_fields(rng, damaged_input(rng, r))
    order = [damaged_sizes, damaged_rank, damaged_support, damaged_numbers, damaged_rolls, damaged_work]
    chosen = {rng.choice(ways_of(r.op)) for _ in range(rng.choice([0, 1, 1, 1, 1, 2, 3]))}
    for way in order:
        if way in chosen:
            r = way(rng, r)
    return idle_fields(rng, r) if rng.randrange(3) == 0 else r


def every(r):
    """A request with each of its strings cut at every place, and with every byte of it changed to every other value. A named support is
    cut between its numbers."""
    strings = 1 if r.op == 18 else 2 if r.op == 25 else CALLS[r.op].rolls
    for name in ("first", "second")[:strings]:
        b = getattr(r, name)
        whole = 4 if r.op == 25 and name == "second" else 1
        for k in range(len(b)):
            if k % whole == 0:
                yield r._replace(**{name: b[:k]})
            yield from (r._replace(**{name: b[:k] + bytes([value]) + b[k + 1:]}) for value in range(256) if value != b[k])


def output_for(rng, size):
    """The bytes of output to lend for a result of so many bytes: the size, more, or less."""
    return max(rng.choice([size, size, size + rng.randrange(4), size - 1, size - 1 - rng.randrange(4), 0, rng.randrange(size + 1)]), 0)
