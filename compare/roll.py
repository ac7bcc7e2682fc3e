"""Rolls and the refusals 1 to 7 as docs/REFERENCE.md has them. Nothing here uses the oracle."""
from typing import NamedTuple

MOST_PAULIS = 128
MOST_QUBITS = 128


class Pauli(NamedTuple):
    """i^e times X on the set x, then Z on the set z; both rising."""
    e: int
    x: tuple
    z: tuple


class Refusal(NamedTuple):
    number: int
    place: int


class Entry(NamedTuple):
    given: int
    exponent: int
    start: int
    x_count: int
    z_count: int


def number_in(b):
    return int.from_bytes(b, "little")


def entry_in(b):
    return Entry(b[0], b[1], number_in(b[2:6]), number_in(b[6:8]), number_in(b[8:10]))


def refused_table(entries):
    """The first entry that is refused: 3 before 4."""
    before = 0
    for place, entry in enumerate(entries):
        if entry.given > 1 or entry.start != before:
            return Refusal(3, place)
        if entry.given == 0:
            return Refusal(4, place)
        before += entry.x_count + entry.z_count
    return None


def refused_set(numbers, place):
    """The first number of a set that is not above the one before it (6)."""
    before = -1
    for number in numbers:
        if number <= before:
            return Refusal(6, place)
        before = number
    return None


def paulis_of(entries, numbers):
    paulis = []
    for entry in entries:
        middle = entry.start + entry.x_count
        end = middle + entry.z_count
        paulis.append(Pauli(entry.exponent, tuple(numbers[entry.start:middle]), tuple(numbers[middle:end])))
    return paulis


def support(paulis):
    return sorted({qubit for pauli in paulis for qubit in pauli.x + pauli.z})


def distinct(paulis):
    return len(support(paulis))


def refused_bodies(paulis):
    for place, pauli in enumerate(paulis):
        refused = refused_set(pauli.x, place) or refused_set(pauli.z, place)
        if refused:
            return refused
    return Refusal(7, 0) if distinct(paulis) > MOST_QUBITS else None


def read(b):
    """The Paulis of a roll, or its refusal. The exponents are the bytes of the table."""
    if len(b) < 2:
        return Refusal(1, 0)
    count = number_in(b[:2])
    if count > MOST_PAULIS:
        return Refusal(2, 0)
    bodies = 2 + 10 * count
    if len(b) < bodies:
        return Refusal(1, 0)
    entries = [entry_in(b[k:k + 10]) for k in range(2, bodies, 10)]
    refused = refused_table(entries)
    if refused:
        return refused
    if len(b) != bodies + 4 * sum(entry.x_count + entry.z_count for entry in entries):
        return Refusal(1, 0)
    paulis = paulis_of(entries, [number_in(b[k:k + 4]) for k in range(bodies, len(b), 4)])
    return refused_bodies(paulis) or paulis


def read_all(rolls):
    """The lists of the rolls in turn, or the first refusal."""
    lists = []
    for roll in rolls:
        found = read(roll)
        if isinstance(found, Refusal):
            return found
        lists.append(found)
    return lists


def refused_joined(left, right, limits):
    """The joined limits, of which a call takes 2 and 7, or 7 alone."""
    if 2 in limits and len(left) + len(right) > MOST_PAULIS:
        return Refusal(2, 0)
    if 7 in limits and distinct(left + right) > MOST_QUBITS:
        return Refusal(7, 0)
    return None


def body_of(pauli):
    return b"".join(qubit.to_bytes(4, "little") for qubit in pauli.x + pauli.z)


def write(paulis):
    """The roll of a list, exponents as they are."""
    table, before = [], 0
    for pauli in paulis:
        counts = len(pauli.x).to_bytes(2, "little") + len(pauli.z).to_bytes(2, "little")
        table.append(bytes([1, pauli.e]) + before.to_bytes(4, "little") + counts)
        before += len(pauli.x) + len(pauli.z)
    return len(paulis).to_bytes(2, "little") + b"".join(table) + b"".join(body_of(pauli) for pauli in paulis)
