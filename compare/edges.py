"""Requests at the edges: rank 16 and 17, the last element and those past it, 128 and 129 Paulis and
qubits, in one list and in two joined; 62 to 64 qubits for a centralizer; qubit numbers around 16 bits and at the end of 32."""
import struct

import roll
from calls import CALLS, WORK_WORDS, Request
from roll import Pauli

I = {0: [], 2: [Pauli(2, (), ())], 1: [Pauli(1, (), ())]}  # what makes the phases 0; 0,2; 0,1,2,3
PHASES = {0: 1, 2: 2, 1: 4}
LAST = 2**32 - 1
NUMBERS = ((65_535,), (65_536,), (LAST,), (65_535, 65_536, LAST))


def request(op, a=0, b=0, first=(), second=(), p=0, q=0):
    raw = [roll.write(list(paulis)) for paulis in (first, second)]
    return Request(op, p, q, 1, a, b, 0, WORK_WORDS, raw[0], raw[1] if CALLS[op].rolls == 2 else b"")


def named(first, numbers):
    """The centralizer of a list on the support of these numbers."""
    return request(25, first=first)._replace(second=struct.pack(f"<{len(numbers)}I", *numbers))


def singles(count, start=0):
    """X on each of so many qubits."""
    return [Pauli(0, (q,), ()) for q in range(start, start + count)]


def listings(op):
    """Starts around the end of the listing and around the widest count, for ranks up to 17."""
    for rank in (0, 1, 15, 16, 17):
        for power, more in I.items():
            size = PHASES[power] * 2**rank
            for a in (0, size - 2, size - 1, size, size + 1, 2**32 - 1):
                for b in (0, 1, 16, 17, 63, 64, 65, 127, 128, 129, 2**32 - 1):
                    yield request(op, max(a, 0), b, singles(rank) + more)


def at_limits(op):
    """Lists of 128 and 129 Paulis, on one, 128 and 129 qubits; for two lists the parts of such a one."""
    lists = [[Pauli(0, (0,), ())] * n for n in (127, 128, 129)] + [singles(n) for n in (127, 128, 129)]
    for paulis in lists:
        cuts = (0, 1, 64, len(paulis)) if CALLS[op].rolls == 2 else (len(paulis),)
        for cut in cuts:
            for a in (0, 127, 128):
                yield request(op, a, 0, paulis[:cut], paulis[cut:])


def supports():
    """62 to 64 qubits, all of the list's own, none of them, or half; and supports that do not rise or go on to the last number."""
    for count in (62, 63, 64):
        yield request(24, first=singles(count))
        for own in (0, 1, count // 2, count - 1, count):
            for start in (0, own // 2, own):
                yield named(singles(own), range(start, count))
    for numbers in ((), (0,), (0, 0), (1, 0), (0, 2, 1), *NUMBERS, *(low + high for low in ((0,), (0, 1, 3)) for high in NUMBERS), (LAST, 0), (LAST, LAST)):
        yield named(singles(2), numbers)
        yield named([], numbers)
        yield named([Pauli(0, NUMBERS[3], (3,))], numbers)


def numbered(op):
    """The numbers where 16 bits and 32 bits end, each alone, beside low ones, and twice or out of turn."""
    for high in NUMBERS:
        for numbers in (high, (0, 3) + high):
            paulis = [Pauli(0, numbers, ()), Pauli(1, numbers[-1:], numbers[-1:]), Pauli(3, (), numbers)]
            for right in (paulis[1:], paulis[:1], [Pauli(2, numbers[:1], ())]):
                for a in (0, 1, 2):
                    yield request(op, a, 0, paulis, right)
    for numbers in ((LAST, LAST), (LAST, 0), (65_536, 0), (65_536, 65_535), (0, 65_536, LAST, 1)):
        for paulis in ([Pauli(0, numbers, ())], [Pauli(0, (1,), numbers)]):
            yield request(op, 0, 0, singles(2), paulis)
            yield request(op, 0, 0, paulis, singles(2))


def every():
    yield from listings(8)
    yield from listings(23)
    yield from supports()
    for op in CALLS:
        if op != 18:
            yield from at_limits(op)
            yield from numbered(op)
