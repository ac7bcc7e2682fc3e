"""The calls of the program replay: a request as bytes, what it asks the oracle, and the line that it must give.

Refusals 1 to 9 are found by the table of refusals in docs/REFERENCE.md alone (roll.py). Everything else is asked from the oracle: 10 from its rank,
11 from its quotient, 12 from the length of its answer.
"""
import struct
import subprocess
from typing import NamedTuple

import common
import roll
from roll import Refusal

WORK_WORDS = 4096
MOST_RANK = 16
MOST_TOGETHER = 63
MOST_INPUT = 65_536
PROMISES = "ntf"
ORDERS = {"equal": "equal", "less": "less", "greater": "greater", "none": "no order"}


class Call(NamedTuple):
    """kind: the oracle's word. rolls: how many it takes. limits: the joined limits that it takes. area: whether it takes a work area."""
    name: str
    kind: str
    rolls: int
    limits: tuple
    area: bool


CALLS = {
    0: Call("check", "rank", 1, (), False),
    1: Call("standard", "standard", 1, (), True),
    2: Call("rank", "rank", 1, (), True),
    3: Call("phases", "phases", 1, (), True),
    4: Call("abelian", "abelian", 1, (), True),
    5: Call("stabilizer", "stabilizer", 1, (), True),
    6: Call("log2size", "log2size", 1, (), True),
    7: Call("member", "member", 2, (), True),
    8: Call("elements", "elements", 1, (), True),
    9: Call("symplectic", "symplectic", 1, (), True),
    10: Call("product", "product", 2, (7,), False),
    11: Call("join", "join", 2, (2, 7), False),
    12: Call("body", "join", 2, (2, 7), False),
    13: Call("entry", "join", 2, (2, 7), False),
    14: Call("compare", "compare", 2, (2, 7), True),
    15: Call("modulo", "modulo", 2, (2, 7), True),
    16: Call("quotient", "quotient", 2, (2, 7), True),
    17: Call("common", "common", 2, (2, 7), True),
    18: Call("report", "report", 2, (), False),
    19: Call("members", "members", 2, (), True),
    20: Call("multiply", "product", 2, (7,), False),
    21: Call("sizes", "join", 2, (2, 7), False),
    22: Call("bound", "standard", 1, (), False),
    23: Call("page", "elements", 1, (), True),
    24: Call("centralizer", "centralizer", 1, (), True),
    25: Call("within", "centralizerwithin", 1, (), True),
}


class Request(NamedTuple):
    op: int
    p: int
    q: int
    fill: int
    a: int
    b: int
    out: int
    work: int
    first: bytes
    second: bytes

    def raw(self):
        return struct.pack("<BBBBIIIIII", *self[:8], len(self.first), len(self.second)) + self.first + self.second


class Result(NamedTuple):
    """What a call answers where nothing is refused: its words and the bytes that it writes."""
    words: str
    written: bytes


def requests_in(data):
    """The requests of a file, whole ones only."""
    at = 0
    while at < len(data):
        *head, n, m = struct.unpack_from("<BBBBIIIIII", data, at)
        at += 28
        yield Request(*head, data[at:at + n], data[at + n:at + n + m])
        at += n + m


def unhex(word):
    return b"" if word == "-" else bytes.fromhex(word)


def hexed(b):
    return b.hex() if b else "-"


# ---- refusals 1 to 9

def report_rolls(given):
    """The two rolls of the closing listing's input, or none without a whole first roll or past the limit."""
    end = 4 + int.from_bytes(given[:4], "little")
    if len(given) > MOST_INPUT or len(given) < 4 or len(given) < end:
        return None
    return given[4:end], given[end:]


def rolls_of(r):
    if r.op == 18:
        return report_rolls(r.first) or (b"", b"")
    return (r.first, r.second)[:CALLS[r.op].rolls]


def is_past(r, lists):
    """Whether a number of the request is past its list."""
    if r.op == 7:
        return r.a >= len(lists[1])
    if r.op in (10, 20):
        return r.a >= len(lists[0]) or r.b >= len(lists[1])
    if r.op in (12, 13):
        return r.a >= len(lists[0]) + len(lists[1])
    return False


def named(r):
    """The numbers of the named support."""
    return struct.unpack(f"<{len(r.second) // 4}I", r.second)


def refused_support(r, paulis):
    """13: the named support does not rise, or has too many qubits together with the list's own."""
    own = roll.support(paulis)
    numbers = own if r.op == 24 else named(r)
    rises = all(a < b for a, b in zip(numbers, numbers[1:]))
    return not rises or len({*numbers, *own}) > MOST_TOGETHER


def refused_early(r):
    """The refusal of the first eight numbers or for the work area; none if there is none of these."""
    lists = roll.read_all(rolls_of(r))
    if isinstance(lists, Refusal):
        return lists
    call = CALLS[r.op]
    joined = roll.refused_joined(*lists, call.limits) if call.limits else None
    if joined:
        return joined
    if is_past(r, lists):
        return Refusal(8, 0)
    if r.op in (24, 25) and refused_support(r, lists[0]):
        return Refusal(13, 0)
    if call.area and r.work < WORK_WORDS:
        return Refusal(9, 0)
    return None


# ---- the oracle

def questions(r):
    """The oracle's lines for a request. Promises are given also where they change nothing."""
    kind = CALLS[r.op].kind
    p, q = PROMISES[r.p], PROMISES[r.q]
    first, second = [hexed(b) for b in (rolls_of(r) + (b"",))[:2]]
    if r.op <= 6 or r.op == 22:
        return [f"{kind} {p} {first}"]
    if r.op == 7:
        return [f"{kind} {p} {first} {second} {r.a}"]
    if r.op in (8, 23):
        return [f"{kind} {p} {first} {r.a} {r.b}", f"rank n {first}"]
    if r.op in (9, 24):
        return [f"{kind} {first}"]
    if r.op == 25:
        return [f"{kind} {first} {','.join(map(str, named(r))) or '-'}"]
    if r.op == 10:
        return [f"{kind} {first} {r.a} {second} {r.b}"]
    if r.op == 20:
        return [f"{word} {first} {r.a} {second} {r.b}" for word in (kind, "commute")]
    if r.op in (11, 12, 13, 18, 21):
        return [f"{kind} {first} {second}"]
    if r.op == 19:
        return [f"{kind} {p} {first} {second}"]
    if r.op == 17:  # no promise is read
        return [f"{kind} n {first} n {second}"]
    return [f"{kind} {p} {first} {q} {second}"]


def ask(oracle, requests):
    """The oracle's answers to the questions of each request."""
    asked = [questions(r) for r in requests]
    text = "".join(line + "\n" for lines in asked for line in lines)
    answers = iter(subprocess.run([oracle], input=text.encode(), stdout=subprocess.PIPE, check=True).stdout.decode().split("\n"))
    found = [[next(answers) for _ in lines] for lines in asked]
    with_parts(oracle, requests, found)
    return found


def with_parts(oracle, requests, found):
    """Behind the Rust's own answer on a common part: the part as it is worked out here, and whether the two groups are the same."""
    parts = [(answers, r) for answers, r in zip(found, requests) if r.op == 17 and answers[0] not in ("bad", "panic")]
    for (answers, _), (written, same) in zip(parts, common.parts(oracle, [(r.first, r.second) for _, r in parts])):
        answers += [written.hex(), same]


# ---- answers

def wrote(b):
    return Result(f"wrote {len(b)}", b)


def joined_result(r, answer):
    """The body or the entry of a generator of the joined list."""
    pauli = roll.read(unhex(answer))[r.a]
    if r.op == 12:
        return Result(f"body {hexed(roll.body_of(pauli))}", b"")
    return Result(f"entry {pauli.e % 4} {len(pauli.x)} {len(pauli.z)}", b"")


def factored(answer):
    """The exponent and the indexes of a member, or none."""
    if answer == "none":
        return None
    _, exponent, _, *indexes = answer.split()
    return int(exponent), [int(i) for i in indexes]


def index_bytes(indexes):
    return b"".join(struct.pack("<H", i) for i in indexes)


def member_result(answer):
    found = factored(answer)
    if found is None:
        return Result("not member", b"")
    exponent, indexes = found
    return Result(f"member {len(indexes)} phase {exponent}", index_bytes(indexes))


def product_result(answers):
    """The product, and whether its factors anticommute."""
    written = unhex(answers[0])
    return Result(f"wrote {len(written)} {'commute' if answers[1] == 'yes' else 'anticommute'}", written)


def record(found):
    """A result of many: byte 0, or byte 1, the exponent, how many indexes, and these."""
    if found is None:
        return b"\0"
    exponent, indexes = found
    return struct.pack("<BBH", 1, exponent, len(indexes)) + index_bytes(indexes)


def members_result(answer):
    records = [record(factored(one)) for one in answer.split("; ") if one]
    return Result(f"results {len(records)} wrote {sum(map(len, records))}", b"".join(records))


def size_result(r, written):
    """What the calls on sizes tell, by the roll that the call they speak of writes."""
    paulis = roll.read(written)
    if r.op == 21:
        return Result(f"joined {len(written)} {len(paulis)} {roll.distinct(paulis)}", b"")
    if r.op == 23:
        return Result(f"page {len(paulis)}", b"")
    own = roll.read(r.first)
    bound = 2 + (10 + 8 * roll.distinct(own)) * max(len(own), 1)
    assert len(written) <= bound, "the standard roll is longer than its bound"
    return Result(f"bound {bound}", b"")


def listing_result(r, answer, early):
    """The closing listing, or its only line where a roll is refused."""
    if early:
        rolls = report_rolls(r.first)
        place = 2 if rolls and isinstance(roll.read(rolls[0]), list) else 1
        return wrote(f"refused {early.number} at {early.place} in roll {place}\n".encode())
    return wrote("".join(line + "\n" for line in answer.split("; ")).encode())


def answered(r, answer):
    """The result where nothing is refused, by the oracle's first answer."""
    if answer in ("bad", "panic"):
        return Result(answer, b"")
    if r.op == 0:
        return Result(f"count {len(roll.read(r.first))}", b"")
    if r.op in (2, 3, 4, 5, 6):
        return Result(f"{'log2' if r.op == 6 else CALLS[r.op].kind} {answer}", b"")
    if r.op == 7:
        return member_result(answer)
    if r.op in (12, 13):
        return joined_result(r, answer)
    if r.op == 19:
        return members_result(answer)
    if r.op in (21, 22, 23):
        return size_result(r, unhex(answer))
    if r.op == 14:
        return Result(ORDERS[answer], b"")
    return wrote(unhex(answer))


def result(r, answers):
    """The refusal (but 12) or the result of a request."""
    early = refused_early(r)
    if r.op == 18:
        return listing_result(r, answers[0], early)
    if early:
        return early
    if r.op in (8, 23) and int(answers[1]) > MOST_RANK:
        return Refusal(10, 0)
    if answers[0] == "refused 11":
        return Refusal(11, 0)
    if r.op == 20 and answers[0] not in ("bad", "panic"):
        return product_result(answers)
    if r.op == 17 and answers[0] not in ("bad", "panic"):
        return wrote(unhex(answers[1]))
    return answered(r, answers[0])


def is_asked(r):
    """Whether the oracle takes the named support of an accepted list: with it no more qubits than a list has."""
    return len({*named(r), *roll.support(roll.read(r.first))}) <= roll.MOST_QUBITS


def is_bad(r, found, answers):
    """Whether the oracle must say `bad` to the first question: refusals 1 to 8, and a rank too great to list.
    It is not asked for the numbers of the joined list."""
    if r.op == 18:
        return found.written.startswith(b"refused")
    if isinstance(found, Refusal) and found.number == 13:
        return r.op == 25 and not is_asked(r)
    if isinstance(found, Refusal) and found.number <= 8:
        return found.number < 8 or r.op < 12 or r.op == 20
    return r.op in (8, 23) and int(answers[1]) > MOST_RANK


def line(r, found):
    """The line of a request: 12 where the output is shorter than the result."""
    if isinstance(found, Result) and len(found.written) > r.out:
        found = Refusal(12, 0)
    area = "none"
    if CALLS[r.op].area:
        area = "untouched" if isinstance(found, Refusal) and found.number in (*range(10), 13) else "zeroed"
    if isinstance(found, Refusal):
        words = "body -" if r.op == 12 else f"refused {found.number} at {found.place}"
        return f"{words}; out - kept; work {area}"
    return f"{found.words}; out {hexed(found.written)} kept; work {area}"
