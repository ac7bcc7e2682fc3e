"""What the program `matrices` must write, computed by itself: prints the text, and compares it with
crates/matrices/stdout. Exit status 1 if they differ.

Matrices are lists of lists of 0 and 1. The echelon form is by Gauss-Jordan elimination, column by column: the first row
from the start row down with a one is swapped into place and added to every other row with a one there.
"""
import os
import sys

MODULUS = 2**32


def generator(seed):
    """Bits of a linear congruential generator: the highest bit of each state."""
    state = seed
    while True:
        state = (1664525 * state + 1013904223) % MODULUS
        yield state // 2**31


def random_matrix(rows, cols, seed):
    bits = generator(seed)
    return [[next(bits) for _ in range(cols)] for _ in range(rows)]


def add(a, b):
    return [(x + y) % 2 for x, y in zip(a, b)]


def repeated(half, cols, seed):
    """half random rows, then the sums of the first and the last of them, of the second and the last but one, .."""
    first = random_matrix(half, cols, seed)
    return first + [add(a, b) for a, b in zip(first, reversed(first))]


def digits(*rows):
    return [[int(d) for d in row] for row in rows]


def identity(n):
    return [[1 if i == j else 0 for j in range(n)] for i in range(n)]


def gauss_jordan(matrix, cols):
    """R, T and the pivot columns."""
    r = [list(row) for row in matrix]
    t = identity(len(matrix))
    pivots = []
    start = 0
    for col in range(cols):
        ones = [i for i in range(start, len(r)) if r[i][col] == 1]
        if not ones:
            continue
        found = ones[0]
        r[start], r[found] = r[found], r[start]
        t[start], t[found] = t[found], t[start]
        for i in range(len(r)):
            if i != start and r[i][col] == 1:
                r[i] = add(r[i], r[start])
                t[i] = add(t[i], t[start])
        pivots.append(col)
        start += 1
    return r, t, pivots


def combine(coefficients, matrix, cols):
    """The sum of the rows of the matrix whose coefficients are 1."""
    total = [0] * cols
    for c, row in zip(coefficients, matrix):
        if c == 1:
            total = add(total, row)
    return total


def solve(r, t, pivots, target):
    """The set of rows that sums to the target, or None: a row of R is added for each pivot column of the target."""
    coefficients = [target[p] for p in pivots] + [0] * (len(r) - len(pivots))
    if combine(coefficients, r, len(target)) != target:
        return None
    return combine(coefficients, t, len(t))


def kernel(r, pivots, cols):
    """A basis of the rows that share an even number of ones with each row of R: one for each column that is no pivot."""
    basis = []
    for free in (c for c in range(cols) if c not in pivots):
        row = [1 if c == free else 0 for c in range(cols)]
        for pivot, reduced in zip(pivots, r):
            row[pivot] = reduced[free]
        basis.append(row)
    return basis


def text(bits):
    return "".join(str(b) for b in bits) if bits else "-"


def report(matrix, cols):
    rows = len(matrix)
    r, t, pivots = gauss_jordan(matrix, cols)
    assert [combine(row, matrix, cols) for row in t] == r, "T times the matrix is R"
    lines = [f"{rows} by {cols} rank {len(pivots)} pivots {' '.join(str(p) for p in pivots) or '-'}"]
    lines += [f"{text(a)} {text(b)}" for a, b in zip(r, t)]
    target = combine([1 - i % 2 for i in range(rows)], matrix, cols)
    found = solve(r, t, pivots, target)
    assert combine(found, matrix, cols) == target, "the set sums to the target"
    lines.append(f"solve {text(found)}")
    if len(pivots) < cols:
        free = min(c for c in range(cols) if c not in pivots)
        unit = [1 if c == free else 0 for c in range(cols)]
        assert solve(r, t, pivots, unit) is None, "no set sums to a free column's unit"
        lines.append("solve none")
    basis = kernel(r, pivots, cols)
    assert all(sum(x * y for x, y in zip(a, b)) % 2 == 0 for a in basis for b in matrix), "the overlaps are even"
    lines += [f"kernel {len(basis)}"] + [text(row) for row in basis]
    return lines, len(pivots)


def ones(cols, *places):
    return [1 if c in places else 0 for c in range(cols)]


# matrix, columns, and its rank where that is known beforehand
MATRICES = [
    ([], 0, 0),
    ([], 5, 0),
    ([[], [], []], 0, 0),
    (digits("0"), 1, 0),
    (digits("0010110"), 7, 1),
    (digits("0110", "1011", "1101", "0111"), 4, 3),
    (digits("01101", "10010", "11101", "01011", "00111"), 5, 5),
    (digits("0011", "0110", "1100", "0101", "1010", "1001"), 4, 3),
    ([ones(70, 62, 63, 64, 65), ones(70, 63, 64, 67, 68), ones(70, 62, 64, 66, 67)], 70, 3),
    (random_matrix(65, 65, 1), 65, None),
    (random_matrix(40, 256, 2), 256, 40),
    (random_matrix(128, 256, 3), 256, 128),
    (repeated(64, 256, 4), 256, 64),
]


def main():
    lines = []
    for matrix, cols, rank in MATRICES:
        part, found = report(matrix, cols)
        assert rank is None or rank == found, f"{len(matrix)} by {cols}: rank {found}"
        lines += part
    made = "".join(line + "\n" for line in lines)
    sys.stdout.write(made)
    path = os.path.join(os.path.dirname(os.path.abspath(__file__)), "..", "crates", "matrices", "stdout")
    with open(path, encoding="ascii") as file:
        if file.read() != made:
            sys.exit("crates/matrices/stdout differs")


if __name__ == "__main__":
    main()
