"""State vectors over the ring Z[w], w being the eighth root of unity: exact, with no float.

A value is four whole numbers a, b, c, d for a + b w + c w^2 + d w^3. A state of n wires is a list of 2^n values, in which
bit i of the index is wire i, and a number of halvings: the state is the list divided by the square root of 2 so often. A
sparse state has the values that aren't 0 alone, by their indices, on any number of wires.
"""

import random

ZERO = (0, 0, 0, 0)


def turned(value, k):
    """w^k times a value."""
    a, b, c, d = value
    k %= 8
    if k >= 4:
        a, b, c, d, k = -a, -b, -c, -d, k - 4
    if k == 0:
        return (a, b, c, d)
    if k == 1:
        return (-d, a, b, c)
    if k == 2:
        return (-c, -d, a, b)
    return (-b, -c, -d, a)


def added(v, u):
    return (v[0] + u[0], v[1] + u[1], v[2] + u[2], v[3] + u[3])


def rooted(value):
    """The square root of 2, which is w - w^3, times a value."""
    a, b, c, d = value
    return (b - d, a + c, b + d, c - a)


def rooted_often(value, times):
    for _ in range(times % 2):
        value = rooted(value)
    factor = 2 ** (times // 2)
    return tuple(factor * it for it in value)


def shown(value, halvings):
    """The value as a complex number, for eyes alone."""
    root = 2**-0.5
    # whole numbers are divided by one another first: each by itself may be beyond what a float holds
    a, b, c, d = (it / 2 ** (halvings // 2) for it in value)
    scale = root if halvings % 2 else 1
    return complex((a + (b - d) * root) * scale, (c + (b + d) * root) * scale)


def entries(a, b, c):
    """The rows of U(a pi/4, b pi/4, c pi/4), as lists of powers of w, and the halvings."""
    if a == 0:
        return [[[0], []], [[], [(b + c) % 8]]], 0
    if a == 4:
        return [[[], [(c + 6) % 8]], [[(b + 2) % 8], []]], 0
    plus = [0, a]
    less = [0, (a + 4) % 8]
    rows = [
        [plus, [(c + 6 + it) % 8 for it in less]],
        [[(b + 2 + it) % 8 for it in less], [(b + c + it) % 8 for it in plus]],
    ]
    return rows, 2


def weighed(powers, value):
    """The sum of these powers of w, times a value."""
    if not powers:
        return ZERO
    found = turned(value, powers[0])
    for it in powers[1:]:
        found = added(found, turned(value, it))
    return found


class State:
    def __init__(self, values):
        self.values = list(values)
        self.halvings = 0

    def apply(self, operation):
        if operation[0] == "CX":
            self._cx(operation[1], operation[2])
        else:
            a, b, c, wire = operation[1:]
            if (a, b, c) == (2, 0, 4):
                self._hadamard(wire)
            else:
                self._u(*entries(a, b, c), wire)

    def run(self, operations):
        for it in operations:
            self.apply(it)
        return self

    def _cx(self, control, target):
        values = self.values
        flip = 1 << target
        for i in range(len(values)):
            if i >> control & 1 and not i & flip:
                values[i], values[i ^ flip] = values[i ^ flip], values[i]

    def _hadamard(self, wire):
        """w times the Hadamard gate."""
        values = self.values
        flip = 1 << wire
        for i in range(len(values)):
            if not i & flip:
                a, b, c, d = values[i]
                e, f, g, h = values[i ^ flip]
                values[i] = (-d - h, a + e, b + f, c + g)
                values[i ^ flip] = (h - d, a - e, b - f, c - g)
        self.halvings += 1

    def _u(self, rows, halvings, wire):
        values = self.values
        flip = 1 << wire
        for i in range(len(values)):
            if not i & flip:
                low, high = values[i], values[i ^ flip]
                values[i] = added(weighed(rows[0][0], low), weighed(rows[0][1], high))
                values[i ^ flip] = added(weighed(rows[1][0], low), weighed(rows[1][1], high))
        self.halvings += halvings


class Overgrown(Exception):
    """A sparse state that takes more work than it may."""


class Sparse:
    """The basis state of an index, and what becomes of it by so many changes of values at most."""

    def __init__(self, index, most):
        self.values = {index: (1, 0, 0, 0)}
        self.halvings = 0
        self.left = most

    def run(self, operations):
        for it in operations:
            self.left -= len(self.values)
            if self.left < 0:
                raise Overgrown
            if it[0] == "CX":
                control, flip = it[1], 1 << it[2]
                self.values = {i ^ flip if i >> control & 1 else i: value for i, value in self.values.items()}
            else:
                self._u(*entries(*it[1:4]), it[4])
        return self

    def _u(self, rows, halvings, wire):
        found = {}
        for i, value in self.values.items():
            bit = i >> wire & 1
            for row in (0, 1):
                if rows[row][bit]:
                    j = i ^ (bit ^ row) << wire
                    part = weighed(rows[row][bit], value)
                    found[j] = added(found[j], part) if j in found else part
        self.values = {i: value for i, value in found.items() if value != ZERO}
        self.halvings += halvings


def basis(wires, index):
    """The basis state of this index."""
    values = [ZERO] * 2**wires
    values[index] = (1, 0, 0, 0)
    return State(values)


def mixed(wires, spares=0):
    """A superposition of all basis states with whole weights that look random, the same at each call; spare wires after the
    others are at zero."""
    x = 1
    values = []
    for _ in range(2**wires):
        parts = []
        for _ in range(4):
            x = (x * 6364136223846793005 + 1442695040888963407) % 2**64
            parts.append((x >> 33) % 2_000_003 - 1_000_001)
        values.append(tuple(parts))
    return State(values + [ZERO] * (2 ** (wires + spares) - 2**wires))


def scattered(size):
    """Numbers of so many bits that look random, the same at each call."""
    x = size
    while True:
        found = 0
        for _ in range(0, size, 31):
            x = (x * 6364136223846793005 + 1442695040888963407) % 2**64
            found = found << 31 | x >> 33
        yield found % 2**size


def each_scattered(size):
    """All numbers of so many bits, each once, in an order that looks random, the same at each call."""
    found = list(range(2**size))
    random.Random(size).shuffle(found)
    return found


def first_difference(left, right, turn):
    """The first index at which the right state isn't w^turn times the left one; None if there is none."""
    for i, (v, u) in enumerate(zip(left.values, right.values)):
        if rooted_often(turned(v, turn), right.halvings) != rooted_often(u, left.halvings):
            return i
    return None
