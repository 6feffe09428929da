"""Clifford programs compared for every input, with all that they measure, reset, and do under conditions.

Each wire begins entangled with a reference of its own, which no gate is on: so what a program makes of these wires, and of the classical bits,
says what it makes of every state. All of that is the group of the products of Pauli matrices, with a sign, that fix the state;
a classical bit has Z alone. A measurement keeps those that commute with the wire's Z, and ties this Z to the bit's; a reset keeps those
that aren't on the wire. Two programs are the same, the global phase aside, just if their groups are: no number here is rounded.
"""

import functools

import numpy

import simulation


class NotClifford(Exception):
    """A statement doesn't take products of Pauli matrices to such products."""


@functools.cache
def paulis(count):
    """The products of Pauli matrices on some wires, by a number whose low bits say where X is and whose high bits where Z is, with Y for both."""
    one = [numpy.array(it, dtype=complex) for it in (simulation.ONE, simulation.X, simulation.Z, [[0, -1j], [1j, 0]])]
    found = numpy.zeros((1 << 2 * count, 1 << count, 1 << count), dtype=complex)
    for index in range(1 << 2 * count):
        matrix = numpy.ones((1, 1))
        for i in range(count):
            # the first wire is the lowest bit, which comes last in a product of Kronecker's
            matrix = numpy.kron(one[(index >> i & 1) + 2 * (index >> count + i & 1)], matrix)
        found[index] = matrix
    return found


@functools.cache
def images(columns):
    """What a gate makes of each product of Pauli matrices: numbers of products, and whether each is with a minus."""
    matrix = numpy.array(columns).T
    count = len(matrix).bit_length() - 1
    if count > 3:
        raise NotClifford
    of = paulis(count)
    made = matrix @ of @ matrix.conj().T
    parts = numpy.einsum("aij,bji->ab", made, of).real / len(matrix)
    index = abs(parts).argmax(axis=1)
    largest = parts[numpy.arange(len(parts)), index]
    if (abs(abs(largest) - 1) > 1e-9).any():
        raise NotClifford
    return index, largest < 0


class Group:
    """The group for so many wires, those of them with a reference at the given places, and the others at zero; and so many bits."""

    def __init__(self, size, places, bits):
        # columns: wires, references, bits
        self.size, self.bits = size, size + len(places)
        columns = self.bits + bits
        rows = [([], [at]) for at in range(size) if at not in places] + [([], [self.bits + it]) for it in range(bits)]
        for i, at in enumerate(places):
            rows += [([at, size + i], []), ([], [at, size + i])]
        self.x, self.z = (numpy.zeros((len(rows), columns), dtype=bool) for _ in range(2))
        self.minus = numpy.zeros(len(rows), dtype=bool)
        for row, (x, z) in enumerate(rows):
            self.x[row, x] = True
            self.z[row, z] = True

    def run(self, statements):
        for it in statements:
            self.step(*it)

    def step(self, kind, *words):
        if kind == "gate":
            self.apply(*words)
        elif kind == "measure":
            self.measure(*words)
        elif kind == "reset":
            self.reset(*words)
        else:
            self.conditional(*words)

    def on(self, wires):
        """The number of each row's product on these wires."""
        return sum(self.x[:, wire].astype(int) << i | self.z[:, wire].astype(int) << len(wires) + i for i, wire in enumerate(wires))

    def apply(self, matrix, wires):
        index, minus = images(tuple(map(tuple, matrix)))
        of = self.on(wires)
        self.minus ^= minus[of]
        for i, wire in enumerate(wires):
            self.x[:, wire] = index[of] >> i & 1
            self.z[:, wire] = index[of] >> len(wires) + i & 1

    def measure(self, wire, bit):
        self.without("z", self.bits + bit)
        self.without("x", wire)
        self.add([wire, self.bits + bit])

    def reset(self, wire):
        self.without("x", wire)
        self.without("z", wire)
        self.add([wire])

    def conditional(self, register, value, statement):
        """A product of Pauli matrices under one bit; other conditions don't keep such a group."""
        if statement[0] != "gate":
            raise NotClifford
        _, matrix, wires = statement
        index, minus = images(tuple(map(tuple, matrix)))
        if len(register) != 1 or (index != range(len(index))).any():
            raise NotClifford
        # what doesn't commute with it gets a minus where the bit is as asked
        turned = minus[self.on(wires)]
        if value < 2:
            self.z[:, self.bits + register[0]] ^= turned
        if value == 0:
            self.minus ^= turned

    def without(self, part, place):
        """Keeps those products alone that have no X, or no Z, at a place."""
        rows = numpy.flatnonzero(getattr(self, part)[:, place])
        if len(rows):
            self.multiply(rows[1:], rows[0])
            self.x, self.z, self.minus = (numpy.delete(it, rows[0], axis=0) for it in (self.x, self.z, self.minus))

    def add(self, places):
        """Adds the product of Z at these places."""
        none, z = numpy.zeros((2, 1, self.z.shape[1]), dtype=bool)
        z[0, places] = True
        self.x, self.z, self.minus = numpy.vstack([self.x, none]), numpy.vstack([self.z, z]), numpy.append(self.minus, False)

    def multiply(self, rows, by):
        """Multiplies rows by another, with which they commute."""
        x, z = self.x[rows].astype(int), self.z[rows].astype(int)
        u, v = self.x[by].astype(int), self.z[by].astype(int)
        # i to the power of this is the phase of a product at one place: X Y = i Z and so on round, and the other way round with a minus
        turns = x * (1 - z) * v * (2 * u - 1) + x * z * (v - u) + (1 - x) * z * u * (1 - 2 * v)
        turns = turns.sum(axis=1) % 4
        assert not (turns % 2).any()
        self.minus[rows] ^= (turns == 2) ^ self.minus[by]
        self.x[rows] ^= self.x[by]
        self.z[rows] ^= self.z[by]

    def move(self, places, size):
        """Moves the wires to these places of so many, with zero at the others."""
        free = [it for it in range(size) if it not in places]
        rows = len(self.x)
        for name in ("x", "z"):
            old = getattr(self, name)
            new = numpy.zeros((rows + len(free), size + old.shape[1] - self.size), dtype=bool)
            new[:rows, places] = old[:, : self.size]
            new[:rows, size:] = old[:, self.size :]
            setattr(self, name, new)
        self.z[range(rows, rows + len(free)), free] = True
        self.minus = numpy.append(self.minus, numpy.zeros(len(free), dtype=bool))
        self.bits, self.size = self.bits - self.size + size, size

    def reduced(self):
        """The rows that an elimination leaves, with their signs: the same ones for the same group."""
        done = 0
        for part in ("x", "z"):
            for column in range(self.x.shape[1]):
                bits = getattr(self, part)[:, column]
                rows = numpy.flatnonzero(bits)
                first = next((it for it in rows if it >= done), None)
                if first is None:
                    continue
                self.multiply(rows[rows != first], first)
                for it in (self.x, self.z, self.minus):
                    it[[done, first]] = it[[first, done]]
                done += 1
        assert done == len(self.x)
        return numpy.hstack([self.x, self.z, self.minus[:, None]])


def are_clifford(statements, size, bits):
    """Whether statements on so many wires and bits can be compared here."""
    try:
        Group(size, list(range(size)), bits).run(statements)
    except NotClifford:
        return False
    return True


def same(source, target, size, initial, final, bits):
    """Whether statements on so many wires, and those that became of them on the qubits of a device, do the same between placements."""
    one = Group(size, list(range(size)), bits)
    one.run(source)
    one.move(list(final[:size]), len(final))
    two = Group(len(final), list(initial[:size]), bits)
    two.run(target)
    return numpy.array_equal(one.reduced(), two.reduced())
