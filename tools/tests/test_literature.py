import os
import random
import sys

from tool import TOP, ToolTest

sys.path.insert(0, os.path.join(TOP, "tools/lib"))
import exact
import qasm

FOLDER = os.path.join(TOP, "examples/literature")
SABRE = os.path.join(TOP, "examples/sabre")
# the powers of x in the polynomials whose roots the fields of gf2_*_mult are made with
POLYNOMIALS = {
    4: (4, 1, 0),
    5: (5, 2, 0),
    6: (6, 1, 0),
    7: (7, 1, 0),
    8: (8, 4, 3, 1, 0),
    9: (9, 4, 0),
    10: (10, 3, 0),
    11: (11, 2, 0),
    12: (12, 3, 0),
    13: (13, 4, 3, 1, 0),
    14: (14, 5, 0),
    15: (15, 1, 0),
    16: (16, 5, 3, 1, 0),
}
TRIALS = 40


def program(name):
    with open(os.path.join(FOLDER, f"{name}.qasm"), encoding="utf-8") as file:
        return qasm.read(file.read())


def bits_after(name, bits):
    """What NOTs with controls make of bits, bit i being wire i."""
    for step in program(name).steps:
        assert step.name in ("x", "cx", "ccx"), step.name
        if all(bits >> it & 1 for it in step.wires[:-1]):
            bits ^= 1 << step.wires[-1]
    return bits


def spread(number, wires):
    """A number's bits on some wires, the lowest first."""
    return sum((number >> i & 1) << wire for i, wire in enumerate(wires))


def multiplied(a, b, powers):
    """The product of two polynomials modulo 2 and modulo the one with these powers."""
    degree, modulus = powers[0], sum(1 << it for it in powers)
    found = 0
    for i in range(degree):
        if b >> i & 1:
            found ^= a << i
    for i in range(2 * degree - 2, degree - 1, -1):
        if found >> i & 1:
            found ^= modulus << (i - degree)
    return found


class Literature(ToolTest):
    """The circuits of examples/literature do what their first lines say."""

    def setUp(self):
        super().setUp()
        self.random = random.Random(1)

    def some(self, size):
        return self.random.getrandbits(size)

    def test_each_tells_its_source(self):
        for name in [*os.listdir(FOLDER), *(f"../sabre/{it}" for it in os.listdir(SABRE))]:
            with open(os.path.join(FOLDER, name), encoding="utf-8") as file:
                head = "".join(line for line in file if line.startswith("//"))
            self.assertRegex(head, r"(19|20)\d\d\.\n$", name)

    def test_nots_with_many_controls(self):
        for n in range(3, 11):
            controls, target = (1 << n) - 1, 1 << 2 * n - 2
            for bits in [controls, controls | target, *(self.some(n) for _ in range(TRIALS))]:
                turned = bits ^ target if bits & controls == controls else bits
                self.assertEqual(bits_after(f"tof_{n}", bits), turned)
                borrowed = self.some(n - 2) << n
                self.assertEqual(bits_after(f"barenco_tof_{n}", bits | borrowed), turned | borrowed)

    def test_products(self):
        for n, powers in POLYNOMIALS.items():
            for _ in range(TRIALS):
                a, b = self.some(n), self.some(n)
                given = a | b << n
                self.assertEqual(bits_after(f"gf2_{n}_mult", given), given | multiplied(a, b, powers) << 2 * n)

    def adds(self, name, size, a_wires, b_wires, carry_in, carry_out):
        for _ in range(TRIALS):
            a, b, carry = self.some(size), self.some(size), self.some(1)
            given = spread(a, a_wires) | carry << carry_in
            wanted = given | spread(a + b + carry, [*b_wires, carry_out])
            self.assertEqual(bits_after(name, given | spread(b, b_wires)), wanted)

    def test_sums(self):
        self.adds("vbe_adder_3", 3, [1, 4, 7], [2, 5, 8], 0, 9)
        for n in (4, 8, 16, 31):
            self.adds(f"cuccaro_adder_{n}", n, range(2, 2 * n + 1, 2), range(1, 2 * n + 1, 2), 0, 2 * n + 1)

    def ends(self, name, index):
        """The state that a program makes of a basis state."""
        found = program(name)
        return exact.basis(len(found.wires), index).run(qasm.operations(found))

    def test_multiples_of_five(self):
        for number in range(16):
            state = self.ends("mod5_4", number)
            left = [i for i, it in enumerate(state.values) if it != exact.ZERO]
            self.assertEqual(left, [number | (number % 5 == 0) << 4])

    def first_nots(self, name, behind):
        """The wires of the NOTs before the first gate of some name, as a number."""
        found = 0
        for step in program(name).steps:
            if step.name == behind:
                return found
            if step.name == "x":
                found ^= 1 << step.wires[0]
        return None

    def test_searches(self):
        for n in (4, 5, 6):
            # NOTs take the 1 of the marked item to where it is looked for
            wanted = (1 << n) - 1 ^ self.first_nots(f"grover_{n}", "ccx")
            state = self.ends(f"grover_{n}", 0)
            self.assertGreater(abs(exact.shown(state.values[wanted], state.halvings)) ** 2, 0.96)
        for n in (6, 10):
            left = [i for i, it in enumerate(self.ends(f"hidden_shift_{n}", 0).values) if it != exact.ZERO]
            self.assertEqual(left, [self.first_nots(f"hidden_shift_{n}", "cz")])

    def has_cnots(self, name, wanted):
        """Whether a program of examples/sabre has these CNOTs, and besides these H and phases of pi/4 alone."""
        found = qasm.operations(program(f"../sabre/{name}"))
        self.assertEqual([it[1:] for it in found if it[0] == "CX"], wanted, name)
        # by the angles of U in units of pi/4: T, its inverse, H
        self.assertLessEqual({it[1:4] for it in found if it[0] == "U"}, {(0, 0, 1), (0, 0, 7), (2, 0, 4)}, name)

    def test_programs_of_sabre(self):
        for n in (10, 13, 16, 20):
            self.has_cnots(f"qft_{n}", [(j, i) for i in range(n) for j in range(i + 1, n) for _ in range(2)])
        for n in (10, 13, 16):
            self.has_cnots(f"ising_{n}", 5 * [(i, i + 1) for first in (0, 1) for i in range(first, n - 1, 2) for _ in range(2)])
