import os
import subprocess
import sys
import unittest

from tool import TOP, ToolTest

sys.path.insert(0, os.path.join(TOP, "python"))
import qasm
import simulation
from qroute import declarations

PI = 3.141592653589793
# exact angles as a program spells them, with their values
ANGLES = {"u0": [["3"]], "rzz": [["pi/4"], ["-pi/2"]], "rxx": [["pi/4"], ["pi/2"]], "ryy": [["pi/4"], ["3*pi/4"]]}
ANGLES |= {"rzx": [["pi/4"], ["pi/2"]], "crx": [["pi"], ["pi/2"]], "cry": [["pi/2"], ["-pi/2"]], "r": [["pi/2", "pi/4"]]}
ANGLES |= {"cu3": [["pi/2", "pi/2", "pi"]], "cu": [["pi/2", "pi/2", "pi", "pi/4"], ["pi", "0", "pi", "pi/2"]]}
ANGLES |= {"xx_plus_yy": [["pi/2", "pi/4"]], "xx_minus_yy": [["pi/2", "-pi/4"]]}
# their bodies have odd multiples of pi/8, since they aren't Clifford+T on their wires alone
NOT_EXACT = {"c3x", "mcx", "c3sx", "c3sqrtx", "c4x"}
# a Toffoli gate on three controls but for phases: what it does to basis states
RELATIVE = {"rcccx", "rc3x"}


def value(text):
    return eval(text, {"pi": PI})


def program(name, angles):
    size = len(qasm.known_gate(declarations.TABLE[name]).qubits)
    wires = ",".join(f"q[{i}]" for i in range(size))
    said = f"({','.join(angles)})" if angles else ""
    return size, f'OPENQASM 2.0;\ninclude "qelib1.inc";\nqreg q[{size}];\n{name}{said} {wires};\n'


def matrix_by_bodies(name, angles):
    """The matrix of a declared gate, column by column, its body's gates by their textbook matrices."""
    gate = qasm.known_gate(declarations.TABLE[name])
    wires = list(range(len(gate.qubits)))
    found = list(simulation.gates(gate, angles, wires, {id(gate)}))
    columns = []
    for x in range(1 << len(wires)):
        ((_, state),) = simulation.run(found, {x: 1})
        columns.append([state.get(y, 0) for y in range(1 << len(wires))])
    return columns


class Declarations(ToolTest):
    def test_each_is_its_textbook_matrix(self):
        dice = simulation.drawn(3)
        for name in declarations.TABLE.keys() - RELATIVE:
            for _ in range(3):
                angles = [dice.uniform(-7, 7) for _ in range(simulation.GATES[name][0])]
                wanted = simulation.matrix_of(name, angles)
                self.assertTrue(simulation.same(matrix_by_bodies(name, angles), wanted), (name, angles))

    def test_relative_phases_aside_a_gate_with_three_controls(self):
        for name in RELATIVE:
            for x, column in enumerate(matrix_by_bodies(name, [])):
                image = x ^ 8 if x & 7 == 7 else x
                self.assertEqual([round(abs(it), 9) for it in column], [float(y == image) for y in range(16)], (name, x))

    def test_names_and_tables(self):
        self.assertEqual(sorted(declarations.TABLE), sorted(simulation.GATES.keys() - qasm.library().keys() | RELATIVE))
        for name, text in declarations.TABLE.items():
            self.assertTrue(text.startswith(f"gate {name}") and text.endswith("}"), text)
            self.assertTrue(all(qasm.library().get(it.name) is it or it is qasm.U for it, _, _ in qasm.known_gate(text).body))

    def test_a_program(self):
        text = 'OPENQASM 2.0; // ecr a,b;\ninclude "qelib1.inc" ; qreg q[3];\ngate iswap a,b { }\nrzz(0.5) q[0],q[1];\n'
        text += "iswap q[0],q[1]; creg c[1];\ngate mine a,b { csx a,b; }\nif(c==1) dcx q[0],q[1];\n"
        status, out, err = self.run_tool("declare", given=text)
        names = ["dcx", "csx", "rzz"]
        lines = "".join(f"\n{declarations.TABLE[it]}" for it in names)
        self.assertEqual((status, out, err), (0, text.replace('inc" ;', f'inc" ;{lines}'), f"declared: {', '.join(names)}\n"))
        # what is declared isn't declared again
        self.assertEqual(self.run_tool("declare", given=out), (0, out, ""))

    def test_what_cannot_be_read(self):
        for text, said in (
            ('OPENQASM 2.0;\ninclude "qelib1.inc";\nqreg q[1];\n  what q[0];\n', "4:3: no gate what"),
            ("OPENQASM 2.0;\nqreg q[2];\nrzz(1) q[0],q[1];\n", "3:1: no gate rzz"),
            ("OPENQASM 2.0;\nqreg q[2];\ncx q[0]", "3:1: no gate cx"),
            ("OPENQASM 3.0;\n", "1:10: the version must be 2.0"),
        ):
            self.assertEqual(self.run_tool("declare", given=text), (1, "", f"declare: {said}\n"))


class ByAmplitudes(ToolTest):
    """The same by the program's own entries of matrices, exactly, for angles that it takes."""

    def setUp(self):
        super().setUp()
        self.program = os.environ.get("QROUTE", os.path.join(TOP, "out/qroute"))
        if not os.access(self.program, os.X_OK):
            self.skipTest("there is no built program")

    def entry(self, text, size, column, row):
        bits = [format(it, f"0{size}b")[::-1] for it in (column, row)]
        words = [self.program, "amplitude", "--from", bits[0], "--to", bits[1]]
        ran = subprocess.run(words, input=text, capture_output=True, text=True, timeout=60)
        self.assertEqual(ran.returncode, 0, text + ran.stderr)
        *parts, halvings = map(int, ran.stdout.split())
        return sum(it * simulation.W**i for i, it in enumerate(parts)) / 2**halvings

    def test_each_is_its_textbook_matrix(self):
        for name in sorted(declarations.TABLE.keys() - RELATIVE - NOT_EXACT):
            for angles in ANGLES.get(name, [[]]):
                size, text = program(name, angles)
                declared, _ = declarations.declare(text)
                wanted = simulation.matrix_of(name, list(map(value, angles)))
                # columns have length 1, so entries that should be 0 are, if the others are right
                places = [(c, r) for c, column in enumerate(wanted) for r, it in enumerate(column) if abs(it) > 1e-12]
                found = {it: self.entry(declared, size, *it) for it in places}
                turn = found[places[0]] / wanted[places[0][0]][places[0][1]]
                self.assertAlmostEqual(abs(turn), 1, 9)
                for (c, r), it in found.items():
                    self.assertAlmostEqual(abs(it - turn * wanted[c][r]), 0, 9, (name, angles, c, r))


if __name__ == "__main__":
    unittest.main()
