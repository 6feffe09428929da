import collections
import json
import math
import xml.etree.ElementTree

from tool import ToolTest

PROGRAM = """OPENQASM 2.0;
include "qelib1.inc";
qreg q[3];
creg c[1];
h q[0];
cx q[0],q[1];
t q[2];
ccx q[0],q[1],q[2];
measure q[0] -> c[0];
"""
SVG = "{http://www.w3.org/2000/svg}"


def angle(start, end):
    return math.atan2(end[1] - start[1], end[0] - start[0])


class Draw(ToolTest):
    def drawn(self, *words):
        status, out, err = self.run_tool("draw", *words)
        self.assertEqual((status, err), (0, ""))
        return xml.etree.ElementTree.fromstring(out)

    def texts(self, picture):
        return ["".join(it.itertext()) for it in picture.iter(f"{SVG}text")]

    def test_gates_and_wires(self):
        picture = self.drawn(self.file("p.qasm", PROGRAM), "--title", "a program")
        texts = self.texts(picture)
        for wanted in ("a program", "H", "T", "c[0]", "q[0] ", "q[2] "):
            self.assertIn(wanted, texts)
        # three controls, two circled plus signs
        self.assertEqual(sum(it.get("r") == "4" for it in picture.iter(f"{SVG}circle")), 3)
        self.assertEqual(sum(it.get("r") == "9" for it in picture.iter(f"{SVG}circle")), 2)

    def test_gates_that_are_named_like_others(self):
        text = "OPENQASM 2.0;\nqreg q[2];\ngate ccx a { }\ngate swap a { }\nccx q[0];\nswap q[1];\n"
        texts = self.texts(self.drawn(self.file("p.qasm", text)))
        self.assertIn("CCX", texts)
        self.assertIn("SWAP", texts)

    def test_columns(self):
        # the H and the T share a column, as does nothing else: five gates in four columns
        one = self.drawn(self.file("p.qasm", PROGRAM))
        two = self.drawn(self.file("p.qasm", PROGRAM), "--columns", "2")
        self.assertGreater(float(one.get("width")), float(two.get("width")))
        self.assertGreater(float(two.get("height")), float(one.get("height")))

    def drawn_gates(self, picture):
        """How often each text stands in a picture, how many controls, and the wires of each CNOT: control and target, by their heights."""
        texts = collections.Counter(self.texts(picture))
        dots = [(float(it.get("cx")), float(it.get("cy"))) for it in picture.iter(f"{SVG}circle") if it.get("r") == "4"]
        plus = {float(it.get("cx")): float(it.get("cy")) for it in picture.iter(f"{SVG}circle") if it.get("r") == "9"}
        return texts, [(y, plus[x]) for x, y in sorted(dots)]

    def test_expanded(self):
        """A Toffoli gate is six CNOTs, four T, three inverses of it and two H, as qelib1.inc has it."""
        path = self.file("p.qasm", PROGRAM)
        texts, cnots = self.drawn_gates(self.drawn(path, "--expand"))
        self.assertEqual([texts[it] for it in ("H", "T", "T†", "CCX")], [3, 5, 3, 0])
        rows = sorted({it for pair in cnots for it in pair})
        wires = [(rows.index(a), rows.index(b)) for a, b in cnots]
        self.assertEqual(wires, [(0, 1), (1, 2), (0, 2), (1, 2), (0, 2), (0, 1), (0, 1)])
        self.assertEqual(self.drawn_gates(self.drawn(path))[0]["T†"], 0)

    def test_expanded_swaps_and_own_gates(self):
        text = 'OPENQASM 2.0;\ninclude "qelib1.inc";\nopaque both a,b;\ngate two(t) a,b { swap b,a; rzz(t) a,b; }\n'
        text += "qreg q[2];\ncreg c[1];\ntwo(0.3) q[0],q[1];\nboth q[0],q[1];\nif(c==1) cz q[0],q[1];\nsx q[0];\n"
        picture = self.drawn(self.file("p.qasm", text), "--expand")
        texts, cnots = self.drawn_gates(picture)
        top, low = sorted(set(cnots[0]))
        # a swap is three CNOTs, the middle one against the others, and has no crosses; an opaque gate, and one on a wire, stay
        self.assertEqual(cnots, [(low, top), (top, low), (low, top), *[(top, low)] * 3])
        self.assertEqual([texts[it] for it in ("P(0.3)", "both", "√X", "two", "c=1", "H")], [1, 1, 1, 0, 3, 2])
        self.assertEqual([it for it in picture.iter(f"{SVG}line") if it.get("stroke-width") == "1.8"], [])

    def test_expanded_source_beside_what_became_of_it(self):
        """The counts of the title are those of the drawn gates then."""
        told = {"device": 2, "final": [1, 0], "initial": [0, 1], "qubits": 2, "swaps": 1}
        head = 'OPENQASM 2.0;\ninclude "qelib1.inc";\nqreg q[2];\n'
        source = self.file("s.qasm", f"{head}swap q[0],q[1];\ncz q[0],q[1];\n")
        target = self.file("t.qasm", f"{head}cx q[0],q[1];\ncx q[1],q[0];\ncx q[0],q[1];\n")
        picture = self.drawn(source, target, "--report", self.file("r", json.dumps(told) + "\n"), "--expand", "--counts")
        texts, cnots = self.drawn_gates(picture)
        self.assertEqual((texts["s.qasm: 6 gates, 4 CNOTs, 0 T gates"], len(cnots), texts["H"]), (1, 4 + 3, 2))

    def test_a_report_and_a_device(self):
        told = {"device": 3, "final": [1, 0, 2], "initial": [0, 1, 2], "qubits": 2}
        text = 'OPENQASM 2.0;\ninclude "qelib1.inc";\nqreg q[3];\ncx q[0],q[1];\n'
        picture = self.drawn(
            self.file("p.qasm", text),
            "--report", self.file("r", json.dumps(told) + "\n"),
            "--device", self.file("d.toml", "qubits = 3\nedges = [[0, 1], [2, 1], [1, 2]]\n"),
        )  # fmt: skip
        texts = self.texts(picture)
        self.assertIn("p.qasm (1 idle qubits left out)", texts)
        self.assertIn("q0 at Q0 ", texts)
        self.assertIn("q0 → q1", texts)
        self.assertIn("q1 → q0", texts)
        # one edge has one direction
        self.assertEqual(len(list(picture.iter(f"{SVG}polygon"))), 1)

    def test_names_of_the_source(self):
        told = {"device": 2, "final": [1, 0], "initial": [0, 1], "qubits": 2}
        source = self.file("s.qasm", 'OPENQASM 2.0;\ninclude "qelib1.inc";\nqreg a[1];\nqreg b[1];\ncx b[0],a[0];\n')
        target = self.file("t.qasm", 'OPENQASM 2.0;\ninclude "qelib1.inc";\nqreg q[2];\ncx q[1],q[0];\nh q[0];\nt q[0];\n')
        device = self.file("d.toml", "qubits = 2\nedges = [[0, 1]]\n")
        report = self.file("r", json.dumps(told) + "\n")
        picture = self.drawn(source, target, "--report", report, "--device", device, "--columns", "2", "--counts")
        texts = self.texts(picture)
        for wanted in ("a[0] at Q0 ", "b[0] at Q1 ", "Q0", "a[0] → b[0]", "s.qasm: 1 gates, 1 CNOTs, 0 T gates"):
            self.assertIn(wanted, texts)
        # where a line goes on its name stands again
        self.assertEqual(texts.count("Q1 "), 1)

    def dashed(self, picture):
        return [it for it in picture.iter(f"{SVG}line") if it.get("stroke-dasharray")]

    def test_barriers(self):
        text = 'OPENQASM 2.0;\ninclude "qelib1.inc";\nqreg q[3];\nh q[0];\nbarrier q[2],q[0];\nh q[0];\nh q[1];\n'
        picture = self.drawn(self.file("p.qasm", text))
        # a dash on each wire that is named, all in one column, and no gate of a wire between them beside it
        lines = self.dashed(picture)
        self.assertEqual((len(lines), len({it.get("x1") for it in lines})), (2, 1))
        boxes = sorted(float(it.get("x")) for it in picture.iter(f"{SVG}rect") if it.get("x"))
        self.assertEqual([it > float(lines[0].get("x1")) for it in boxes], [False, True, True])

    def test_barriers_of_a_device(self):
        told = {"between": [[1, 0, 2]], "device": 3, "final": [1, 0, 2], "initial": [0, 1, 2], "parts": [0, 4], "qubits": 2}
        source = self.file("s.qasm", 'OPENQASM 2.0;\ninclude "qelib1.inc";\nqreg here[1];\nqreg there[1];\nbarrier here;\n')
        gates = "cx q[0],q[1];\ncx q[1],q[0];\ncx q[0],q[1];\nbarrier q[1];\nh q[0];\n"
        target = self.file("t.qasm", f'OPENQASM 2.0;\ninclude "qelib1.inc";\nqreg q[3];\n{gates}')
        report = self.file("r", json.dumps(told) + "\n")
        picture = self.drawn(source, target, "--report", report)
        # the source's says nothing
        self.assertEqual(len(self.dashed(picture)), 2)
        self.assertEqual([it for it in self.texts(picture) if it == "here[0]"], ["here[0]"] * 2)
        label = next(it for it in picture.iter(f"{SVG}text") if "".join(it.itertext()) == "here[0]" and it.get("font-size") == "9")
        self.assertEqual(float(label.get("x")), float(self.dashed(picture)[1].get("x1")) + 3)
        report = self.file("r", json.dumps(told | {"between": [[1, 0, 2]] * 2, "parts": [0, 4, 4]}) + "\n")
        says = f"draw: {target} has 1 barriers, and the report tells of 2\n"
        self.assertEqual(self.run_tool("draw", source, target, "--report", report), (1, "", says))
        report = self.file("r", json.dumps(told | {"parts": [0]}) + "\n")
        says = f"draw: {report}: the report tells of 1 parts, and of 1 placements between them\n"
        self.assertEqual(self.run_tool("draw", source, target, "--report", report), (1, "", says))

    def test_spares(self):
        wires = [0, 1, 2, 3, 4]
        told = {"device": 5, "final": wires, "initial": wires, "qubits": 2, "spares": 3, "swaps": 0}
        source = self.file("s.qasm", 'OPENQASM 2.0;\ninclude "qelib1.inc";\nqreg a[1];\nqreg b[1];\ncx a[0],b[0];\n')
        gates = "cx q[0],q[2];\nt q[2];\ncx q[0],q[2];\nx q[4];\nx q[4];\n"
        target = self.file("t.qasm", f'OPENQASM 2.0;\ninclude "qelib1.inc";\nqreg q[5];\n{gates}')
        report = self.file("r", json.dumps(told) + "\n")
        texts = self.texts(self.drawn(source, target, "--report", report, "--columns", "2"))
        # a spare wire without a gate is left out
        self.assertIn("t.qasm (1 idle qubits left out)", texts)
        for begins, ends in (("a[0] at Q0 ", "a[0]"), ("b[0] at Q1 ", "b[0]"), ("|0⟩ at Q2 ", "|0⟩"), ("|0⟩ at Q4 ", "|0⟩")):
            self.assertIn(begins, texts)
            self.assertIn(ends, texts)
        self.assertEqual((texts.count("|0⟩"), texts.count("·"), texts.count("Q4 ")), (2, 0, 1))
        # the source apart, its wires have numbers
        self.assertIn("q1 at Q1 ", self.texts(self.drawn(target, "--report", report)))
        for more, said in (
            ({"spares": 2}, "the report says spares 2, qubits 2 and device 5"),
            ({"spares": "3"}, "the report says spares '3', qubits 2 and device 5"),
            ({"final": [0, 1, 2, 4, 3]}, "with spare wires final isn't the identity"),
        ):
            report = self.file("r", json.dumps(told | more) + "\n")
            self.assertEqual(self.run_tool("draw", source, target, "--report", report), (1, "", f"draw: {report}: {said}\n"))

    def test_labels_beside_bits_and_edges(self):
        text = "OPENQASM 2.0;\nqreg q[1];\ncreg a_long_register[1];\nmeasure q[0] -> a_long_register[0];\n"
        picture = self.drawn(self.file("p.qasm", text))
        line = max(float(it.get("x2")) for it in picture.iter(f"{SVG}line"))
        bit = next(it for it in picture.iter(f"{SVG}text") if "long" in "".join(it.itertext()))
        self.assertLess(float(bit.get("x")) + 5.4 * len("a_long_register[0]"), line)
        # edges to the left, to the right and downwards leave room above
        told = {"device": 4, "final": [0, 1, 2, 3], "initial": [0, 1, 2, 3], "qubits": 4}
        text = "OPENQASM 2.0;\nqreg q[4];\n"
        picture = self.drawn(
            self.file("p.qasm", text),
            "--report", self.file("r", json.dumps(told) + "\n"),
            "--device", self.file("d.toml", "qubits = 4\nedges = [[0, 1], [0, 2], [0, 3]]\n"),
        )  # fmt: skip
        places = {"".join(it.itertext()): (float(it.get("x")), float(it.get("y"))) for it in picture.iter(f"{SVG}text")}
        middle, label = places["Q0"], places["q0 → q0"]
        for other in ("Q1", "Q2", "Q3"):
            self.assertGreater(abs(angle(middle, places[other]) - angle(middle, label)), 0.3)

    def test_costs_stand_on_the_map(self):
        text = "format = 2\nqubits = 3\nedges = [[0, 1, 70], [1, 0, 40], [2, 1, 900]]\n"
        texts = self.texts(self.drawn(self.file("p.qasm", PROGRAM), "--device", self.file("d.toml", text)))
        # of a pair the lesser of its two
        self.assertEqual([it for it in texts if it in ("70", "40", "900")], ["40", "900"])
        self.assertIn("d.toml; on each line what a CNOT there costs", texts)

    def test_what_cannot_be_drawn(self):
        path = self.file("p.qasm", "OPENQASM 2.0;\nqreg q[1];\nh q[0];\n")
        status, out, err = self.run_tool("draw", path)
        self.assertEqual((status, out), (1, ""))
        self.assertEqual(err, f"draw: {path}:3: no gate h\n")
        none = self.room + "/none"
        self.assertEqual(self.run_tool("draw", none), (2, "", f"draw: {none}: No such file or directory\n"))
        few = self.file("p.qasm", 'OPENQASM 2.0;\ninclude "qelib1.inc";\nqreg q[3];\ncx q[0];\n')
        self.assertEqual(self.run_tool("draw", few), (1, "", f"draw: {few}:4: the gate takes 0 angles and 2 wires\n"))

    def test_bodies_without_a_value(self):
        path = self.file("p.qasm", 'OPENQASM 2.0;\ninclude "qelib1.inc";\ngate g(t) a,b { rx(1/t) a; }\nqreg q[2];\ng(0) q[0],q[1];\n')
        says = f"draw: {path}:5: an angle that has no value\n"
        self.assertEqual(self.run_tool("draw", path, "--expand"), (1, "", says))

    def test_devices_and_reports_that_cannot_be_drawn(self):
        program = self.file("p.qasm", PROGRAM)
        for text, said in (
            ("qubits = 2\nedges = [[0, 2]]", "the edge [0, 2] has a qubit that isn't there"),
            ("qubits = 2\nedges = [[0, -1]]", "the edge [0, -1] has a qubit that isn't there"),
            ("qubits = 2\nedges = [[0]]", "the edge [0] is no pair of whole numbers"),
            ("qubits = 2\nedges = [0]", "`edges` is no list of pairs"),
            ("qubits = 2\nedges = [[0, 0]]", "qubit 0 has an edge to itself"),
            ("qubits = 0\nedges = []", "`qubits` is 0 and not a whole number from 1 to 256"),
            ("edges = []", "`qubits` is None and not a whole number from 1 to 256"),
            ("qubits = 2", "`edges` is no list of pairs"),
            ("qubits =", "no TOML in UTF-8"),
            ("format = 3\nqubits = 2\nedges = []", "`format` is 3 and neither 1 nor 2"),
            ("format = 2\nqubits = 2\nedges = [[0, 1]]", "the edge [0, 1] is no triple of whole numbers"),
            ("format = 2\nqubits = 2\nedges = [[0, 1, 0]]", "the edge [0, 1] costs 0 and not a number from 1 to 1,000,000"),
        ):
            path = self.file("d.toml", text)
            self.assertEqual(self.run_tool("draw", program, "--device", path), (1, "", f"draw: {path}: {said}\n"))
        for told, said in (
            ({}, "final is no placement of 3 wires"),
            ({"final": [0, 0, 2]}, "final is no placement of 3 wires"),
            ({"qubits": "2", "final": [0, 1, 2]}, "the report says qubits '2' and device 3"),
        ):
            path = self.file("r", json.dumps({"device": 3, "initial": [0, 1, 2], "qubits": 2} | told))
            self.assertEqual(self.run_tool("draw", program, "--report", path), (1, "", f"draw: {path}: {said}\n"))
