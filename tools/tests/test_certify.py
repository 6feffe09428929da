import collections
import functools
import importlib.machinery
import importlib.util
import itertools
import operator
import os
import random
import re
import sys

from tool import TOP, ToolTest

sys.path[:0] = [os.path.join(TOP, "tools/lib"), os.path.join(TOP, "python")]
import coupling
import gates
import qasm
import qroute
import random_router
import traces
from qroute import rewriting

HEAD = 'OPENQASM 2.0;\ninclude "qelib1.inc";\n'
SWAP = "cx q[0],q[1]; cx q[1],q[0]; cx q[0],q[1];"
BACK = "h q[0]; h q[1]; cx q[1],q[0]; h q[0]; h q[1];"
ONE_WAY = "qubits = 3\nedges = [[1, 0], [1, 2]]\n"
# wires and body of the source, qubits and body of the target, further words, the lines of the trace but for its gates, and the power
RIGHT = {
    "the same": (2, "h q[0]; cx q[0],q[1];", 2, "h q[0]; cx q[0],q[1];", (), "TRACE 1|place 0 1|emit 0|emit 0|end 0"),
    "gates out of order": (2, "t q[0]; s q[1];", 2, "s q[1]; t q[0];", (), "TRACE 1|place 0 1|emit 1|emit 0|end 0"),
    "a swap": (1, "t q[0];", 2, SWAP + "t q[1];", (), "TRACE 1|place 0 1|swap 0 1|emit 0|end 0"),
    "a swap elided": (2, SWAP + "t q[1];", 2, "t q[0];", (), "TRACE 2|place 0 1|elide 0|emit 0|end 0"),
    "where it begins": (2, "h q[0]; cx q[0],q[1];", 3, "h q[2]; cx q[2],q[0];", ("--initial", "2,0"), "TRACE 1|place 2 0 1|emit 0|emit 0|end 0"),
    "where it begins, guessed": (2, "h q[0]; cx q[0],q[1];", 3, "h q[2]; cx q[2],q[0];", (), "TRACE 1|place 2 0 1|emit 0|emit 0|end 0"),
    "a CNOT turned round": (2, "cx q[0],q[1]; t q[1];", 2, BACK + "t q[1];", ("--device", "d"), "TRACE 1|place 0 1|back 0|emit 0|end 4"),
    "a swap turned round": (
        2, "h q[0]; cx q[0],q[1];", 3, "h q[0]; cx q[1],q[2]; h q[2]; h q[1]; cx q[1],q[2]; h q[2]; h q[1]; cx q[1],q[2]; cx q[0],q[2];",
        ("--device", "d"), "TRACE 1|place 0 1 2|emit 0|turn 1 2|emit 0|end 4",
    ),
    "a CNOT turned round in pieces": (2, "cx q[0],q[1]; t q[1];", 2, "h q[1]; h q[0]; cx q[1],q[0]; h q[1]; t q[1]; h q[0];", (), None),
    "a swap in pieces": (3, "t q[0]; h q[2];", 3, "t q[0]; cx q[0],q[1]; h q[2]; cx q[1],q[0]; cx q[0],q[1]; x q[1]; x q[1];", (), None),
    "a swap and a CNOT that met": (
        3, "h q[0]; h q[1]; cx q[0],q[1]; h q[1]; cx q[0],q[2];", 3, "h q[0]; h q[1]; cx q[1],q[0]; cx q[0],q[1]; h q[0]; cx q[1],q[2];", (), None,
    ),
    "a CZ turned round": (2, "h q[0]; cz q[0],q[1]; h q[0];", 2, "h q[0]; cz q[1],q[0]; h q[0];", (), None),
    "a CZ past T on both wires": (2, "cz q[0],q[1]; t q[0]; t q[1];", 2, "t q[0]; t q[1]; cz q[1],q[0];", (), None),
    "CZ in another order": (3, "cz q[0],q[1]; cz q[1],q[2]; h q[1];", 3, "cz q[2],q[1]; cz q[1],q[0]; h q[1];", (), None),
    "Z as H X H": (1, "z q[0];", 1, "h q[0]; x q[0]; h q[0];", (), None),
    "S H S": (1, "sdg q[0]; h q[0]; sdg q[0];", 1, "h q[0]; s q[0]; h q[0];", (), None),
    "Z past a CNOT and an H": (2, "z q[1]; cx q[0],q[1]; h q[0]; z q[1];", 2, "cx q[0],q[1]; h q[0]; x q[0];", (), None),
    "T through CNOTs": (2, "t q[1]; cx q[0],q[1]; cx q[0],q[1];", 2, "cx q[0],q[1]; cx q[0],q[1]; t q[1];", (), None),
    "H beside a CNOT": (2, "h q[1]; cx q[1],q[0];", 2, "h q[0]; cx q[0],q[1]; h q[0]; h q[1];", (), None),
    "a Toffoli's controls": (3, "ccx q[0],q[1],q[2];", 3, "ccx q[1],q[0],q[2];", (), None),
    "no wires": (0, "", 0, "", (), "TRACE 1|place|end 0"),
}  # fmt: skip
# the library's Toffoli gate with each T and its inverse exchanged
MIRRORED = (
    "h q[2]; cx q[1],q[2]; t q[2]; cx q[0],q[2]; tdg q[2]; cx q[1],q[2]; t q[2]; cx q[0],q[2]; "
    "tdg q[1]; tdg q[2]; h q[2]; cx q[0],q[1]; tdg q[0]; t q[1]; cx q[0],q[1]; "
)
THREE_Z = "z q[0]; z q[1]; cx q[0],q[1]; z q[1]; cx q[0],q[1];"
# the same as RIGHT; each has the line `phases`
FUNCTIONS = {
    "a Toffoli mirrored": (3, "ccx q[0],q[1],q[2];", 3, MIRRORED, (), None),
    "two, of which one is mirrored": (3, "ccx q[0],q[1],q[2]; ccx q[0],q[1],q[2];", 3, MIRRORED + "ccx q[0],q[1],q[2];", (), None),
    "one behind a swap": (4, "h q[3]; ccx q[1],q[0],q[2]; t q[2];", 4, "h q[3]; cx q[1],q[0]; cx q[0],q[1]; cx q[1],q[0]; " + MIRRORED + "t q[2];", (), None),
    "one beside a swap that is left out": (5, "ccx q[0],q[1],q[2]; swap q[3],q[4]; t q[3];", 5, MIRRORED + "t q[4];", (), None),
    "one and Z as H X H": (3, "ccx q[0],q[1],q[2]; z q[1];", 3, MIRRORED + "h q[1]; x q[1]; h q[1];", (), None),
    "one and X that cancel": (3, "ccx q[0],q[1],q[2]; x q[2]; t q[2]; x q[2];", 3, MIRRORED + "tdg q[2];", (), None),
    "three Z": (2, THREE_Z, 2, "", (), "TRACE 2|phases 0|place 0 1|end 0"),
    "none, and three Z": (2, "", 2, THREE_Z, (), "TRACE 2|phases 5|P 4 0|P 4 1|C 0 1|P 4 1|C 0 1|place 0 1|emit 0|emit 0|emit 0|emit 0|emit 0|end 0"),
    "Z past H and a CNOT": (2, "z q[1]; cx q[0],q[1]; z q[0]; h q[0];", 2, "cx q[0],q[1]; h q[0]; z q[1];", (), None),
    "S on a sum and its wires": (2, "s q[0]; s q[1]; cx q[0],q[1]; sdg q[1]; cx q[0],q[1];", 2, "sdg q[0]; sdg q[1]; cx q[0],q[1]; s q[1]; cx q[0],q[1];", (), None),
}  # fmt: skip
# the same without words, and what is said
WRONG = {
    "a T more": (1, "h q[0]; t q[0];", 1, "h q[0]; s q[0];", "target, line 4, column 9, gate 2: phases on one parity come to 2 pi/4 in the target, and in the source to 1 pi/4"),
    "a T less": (1, "h q[0]; t q[0];", 1, "h q[0];", "source, line 4, column 9, gate 2: phases on one parity come to 0 pi/4 in the target, and in the source to 1 pi/4"),
    "an H more": (2, "cx q[0],q[1];", 2, "cx q[0],q[1]; h q[1];", "target, line 4, column 15, gate 2: the source has no H on this sum of path variables"),
    "an H less": (1, "h q[0];", 1, "", "source, line 4, column 1, gate 1: the target has no such H"),
    "an X more": (1, "t q[0];", 1, "t q[0]; x q[0];", "source: no qubit of the target ends with what this wire ends with"),
    "more wires": (2, "t q[0];", 1, "t q[0];", "target: 2 wires of the source don't fit on the target's 1 qubits"),
    "six of seven T mirrored": (3, "ccx q[0],q[1],q[2];", 3, MIRRORED.replace("tdg q[0]", "t q[0]"), "target, line 4, column 23, gate 3: phases on one parity come to 1 pi/4 in the target, and in the source to 7 pi/4"),
    "Z on a sum": (2, "cx q[0],q[1]; z q[1]; cx q[0],q[1];", 2, "z q[0];", "source, line 4, column 15, gate 2: phases on one parity come to 0 pi/4 in the target, and in the source to 4 pi/4"),
    "a spare qubit": (1, "t q[0];", 2, "t q[0]; x q[1];", "target, line 4, column 9, gate 2: X 1 is on a spare qubit, and belongs to no swap that stands in one piece"),
}  # fmt: skip


def text_of(size, body):
    return HEAD + (f"qreg q[{size}];\n" if size else "") + body + "\n"


def program_of(size, statements):
    return text_of(size, "\n".join(f"{name} {','.join(f'q[{it}]' for it in wires)};" for name, wires in statements))


def mirrored(source, is_one):
    """The statements of a program, those of Toffoli gates written out, some of them mirrored."""
    exchanged = {"t": "tdg", "tdg": "t"}
    for name, operands in re.findall(r"(\w+) (q\[[^;]*\]);", re.sub("//.*", "", source)):
        wires = [int(it) for it in re.findall(r"\d+", operands)]
        if name == "ccx":
            is_mirrored = is_one()
            for kind, on in re.findall(r"(\w+) (q\[[^;]*\]);", MIRRORED):
                yield kind if is_mirrored else exchanged.get(kind, kind), tuple(wires[int(it)] for it in re.findall(r"\d+", on))
        elif name != "qreg":
            yield name, tuple(wires)


def lines_of(text):
    return [line for _, line in traces.of_text(text)]


def check_small():
    loader = importlib.machinery.SourceFileLoader("check_small", os.path.join(TOP, "tools/check-small"))
    module = importlib.util.module_from_spec(importlib.util.spec_from_loader(loader.name, loader))
    sys.modules[loader.name] = module
    loader.exec_module(module)
    return module


class Judging(ToolTest):
    def checked(self, source, target):
        """What the checker in Python has made of a trace, and the line at which it stops."""
        check = traces.Check(traces.side("source", source), traces.side("target", target), lines_of(target))
        try:
            while check.power is None:
                check.step()
        except traces.Stop:
            return check, check.done + 1
        return check, None

    def judged(self, source, target):
        """What the checker in Python has made of a trace; `verify` says the same."""
        check, line = self.checked(source, target)
        found = qroute.verify(source, target)
        self.assertEqual((found.phase, found.line), (check.power, line))
        return check


class Certify(Judging):
    def certified(self, source, target, *words):
        files = self.file("s.qasm", source), self.file("t.qasm", target)
        device = self.file("d.toml", ONE_WAY)
        return self.run_tool("certify", *files, *(device if it == "d" else it for it in words))

    def test_examples(self):
        for name, (wires, body, qubits, made, words, lines) in RIGHT.items():
            with self.subTest(name):
                source, target = text_of(wires, body), text_of(qubits, made)
                status, out, err = self.certified(source, target, *words)
                self.assertEqual((status, err, out[: len(target)]), (0, "", target))
                self.assertIsNotNone(self.judged(source, out).power)
                self.assertEqual(self.run_tool("check-trace", self.file("s", source), self.file("t", out))[0], 0)
                if lines is not None:
                    self.assertEqual("|".join(lines_of(out)), lines)

    def test_failures(self):
        for name, (wires, body, qubits, made, says) in WRONG.items():
            with self.subTest(name):
                status, out, err = self.certified(text_of(wires, body), text_of(qubits, made))
                self.assertEqual((status, out, err.split("; tried: ")[0]), (1, "", f"certify: {says}" + "\n" * ("tried" not in err)))

    def test_fault(self):
        with self.assertRaises(qroute.Uncertified) as caught:
            qroute.certify(text_of(2, "t q[0];\ncx q[0],q[1];"), text_of(2, "t q[0];\n cx q[0],q[1]; t q[1];"))
        fault = caught.exception
        self.assertEqual((fault.which, fault.line, fault.column, fault.operation, fault.wire), ("target", 5, 16, 3, "q[1]"))
        self.assertEqual(fault.tried, ["wire i on qubit i (0,1)"])

    def test_words(self):
        source = text_of(2, "t q[0];")
        for words, status, says in (
            (("--initial", "0"), 2, "where wires begin is 2 different qubits below 2, one for each wire of the source"),
            (("--initial", "0,0"), 2, "where wires begin is 2 different qubits below 2, one for each wire of the source"),
            (("--device", self.file("e.toml", "qubits = 0\nedges = []\n")), 4, "e.toml: `qubits` is 0 and not a whole number from 1 to 256"),
        ):
            found, out, err = self.certified(source, source, *words)
            self.assertEqual((found, out, err.endswith(f"{says}\n")), (status, "", True), err)
        self.assertEqual(self.certified(source, text_of(2, "rx(0.1) q[0];"))[0], 3)
        self.assertEqual(self.certified(source, source, "--initial", "a")[0], 2)

    def test_a_trace_that_stands_there_goes(self):
        source = text_of(1, "t q[0];")
        found = qroute.certify(source, source + "//!TRACE 1\n//!end 0\n// said\n")
        self.assertEqual(found, source + "// said\n//!TRACE 1\n//!place 0\n//!emit 0\n//!end 0\n")

    def test_routed_programs(self):
        """Programs of the literature on a device, by a router that knows nothing of this one; and each with a T more."""
        dice = random.Random(7)
        size, edges = coupling.read(os.path.join(TOP, "devices/grid_4x5.toml"))
        for name in ("tof_5", "barenco_tof_4", "qft_cut_8", "gf2_4_mult", "hidden_shift_6"):
            with self.subTest(name):
                with open(os.path.join(TOP, f"examples/literature/{name}.qasm"), encoding="utf-8") as file:
                    source = file.read()
                program = qasm.read(source)
                phases = {1: "t", 2: "s", 3: "u1(3*pi/4)", 4: "z", 5: "u1(5*pi/4)", 6: "sdg", 7: "tdg"}
                listed, _ = gates.expanded(qasm.operations(program))
                statements = [(phases[it[1]] if it[0] == "P" else {"C": "cx"}.get(it[0], it[0].lower()), gates.wires_of(it)) for it in listed]
                made, begins = random_router.routed(statements, size, edges, dice)
                for initial in (begins[: len(program.wires)], None):
                    self.assertIsNotNone(self.judged(source, qroute.certify(source, program_of(size, made), initial)).power)
                made.insert(dice.choice([i for i, (kind, _) in enumerate(made) if kind == "h"]), ("t", (begins[0],)))
                with self.assertRaises(qroute.Uncertified):
                    qroute.certify(source, program_of(size, made), begins[: len(program.wires)])


class Functions(Judging):
    """Phases that are one function."""

    def test_examples(self):
        for name, (wires, body, qubits, made, words, lines) in FUNCTIONS.items():
            with self.subTest(name):
                source, target = text_of(wires, body), text_of(qubits, made)
                files = self.file("s.qasm", source), self.file("t.qasm", target)
                status, out, err = self.run_tool("certify", *files, *words)
                self.assertEqual((status, err, out[: len(target)]), (0, "", target))
                self.assertIsNotNone(self.judged(source, out).power)
                self.assertIn("phases", [it.split(" ")[0] for it in lines_of(out)])
                if lines is not None:
                    self.assertEqual("|".join(lines_of(out)), lines)

    def test_routed_programs(self):
        """Programs of Toffoli gates, of which all or some have each T and its inverse exchanged, routed at random; and each with a T more."""
        dice = random.Random(11)
        size, edges = coupling.read(os.path.join(TOP, "devices/grid_4x5.toml"))
        for name in ("tof_5", "barenco_tof_4", "gf2_4_mult", "vbe_adder_3"):
            with open(os.path.join(TOP, f"examples/literature/{name}.qasm"), encoding="utf-8") as file:
                source = file.read()
            for chance in (1, 0.5):
                with self.subTest(name=name, chance=chance):
                    made, begins = random_router.routed(list(mirrored(source, lambda: dice.random() < chance)), size, edges, dice)
                    begins = begins[: len(qasm.read(source).wires)]
                    found = qroute.certify(source, program_of(size, made), begins)
                    self.assertIsNotNone(self.judged(source, found).power)
                    self.assertTrue(any(it.startswith("phases ") for it in lines_of(found)))
                    made.insert(dice.choice([i for i, (kind, _) in enumerate(made) if kind == "h"]), ("t", (begins[0],)))
                    with self.assertRaises(qroute.Uncertified):
                        qroute.certify(source, program_of(size, made), begins)

    def test_nothing_for_all_values(self):
        dice = random.Random(12)
        count = [0, 0]
        for _ in range(400):
            totals = collections.Counter()
            for _ in range(dice.randint(1, 4)):
                k, length = dice.choice([(4, 2), (2, 3), (1, 4), (6, 3)] * 3 + [(4, 1), (2, 2), (1, 3)])
                over = [dice.randrange(1, 64) for _ in range(length)]
                for chosen in itertools.product((0, 1), repeat=length):
                    totals[functools.reduce(operator.xor, (on for on, it in zip(over, chosen) if it), 0)] += k * (-1) ** sum(chosen)
            totals = {on: k for on, k in totals.items() if on and k % 8}
            is_nothing = all(sum(k for on, k in totals.items() if (on & ones).bit_count() % 2) % 8 == 0 for ones in range(64))
            self.assertEqual(rewriting.vanish(totals), is_nothing)
            count[is_nothing] += 1
        self.assertGreater(min(count), 50)


class Drawn:
    """A program and what another compiler may make of it: gates that commute exchanged, others written otherwise, routed with swaps left out."""

    SINGLES = "h h x t s z sdg tdg".split()

    def __init__(self, seed):
        self.dice = random.Random(seed)
        self.wires = self.dice.randint(1, 6)
        self.qubits = self.wires + (self.dice.randint(0, 2) if self.wires > 1 else 0)
        self.source = [self.one() for _ in range(self.dice.randint(1, 30))]
        self.target = self.source[:]
        for _ in range(6):
            self.change()
        self.route()

    def one(self):
        kind = self.dice.choice(self.SINGLES + ["cx", "cx", "cx", "cz", "swap"] * (self.wires > 1))
        return kind, tuple(self.dice.sample(range(self.wires), 1 if kind in self.SINGLES else 2))

    def change(self):
        target, i = self.target, self.dice.randrange(len(self.target))
        (kind, on), chance = target[i], self.dice.random()
        if chance < 0.2:
            more = self.one()
            target[i:i] = [more, ({"t": "tdg", "tdg": "t", "s": "sdg", "sdg": "s"}.get(more[0], more[0]), more[1])]
        elif chance < 0.5 and kind in ("z", "x"):
            target[i : i + 1] = [("h", on), ("x" if kind == "z" else "z", on), ("h", on)]
        elif chance < 0.5 and kind == "cz":
            target[i] = (kind, on[::-1])
        elif chance < 0.3 and kind == "cx":
            target[i : i + 1] = [("h", on[:1]), ("h", on[1:]), (kind, on[::-1]), ("h", on[:1]), ("h", on[1:])]
        elif i + 1 < len(target) and self.commute(target[i], target[i + 1]):
            target[i], target[i + 1] = target[i + 1], target[i]

    @staticmethod
    def commute(one, other):
        def sides(statement):
            """The wires on which it is diagonal, on which it is a NOT, and the others."""
            kind, on = statement
            rows = {"cx": (on[:1], on[1:], ()), "cz": (on, (), ()), "swap": ((), (), on), "h": ((), (), on), "x": ((), on, ())}
            return [set(it) for it in rows.get(kind, (on, (), ()))]

        return not any(a & b for i, a in enumerate(sides(one)) for j, b in enumerate(sides(other)) if i != j or i == 2)

    def route(self):
        place = self.dice.sample(range(self.qubits), self.qubits)
        self.begins, made = place[: self.wires], []
        for kind, on in self.target:
            if self.qubits > 1 and self.dice.random() < 0.15:
                u, v = self.dice.sample(range(self.qubits), 2)
                made.append(("swap", (u, v)))
                place = [v if it == u else u if it == v else it for it in place]
            if kind == "swap" and self.dice.random() < 0.5:
                place[on[0]], place[on[1]] = place[on[1]], place[on[0]]
            else:
                made.append((kind, tuple(place[it] for it in on)))
        self.target = made

    def texts(self):
        return program_of(self.wires, self.source), program_of(self.qubits, self.target)


class DrawnPrograms(Judging):
    def test_drawn(self):
        """Most are certified; what is, is a yes, and the same by its amplitudes."""
        check, certified = check_small(), 0
        for seed in range(200):
            drawn = Drawn(seed)
            source, target = drawn.texts()
            try:
                found = qroute.certify(source, target, drawn.begins if seed % 2 else None)
            except qroute.Uncertified:
                continue
            certified += 1
            judged = self.judged(source, found)
            self.assertIsNotNone(judged.power, seed)
            sides = qasm.written_out("", source), qasm.written_out("", target)
            begins = next([int(it) for it in line.split()[1:]] for line in lines_of(found) if line.startswith("place"))
            part = check.amplitudes.Part(sides[0][1], sides[1][1], begins, judged.now, judged.power)
            self.assertEqual(check.unitaries(sides[0][0], sides[1][0], [part], {})[0], [], seed)
        self.assertGreater(certified, 160)

    def test_altered(self):
        """One phase of T more, which makes another program: none is certified."""
        for seed in range(60):
            drawn = Drawn(seed)
            source, _ = drawn.texts()
            drawn.target.insert(drawn.dice.randint(0, len(drawn.target)), ("t", (drawn.begins[0],)))
            _, target = drawn.texts()
            try:
                found = qroute.certify(source, target, drawn.begins)
            except qroute.Uncertified:
                continue
            self.assertIsNone(self.judged(source, found).power, seed)
