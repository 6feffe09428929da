import dataclasses
import glob
import json
import math
import os
import random
import re
import sys

from tool import TOP, ToolTest

sys.path.insert(0, os.path.join(TOP, "python"))
import drawn_programs
import planted
import qasm
import qroute
import simulation

try:
    import chain
    import stabilisers
except ModuleNotFoundError:
    chain = stabilisers = None  # numpy isn't installed

BUILT = os.path.join(TOP, "out/qroute")
DEVICES = ["ring_8", "ibm_qx5", "ibm_tokyo", "grid_8x8_directed", "ibm_eagle_127"]
HEAD = 'OPENQASM 2.0;\ninclude "qelib1.inc";\n'
# with QROUTE_TEST_ALL each drawn program is routed on all devices and not on one by turns
ALL = bool(os.environ.get("QROUTE_TEST_ALL"))


class AnyGates(ToolTest):
    def setUp(self):
        super().setUp()
        if not os.access(os.environ.get("QROUTE", BUILT), os.X_OK):
            self.skipTest("there is no built program")

    def edges(self, name):
        return {tuple(it[:2]) for it in qroute.Device.named(name).edges()}

    def apart(self, statements, size, found, seed=0):
        """How far what was written is from a source of so many wires, between the reported placements."""
        dice = simulation.drawn(seed)
        state = simulation.drawn_state(size, dice, 16 if size > 6 else None)
        wanted = simulation.run(statements, state)
        target = list(simulation.statements(qasm.read(found.text, qasm.MOST_ITEMS, whole=True)))
        ends = simulation.run(target, simulation.placed(state, found.initial, size))
        return simulation.difference(wanted, simulation.taken_back(ends, found.final, size), size, dice)

    def on_edges(self, text, edges):
        """Whether each gate on two qubits of a text is a CNOT along an edge."""
        for step in qasm.read(text, qasm.MOST_ITEMS, whole=True).steps:
            if step.kind == "gate" and len(step.wires) > 1:
                self.assertEqual(step.name, "cx")
                self.assertIn(tuple(step.wires), edges)


class Drawn(AnyGates):
    """Drawn programs against their simulation, which reads no text of the source."""

    def compare(self, seeds):
        edges = {it: self.edges(it) for it in DEVICES}
        for seed in seeds:
            drawn = drawn_programs.Drawn(seed)
            for i, name in enumerate(DEVICES):
                if not ALL and i != seed % len(DEVICES):
                    continue
                device = qroute.Device.named(name)
                begins = random.Random(seed).sample(range(device.qubits()), drawn.size) if seed % 7 == 1 and drawn.size else None
                asked = {"keep_barriers": seed % 3 == 0, "clean": seed % 2 == 0, "trivial": seed % 7 == 0, "initial": begins}
                found = qroute.route(drawn.text, device, any_gates=True, **asked)
                if begins is not None:
                    self.assertEqual(list(found.initial[: drawn.size]), begins)
                self.on_edges(found.text, edges[name])
                self.assertLess(self.apart(drawn.statements, drawn.size, found, seed), 1e-7, f"seed {seed} on {name}:\n{drawn.text}")

    def test_routed_from_0(self):
        self.compare(range(0, 100))

    def test_routed_from_100(self):
        self.compare(range(100, 200))

    def test_routed_from_200(self):
        self.compare(range(200, 300))

    def test_routed_from_300(self):
        self.compare(range(300, 400))

    def test_routed_from_400(self):
        self.compare(range(400, 500))

    def test_on_their_own_wires(self):
        for seed in range(500, 560):
            drawn = drawn_programs.Drawn(seed, 5)
            found = qroute.opt(drawn.text, any_gates=True, keep_barriers=seed % 2 == 0)
            self.assertEqual(found.initial, tuple(range(drawn.size)))
            self.assertLess(self.apart(drawn.statements, drawn.size, found, seed), 1e-7, f"seed {seed}:\n{drawn.text}")

    def test_what_is_wrong_is_seen(self):
        text = HEAD + "qreg q[3]; creg c[1]; h q[0]; rz(0.3) q[0]; cx q[0],q[2]; rx(0.2) q[2]; measure q[0] -> c[0]; if(c==1) x q[1]; ry(0.4) q[1];"
        found = qroute.route(text, qroute.Device.named("line_5"), any_gates=True)
        source = list(simulation.statements(qasm.read(text, whole=True)))
        self.assertLess(self.apart(source, 3, found), 1e-9)
        on = found.text.split("rx(0.2) q[")[1][0]
        other = str((int(on) + 1) % 3)
        for old, new in (
            (f"rx(0.2) q[{on}]", f"rx(0.2) q[{other}]"),
            (f"rx(0.2) q[{on}]", f"rx(0.2001) q[{on}]"),
            ("c==1", "c==0"),
            ("ry(0.4)", "ry(-0.4)"),
        ):
            self.assertIn(old, found.text)
            wrong = dataclasses.replace(found, text=found.text.replace(old, new))
            self.assertGreater(self.apart(source, 3, wrong), 1e-6, (old, new))
        wrong = dataclasses.replace(found, final=(found.final[1], found.final[0], *found.final[2:]))
        self.assertGreater(self.apart(source, 3, wrong), 1e-6)


class Examples(AnyGates):
    def test_exact_programs_come_out_as_without(self):
        """Nothing is put back in a program that `qroute` takes: so what is written is what it writes."""
        for path in sorted(glob.glob(f"{TOP}/examples/**/*.qasm", recursive=True)):
            with open(path, encoding="utf-8") as file:
                text = file.read()
            device = qroute.Device.named("ibm_eagle_127")
            found = qroute.route(text, device, any_gates=True, tries=2)
            plain = qroute.route(text, device, tries=2)
            self.assertEqual((found.any_gates.put_back, found.any_gates.exact, found.any_gates.declared), ({}, (), ()), path)
            self.assertEqual((found.text, found.report), (plain.text, plain.report), path)

    def programs(self, large):
        """The name, text and program of each example that is small enough to be simulated from all terms, or of each other one."""
        for path in sorted(glob.glob(f"{TOP}/examples/**/*.qasm", recursive=True)):
            text = qasm.text_in(path)
            program = qasm.read(text)
            if large == (len(program.wires) > 8 or len(program.steps) > 150):
                yield os.path.basename(path).removesuffix(".qasm"), text, program

    def test_small_ones_are_simulated(self):
        count = 0
        for path, text, program in self.programs(large=False):
            source = list(simulation.statements(program))
            for name in DEVICES:
                if len(program.wires) <= qroute.Device.named(name).qubits():
                    found = qroute.route(text, qroute.Device.named(name), any_gates=True, keep_barriers=True)
                    self.assertLess(self.apart(source, len(program.wires), found), 1e-7, f"{path} on {name}")
                    count += 1
        self.assertGreater(count, 50)

    def far(self, name, program, target, initial, final):
        """How far statements are from a large program: 0 or 1 for every input if it is of Clifford gates, else from a drawn one.

        The multiplications, which entangle most, may be compared from inputs of few terms."""
        source, size, bits = list(simulation.statements(program)), len(program.wires), sum(it for _, it in program.registers)
        if stabilisers.are_clifford(source, size, bits):
            return 0 if stabilisers.same(source, target, size, initial, final, bits) else 1
        return chain.apart(source, target, size, initial, final, size, may_be_few=name.startswith("gf2_"))

    def compare_large(self, name, text, program, on):
        """Compares an example with what becomes of it on a device."""
        found = qroute.route(text, qroute.Device.named(on), any_gates=True)
        made = qasm.read(found.text, qasm.MOST_ITEMS)
        self.assertEqual(made.registers, program.registers)
        self.assertLess(self.far(name, program, list(simulation.statements(made)), found.initial, found.final), 1e-7, f"{name} on {on}")

    def test_some_large_ones_are_compared(self):
        """The others take longer, and are compared with QROUTE_TEST_ALL."""
        if chain is None:
            self.skipTest("numpy isn't installed")
        wanted = {"qft_10": "ibm_tokyo", "ising_10": "ibm_qx5", "qft_cut_64": "ibm_eagle_127", "surface_code_5": "grid_8x8_directed"}
        for name, text, program in self.programs(large=True):
            if name in wanted:
                self.compare_large(name, text, program, wanted.pop(name))
        self.assertEqual(wanted, {})

    def test_what_is_wrong_is_seen_in_large_ones(self):
        """On devices of as many qubits as wires, so that each gate counts. The second one takes longer, so it is for QROUTE_TEST_ALL."""
        if chain is None:
            self.skipTest("numpy isn't installed")
        square = [(i, i + by) for i in range(49) for by in (1, 7) if i + by < 49 and (by == 7 or i % 7 < 6)]
        for name, device, nudge, many, count in (
            ("surface_code_5", qroute.Device.of(square, both=True), simulation.SX, 3, 24),
            ("qft_cut_64", qroute.Device.named("grid_8x8_directed"), simulation.phase(1e-5), 1, 5),
        )[: 2 if ALL else 1]:
            text = qasm.text_in(f"{TOP}/examples/literature/{name}.qasm")
            program = qasm.read(text)
            found = qroute.route(text, device, any_gates=True)
            target = list(simulation.statements(qasm.read(found.text)))
            self.assertLess(self.far(name, program, target, found.initial, found.final), 1e-7)
            for kind, wrong, final in planted.faults(target, list(found.final), simulation.drawn(1), nudge, many):
                self.assertGreater(self.far(name, program, wrong, found.initial, final), 1e-7, (name, kind))
                count -= 1
            self.assertEqual(count, 0, name)

    def compare_all_large(self, on, count):
        """Compares each large example that a device holds; there have to be so many."""
        if chain is None or not ALL:
            self.skipTest("numpy isn't installed" if ALL else "it takes minutes, so it runs with QROUTE_TEST_ALL alone")
        for name, text, program in self.programs(large=True):
            if len(program.wires) <= qroute.Device.named(on).qubits():
                self.compare_large(name, text, program, on)
                count -= 1
        self.assertEqual(count, 0)

    def test_large_ones_on_ring_8(self):
        self.compare_all_large("ring_8", 1)

    def test_large_ones_on_ibm_qx5(self):
        self.compare_all_large("ibm_qx5", 22)

    def test_large_ones_on_ibm_tokyo(self):
        self.compare_all_large("ibm_tokyo", 33)

    def test_large_ones_on_grid_8x8_directed(self):
        self.compare_all_large("grid_8x8_directed", 47)

    def test_large_ones_on_ibm_eagle_127(self):
        self.compare_all_large("ibm_eagle_127", 47)


class Styles(AnyGates):
    """Files in the forms that Qiskit, pytket and Cirq write."""

    def texts(self):
        for path in sorted(glob.glob(f"{TOP}/tools/tests/styles/*.qasm")):
            with open(path, encoding="utf-8") as file:
                yield os.path.basename(path).removesuffix(".qasm"), file.read()

    def test_read_routed_and_simulated(self):
        names = []
        for i, (name, text) in enumerate(self.texts()):
            names.append(name)
            self.assertRegex(text, "^// In the form in which .*; written by hand from that form, and not its output.\n")
            program = qasm.read(text, whole=True, known=qroute.whole.declarations.TABLE)
            # a line for each statement, which no gate's body has
            bare = re.sub(r"gate [^}]*}|//.*", "", text)
            lines = [it for it in bare.splitlines() if it.strip() and not re.match("OPENQASM|include|[qc]reg", it)]
            self.assertEqual(len(program.steps), len(lines), name)
            found = qroute.route(text, qroute.Device.named(DEVICES[i % len(DEVICES)]), any_gates=True, keep_barriers=i % 2 == 0)
            source = list(simulation.statements(program))
            self.assertLess(self.apart(source, len(program.wires), found), 1e-7, name)
        self.assertEqual([sum(it.startswith(style) for it in names) for style in ("qiskit", "tket", "cirq")], [20, 15, 15])

    def test_what_becomes_exact(self):
        texts = dict(self.texts())
        for name, put_back, exact in (
            ("tket_exact_decimals", {}, 0),
            ("tket_roots_of_x", {}, 0),
            ("qiskit_grover_ccz", {}, 0),
            ("qiskit_transpiled", {"rz": 2}, 1),
            ("qiskit_qft_4", {"u1": 9}, 0),
            ("cirq_powers", {"rz": 1}, 0),
            ("tket_measured_twice", {"ry": 2, "measure": 1}, 0),
        ):
            told = qroute.opt(texts[name], any_gates=True).any_gates
            self.assertEqual((told.put_back, len(told.exact)), (put_back, exact), name)


class Results(AnyGates):
    def test_what_is_told(self):
        text = HEAD + (
            "opaque wait(t) q;\nqreg q[2]; qreg r[1];\ncreg c[2];\nrz(0.785398163397448) q[0];\nrz(0.1) q[0];\n"
            "barrier q; wait(100) r[0];\nreset r;\nbarrier q,r;\nmeasure q[0] -> c[1];\nif(c==2) x r[0];\necr q[0],q[1];\nmeasure r[0] -> c[0];\n"
        )
        found = qroute.route(text, qroute.Device.named("line_5"), any_gates=True, keep_barriers=True)
        told = found.any_gates
        self.assertEqual(told.put_back, {"rz": 1, "wait": 1, "reset": 1, "measure": 1, "x": 1})
        self.assertEqual([(it.line, it.column, it.was, it.now) for it in told.exact], [(6, 1, "0.785398163397448", "pi/4")])
        self.assertLess(told.exact[0].distance, 1e-14)
        self.assertEqual(told.declared, ("ecr",))
        self.assertEqual((found.barriers, len(found.between), len(found.parts)), (2, 2, 3))
        self.assertEqual(sum(found.parts) % 8, found.phase)
        self.assertIn("opaque wait(t) q;", found.text)
        self.assertIn("Proved", told.proved)
        barred = [step.wires for step in qasm.read(found.text, whole=True).steps if step.kind == "barrier"]
        self.assertEqual(barred, [[found.between[0][it] for it in (0, 1)], [found.between[1][it] for it in (0, 1, 2)]])
        # barriers that aren't kept are counted, and nothing is told of places between
        found = qroute.route(text, qroute.Device.named("line_5"), any_gates=True)
        self.assertEqual((found.barriers, found.between, found.parts, found.report["format"]), (2, None, None, 1))
        self.assertNotIn("barrier", found.text)

    def test_within_what_angles_are_near(self):
        """From pi/8 on each angle would be; a wrong one is refused before anything is read or written."""
        text = HEAD + "qreg q[1];\nrx(0.3) q[0];\n"
        self.assertEqual(qroute.opt(text, any_gates=True, within=0.39).any_gates.put_back, {})
        for within in (math.nan, math.inf, -1e-9, math.pi / 8):
            with self.assertRaisesRegex(ValueError, "has to be at least 0 and less than pi/8"):
                qroute.opt(text, any_gates=True, within=within)
            with self.assertRaisesRegex(ValueError, "has to be at least 0 and less than pi/8"):
                qroute.route(text, qroute.Device.named("line_5"), any_gates=True, within=within)
            for words in (["any", "opt"], ["exact-angles"]):
                status, out, err = self.run_tool(*words, f"--within={within}", given=text)
                self.assertEqual((status, out), (2, ""))
                self.assertIn(f"{words[0]}: error: within is {within}, and has to be", err)

    def test_near_angles_are_left_if_asked(self):
        text = HEAD + "qreg q[1];\nrx(0.7853981633) q[0];\nrx(0.785398) q[0];\n"
        self.assertEqual(qroute.opt(text, any_gates=True).any_gates.put_back, {"rx": 1})
        self.assertEqual(qroute.opt(text, any_gates=True, within=0).any_gates.put_back, {"rx": 2})
        found = qroute.opt(text, any_gates=True, within=1e-5)
        self.assertEqual((found.any_gates.put_back, len(found.any_gates.exact)), ({}, 2))

    def test_near_angles_of_own_gates(self):
        """A program's own gate may multiply what it is given, so it is written out first: then the angles of the tables' gates are near."""
        own = "gate g(t) a { u1(1000000000*t) a; } gate f(s) a { g(s/10) a; h a; g(0.0000000001) a; } gate u(t) a { u1(t*1000000000) a; }\n"
        for applied, put_back, exact in (
            ("g(0.0000000001) q[0];", {"u1": 1}, []),
            ("f(0.000000001) q[0];", {"u1": 2}, []),
            ("u(0.0000000001) q[0];", {"u1": 1}, []),
            ("g(0.00000000078539816339744831) q[0];", {}, [("0.7853981633974483", "pi/4")]),
            ("g(pi/4000000000) q[0];", {}, []),
            ("rzz(0.7853981633) q[0],q[1];", {}, [("0.7853981633", "pi/4")]),
        ):
            text = f"{HEAD}{own}qreg q[2]; h q[0]; {applied} h q[0];"
            found = qroute.opt(text, any_gates=True)
            told = found.any_gates
            self.assertEqual((told.put_back, [(it.was, it.now) for it in told.exact]), (put_back, exact), applied)
            source = list(simulation.statements(qasm.read(text, whole=True, known=qroute.whole.declarations.TABLE)))
            self.assertLess(self.apart(source, 2, found), 1e-9, applied)

    def test_near_angles_are_told_once_a_statement(self):
        text = HEAD + "qreg q[3]; rz(0.7853981633) q; rz(0.7853981633) q[0];"
        told = qroute.opt(text, any_gates=True).any_gates.exact
        self.assertEqual([(it.line, it.column, it.was) for it in told], [(3, 12, "0.7853981633"), (3, 32, "0.7853981633")])
        found = qroute.opt(text, any_gates=True).any_gates.proved
        self.assertIn("with angles near a multiple of pi/4 made exact as `exact` tells", found)

    def test_large_conditions(self):
        """A condition may compare with a number of any size, and it is put back with the same one."""
        for value in (2**64 - 1, 2**70, 10**308):
            found = qroute.opt(HEAD + f"qreg q[1]; creg c[70]; if(c=={value}) h q[0];", any_gates=True)
            self.assertIn(f"if(c=={value}) h q[0];", found.text)
        with self.assertRaisesRegex(qroute.Unreadable, "line 3, column 32: a number of more than 4,300 digits"):
            qroute.opt(HEAD + f"qreg q[1]; creg c[70];   if(c=={'9' * 4301}) h q[0];", any_gates=True)

    def test_a_byte_order_mark_is_skipped(self):
        found = qroute.opt("\ufeff" + HEAD + "qreg q[1]; rx(0.1) q[0];", any_gates=True)
        self.assertEqual(found.text, HEAD + "qreg q[1];\nrx(0.1) q[0];\n")
        with self.assertRaisesRegex(qasm.Fault, "begins with a byte order mark"):
            qasm.read(qasm.text_of(b"\xef\xbb\xbf" + HEAD.encode()))

    def test_cnots_under_conditions_count(self):
        """A CNOT under an `if` is written with two, unless the CNOTs of its gate undo each other."""
        for applied, count in (("cx q[0],q[1]", 2), ("cz q[0],q[1]", 2), ("crz(0.1) q[0],q[1]", 2), ("swap q[0],q[1]", 6), ("t q[0]", 0)):
            found = qroute.opt(HEAD + f"qreg q[2]; creg c[1]; if(c==1) {applied};", any_gates=True)
            self.assertEqual((found.cx_before, found.t_before), (count, 0), applied)

    def test_gates_are_put_back_as_they_are_spelled(self):
        text = HEAD + "qreg q[1]; u3( 0.1 , sin( pi/3 ) /*".replace("/*", ",") + " -1.5e-3 ) q[0];\nU(1,2,3) q[0]; p(2e-5) q[0];\n"
        found = qroute.opt(text, any_gates=True)
        self.assertEqual(found.text.splitlines()[3:], ["u3(0.1,sin(pi/3),-1.5e-3) q[0];", "U(1,2,3) q[0];", "p(2.0e-5) q[0];"])

    def test_few_parts(self):
        """Gates that are put back side by side share a barrier, and one that follows by a CNOT needs another."""
        text = HEAD + "qreg q[4]; rz(0.1) q[0]; h q[1]; rz(0.2) q[1]; rx(0.1) q[0]; cx q[2],q[3]; rz(0.3) q[3]; cx q[0],q[1]; rz(0.4) q[1];"
        self.assertEqual(qroute.opt(text, any_gates=True).any_gates.barriers, 2)

    def test_faults(self):
        for text, line, column, said in (
            ("qreg q[2];\n  rx(0.1 q[0];\n", 4, 10, "'q' where ) is wanted"),
            ("qreg q[2];\nh q[2];\n", 4, 7, "q has no index 2"),
            ("qreg q[2];\nwhat q[0];\n", 4, 1, "no gate what"),
            ("qreg q[2]; creg c[1];\nif(q==1) h q[0];\n", 4, 4, "no classical register q"),
            ("opaque two a,b;\nqreg q[2];\ntwo q[0],q[1];\n", 5, 1, "the opaque gate two is on 2 wires"),
            ("qreg q[1];\nqreg q[2];\n", 4, 6, "the name q is taken"),
            ("gate g a { rx(ln(0-1)) a; }\nqreg q[1];\ng q[0];\n", 5, 1, "an angle that has no value"),
            ("gate g(t) a { rx(1/t) a; }\nqreg q[1];\ng(0) q[0];\n", 5, 1, "an angle that has no value"),
            ("gate g a { rx(pei) a; }\nqreg q[1];\ng q[0];\n", 3, 15, "pei is no number here (bind the parameter first)"),
            ("qreg q[1];\nrx(2*theta) q[0];\n", 4, 6, "theta is no number here (bind the parameter first)"),
            ("qreg q[1];\nu2(1, 1/0) q[0];\n", 4, 7, "an angle that has no value"),
            ("qreg q[1];\nrx(1e400) q[0];\n", 4, 4, "an angle that has no value"),
            ("gate g(pi) a { rx(pi) a; }\n", 3, 8, "the name pi is a word of the language"),
            ("gate g(t,t) a { rx(t) a; }\n", 3, 10, "the name t is taken"),
            ("gate g(t) a,t { rx(t) a; }\n", 3, 13, "the name t is taken"),
            ("opaque sin a;\n", 3, 8, "the name sin is a word of the language"),
            ("creg if[2];\n", 3, 6, "the name if is a word of the language"),
            ("qreg r[1]; p(0.3) r[0]; opaque p(t) a;\np(0.3) r[0];\n", 4, 1, "the opaque gate p has the name of another gate"),
            ("qreg q[1]; // é\nrx(0.1) q[0]; é\n", 4, 15, "no token begins with 'Ã'"),
        ):
            with self.assertRaises(qroute.Unreadable) as caught:
                qroute.opt(HEAD + text, any_gates=True)
            fault = caught.exception
            self.assertEqual((fault.line, fault.column, str(fault).split(": ", 1)[1]), (line, column, said), text)
        for more in ({"trace": True}, {"trace": True, "clean": True}):
            with self.assertRaises(ValueError):
                qroute.route(HEAD, qroute.Device.named("line_5"), any_gates=True, **more)
        with self.assertRaises(ValueError):
            qroute.opt(HEAD, any_gates=True, spares=1)

    def test_the_tables_are_always_included(self):
        with self.assertRaisesRegex(qroute.Unreadable, "line 1, column 20: the name h is taken: the tables are always included"):
            qroute.opt("OPENQASM 2.0; creg h[2];", any_gates=True)

    def test_opaque_gates_with_names_of_the_tables(self):
        """What is written includes the tables, so an opaque `h` would be two gates there."""
        with self.assertRaisesRegex(qroute.Unreadable, "line 2, column 1: the opaque gate h has the name of another gate"):
            qroute.opt("OPENQASM 2.0; opaque h a; qreg r[1];\nh r[0];", any_gates=True)
        found = qroute.opt(HEAD + "opaque sx a; qreg r[1]; sx r[0];", any_gates=True)
        self.assertEqual(found.text, HEAD + "opaque sx a;\nqreg q[1];\nsx q[0];\n")

    def test_opaque_gates_with_the_name_of_the_register(self):
        text = HEAD + "opaque q a; opaque q_(t,l) a; qreg r[1]; creg q__[1]; q r[0]; h r[0]; q_(1,2) r[0]; measure r[0] -> q__[0];"
        found = qroute.opt(text, any_gates=True)
        lines = "opaque q a;|opaque q_(t,l) a;|qreg q___[1];|creg q__[1];|q q___[0];|h q___[0];|q_(1,2) q___[0];|measure q___[0] -> q__[0];|"
        self.assertEqual(found.text, HEAD + lines.replace("|", "\n"))

    def test_declarations_with_comments(self):
        """A declaration is handed on or put back on one line: a comment in it would hide what comes after."""
        text = HEAD + "gate one(l) a // x;\n { // y\n u1(l) a; h a; } opaque two // z;\n a;\nqreg q[1]; one(pi) q[0]; two q[0];"
        found = qroute.opt(text, any_gates=True)
        self.assertEqual(found.text, HEAD + "opaque two a;\nqreg q[1];\nz q[0];\nh q[0];\ntwo q[0];\n")

    def test_declarations_with_capital_names(self):
        found = qroute.opt(HEAD + "gate one(T) Q { u1(T) Q; } qreg q[1]; one(pi) q[0];", any_gates=True)
        self.assertEqual(found.text, HEAD + "qreg q[1];\nz q[0];\n")

    def test_refusals_are_placed_in_the_source(self):
        text = HEAD + "qreg q[2];\ncreg c[1];\nrx(0.1) q[0];\n\n  h q[0];\n" + "gate g a,b { cx a,b; cx b,a; }\n" * 0
        with self.assertRaises(qroute.DeviceRefused):
            qroute.route(text, qroute.Device.of([], 1), any_gates=True)
        declared = "gate a0 x,y { cx x,y; cx y,x; }\n"
        for i in range(1, 16):
            declared += f"gate a{i} x,y {{ a{i - 1} x,y; a{i - 1} x,y; }}\n"
        many = HEAD + declared + "qreg q[2];\nrx(0.1) q[0];\na14 q[0],q[1];\n\n  a14 q[1],q[0]; h q[0];\n"
        with self.assertRaises(qroute.QrouteError) as caught:
            qroute.opt(many, any_gates=True)
        line = many[: many.index("  a14")].count("\n") + 1
        self.assertIn(f"line {line}, ", str(caught.exception))

    def test_tries(self):
        """20 are made unless it is told how many, or where the wires begin. The second one looks beyond the gate that is put back."""
        text = HEAD + "qreg q[4]; cx q[2],q[3]; cx q[0],q[2]; rz(0.1) q[2]; cx q[1],q[2];"
        device = qroute.Device.of([(0, 1), (1, 2), (2, 3)], both=True)
        for asked, told, swaps in (({"tries": 1}, 1, 2), ({"tries": 2}, 2, 1), ({"trivial": True}, None, 2), ({"initial": [0, 1, 2, 3]}, None, 2)):
            found = qroute.route(text, device, any_gates=True, **asked)
            self.assertEqual((found.any_gates.tries, found.swaps), (told, swaps), asked)
        found = qroute.route(text, device, any_gates=True)
        self.assertEqual((found.any_gates.tries, found.text), (20, qroute.route(text, device, any_gates=True, tries=20).text))
        self.assertLessEqual(found.swaps, 1)

    def test_success_on_a_device_with_costs(self):
        device = qroute.Device.of([(0, 1, 1000), (1, 2, 500)], both=True)
        found = qroute.route(HEAD + "qreg q[2]; h q[0]; cx q[0],q[1]; t q[0]; rz(0.1) q[1];", device, True, any_gates=True)
        self.assertEqual((found.cost, found.metrics.cx), (1000, 1))
        self.assertAlmostEqual(found.metrics.success, math.exp(-0.01), 12)


class Tool(AnyGates):
    def test_as_the_module_does(self):
        text = HEAD + "qreg q[3];\ncreg c[1];\nrzz(0.3) q[0],q[2];\nrx(1.5707963267948966) q[1];\nreset q[0];\nmeasure q[2] -> c[0];\n"
        device = os.path.join(TOP, "devices/line_5.toml")
        status, out, err = self.run_tool("any", "route", "--device", device, given=text)
        found = qroute.route(text, qroute.Device.named("line_5"), any_gates=True)
        self.assertEqual((status, out), (0, found.text))
        *lines, report = err.splitlines()
        self.assertEqual(json.loads(report), found.report)
        self.assertIn("any: 6:1: 1.5707963267948966 is now pi/2, 0.0e+00 apart", lines)
        self.assertIn("any: declared: rzz", lines)
        self.assertIn("any: put back: 1 reset, 1 u1", lines)
        status, out, _ = self.run_tool("any", "opt", "--keep-barriers", given=text)
        self.assertEqual((status, out), (0, qroute.opt(text, any_gates=True, keep_barriers=True).text))
        status, out, _ = self.run_tool("any", "route", "--device", device, "--tries", "3", given=text)
        self.assertEqual((status, out), (0, qroute.route(text, qroute.Device.named("line_5"), any_gates=True, tries=3).text))

    def test_faults(self):
        path = os.path.join(TOP, "devices/line_5.toml")
        says = "any: line 3, column 1: no gate what\n"
        self.assertEqual(self.run_tool("any", "opt", given=HEAD + "what q;"), (3, "", says))
        status, out, err = self.run_tool("any", "route", "--device", path, given=HEAD + "qreg q[6];\nrx(1) q;\n")
        self.assertEqual((status, out, err), (4, "", "any: TooFewQubits: the device has 5 qubits, and the program 6\n"))
        status, out, err = self.run_tool("any", "route", "--device", self.room + "/none", given=HEAD)
        self.assertEqual((status, out, err), (2, "", f"any: {self.room}/none: No such file or directory\n"))
        none = self.file("none.toml", b"qubits = 2 # \xff\n")
        status, out, err = self.run_tool("any", "route", "--device", none, given=HEAD)
        self.assertEqual((status, out, err), (4, "", f"any: {none}: DeviceText: the device file isn't TOML in UTF-8\n"))
        for words in (["opt"], ["route", "--device", path]):
            status, out, err = self.run_tool("any", *words, given=HEAD, env=os.environ | {"QROUTE": "/bin/true"})
            self.assertEqual((status, out), (2, ""))
            self.assertEqual(err, "any: /bin/true is no `qroute`, or another version of it: its report has no between\n")
        for words in (
            *(["opt", *it] for it in (["--tries", "2"], ["--clean"], ["--trivial"], ["--initial", "0"])),
            *(["route", "--device", path, *it] for it in (["--tries", "0"], ["--tries", "257"], ["--tries=-1"], ["--tries", "2.0"])),
            *(["route", "--device", path, "--tries", "2", *it] for it in (["--trivial"], ["--initial", "0"])),
        ):
            status, out, _ = self.run_tool("any", *words, given=HEAD)
            self.assertEqual((status, out), (2, ""), words)
