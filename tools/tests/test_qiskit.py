import cmath
import importlib
import importlib.util
import math
import os
import subprocess
import sys
import tomllib
import unittest

from tool import TOP

sys.path.insert(0, os.path.join(TOP, "python"))
# The same tests run with Qiskit itself if it is installed; a stand-in of the names that are used is here.
FOUND = importlib.util.find_spec("qiskit")
IS_REAL = FOUND is not None and "stand_in" not in (FOUND.origin or "")
if FOUND is None:
    sys.path.append(os.path.join(TOP, "tools/tests/stand_in"))
import qiskit
from qiskit.transpiler import CouplingMap, InstructionProperties, PassManager, PassManagerConfig, Target
from qiskit.transpiler.exceptions import TranspilerError

import qroute
from qroute import qiskit as bridge

BUILT = os.environ.get("QROUTE", os.path.join(TOP, "out/qroute"))
LINE = [(0, 1), (1, 0), (1, 2), (2, 1), (2, 3), (3, 2)]
# gates and their qubits, and the angles as multiples of pi
GATES = [("h", 0), ("ccx", 0, 1, 2), ("y", 1), ("t", 2), ("cx", 2, 0), ("rz", 1, 0.25), ("x", 0), ("sx", 2), ("swap", 0, 2), ("cx", 0, 1), ("tdg", 1)]


def circuit_of(gates, qubits=3, bits=0):
    """A circuit of Qiskit; with bits, each of the first qubits is measured at the end."""
    found = qiskit.QuantumCircuit(qubits, bits) if bits else qiskit.QuantumCircuit(qubits)
    for name, *words in gates:
        if not IS_REAL:
            count = 1 if name in ("rz", "p") else len(words)
            found.gate(name, *words[:count], params=[it * math.pi for it in words[count:]])
        elif name in ("rz", "p"):
            getattr(found, name)(words[1] * math.pi, words[0])
        else:
            getattr(found, name)(*words)
    for i in range(bits):
        found.measure(i, bits - 1 - i)
    return found


def run(circuit, state):
    """What a circuit makes of a basis state, by the matrices of its gates and its global phase: amplitudes by states."""
    amplitudes = {state: cmath.exp(1j * circuit.global_phase)}
    for it in circuit.data:
        if it.operation.name in ("barrier", "measure"):
            continue
        on = [circuit.find_bit(bit).index for bit in it.qubits]
        matrix = it.operation.to_matrix()
        after = {}
        for x, amplitude in amplitudes.items():
            column = sum((x >> qubit & 1) << i for i, qubit in enumerate(on))
            bare = x & ~sum(1 << qubit for qubit in on)
            for row in range(len(matrix)):
                y = bare | sum((row >> i & 1) << qubit for i, qubit in enumerate(on))
                after[y] = after.get(y, 0) + amplitude * matrix[row][column]
        amplitudes = after
    return {x: it for x, it in amplitudes.items() if abs(it) > 1e-9}


def placed(state, places):
    return sum((state >> wire & 1) << qubit for wire, qubit in enumerate(places))


class Qiskit(unittest.TestCase):
    def setUp(self):
        if not os.access(BUILT, os.X_OK):
            self.skipTest("there is no built program")

    def assert_same(self, source, target, begins, ends):
        """Both circuits do the same, with the global phase, where wires begin and end on these qubits."""
        for state in range(2 ** len(source.qubits)):
            wanted = {placed(x, ends): it for x, it in run(source, state).items()}
            found = run(target, placed(state, begins))
            self.assertEqual(wanted.keys(), found.keys())
            for x, it in wanted.items():
                self.assertAlmostEqual(it, found[x])

    def assert_on_edges(self, circuit, edges):
        for it in circuit.data:
            if len(it.qubits) == 2 and it.operation.name != "barrier":
                self.assertEqual(it.operation.name, "cx")
                self.assertIn(tuple(circuit.find_bit(bit).index for bit in it.qubits), edges)

    def test_a_circuit_with_its_layout(self):
        source = circuit_of(GATES)
        for edges in (LINE, [(1, 0), (1, 2), (3, 2)]):
            routed = bridge.route_circuit(source, CouplingMap(edges))
            layout = routed.layout
            begins, ends = layout.initial_index_layout()[:3], layout.final_index_layout()
            self.assertEqual(len(routed.qubits), 4)
            self.assert_on_edges(routed, edges)
            self.assert_same(source, routed, begins, ends)

    def test_phases_are_those_of_each_gate(self):
        for name, *words in GATES:
            source = circuit_of([(name, *words), ("h", 0)])
            self.assert_same(source, bridge.opt_circuit(source), range(3), range(3))

    def test_measured_bits(self):
        routed = bridge.route_circuit(circuit_of(GATES, bits=3), CouplingMap(LINE))
        reads = {routed.find_bit(it.clbits[0]).index: routed.find_bit(it.qubits[0]).index for it in routed.data if it.clbits}
        ends = routed.layout.final_index_layout()
        self.assertEqual(reads, {2 - i: ends[i] for i in range(3)})
        self.assertEqual([len(it) for it in routed.cregs], [3])

    def test_a_stage_keeps_the_layout(self):
        source = circuit_of([*GATES, ("cx", 3, 0)], qubits=4)
        config = PassManagerConfig(coupling_map=CouplingMap(LINE))
        stage = bridge.RoutingPlugin().pass_manager(config)
        routed = stage.run(source)
        self.assertEqual(routed.layout, None)
        ends = [stage.property_set["final_layout"][it] for it in routed.qubits]
        self.assertNotEqual(ends, [0, 1, 2, 3])
        self.assert_on_edges(routed, LINE)
        self.assert_same(source, routed, range(4), ends)

    def test_two_passes_after_each_other(self):
        source = circuit_of([*GATES, ("cx", 3, 0)], qubits=4)
        stage = PassManager([bridge.Route(CouplingMap(LINE)), bridge.Route(CouplingMap([(0, 2), (2, 1), (1, 3)]))])
        routed = stage.run(source)
        ends = [stage.property_set["final_layout"][it] for it in routed.qubits]
        self.assert_same(source, routed, range(4), ends)

    def test_optimising_keeps_to_the_edges(self):
        there = bridge.route_circuit(circuit_of(GATES), CouplingMap(LINE))
        twice = circuit_of([("t", 0), ("t", 0), ("cx", 0, 1), ("cx", 0, 1), ("cx", 2, 1), ("h", 3)], qubits=4)
        for source, is_same in ((there, True), (twice, False)):
            stage = bridge.OptimizationPlugin().pass_manager(PassManagerConfig(coupling_map=CouplingMap(LINE)))
            written = stage.run(source)
            self.assert_on_edges(written, LINE)
            final = stage.property_set["final_layout"]
            ends = [final[it] for it in written.qubits] if final else range(4)
            self.assert_same(source, written, range(4), ends)
            self.assertEqual(written is source, is_same and not IS_REAL)
        self.assertEqual(written.count_ops(), {"s": 1, "cx": 1, "h": 1})

    @unittest.skipIf(IS_REAL, "the stand-in tells what was asked")
    def test_what_is_written_is_translated_for_the_target(self):
        stage = bridge.OptimizationPlugin().pass_manager(PassManagerConfig(basis_gates=["rz", "sx", "cx"]))
        self.assertEqual(stage.passes[1].asked, (None, ["rz", "sx", "cx"], "translator"))
        self.assertEqual(bridge.RoutingPlugin().pass_manager(PassManagerConfig()).passes, [])

    def test_barriers_are_kept(self):
        source = circuit_of([("t", 0), ("cx", 0, 2)])
        source.barrier(0, 2)
        source.append(source.data[0].operation, [0], [])
        routed = bridge.route_circuit(source, CouplingMap(LINE))
        self.assertEqual([it.operation.name for it in routed.data if it.operation.name != "cx"], ["t", "barrier", "t"])
        bare = bridge.route_circuit(source, CouplingMap(LINE), keep_barriers=False)
        self.assertNotIn("barrier", bare.count_ops())

    def test_any_gates(self):
        """A gate that is put back comes by its name, which Qiskit's reader has to be told of; the global phase isn't set."""
        source = circuit_of([("h", 0), ("p", 0, 0.3 / math.pi), ("sx", 1), ("cx", 0, 2), ("p", 2, 0.25)])
        for routed in (bridge.route_circuit(source, CouplingMap(LINE), any_gates=True), bridge.opt_circuit(source, any_gates=True)):
            self.assertEqual(routed.count_ops()["p"], 1)
            layout = routed.layout
            begins, ends = (layout.initial_index_layout()[:3], layout.final_index_layout()) if layout else (range(3), range(3))
            apart = set()
            for state in range(8):
                wanted = {placed(x, ends): it for x, it in run(source, state).items()}
                found = run(routed, placed(state, begins))
                self.assertEqual(wanted.keys(), found.keys())
                apart |= {complex(round((it / found[x]).real, 9), round((it / found[x]).imag, 9)) for x, it in wanted.items()}
            self.assertEqual(len(apart), 1)

    def test_what_any_gates_refuse(self):
        def unreadable():
            raise qroute.Unreadable("no gate what", "what q;", 0)

        with self.assertRaisesRegex(TranspilerError, "line 1, column 1: no gate what"):
            bridge.answered(unreadable)

    @unittest.skipIf(IS_REAL, "a condition of Qiskit is made in another way")
    def test_conditions_go_by_text_alone(self):
        source = circuit_of([("h", 0)], bits=1)
        source.gate("if_else", 1)
        with self.assertRaises(qiskit.qasm2.QASM2ExportError):
            bridge.route_circuit(source, CouplingMap(LINE), any_gates=True)

    def test_refusals(self):
        with self.assertRaises(TranspilerError) as caught:
            bridge.route_circuit(circuit_of([("rz", 0, 0.0625)]), CouplingMap(LINE))
        self.assertIn("AngleStep", str(caught.exception))
        with self.assertRaises(TranspilerError) as caught:
            PassManager([bridge.Route(CouplingMap(LINE))]).run(circuit_of(GATES))
        self.assertIn("it has no layout yet", str(caught.exception))


@unittest.skipIf(IS_REAL, "a target of Qiskit is made in another way")
class Devices(unittest.TestCase):
    def test_errors_are_costs(self):
        properties = InstructionProperties
        target = Target(3, {"x": {(0,): properties(error=0.5)}, "cx": {(0, 1): properties(error=0.01), (2, 1): properties(error=1.0)}})
        # -ln(0.99) is 0.01005033..
        self.assertEqual(bridge.device_of(target).text, "format = 2\nqubits = 3\nedges = [[0, 1, 1005], [2, 1, 1000000]]\n")
        # a gate with no direction of its own makes CNOTs both ways, and of two gates on a pair the better one counts
        target = Target(2, {"cz": {(0, 1): properties(error=0.02)}, "cx": {(0, 1): properties(error=0.01)}})
        self.assertEqual(bridge.device_of(target).edges(), [[0, 1, 1005], [1, 0, 2020]])
        # with one rate unknown there are no costs
        target = Target(3, {"cx": {(0, 1): properties(error=0.01), (1, 2): None}})
        self.assertEqual(bridge.device_of(target).text, "qubits = 3\nedges = [[0, 1], [1, 2]]\n")
        with self.assertRaises(TranspilerError):
            bridge.device_of(Target(None, {"cx": {None: None}}))

    def test_what_has_a_device(self):
        class Backend:
            target = Target(2, {"cx": {(1, 0): None}})

        own = qroute.Device.of([(0, 1)])
        for where, edges in ((Backend(), [[1, 0]]), (CouplingMap([(0, 1)]), [[0, 1]]), ([(1, 0)], [[1, 0]]), (own, [[0, 1]])):
            self.assertEqual(bridge.device_of(where).edges(), edges)
        with self.assertRaises(TranspilerError):
            bridge.device_of(7)

    def test_entry_points_lead_somewhere(self):
        with open(os.path.join(TOP, "python/pyproject.toml"), "rb") as file:
            points = tomllib.load(file)["project"]["entry-points"]
        for stage in ("routing", "optimization"):
            module, name = points[f"qiskit.transpiler.{stage}"]["qroute"].split(":")
            self.assertTrue(callable(getattr(importlib.import_module(module), name)().pass_manager))

    def test_the_module_needs_no_qiskit(self):
        script = "import sys, qroute, qroute.batch; print([it for it in sys.modules if it.startswith(('qiskit', 'pytket'))])"
        ran = subprocess.run([sys.executable, "-c", script], cwd=os.path.join(TOP, "python"), capture_output=True, text=True)
        self.assertEqual(ran.stdout, "[]\n", ran.stderr)
