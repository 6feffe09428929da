import importlib.util
import json
import os
import sys

from tool import TOP, ToolTest

sys.path.insert(0, os.path.join(TOP, "python"))
# A stand-in of the names that are used is here for where pytket isn't installed.
FOUND = importlib.util.find_spec("pytket")
IS_REAL = FOUND is not None and "stand_in" not in (FOUND.origin or "")
if FOUND is None:
    sys.path.append(os.path.join(TOP, "tools/tests/stand_in"))
from pytket.architecture import Architecture
from pytket.circuit import Node
from pytket.qasm import circuit_from_qasm_str, circuit_to_qasm_str

from qroute import pytket as bridge

BUILT = os.environ.get("QROUTE", os.path.join(TOP, "out/qroute"))
TEXT = 'OPENQASM 2.0;\ninclude "qelib1.inc";\nqreg a[2];\nqreg b[1];\nh a[0];\ncx a[0],b[0];\ncx a[1],b[0];\ncx a[0],a[1];\nt a[1];\n'


class Pytket(ToolTest):
    def setUp(self):
        super().setUp()
        self.grid = [Node("gridNode", i, j) for i, j in ((0, 0), (0, 1), (1, 0), (1, 1))]
        nodes = self.grid
        self.device = Architecture([(nodes[3], nodes[1]), (nodes[1], nodes[0]), (nodes[0], nodes[2])])

    def test_nodes_are_numbered_in_order(self):
        self.assertEqual(bridge.device_of(self.device).edges(), [[3, 1], [1, 0], [0, 2], [1, 3], [0, 1], [2, 0]])

    def test_a_circuit_and_where_its_qubits_are(self):
        if not os.access(BUILT, os.X_OK):
            self.skipTest("there is no built program")
        circuit = circuit_from_qasm_str(TEXT)
        routed, begins, ends = bridge.route_circuit(circuit, self.device)
        self.assertEqual(sorted(routed.qubits), self.grid)
        self.assertEqual(list(begins), sorted(circuit.qubits))
        if IS_REAL:
            return
        # compared on its own, by what is told of the placements
        places = [[self.grid.index(where[it]) for it in begins] for where in (begins, ends)]
        spare = [[it for it in range(4) if it not in found] for found in places]
        counts = {"cx_before": 3, "t_before": 1, "barriers": 0, "qubits": 3, "device": 4, "format": 1}
        for phase in range(8):
            told = counts | {"initial": places[0] + spare[0], "final": places[1] + spare[1], "phase": phase, "swaps": 9}
            told |= {"cx_after": routed.text.count("\ncx "), "t_after": 1}
            files = [self.file(name, it) for name, it in (("s", TEXT), ("w", circuit_to_qasm_str(routed)), ("r", json.dumps(told) + "\n"))]
            device = self.file("device.toml", bridge.device_of(self.device).text)
            status, out, err = self.run_tool("check-small", *files, "--device", device)
            if "agrees on each of" in out:
                return
        self.fail(out + err)

    def test_fewer_gates_on_its_own_qubits(self):
        if not os.access(BUILT, os.X_OK):
            self.skipTest("there is no built program")
        circuit = circuit_from_qasm_str(TEXT + "t a[1];\n")
        self.assertEqual(sorted(bridge.opt_circuit(circuit).qubits), sorted(circuit.qubits))
