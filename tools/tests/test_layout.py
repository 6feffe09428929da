import itertools
import os
import random
import sys
import unittest

sys.path.insert(0, os.path.join(os.path.dirname(os.path.realpath(__file__)), "../../python"))
import qroute
from qroute import layouts
from tool import ToolTest

HEAD = 'OPENQASM 2.0;\ninclude "qelib1.inc";\n'
LINE_4 = "qubits = 4\nedges = [[0, 1], [2, 1], [2, 3]]\n"
# on a line of four: a program, and its placement, by hand; none: there is none, since a wire has three partners or three are in a ring
ROWS = [
    ("qreg q[2];\ncx q[1],q[0];\n", "0,1"),
    ("qreg q[3];\ncx q[0],q[2];\nt q[2];\ncx q[2],q[1];\n", "0,2,1"),
    ("qreg q[4];\ncx q[3],q[1];\ncx q[1],q[2];\ncx q[0],q[2];\n", "3,1,2,0"),
    ("qreg q[3];\nh q;\n", "0,1,2"),
    ("qreg q[3];\ncx q[0],q[1];\nt q[1];\ncx q[1],q[2];\nt q[2];\ncx q[2],q[0];\n", None),
    ("qreg q[4];\ncx q[0],q[1];\ncx q[0],q[2];\ncx q[0],q[3];\n", None),
    ("qreg q[5];\nt q[4];\n", None),
]


def networkx():
    try:
        import networkx
    except ImportError:
        return None
    return networkx


def is_placed(wires, qubits, at):
    """Whether a placement has each pair of wires on neighbours, and no qubit twice."""
    return len(set(at.values())) == len(at) == len(wires) and all(at[b] in qubits[at[a]] for a in wires for b in wires[a])


def exists(wires, qubits):
    """Whether there is one, by trying all."""
    names = sorted(wires)
    return any(is_placed(wires, qubits, dict(zip(names, it))) for it in itertools.permutations(sorted(qubits), len(names)))


def drawn(random_numbers, size, edges):
    pairs = list(itertools.combinations(range(size), 2))
    return layouts.graph_of(random_numbers.sample(pairs, min(edges, len(pairs))))


class Searches(unittest.TestCase):
    def searched(self, by):
        for seed in range(60):
            numbers = random.Random(seed)
            qubits, wires = drawn(numbers, 6, numbers.randint(4, 9)), drawn(numbers, 5, numbers.randint(1, 6))
            found = by(wires, qubits, 100_000)
            self.assertEqual(found is not None, exists(wires, qubits), seed)
            self.assertTrue(found is None or is_placed(wires, qubits, found), seed)

    def test_backtracking(self):
        self.searched(layouts.by_backtracking)

    @unittest.skipIf(networkx() is None, "networkx isn't here")
    def test_networkx(self):
        self.searched(lambda *words: layouts.by_networkx(networkx(), *words))

    def test_limits(self):
        # two wires take a step each, whichever searches
        pair = layouts.graph_of([(0, 1)])
        self.assertEqual(layouts.by_backtracking(pair, pair, 2), {0: 0, 1: 1})
        self.assertRaises(layouts.LimitCame, layouts.by_backtracking, pair, pair, 1)
        if networkx() is not None:
            self.assertRaises(layouts.LimitCame, layouts.by_networkx, networkx(), pair, pair, 1)


class Layout(ToolTest):
    def test_rows(self):
        device = self.file("d.toml", LINE_4)
        for text, wanted in ROWS:
            status, out, err = self.run_tool("layout", self.file("p.qasm", HEAD + text), "--device", device)
            if wanted is None:
                self.assertEqual((status, out), (1, ""), text)
                self.assertIn("there is no placement without a swap (by ", err)
                self.assertEqual("(by count)" in err, "qreg q[5]" in text)
            else:
                placement = qroute.perfect_layout(HEAD + text, qroute.Device(LINE_4)).placement
                self.assertEqual((status, out, err), (0, ",".join(map(str, placement)) + "\n", ""), text)
                pairs = [(int(it[1]), int(it[2])) for it in layouts.CX.finditer(text)]
                self.assertTrue(all(abs(placement[a] - placement[b]) == 1 for a, b in pairs), text)
                routed = qroute.route(HEAD + text, qroute.Device(LINE_4), initial=placement)
                self.assertEqual((routed.swaps, routed.initial[: len(placement)]), (0, placement), text)
                # two that mirror each other are as good
                self.assertIn(wanted, (out.strip(), ",".join(str(3 - it) for it in placement)) if pairs else (out.strip(),), text)

    def test_a_ring(self):
        ring = self.file("d.toml", f"qubits = 8\nedges = {[[it, (it + 1) % 8] for it in range(8)]}\n")
        text = HEAD + "qreg a[2];\nqreg b[4];\nh a[0];\ncx a[0],a[1];\ncx a[1],b[0];\n" + "".join(f"cx b[{it}],b[{it + 1}];\n" for it in range(3))
        status, out, err = self.run_tool("layout", self.file("p.qasm", text), "--device", ring)
        self.assertEqual((status, err), (0, ""))
        placement = [int(it) for it in out.split(",")]
        self.assertEqual((len(placement), qroute.route(text, qroute.Device.load(ring), initial=placement).swaps), (6, 0))

    def test_kept_barriers(self):
        device = self.file("d.toml", LINE_4)
        # without the barrier two CNOTs cancel; with it three wires are in a ring
        path = self.file("p.qasm", HEAD + "qreg q[3];\ncx q[0],q[1];\ncx q[1],q[2];\nbarrier q;\ncx q[1],q[2];\ncx q[2],q[0];\n")
        self.assertEqual(self.run_tool("layout", path, "--device", device)[0], 0)
        self.assertEqual(self.run_tool("layout", path, "--device", device, "--keep-barriers")[:2], (1, ""))

    def test_no_qubits(self):
        path, device = self.file("p.qasm", HEAD), self.file("d.toml", LINE_4)
        told = "layout: the program has no qubits, and a list has one at least\n"
        self.assertEqual(self.run_tool("layout", path, "--device", device), (1, "", told))

    def test_no_placement_yet(self):
        path = self.file("p.qasm", HEAD + ROWS[1][0])
        status, out, err = self.run_tool("layout", path, "--device", self.file("d.toml", LINE_4), "--steps", "1")
        self.assertEqual((status, out), (5, ""))
        self.assertIn("none was found in 1 steps, and there may be one", err)

    def test_faults(self):
        device, path = self.file("d.toml", LINE_4), self.file("p.qasm", HEAD + "qreg q[1];\nh q[1];\n")
        status, out, err = self.run_tool("layout", path, "--device", device)
        self.assertEqual((status, out), (3, ""))
        self.assertIn(f"layout: {path}: line 4, column ", err)
        none = self.room + "/none"
        self.assertEqual(self.run_tool("layout", none, "--device", device), (2, "", f"layout: {none}: No such file or directory\n"))
        self.assertEqual(self.run_tool("layout", path, "--device", none), (2, "", f"layout: {none}: No such file or directory\n"))
        self.assertEqual(self.run_tool("layout", path, "--device", device, "--steps", "0")[0], 2)

    def test_devices_that_route_refuses(self):
        """A placement on a device in two pieces could not be tried."""
        program = HEAD + "qreg q[2];\ncx q[0],q[1];\n"
        pieces = "qubits = 4\nedges = [[0, 1], [2, 3]]\n"
        path, device = self.file("p.qasm", program), self.file("d.toml", pieces)
        status, out, err = self.run_tool("layout", path, "--device", device)
        self.assertEqual((status, out), (4, ""))
        self.assertIn(f"layout: {device}: ", err)
        for text, name in ((pieces, "NotConnected"), ("qubits = 4\n", "Shape"), ("qubits = 2\nedges = [[0, 2]]\n", "Range"), ("edges", "Text")):
            with self.assertRaises(qroute.DeviceRefused) as caught:
                qroute.perfect_layout(program, qroute.Device(text))
            self.assertIn(name, str(caught.exception.told))
