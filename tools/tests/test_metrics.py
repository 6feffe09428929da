import json
import math

from tool import ToolTest

HEAD = 'OPENQASM 2.0;\ninclude "qelib1.inc";\n'
# each program with gates, CNOTs, T gates, depth, CNOT depth and T depth, counted by hand
ROWS = [
    ("qreg q[1];\n", [0, 0, 0, 0, 0, 0]),
    ("qreg q[2];\nh q;\ncx q[0],q[1];\n", [3, 1, 0, 2, 1, 0]),
    ("qreg q[3];\nt q[0];\nt q[1];\ncx q[0],q[1];\ntdg q[1];\ns q[2];\n", [5, 1, 3, 3, 1, 2]),
    # a barrier lets nothing past on the wires that it names
    ("qreg q[3];\nt q[0];\nbarrier q[0],q[1];\nt q[1];\nt q[2];\n", [3, 0, 3, 2, 0, 2]),
    # a swap is three CNOTs, and a Toffoli gate has six, seven T gates and two H
    ("qreg q[2];\nswap q[0],q[1];\n", [3, 3, 0, 3, 3, 0]),
    ("qreg q[3];\nccx q[0],q[1],q[2];\n", [15, 6, 7, 11, 6, 4]),
    # odd multiples of pi/4 are T gates, by whatever name, and nothing else is
    ("qreg q[1];\nrz(3*pi/4) q[0];\nu1(pi/2) q[0];\nrx(0.3) q[0];\nu3(0,pi/8,pi/8) q[0];\nry(-pi/4) q[0];\n", [5, 0, 2, 5, 0, 2]),
    ("qreg q[2];\ncreg c[1];\nrzz(0.3) q[0],q[1];\nmeasure q[0] -> c[0];\nreset q[0];\nif(c==1) x q[0];\n", [4, 2, 0, 4, 2, 0]),
]


class Metrics(ToolTest):
    def told(self, *words):
        status, out, err = self.run_tool("metrics", "--json", *words)
        self.assertEqual((status, err), (0, ""))
        return [json.loads(line) for line in out.splitlines()]

    def test_counts(self):
        paths = [self.file(f"{i}.qasm", HEAD + text) for i, (text, _) in enumerate(ROWS)]
        for (text, wanted), found in zip(ROWS, self.told(*paths)):
            self.assertEqual([found[it] for it in ("gates", "cx", "t", "depth", "cx_depth", "t_depth")], wanted, text)

    def test_names(self):
        (found,) = self.told(self.file("p.qasm", HEAD + ROWS[-1][0]))
        self.assertEqual(found["names"], {"measure": 1, "reset": 1, "rzz": 1, "x": 1})
        _, out, _ = self.run_tool("metrics", self.file("p.qasm", HEAD + ROWS[2][0]))
        self.assertEqual(out.splitlines()[1].split(maxsplit=1)[1], "5        1        3        3        1        2           1 cx, 1 s, 2 t, 1 tdg")

    def test_success(self):
        # the pair's cheapest edge counts: (1 - error) is e to the power of -cost / 100,000
        device = self.file("d.toml", "format = 2\nqubits = 3\nedges = [[0, 1, 1000], [1, 0, 700], [1, 2, 20000]]\n")
        text = "qreg q[3];\ncx q[0],q[1];\ncx q[0],q[1];\ncx q[2],q[1];\n"
        (found,) = self.told("--device", device, self.file("p.qasm", HEAD + text))
        self.assertAlmostEqual(found["success"], math.exp(-0.214), 12)
        (found,) = self.told("--device", self.file("e.toml", "qubits = 3\nedges = [[0, 1]]\n"), self.file("p.qasm", HEAD + text))
        self.assertIsNone(found["success"])
        path = self.file("p.qasm", HEAD + "qreg q[3];\ncx q[2],q[0];\n")
        says = f"metrics: {path}: the device has no edge between qubits 0 and 2\n"
        self.assertEqual(self.run_tool("metrics", "--device", device, path), (1, "", says))

    def test_faults(self):
        path = self.file("p.qasm", HEAD + "qreg q[1];\nh q[1];\n")
        self.assertEqual(self.run_tool("metrics", path), (1, "", f"metrics: {path}:4:7: q has no index 1\n"))
        for text, place, said, counted in (
            ("gate g a { rx(pei) a; } qreg q[1];\ng q[0];\n", "3:15", "pei is no number here (bind the parameter first)", None),
            ("gate g(t) a,b { rx(1/t) a; } qreg q[2];\n g(0) q[0],q[1];\n", "4:2", "an angle that has no value", "a division by 0"),
        ):
            path = self.file("p.qasm", HEAD + text)
            self.assertEqual(self.run_tool("metrics", path), (1, "", f"metrics: {path}:{place}: {said}\n"))
            self.assertEqual(self.run_tool("compare-counts", path), (2, "", f"compare-counts: {path}:{place}: {counted or said}\n"))
        none = self.room + "/none"
        self.assertEqual(self.run_tool("metrics", none), (2, "", f"metrics: {none}: No such file or directory\n"))
