import tomllib

from tool import ToolTest


class Device(ToolTest):
    def table(self, text, *words):
        status, out, err = self.run_tool("device", *words, given=text)
        self.assertEqual((status, err), (0, ""))
        return tomllib.loads(out)

    def test_a_map_of_qiskit(self):
        wanted = {"qubits": 3, "edges": [[0, 1], [1, 2]]}
        for text in (
            "[[0, 1], [1, 2]]",
            "[(0, 1), (1, 2)]",
            "EdgeList[(0, 1), (1, 2)]",
            "CouplingMap([[0, 1], [1, 2]])",
            "{0: [1], 1: [2]}",
            '{"backend_name": "x", "n_qubits": 3, "coupling_map": [[0, 1], [1, 2]]}',
        ):
            self.assertEqual(self.table(text), wanted, text)

    def test_a_map_of_tket(self):
        wanted = {"qubits": 3, "edges": [[0, 1], [1, 2]]}
        self.assertEqual(self.table("[(node[0], node[1]), (node[1], node[2])]"), wanted)
        listed = "{'links': [{'link': [['node', [0]], ['node', [1]]], 'weight': 1}], 'nodes': [['node', [0]], ['node', [1]]]}"
        self.assertEqual(self.table(listed), {"qubits": 2, "edges": [[0, 1]]})

    def test_errors_become_costs(self):
        # -ln(0.99) is 0.010050.., -ln(0.75) 0.287682..; an error of 0 costs the least, one of 1 the most
        wanted = {"format": 2, "qubits": 3, "edges": [[0, 1, 1005], [1, 0, 28768], [1, 2, 1], [2, 1, 1000000]]}
        listed = "{(0, 1): %s, (1, 0): %s, (1, 2): %s, (2, 1): %s}"
        told = "InstructionProperties(duration=2.2e-07, error=%s, calibration=None)"
        rates = ("0.01", "0.25", "0", "1.0")
        self.assertEqual(self.table(listed % rates), wanted)
        self.assertEqual(self.table(listed % tuple(told % it for it in rates)), wanted)
        self.assertEqual(self.table("[[0, 1, 0.01], [1, 0, 0.25], [1, 2, 0], [2, 1, 1.0], [0, 1, 0.02]]"), wanted)
        gates = [f'{{"gate": "ecr", "qubits": [{a}, {b}], "parameters": [{{"name": "gate_length", "value": 9}}, {{"name": "gate_error", "value": {it}}}]}}'
                 for a, b, it in zip((0, 1, 1, 2), (1, 0, 2, 1), rates)]  # fmt: skip
        single = '{"gate": "x", "qubits": [0], "parameters": [{"name": "gate_error", "value": 0.5}]}'
        self.assertEqual(self.table('{"gates": [%s]}' % ", ".join([single, *gates])), wanted)
        self.assertEqual(self.table("{(0, 1): 0.01}", "--both")["edges"], [[0, 1, 1005], [1, 0, 1005]])

    def test_names_are_numbered_and_told(self):
        text = "[(gridNode[0, 1, 0], gridNode[0, 0, 0]), (gridNode[0, 1, 0], gridNode[1, 1, 0])]"
        self.assertEqual(self.table(text), {"qubits": 3, "edges": [[1, 0], [1, 2]]})
        _, out, _ = self.run_tool("device", given=text)
        self.assertIn("# qubit 1 is gridNode[0, 1, 0]\n", out)

    def test_options(self):
        self.assertEqual(self.table("[[0, 1], [1, 0], [1, 2]]", "--both", "--qubits", "3"), {"qubits": 3, "edges": [[0, 1], [1, 0], [1, 2], [2, 1]]})
        path = self.file("map", "[[0, 1]]")
        _, out, _ = self.run_tool("device", path, "--say", "Source: a map.")
        self.assertTrue(out.startswith("# Source: a map.\n"))
        self.assertEqual(self.table("[[0, 1]]", "--say", "a\nqubits = 7\r\x1b\x7f"), {"qubits": 2, "edges": [[0, 1]]})
        named = self.table('[[["a\\nqubits = 7", [0]], ["b", [1]]]]')
        self.assertEqual(named, {"qubits": 2, "edges": [[0, 1]]})

    def test_what_is_no_map(self):
        for text in (
            *("", "hello", "[[0, 1, 2]]", "3", "[[0, -1]]", "[[true, 1]]", '{"links": 3}', '{"links": [{}]}', "[1]", b"\xff"),
            *("{(0, 1): None}", "{(0, 1): -0.1}", "[[0, 1, 1.5]]", "{(0, 1): InstructionProperties(duration=1e-7)}"),
            *("[" * 100_000, '{"n_qubits": "5", "coupling_map": []}', "{0: 1}", '[[["a", 1], ["b", [1]]]]'),
        ):
            status, out, err = self.run_tool("device", given=text)
            self.assertEqual((status, out), (1, ""), text)
            self.assertTrue(err.startswith("device: ") and err.count("\n") == 1, text)
            for own in ("object", "recursion", "codec"):
                self.assertNotIn(own, err)

    def test_what_qroute_will_refuse(self):
        for text, words, said in (
            ("[[0, 1]]", ("--qubits", "3"), "qubit 2 can't be reached from qubit 0"),
            ("[[0, 1], [1, 1]]", (), "qubit 1 has an edge to itself"),
            (str([[i, i + 1] for i in range(256)]), (), "`qubits` is 257 and not a whole number from 1 to 256"),
            ("[[0, 1]]", ("--qubits", "1"), "the edge [0, 1] has a qubit that isn't there"),
            ("[[0, 1]]", ("--qubits", "0"), "`qubits` is 0 and not a whole number from 1 to 256"),
            ("[[0, 1]]", ("--qubits", "-1"), "`qubits` is -1 and not a whole number from 1 to 256"),
            ("[]", (), "`qubits` is 0 and not a whole number from 1 to 256"),
            ("[[0, 99999999999999]]", (), "`qubits` is 100000000000000 and not a whole number from 1 to 256"),
            ('{"n_qubits": 99999999999, "coupling_map": [[0, 1]]}', (), "`qubits` is 99999999999 and not a whole number from 1 to 256"),
        ):
            status, out, err = self.run_tool("device", *words, given=text, timeout=10)
            self.assertEqual((status, err), (0, f"device: qroute will refuse this device: {said}\n"), text)
            self.assertIn("edges = [", out)
