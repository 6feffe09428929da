import json

from tool import ToolTest

HEAD = 'OPENQASM 2.0;\ninclude "qelib1.inc";\n'
BELL = HEAD + "qreg q[2];\ncreg c[2];\nh q[0];\ncx q[0],q[1];\nmeasure q[0] -> c[0];\nmeasure q[1] -> c[1];\n"
# a CNOT turned round by four Hadamards is w^4 times it, each of them being w times the Hadamard matrix
TURNED = (
    HEAD + "qreg q[2];\ncreg c[2];\nh q[0];\nh q[0];\nh q[1];\ncx q[1],q[0];\nh q[0];\nh q[1];\n"
    "measure q[0] -> c[0];\nmeasure q[1] -> c[1];\n"
)
DEVICE = "qubits = 2\nedges = [[1, 0]]\n"
# wire 0 moves from qubit 0 to qubit 1 of a line of three in the first part, and stands there at the barrier
IN_PARTS = HEAD + "qreg a[1];\nqreg b[2];\ncx a[0],b[1];\nbarrier b[1],a,b[1];\ncx a[0],b[0];\nt b;\n"
SWAP_01 = "cx q[0],q[1];\ncx q[1],q[0];\ncx q[0],q[1];\n"
OUT_PARTS = HEAD + "qreg q[3];\n" + SWAP_01 + "cx q[1],q[2];\nbarrier q[2],q[1];\ncx q[1],q[0];\nt q[0];\nt q[2];\n"
TOLD_PARTS = {
    "barriers": 1, "between": [[1, 0, 2]], "cx_after": 5, "cx_before": 2, "device": 3, "final": [1, 0, 2], "format": 3,
    "initial": [0, 1, 2], "parts": [0, 0], "phase": 0, "qubits": 3, "swaps": 1, "t_after": 2, "t_before": 2,
}  # fmt: skip
# the sums of a CNOT side by side: wires 0 and 1, and both together on a spare one
THREE_SUMS = HEAD + "qreg q[2];\ncreg c[1];\nt q[0];\nt q[1];\ncx q[0],q[1];\nt q[1];\ncx q[0],q[1];\nmeasure q[1] -> c[0];\n"
ON_A_SPARE = (
    HEAD + "qreg q[3];\ncreg c[1];\ncx q[0],q[2];\ncx q[1],q[2];\nt q[0];\nt q[1];\nt q[2];\ncx q[0],q[2];\ncx q[1],q[2];\n"
    "measure q[1] -> c[0];\n"
)
TOLD_SPARES = {
    "barriers": 0, "cx_after": 4, "cx_before": 2, "device": 3, "final": [0, 1, 2], "format": 4, "initial": [0, 1, 2],
    "phase": 0, "qubits": 2, "spares": 1, "swaps": 0, "t_after": 3, "t_before": 3,
}  # fmt: skip


def report(**told):
    known = {
        "barriers": 0, "cx_after": 1, "cx_before": 1, "device": 2, "final": [0, 1], "format": 1, "initial": [0, 1],
        "phase": 4, "qubits": 2, "swaps": 0, "t_after": 0, "t_before": 0,
    }  # fmt: skip
    return json.dumps({**known, **told}) + "\n"


class CheckSmall(ToolTest):
    def checked(self, source, output, told, *words, **more):
        files = [self.file(name, text) for name, text in (("s", source), ("o", output), ("r", told))]
        return self.run_tool("check-small", *files, *words, **more)

    def test_what_agrees(self):
        device = self.file("d", DEVICE)
        status, out, err = self.checked(BELL, TURNED, report(), "--device", device)
        self.assertEqual((status, err), (0, ""))
        self.assertTrue(out.startswith("agrees on each of 4 basis states"), out)

    def test_the_phase(self):
        status, out, _ = self.checked(BELL, TURNED, report(phase=0))
        self.assertEqual(status, 1)
        self.assertIn("from |00> (wire 0 first) the amplitude of |00> is -0.5", out)

    def test_the_edges(self):
        status, out, _ = self.checked(BELL, BELL, report(phase=0), "--device", self.file("d", DEVICE))
        self.assertEqual(status, 1)
        self.assertIn("the CNOT from qubit 0 to 1 follows no edge", out)

    def test_a_swap_and_a_spare_qubit(self):
        # wire 0 on qubit 0, wire 1 on qubit 2 of a line of three: a swap of the qubits 1 and 2, which moves a spare wire
        source = HEAD + "qreg q[2];\ncreg c[1];\ncx q[0],q[1];\nt q[1];\nmeasure q[1] -> c[0];\n"
        output = (
            HEAD + "qreg q[3];\ncreg c[1];\ncx q[1],q[2];\ncx q[2],q[1];\ncx q[1],q[2];\ncx q[0],q[1];\nt q[1];\n"
            "measure q[1] -> c[0];\n"
        )
        told = report(phase=0, device=3, initial=[0, 2, 1], final=[0, 1, 2], swaps=1, cx_after=4, t_after=1, t_before=1)
        self.assertEqual(self.checked(source, output, told)[0], 0)
        wrong = report(phase=0, device=3, initial=[0, 2, 1], final=[0, 2, 1], swaps=1, cx_after=4, t_after=1, t_before=1)
        status, out, _ = self.checked(source, output, wrong)
        self.assertEqual(status, 1)
        self.assertIn("c[0] reads qubit 1 in place of 2", out)

    def test_the_counts(self):
        status, out, _ = self.checked(BELL, TURNED, report(cx_after=2, t_before=3))
        self.assertEqual(status, 1)
        self.assertIn("the report says cx_after 2, the programs say 1", out)
        self.assertIn("the report says t_before 3, the programs say 0", out)

    def test_what_is_written_besides(self):
        # each T could have been merged with the one behind the CNOTs
        source = HEAD + "qreg q[2];\nt q[1];\ncx q[0],q[1];\ncx q[0],q[1];\nbarrier q;\nt q[1];\n"
        told = {"barriers": 1, "phase": 0, "cx_before": 2, "cx_after": 0, "t_before": 2}
        self.assertEqual(self.checked(source, HEAD + "qreg q[2];\ns q[1];\n", report(**told, t_after=0))[0], 0)
        status, out, _ = self.checked(source, HEAD + "qreg q[2];\nt q[1];\nt q[1];\n", report(**told, t_after=2))
        self.assertEqual((status, out), (1, "differs: 2 T gates, and the source has 0 odd path parities\n"))
        status, out, _ = self.checked(source, HEAD + "qreg q[2];\nbarrier q[1];\ns q[1];\n", report(**told, t_after=0))
        self.assertEqual((status, out), (1, "differs: the output has 1 barriers in place of 0\n"))

    def test_the_whole_language(self):
        # u2(0,pi) is h by definition, and p(pi/4) is t; the gate's body swaps by three CNOTs
        source = (
            "OPENQASM 2.0;\ninclude \"qelib1.inc\";\ngate g(x) a,b { u2(0,pi) a; p(x/2) b; swap a,b; }\n"
            "qreg a[1];\nqreg b[1];\ncreg m[2];\nbarrier a,b;\ng(pi/2) a[0],b[0];\nmeasure a -> m;\n"
        ).replace("measure a -> m", "measure a[0] -> m[1]")
        output = HEAD + "qreg q[2];\ncreg m[2];\nh q[0];\nt q[1];\ncx q[0],q[1];\ncx q[1],q[0];\ncx q[0],q[1];\nmeasure q[0] -> m[1];\n"
        told = report(barriers=1, phase=0, cx_before=3, cx_after=3, t_before=1, t_after=1)
        self.assertEqual(self.checked(source, output, told)[:2], (0, "agrees on each of 4 basis states: 2 wires, 2 qubits, phase 0\n"))

    def test_larger_programs_by_one_superposition(self):
        body = "".join(f"h q[{i % 9}];\nt q[{i % 9}];\ncx q[{i % 9}],q[{(i + 4) % 9}];\n" for i in range(18))
        text = HEAD + "qreg q[9];\n" + body
        told = report(phase=0, device=9, qubits=9, cx_before=18, cx_after=18, t_before=18, t_after=18, initial=list(range(9)), final=list(range(9)))
        status, out, _ = self.checked(text, text, told)
        self.assertEqual(status, 0)
        self.assertIn("on one superposition of 512 basis states", out)
        wrong = text[: text.rindex("t q")] + text[text.rindex("t q") :].replace("t q", "tdg q", 1)
        status, out, _ = self.checked(text, wrong, told)
        self.assertEqual(status, 1)
        self.assertIn("differs: from |", out)

    def test_what_cannot_be_checked(self):
        status, out, err = self.checked(BELL, "OPENQASM 2.0;\nqreg q[2]", report())
        self.assertEqual((status, out), (2, ""))
        self.assertIn("check-small: ", err)
        self.assertEqual(self.checked(BELL, TURNED, "no line\n")[0], 2)

    def test_a_chain_of_a_thousand_gates(self):
        chain = "gate g0(x) a { u1(x) a; }\n" + "".join(f"gate g{i}(x) a {{ g{i - 1}(x) a; }}\n" for i in range(1, 1000))
        text = HEAD + chain + "qreg q[2];\ng999(pi/4) q[0];\n"
        told = report(phase=0, cx_before=0, cx_after=0, t_before=1, t_after=1)
        self.assertEqual(self.checked(text, HEAD + "qreg q[2];\nt q[0];\n", told)[0], 0)

    def test_many_halvings(self):
        # each value by itself is beyond what a float holds
        source = HEAD + "qreg q[1];\n" + "h q[0];\n" * 3000
        told = report(phase=1, cx_before=0, cx_after=0, device=1, qubits=1, initial=[0], final=[0])
        status, out, err = self.checked(source, HEAD + "qreg q[1];\n", told)
        self.assertEqual((status, err), (1, ""))
        self.assertIn("the amplitude of |0> is 1.0", out)

    def test_no_traceback(self):
        device = self.file("d", b"qubits = 2 # \xe9\n")
        self.assertEqual(
            self.checked(BELL, TURNED, report(), "--device", device), (2, "", f"check-small: {device}: no TOML in UTF-8\n")
        )
        for angle in ("(" * 3000 + "pi" + ")" * 3000, "-" * 3000 + "pi", "pi" + "+pi" * 3000, "1^" * 3000 + "1"):
            status, out, err = self.checked(HEAD + f"qreg q[2];\nu1({angle}) q[0];\n", BELL, report())
            self.assertEqual((status, out), (2, ""))
            self.assertIn("s:4: an expression deeper than 64\n", err)
        for line in ("cx q[0];", "h(pi) q[0];", "gate g a { h b; }", "gate g a { cx a,a; }"):
            status, out, err = self.checked(HEAD + f"qreg q[2];\n{line}\n", BELL, report())
            self.assertEqual((status, out, err.count("\n")), (2, "", 1), line)
            self.assertIn("s:4: ", err)

    def test_reports_that_cannot_be(self):
        for told in (
            *({"phase": it} for it in (8, -4, 4.0, True, "4", None)),
            *({"swaps": it} for it in (-1, 0.0, False, "0")),
            *({"initial": it} for it in ([0.0, 1], [False, True], [0, 0], [0], [0, 1, 2], 3, None)),
            *({"format": it} for it in (2, True)),
            *({"qubits": 2.0}, {"device": True}, {"device": 3}, {"qubits": 3}, {"barriers": False}, {"cx_after": 1.0}),
        ):
            status, out, err = self.checked(BELL, TURNED, report(**told))
            self.assertEqual((status, err), (1, ""), told)
            self.assertTrue(out.startswith("differs: "), told)
        device = self.file("d", "qubits = 3\nedges = [[1, 0]]\n")
        status, out, _ = self.checked(BELL, TURNED, report(), "--device", device)
        self.assertEqual((status, out), (1, f"differs: the output has 2 qubits, and {device} 3\n"))

    def test_costs(self):
        source = HEAD + "qreg q[2];\ncx q[0],q[1];\n"
        device = self.file("d", "format = 2\nqubits = 2\nedges = [[0, 1, 9], [1, 0, 7]]\n")
        for told, status in (({"cost": 7}, 0), ({"cost": 9}, 1), ({"cost": "7"}, 1), ({}, 1)):
            self.assertEqual(self.checked(source, source, report(phase=0, format=2, **told), "--device", device)[0], status)
        self.assertEqual(self.checked(source, source, report(phase=0), "--device", device)[0], 1)
        source = HEAD + "qreg q[1];\n"
        told = report(phase=0, format=2, cost=0, cx_after=0, cx_before=0, device=1, qubits=1, initial=[0], final=[0])
        device = self.file("d", "format = 2\nqubits = 1\nedges = []\n")
        self.assertEqual(self.checked(source, source, told, "--device", device)[0], 0)

    def test_parts(self):
        status, out, err = self.checked(IN_PARTS, OUT_PARTS, report(**TOLD_PARTS))
        self.assertEqual((status, err), (0, ""))
        self.assertEqual(out, "agrees in 2 parts, on each of 8 basis states: 3 wires, 3 qubits, phase 0\n")
        priced = self.file("d", "format = 2\nqubits = 3\nedges = [[0, 1, 5], [1, 0, 5], [1, 2, 7]]\n")
        for cost, status in (({"cost": 27}, 0), ({}, 1)):
            self.assertEqual(self.checked(IN_PARTS, OUT_PARTS, report(**TOLD_PARTS, **cost), "--device", priced)[0], status)
        # T across a barrier is as a whole what it was
        halves = HEAD + "qreg q[1];\nt q[0];\nbarrier q[0];\nt q[0];\n"
        told = {"between": [[0]], "final": [0], "initial": [0], "device": 1, "qubits": 1, "cx_before": 0, "cx_after": 0, "t_before": 2}
        told = TOLD_PARTS | told | {"swaps": 0}
        self.assertEqual(self.checked(halves, halves, report(**told))[0], 0)
        moved = HEAD + "qreg q[1];\nbarrier q[0];\ns q[0];\n"
        status, out, _ = self.checked(halves, moved, report(**told | {"t_after": 0}))
        self.assertEqual((status, out.count("\n")), (1, 2))
        for number in (1, 2):
            self.assertIn(f"differs: part {number}: from |1> (wire 0 first) the amplitude of |1> is ", out)

    def test_barriers_and_parts_that_are_written_otherwise(self):
        for old, new, said in (
            ("barrier q[2],q[1];\n", "", "the output has 0 barriers in place of 1"),
            ("barrier q[2],q[1]", "barrier q[1],q[2]", "barrier 1 names the qubits [1, 2] in place of [2, 1]"),
            ("barrier q[2],q[1]", "barrier q[2],q[0]", "barrier 1 names the qubits [2, 0] in place of [2, 1]"),
            ("cx q[1],q[2];\nbarrier q[2],q[1];\n", "barrier q[2],q[1];\ncx q[1],q[2];\n", "part 1: from |"),
            ("cx q[1],q[0];\nt", "cx q[1],q[0];\ntdg", "part 2: from |"),
        ):
            status, out, _ = self.checked(IN_PARTS, OUT_PARTS.replace(old, new), report(**TOLD_PARTS))
            self.assertEqual(status, 1)
            self.assertTrue(out.startswith(f"differs: {said}"), out)
        # two T that could have been one S
        source = HEAD + "qreg q[1];\nbarrier q;\nt q[0];\nt q[0];\n"
        told = TOLD_PARTS | {"between": [[0]], "final": [0], "initial": [0], "device": 1, "qubits": 1, "cx_before": 0, "cx_after": 0}
        status, out, _ = self.checked(source, source, report(**told | {"swaps": 0}))
        self.assertEqual((status, out), (1, "differs: part 2: 2 T gates, and the source has 0 odd path parities\n"))

    def test_reports_of_parts_that_cannot_be(self):
        for told, said in (
            ({"format": 1}, "the report says format 1, and has the keys of format 3"),
            ({"parts": [0]}, "the report tells of 1 parts, and of 1 placements between them"),
            ({"parts": [4, 3]}, "the powers of the parts add up to 7, and the phase is 0"),
            ({"parts": [4, 4]}, "part 1: from |"),
            ({"parts": [8, 0]}, "parts is no list of powers from 0 to 7"),
            ({"parts": None}, "parts is no list of powers from 0 to 7"),
            ({"between": [[0, 1, 2]]}, "barrier 1 names the qubits [2, 1] in place of [2, 0]"),
            ({"between": [[1, 1, 2]]}, "between is no list of placements of 3 wires"),
            ({"between": [0]}, "between is no list of placements of 3 wires"),
            ({"between": None}, "between is no list of placements of 3 wires"),
            ({"barriers": 2}, "the report says barriers 2, the programs say 1"),
            ({"between": [[1, 0, 2]] * 2, "parts": [0, 0, 0]}, "the report tells of 2 barriers, and the source has 1"),
        ):
            status, out, err = self.checked(IN_PARTS, OUT_PARTS, report(**TOLD_PARTS | told))
            self.assertEqual((status, err), (1, ""), told)
            self.assertTrue(out.startswith(f"differs: {said}"), out)
        for key in ("parts", "between"):
            told = {name: it for name, it in TOLD_PARTS.items() if name != key}
            self.assertEqual(self.checked(IN_PARTS, OUT_PARTS, json.dumps(told))[0], 1)

    def test_what_is_left_to_cancel(self):
        source = HEAD + "qreg q[3];\ncx q[1],q[0];\ncx q[2],q[0];\n"
        turned = HEAD + "qreg q[3];\nh q[1];\nh q[0];\ncx q[0],q[1];\nh q[1];\n%sh q[2];\ncx q[0],q[2];\nh q[2];\nh q[0];\n"
        told = {"device": 3, "qubits": 3, "initial": [0, 1, 2], "final": [0, 1, 2], "cx_before": 2, "cx_after": 2}
        on = ("--device", self.file("d", "qubits = 3\nedges = [[0, 1], [0, 2]]\n"), "--clean")
        # two Hadamards are w^2 times nothing
        self.assertEqual(self.checked(source, turned % "", report(**told, phase=6), *on)[0], 0)
        plain = turned % "h q[0];\nh q[0];\n"
        self.assertEqual(self.checked(source, plain, report(**told, phase=0), *on[:2])[0], 0)
        status, out, _ = self.checked(source, plain, report(**told, phase=0), *on)
        self.assertEqual((status, out), (1, "differs: H 0 at place 4 and H 0 at place 5 cancel or merge\n"))
        # past a gate that commutes; not past one that doesn't, nor past a barrier
        for body, between, found in (
            ("t q[0];\ncx q[0],q[1];\ns q[0];\n", None, "P 1 0 at place 0 and P 2 0 at place 2"),
            ("cx q[0],q[1];\nx q[1];\nh q[2];\ncx q[0],q[1];\n", None, "C 0 1 at place 0 and C 0 1 at place 3"),
            ("t q[1];\ncx q[0],q[1];\ns q[1];\n", None, ""),
            ("t q[0];\nbarrier q[2];\ns q[0];\n", [[0, 1, 2]], ""),
        ):
            text = f"{HEAD}qreg q[3];\n{body}"
            odd = sum(it[0] == "t" for it in body.splitlines())
            count = body.count("cx")
            told |= {"cx_before": count, "cx_after": count, "t_before": odd, "t_after": odd, "phase": 0}
            told |= {"format": 3, "between": between, "parts": [0, 0], "barriers": 1} if between else {}
            status, out, _ = self.checked(text, text, report(**told), "--clean")
            self.assertEqual((status, out.startswith("differs: ")), (int(bool(found)), bool(found)), out)
            self.assertIn(found, out)

    def test_spares(self):
        status, out, err = self.checked(THREE_SUMS, ON_A_SPARE, report(**TOLD_SPARES))
        self.assertEqual((status, err), (0, ""))
        self.assertEqual(out, "agrees on each of 4 basis states, with spare wires at zero: 2 wires, 3 qubits, phase 0\n")
        # what is done where the spare is at one isn't looked at
        for more in ("cx q[2],q[0];\n", "z q[2];\n", "x q[2];\nx q[2];\n"):
            text = ON_A_SPARE.replace("creg c[1];\n", f"creg c[1];\n{more}")
            told = TOLD_SPARES | {"cx_after": text.count("cx"), "phase": 4 * more.count("x q[2];\nx")}
            self.assertEqual(self.checked(THREE_SUMS, text, report(**told))[0], 0, more)
        # so many spares that one state after the other is run
        idle = "".join(f"x q[{i}];\nx q[{i}];\n" for i in range(3, 20))
        text = ON_A_SPARE.replace("qreg q[3];\n", f"qreg q[20];\n{idle}")
        wires = list(range(20))
        told = TOLD_SPARES | {"device": 20, "spares": 18, "initial": wires, "final": wires, "phase": 4 * 17 % 8}
        status, out, _ = self.checked(THREE_SUMS, text, report(**told))
        self.assertEqual((status, out[:34]), (0, "agrees on each of 4 basis states, "))
        status, out, _ = self.checked(THREE_SUMS, text.replace("x q[19];\n", "", 1), report(**told))
        self.assertEqual((status, out.startswith("differs: from |")), (1, True))

    def test_spares_that_are_written_otherwise(self):
        last = "cx q[0],q[2];\ncx q[1],q[2];\nmeasure"
        for old, new, told, said in (
            # a spare is left at a sum, at one, in both states
            (last, "cx q[0],q[2];\nmeasure", {"cx_after": 3}, "from |010> (wire 0 first) the amplitude of |010> is 0.0"),
            (last, f"x q[2];\n{last}", {}, "from |000> (wire 0 first) the amplitude of |000> is 0.0"),
            (last, f"h q[2];\n{last}", {}, "from |000> (wire 0 first) the amplitude of |000> is 0.5"),
            # a phase is off, as told and by a gate
            ("", "", {"phase": 1}, "from |000> (wire 0 first) the amplitude of |000> is 1.0"),
            ("t q[2]", "tdg q[2]", {}, "from |100> (wire 0 first) the amplitude of |100> is 1.0"),
            # a gate is left out
            ("t q[2];\n", "", {"t_after": 2}, "from |100> (wire 0 first) the amplitude of |100> is "),
            ("cx q[1],q[2];\nt q[0]", "t q[0]", {"cx_after": 3}, "from |"),
            # more T gates than there are sums
            ("t q[2];\n", "t q[2];\nt q[1];\ntdg q[1];\n", {"t_after": 5}, "5 T gates, and the source has 3 odd path parities"),
            # a spare is read
            ("measure q[1]", "measure q[2]", {}, "c[0] reads qubit 2 in place of 1"),
            ("measure", "barrier q[0];\nmeasure", {}, "the output has 1 barriers in place of 0"),
        ):
            self.assertIn(old, ON_A_SPARE)
            status, out, err = self.checked(THREE_SUMS, ON_A_SPARE.replace(old, new, 1), report(**TOLD_SPARES | told))
            self.assertEqual((status, err), (1, ""))
            self.assertTrue(out.startswith(f"differs: {said}"), out)

    def test_reports_of_spares_that_cannot_be(self):
        for told, said in (
            ({"format": 1}, "the report says format 1, and has the keys of format 4"),
            ({"spares": 0}, "the report says spares 0, qubits 2 and device 3"),
            ({"spares": 2}, "the report says spares 2, qubits 2 and device 3"),
            ({"spares": True}, "the report says spares True, qubits 2 and device 3"),
            ({"spares": None}, "the report says spares None, qubits 2 and device 3"),
            ({"qubits": 1, "spares": 2}, "the report says qubits 1, the programs say 2"),
            ({"final": [1, 0, 2]}, "with spare wires final isn't the identity"),
            ({"initial": [0, 2, 1], "final": [0, 2, 1]}, "with spare wires initial isn't the identity"),
            ({"swaps": 1}, "the report tells of spares, and says swaps 1"),
            ({"cost": 3}, "the report tells of cost and of spares"),
            ({"between": [], "parts": [0]}, "the report tells of between and of spares"),
            ({"cx_after": 2}, "the report says cx_after 2, the programs say 4"),
        ):
            status, out, err = self.checked(THREE_SUMS, ON_A_SPARE, report(**TOLD_SPARES | told))
            self.assertEqual((status, err), (1, ""), told)
            self.assertTrue(out.startswith(f"differs: {said}"), out)
        # without spares there are at most so many CNOTs, and the third wire may start at one
        told = {name: it for name, it in TOLD_SPARES.items() if name != "spares"} | {"format": 1}
        status, out, _ = self.checked(THREE_SUMS, ON_A_SPARE, report(**told))
        self.assertEqual((status, out), (1, "differs: more CNOTs than before and three for each swap\n"))
        text = THREE_SUMS.replace("qreg q[2];\n", "qreg q[3];\nz q[2];\n")
        status, out, _ = self.checked(THREE_SUMS, text, report(**told | {"cx_after": 2}))
        self.assertEqual((status, out.startswith("differs: from |001> (wire 0 first) ")), (1, True), out)
        self.assertEqual(self.checked(THREE_SUMS, text, report(**TOLD_SPARES | {"cx_after": 2}))[0], 0)

    def test_many_wires(self):
        half = "".join(f"ccx q[{i}],q[{i + 1}],q[{i + 2}];\n" for i in range(0, 38, 2))
        source = f"{HEAD}qreg q[40];\n{half}h q[0];\nh q[0];\n"
        other = f"{HEAD}qreg q[40];\n{half}z q[39];\n"
        wires = list(range(40))
        told = {"device": 40, "qubits": 40, "initial": wires, "final": wires, "cx_before": 114, "cx_after": 114, "t_before": 133}
        # two Hadamards are w^2 times nothing
        status, out, err = self.checked(source, f"{HEAD}qreg q[40];\n{half}", report(**told, t_after=133, phase=6))
        self.assertEqual((status, err), (0, ""))
        self.assertTrue(out.startswith("agrees on 16 of 2^40 basis states: "), out)
        status, out, _ = self.checked(source, other, report(**told, t_after=133, phase=6))
        self.assertEqual(status, 1)
        self.assertIn("differs: from |", out)
        mixed = f"{HEAD}qreg q[40];\nh q;\ncx q[0],q[1];\n"
        told |= {"cx_before": 1, "cx_after": 1, "t_before": 0}
        status, _, err = self.checked(mixed, mixed, report(**told, phase=0))
        self.assertEqual((status, err), (2, "check-small: 40 wires take part, and a basis state branches too often\n"))

    def test_the_bounds(self):
        doubled = "gate g0 a { %s }\n" + "".join(f"gate g{i} a {{ g{i - 1} a; g{i - 1} a; }}\n" for i in range(1, 40))
        for body, said in (
            ("qreg r[9999999999999];", "with this register more than 256 qubits"),
            ("creg r[1025];", "with this register more than 1024 classical bits"),
            ("u1(1.0e99999999) q[0];", "a number with a part above 2^62"),
            ("u1((3^9999)^9999) q[0];", "a number with a part above 2^62"),
            ("u1(4611686018427387904*3) q[0];", "a number with a part above 2^62"),
            (doubled % "t a;" + "g39 q[0];", "more than 65,536 operations"),
            (doubled % "" + "g39 q[0];", "more than 1,048,576 gates of gates"),
        ):
            status, out, err = self.checked(HEAD + f"qreg q[2];\n{body}\n", BELL, report(), timeout=10)
            self.assertEqual((status, out, err.count("\n")), (2, "", 1), body)
            self.assertIn(said, err)
        source = HEAD + "qreg q[1];\nu1(1^99999999*4611686018427387904*0.25e-0*pi) q[0];\n"
        told = report(phase=0, cx_before=0, cx_after=0, device=1, qubits=1, initial=[0], final=[0])
        self.assertEqual(self.checked(source, HEAD + "qreg q[1];\n", told)[0], 0)
