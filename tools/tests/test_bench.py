import contextlib
import io
import json
import os
import pathlib
import runpy
import subprocess
import sys
from unittest import mock

from tool import TOP, ToolTest

sys.path.insert(0, os.path.join(TOP, "tools", "lib"))
import hostile
import traces

LINE = "devices/line_5.toml"
SWAPPED = "cx q[0],q[1];\ncx q[2],q[1];\ncx q[1],q[2];\ncx q[2],q[1];\ncx q[0],q[1];\n"


class Bench(ToolTest):
    def setUp(self):
        super().setUp()
        self.parts = runpy.run_path(os.path.join(TOP, "bench/run"), run_name="parts")

    def bench(self, *words):
        ran = subprocess.run([os.path.join(TOP, "bench/run"), *words], capture_output=True, text=True, timeout=120)
        return ran.returncode, ran.stdout, ran.stderr

    def test_help(self):
        status, out, err = self.bench("--help")
        self.assertEqual((status, err), (0, ""))
        self.assertIn("--plot FILE", out)

    def test_a_program_that_answers_nothing(self):
        path = os.path.join(self.room, "plot.svg")
        status, out, err = self.bench("/bin/true", "--plot", path)
        self.assertEqual((status, err), (1, ""))
        self.assertIn("wrong: opt on 20 wires, 2000 gates: ", out)
        self.assertIn("wrong: routing on grid_8x8, 2000 gates: placements\n", out)
        self.assertIn("wrong: routing on grid_4x5, 65536 gates: placements\n", out)
        self.assertIn("wrong: route --trace, 65536 gates: the trace begins and ends with [] in place of", out)
        self.assertIn("wrong: verify, 65536 gates: it says b''b'' in place of b'yes None\\n'\n", out)
        self.assertIn("wrong: amplitude on 12 wires, 2000 gates: it says b'' in place of a power of w\n", out)
        self.assertIn("wrong: 20000 CNOTs on devices/grid_8x8_directed.toml: placements\n", out)
        self.assertIn("wrong: examples/bell.qasm, opt: ", out)
        self.assertIn("wrong: examples/bell.qasm, opt --spares 4: ", out)
        self.assertIn("wrong: bench --start 1 --gates 300 --device devices/line_5.toml: ", out)
        self.assertNotIn("aim of", out)
        with open(path, encoding="utf-8") as file:
            self.assertIn("peak memory", file.read())

    def test_a_program_that_fails(self):
        status, out, err = self.bench("/bin/false")
        self.assertEqual((status, err), (1, ""))
        self.assertIn("wrong: opt on 64 wires, 65536 gates: status [1]\n", out)
        self.assertIn("wrong: verify, 20000 gates: status [1]\n", out)

    def test_programs_a_second(self):
        words = [os.path.join(TOP, "bench/batch"), os.environ.get("QROUTE", os.path.join(TOP, "out/qroute")), "--programs", "3", "--jobs", "1"]
        if not os.access(words[1], os.X_OK):
            self.skipTest("there is no built program")
        ran = subprocess.run(words, capture_output=True, text=True, timeout=120)
        self.assertEqual((ran.returncode, ran.stderr), (0, ""))
        self.assertRegex(ran.stdout, r"^3 programs, 1 at a time: [\d.]+ s, \d+ a second\nprocessor time for each, in ms: [\d.]+, of which the program ")
        ran = subprocess.run([words[0], "/bin/false", *words[2:]], capture_output=True, text=True, timeout=120)
        self.assertEqual(ran.returncode, 1)

    def test_no_program(self):
        path = self.file("words", "no program")
        self.assertEqual(self.bench(path), (2, "", f"bench: {path} is no program\n"))
        os.chmod(path, 0o755)
        status, _, err = self.bench(path)
        self.assertEqual(status, 2)
        self.assertIn("can't be run", err)

    def test_a_picture_that_cannot_be_written(self):
        path = os.path.join(self.room, "none/plot.svg")
        self.assertEqual(self.bench("/bin/true", "--plot", path), (2, "", f"bench: {path}: No such file or directory\n"))

    def test_a_program_that_is_drawn(self):
        text, counts = self.parts["drawn"](12, 4)
        gates = "cx1.2 cx2.1 tdg.2 t.2 s.2 x.0 tdg.0 tdg.3 x.1 s.1 cx2.3 h.0"
        lines = text.decode().splitlines()
        self.assertEqual(lines[2], "qreg q[4];")
        written = [it.replace("cx q[", "cx").replace("],q[", ".").replace(" q[", ".").rstrip("];") for it in lines[3:]]
        self.assertEqual((" ".join(written), counts), (gates, (4, 3)))

    def test_a_program_that_is_taken_back(self):
        whole = self.parts["entry_program"](122).decode()
        self.assertEqual((whole.count("\nh "), whole.count(";\n")), (60, 125))
        # what is left is a NOT and a T
        ends = self.file("ends", whole.split("qreg")[0] + "qreg q[12];\nx q[0];\nt q[0];\n")
        t_gates, cnots = self.parts["counted"](whole.splitlines())
        report = {"barriers": 0, "device": 12, "format": 1, "phase": 0, "qubits": 12, "swaps": 0}
        report |= {"t_before": t_gates, "t_after": 1, "cx_before": cnots, "cx_after": 0}
        told = self.file("report", json.dumps(report | {"initial": [*range(12)], "final": [*range(12)]}) + "\n")
        status, out, err = self.run_tool("check-small", self.file("whole", whole), ends, told)
        self.assertEqual((status, err), (0, ""), out)

    def test_powers(self):
        for line, count in (("0 0 0 -1 0\n", 0), ("1 0 0 0 0\n", 0), ("1 0 0 0 1\n", 1), ("1 1 0 0 0\n", 1), ("2 0 0 0 0\n", 1), ("0 0 0 1 0", 1)):
            answer = self.parts["Answer"](0, line.encode(), b"")
            self.assertEqual(len(self.parts["entry_faults"](answer)), count, line)

    def test_the_best_of_some_runs(self):
        path = self.file("program", '#!/bin/sh\necho >> "$1"; [ $(wc -l < "$1") = "$2" ] && echo more\n')
        os.chmod(path, 0o755)
        self.file("in", "")
        for last, wanted in (("9", 3), ("1", 2), ("2", 2)):
            count = self.file("count", "")
            answer, _, _ = self.parts["best_of"](3, [path, count, last], pathlib.Path(self.room))
            with open(count) as file:
                self.assertEqual(len(file.read()), wanted)
            self.assertGreater(answer.wall, 0)

    def answer(self, gates, **told):
        """The answer with these lines of gates on a line of five qubits, and a report that is told otherwise."""
        report = {"t_before": 0, "t_after": 0, "cx_before": 2, "cx_after": gates.count("cx"), "swaps": 1}
        report |= {"initial": [0, 1, 2, 3, 4], "final": [0, 2, 1, 3, 4]} | told
        head = 'OPENQASM 2.0;\ninclude "qelib1.inc";\nqreg q[5];\n'
        return self.parts["Answer"](0, f"{head}{gates}".encode(), json.dumps(report).encode())

    def test_wrong_answers(self):
        pairs = [(0, 1), (0, 2)]
        for gates, told, wanted in (
            (SWAPPED, {}, []),
            (SWAPPED, {"final": [0, 1, 2, 3, 4]}, ["the bits of wire 1", "the bits of wire 2"]),
            (SWAPPED, {"final": [0, 2, 2, 3, 4]}, ["placements"]),
            (SWAPPED, {"swaps": 0}, ["a count rose"]),
            (SWAPPED, {"cx_before": 3}, ["T gates and CNOTs before are (0, 3) in place of (0, 2)"]),
            (SWAPPED, {"cx_after": 4}, ["T gates and CNOTs after are (0, 4) in place of (0, 5)"]),
            ("cx q[0],q[1];\ncx q[0],q[2];\n", {"final": [0, 1, 2, 3, 4]}, ["a CNOT that follows no edge"]),
            ("cx q[0],q[1];\nt q[0];\n", {"t_after": 1}, ["a count rose", "unexpected line t q[0];"]),
        ):
            self.assertEqual(self.parts["map_faults"](self.answer(gates, **told), pairs, LINE), wanted)

    def test_an_answer_that_route_does_not_give(self):
        path = self.file("program", '#!/bin/sh\n[ "$1" = bench ] && echo drawn || echo routed\n')
        os.chmod(path, 0o755)
        row = self.parts["drawn_row"](path, 10, LINE)
        self.assertEqual(row.words[:2], ["bench", "--start"])
        self.assertIn("it isn't what `route` writes", row.check(self.parts["answer_of"]([path, *row.words], row.text)))

    def test_wrong_traces(self):
        plain = self.answer(SWAPPED, phase=3)
        unlike = "it isn't what `route` writes without `--trace`"
        ends = "the trace begins and ends with {} in place of ['//!TRACE 1', '//!end 3']"
        for lines, told, wanted in (
            ("//!TRACE 1\n//!emit 0\n//!end 3\n", {"phase": 3}, []),
            ("//!TRACE 1\nt q[0];\n//!end 3\n", {"phase": 3}, ["a line behind the program that is none of a trace"]),
            ("//!TRACE 1\n//!end 4\n", {"phase": 3}, [ends.format(["//!TRACE 1", "//!end 4"])]),
            ("//!TRACE 1\n//!end 3\n", {"phase": 3, "swaps": 2}, [unlike]),
            ("", {"phase": 3}, [ends.format([])]),
        ):
            self.assertEqual(self.parts["traced_faults"](self.answer(SWAPPED + lines, **told), plain), wanted)
        found = self.parts["traced_faults"](self.answer("//!TRACE 1\n//!end 3\n", phase=3), plain)
        self.assertIn(unlike, found)

    def test_wrong_verdicts(self):
        made = self.parts["Answer"]
        no = made(1, b"", b'{"fault":"Trace","line":9,"status":1}\n')
        for answer, altered, count in (
            (made(0, b"yes 6\n", b""), no, 0),
            (made(0, b"yes 5\n", b""), no, 1),
            (made(0, b"yes 6\n", b"{}\n"), no, 1),
            (made(0, b"yes 6\n", b""), made(0, b"yes 6\n", b""), 1),
            (made(0, b"", b""), made(1, b"yes 6\n", b""), 2),
        ):
            self.assertEqual(len(self.parts["verdict_faults"](answer, 6, altered)), count)

    def test_files_beside_the_input(self):
        says = """[ "$1" = route ] && echo '{"phase":2}' >&2 && exec cat "$3"; cat "$3" "$5"\n"""
        path = self.file("program", f"#!/bin/sh\n{says}")
        os.chmod(path, 0o755)
        row = self.parts["verified_row"](path, 10)
        self.assertEqual((row.command, row.words), ("verify", ["verify", "--source", "SOURCE", "--target", "TARGET"]))
        self.assertIn(b"qubits = 20\nedges = [[0, 1], [0, 2], ", row.files["TARGET"])
        answer = self.parts["answer_of"]([path, *row.words], row.text, row.files)
        self.assertEqual(answer.out, row.files["SOURCE"] + row.files["TARGET"])
        self.assertIn("in place of b'yes 2\\n'", row.check(answer)[0])

    def test_hostile_traces(self):
        def checked(source, target):
            sides = [traces.side(name, text) for name, text in (("source", source), ("target", target))]
            return traces.checked(*sides, [line for _, line in traces.of_text(target)]).in_words()

        with mock.patch.object(hostile, "MOST_TARGET", 4_000):
            for source, target, wanted in (
                (hostile.in_turn(3), hostile.in_turn_target(3), "yes 6"),
                (hostile.in_turn(3), hostile.in_turn_target(3, True), "yes 6"),
                (hostile.phases(10), hostile.far_joins(10), "yes 0"),
                (hostile.far_pairs(20, 4), hostile.far_boths(20, 4), "yes 0"),
                (hostile.far_pairs(20, 4), hostile.far_boths(20, 4, "part 0 0 0"), "yes 0"),
                (hostile.mixed_sums(2, 8), hostile.mixed_sums_target(2, 8), "yes 0"),
                (hostile.HEAD + "qreg q[4];\n", hostile.empty_sums(3, 4), "yes 0"),
                (hostile.t_gates(9), hostile.growing_parts(9, 5), "yes 0"),
                (hostile.t_gates(9), hostile.growing_parts(9, 5, is_at_many=True), "yes 0"),
                (hostile.t_gates(9), hostile.growing_parts(9, 5, is_kept=True), "yes 0"),
            ):
                self.assertEqual(checked(source, target), wanted)
            for it in hostile.KINDS:
                if it.words == hostile.VERIFY and it.status == 1:
                    self.assertRegex(checked(it.text(), it.target()), "^no, line ", it.name)

    def test_instructions(self):
        with mock.patch("shutil.which", lambda name: None), self.assertRaises(SystemExit) as ended:
            with contextlib.redirect_stderr(io.StringIO()) as told:
                self.parts["instructions"]("/bin/true")
        self.assertEqual((ended.exception.code, told.getvalue()), (2, "bench: there is no valgrind\n"))
        counting = self.file("valgrind", '#!/bin/sh\necho "==1== I   refs:      1,234" > "${2#--log-file=}"\n')
        os.chmod(counting, 0o755)
        self.file("in", "")
        with mock.patch.dict(os.environ, PATH=f"{self.room}:{os.environ['PATH']}"):
            self.assertEqual(self.parts["instructions_of"](["/bin/true"], pathlib.Path(self.room)), (0, 1_234))

    def test_a_hostile_text_and_its_files(self):
        path = self.file("program", '#!/bin/sh\ncat "$2" "$3"\n[ "$1" = check ]\n')
        os.chmod(path, 0o755)
        made = {"text": lambda: "source", "target": lambda: "target"}
        ends = ("check", 0), ("verify", 0), ("verify", 1)
        kinds = [hostile.Kind("a text", (word, "SOURCE", "TARGET"), status, **made) for word, status in ends]
        with mock.patch.object(hostile, "KINDS", kinds), contextlib.redirect_stdout(io.StringIO()) as told:
            wrong = self.parts["hostile_texts"](path)
        self.assertEqual(wrong, ["verify of a text: status 1 in place of 0", "verify of a text: status 1 in place of 1"])
        self.assertIn(" 12            12\n", told.getvalue())

    def test_the_table_of_hostile_texts(self):
        kinds = [hostile.Kind(name, ("check",), status, lambda: "") for name, status in (("fast", 0), ("slow", 0), ("endless", 3))]
        taken = self.parts["Taken"]
        found = [taken(it, *row) for it, row in zip(kinds, ((0.1, 20, 9, 0, 0), (7.25, 500, 4_190_000, 12, 0), (200, 20, 9, 0, -24)))]
        lines = self.parts["hostile_part"](found, 3).splitlines()
        self.assertRegex(lines[0], r"^Of \d+\.\d+\.\d+, on [-\d]+, best of 3 runs: 3 texts, of which 2 take more than 5 s ")
        self.assertRegex(lines[1], r"; no other takes more than 0\.10 s or 20 MB:$")
        self.assertEqual(lines[5:], ["| endless | `check` | 0.00 | 0.0 | above 200 | 20 |", "| slow | `check` | 4.19 | 0.0 | 7.25 | 500 |"])
        document = self.file("document", "a\n<!-- hostile -->\nold\n<!-- /hostile -->\nb\n")
        told = self.parts["hostile_texts"].__globals__
        with mock.patch.dict(told, DOCUMENT=pathlib.Path(document), hostile_measured=lambda *_: found):
            with contextlib.redirect_stdout(io.StringIO()):
                self.assertEqual(self.parts["hostile_texts"]("", "", 3, True), [])
        with open(document, encoding="utf-8") as file:
            self.assertEqual(file.read(), "a\n<!-- hostile -->\n" + "\n".join(lines) + "\n<!-- /hostile -->\nb\n")
        ran = self.bench("--hostile", "a", "--mend")
        self.assertEqual(ran, (2, "", "bench: --mend goes with --hostile of all texts\n"))
