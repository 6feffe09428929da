import os
import subprocess

from tool import TOP, ToolTest

PROGRAM = "OPENQASM 2.0;\nqreg q[1];\n"
REPORT = (
    '{"barriers":0,"cx_after":0,"cx_before":0,"device":1,"final":[0],"format":1,"initial":[0],"phase":0,"qubits":1,'
    '"swaps":0,"t_after":0,"t_before":0}\n'
)


class Streams(ToolTest):
    """Each tool where a standard stream is closed, full, or of another kind than it should be."""

    def setUp(self):
        super().setUp()
        program, report = self.file("p.qasm", PROGRAM), self.file("r", REPORT)
        self.given = self.file("given", '[[0, 1]]\n{"fault":"Words","status":2}\n')
        self.map = self.file("map", "[[0, 1]]")
        self.calls = {
            "certify": [program, program],
            "check-small": [program, program, report],
            "check-trace": [program, program, self.file("trace", "TRACE 1\nplace 0\nend 0\n")],
            "device": [self.map],
            "draw": [program],
            "explain": [],
        }

    def ends(self, tool, words, redirected):
        """How a tool ends with some streams redirected by a shell."""
        script = f'"$0" "$@" {redirected}'
        path = os.path.join(TOP, "tools", tool)
        with open(self.given, "rb") as given:
            ran = subprocess.run(["bash", "-c", script, path, *words], stdin=given, capture_output=True, text=True, timeout=60)
        return ran.returncode, ran.stdout, ran.stderr

    def test_output(self):
        for tool, words in self.calls.items():
            self.assertEqual(self.ends(tool, words, "")[0], 0, tool)
            self.assertEqual(self.ends(tool, words, ">&-"), (2, "", f"{tool}: standard output: it is closed\n"))
            full = (2, "", f"{tool}: standard output: No space left on device\n")
            self.assertEqual(self.ends(tool, words, ">/dev/full"), full)
            self.assertEqual(self.ends(tool, words, ">&- 2>&-"), (2, "", ""))

    def test_input(self):
        for tool in ("device", "explain"):
            self.assertEqual(self.ends(tool, [], "<&-"), (2, "", f"{tool}: standard input: it is closed\n"))
            self.assertEqual(self.ends(tool, [], "0>/dev/null"), (2, "", f"{tool}: standard input: Bad file descriptor\n"))

    def test_files(self):
        full = (2, "", "draw: /dev/full: No space left on device\n")
        self.assertEqual(self.ends("draw", [*self.calls["draw"], "-o", "/dev/full"], ""), full)
        none = self.room + "/none"
        for tool, words in self.calls.items():
            wanted = (2, "", f"{tool}: {none}: No such file or directory\n")
            self.assertEqual(self.ends(tool, [none, *words[1:]], ""), wanted)
