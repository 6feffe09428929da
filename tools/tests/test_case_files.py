import os
import sys

from tool import TOP, ToolTest

sys.path.insert(0, os.path.join(TOP, "tools", "lib"))
import cases

# Writes its input behind its words to standard output, the file d.toml to standard error, and ends with the status that the
# last word is.
STAND_IN = """#!/bin/sh
for last; do :; done
echo "$*" && cat || exit 6
if [ -d d.toml ]; then echo folder >&2; elif [ -e d.toml ]; then cat d.toml >&2; fi
exit "$last"
"""
RIGHT = """# a case
$ qroute name 3
| one
| two
@d.toml first
@d.toml second
! input bare
% 8 input
% 13 d.toml
= 3
> name 3
> one
> two
~ first
~ second
< 0
"""


class CaseFiles(ToolTest):
    """How files of cases are read and judged; the cases themselves are run by tools/cases."""

    def setUp(self):
        super().setUp()
        self.stand_in = self.file("qroute", STAND_IN)
        os.chmod(self.stand_in, 0o755)

    def flaws(self, text):
        """What is wrong with the cases of a text, run by the stand-in."""
        found = cases.read_cases(self.file("theme.txt", text))
        return [wrong for _, wrong in cases.run_cases(found, self.stand_in)]

    def assert_right(self, text):
        self.assertEqual([it for it in self.flaws(text) if it], [])

    def test_right(self):
        self.assert_right(RIGHT)

    def test_each_sign_can_fail(self):
        changes = (
            ("= 3", "= 4", "status 3, and not 4"),
            ("= 3\n", "", "status 3, and not 0"),
            ("> one", "> eno", "-eno"),
            ("> two\n", "", "+two"),
            ("> two", "> two\n> three", "-three"),
            ("> two", "> two\\", "-two"),
            ("~ second", "~ third", "report without third: first"),
            ("~ first\n~ second\n", "", "+second"),
            ("~ first\n~ second", "{ first", "+second"),
            ("< 0", "< -1", "0 gates, and at most -1 are wanted"),
            ("% 8", "% 9", "the case itself: input has 8 bytes, and not 9"),
            ("% 13 d", "% 13 e", "the case itself: e.toml has 0 bytes, and not 13"),
            ("! input bare\n", "", "+OPENQASM 2.0;"),
            ("@d.toml second\n", "", "report without second: first"),
            ("| two\n", "", "-two"),
            ("name 3\n|", "eman 3\n|", "+eman 3"),
        )
        for old, new, told in changes:
            self.assertIn(old, RIGHT)
            (wrong,) = self.flaws(RIGHT.replace(old, new, 1))
            self.assertIn(told, "\n".join(wrong), (old, new))

    def test_headings(self):
        given = 'OPENQASM 2.0;\n> include "qelib1.inc";\n'
        self.assert_right(f"$ qroute 0\n| x; y;\n> 0\n> {given}> x; y;\n")
        self.assert_right("$ qroute 0\n| OPENQASM 3.0;\n> 0\n> OPENQASM 3.0;\n")
        self.assertEqual(cases.read_block(["$ qroute opt", "> x; y;"], "")[0].output, cases.HEADING + b"x;\ny;\n")
        self.assertEqual(cases.read_block(["$ qroute opt"], "")[0].output, cases.HEADING)
        self.assertEqual(cases.read_block(["$ qroute opt", "= 3"], "")[0].output, b"")
        self.assertEqual(cases.read_block(["$ qroute check", "> x; y;"], "")[0].output, b"x; y;\n")
        self.assertEqual(cases.read_block(["$ qroute x", "@a.qasm x", "@a.toml x"], "")[0].files, {"a.qasm": cases.HEADING + b"x\n", "a.toml": b"x\n"})

    def test_ends(self):
        self.assert_right("$ qroute 0\n| x\n! output full\n= 6\n~ I/O error")
        self.assert_right("$ qroute 0\n| x\n! output closed\n= 6\n~ I/O error")
        self.assert_right("$ qroute 0\n! input folder\n= 6\n> 0\n~ Is a directory")
        self.assert_right("$ qroute 0\n| x\n! input bytes\n> ?\n! d.toml folder\n{ folder")
        self.assertIn("status 6, and not 0", self.flaws("$ qroute 0\n! input folder\n> ?\n~ a")[0])
        self.assert_right("$ qroute 5\n@d.toml x\n! report full\n= 5\n> ?")

    def test_each(self):
        found = cases.read_block(["$ each", "= 3"], "")
        self.assertEqual([it.words[1] for it in found], ["opt", "check", "stages", "amplitude", "route"])
        found = cases.read_block(["$ each bench opt"], "")
        self.assertEqual([(it.words[1], it.output) for it in found], [("opt", cases.HEADING), ("bench", cases.HEADING)])

    def test_made_lines(self):
        rows = (
            (": x", ["x"]),
            ("3 times: x", ["x"] * 3),
            ("i in 1..3: x${i + 1}", ["x2", "x3"]),
            ("2 times, i in 0..2, j in 0..2: ${i}${j}", ["00", "01", "10", "11"] * 2),
            (': (${3 * "("}${join(",", range(3))})', ["((((0,1,2)"]),
            (': {${join("; ", range(1, 3), "q[#]")}}', ["{q[1]; q[2]}"]),
        )
        for rule, lines in rows:
            self.assertEqual(cases.made_lines(rule), lines)

    def test_malformed(self):
        rows = (
            ("$ qroute 0\nx", "no sign: x"),
            ("$ other 0", "words that don't begin with `qroute`: other 0"),
            ("$ each none", "no such command for `each`: none"),
            ("# a\n| x", "not one line of words"),
            ("$ qroute 0\n= 1\n= 2", "more than one line ="),
            ("$ qroute 0\n! output folder", "no end that fails so: output folder"),
            ("$ qroute 0\n@d x\n! d folder", "no end that fails so: d folder"),
            ("$ qroute 0\n|* 3 x", "a made line without a colon: 3 x"),
            ("$ qroute 0\n|* some times: x", "no range: some times"),
            ("$ qroute 0\n|* : ${i}", "name 'i' is not defined"),
            ("$ qroute 0\n= x", "invalid literal for int() with base 10: 'x'"),
        )
        for text, told in rows:
            with self.assertRaisesRegex(cases.Malformed, f"theme.txt:3: {told.replace('(', '.').replace(')', '.')}"):
                cases.read_cases(self.file("theme.txt", f"# theme\n\n{text}\n"))

    def test_tool(self):
        status, out, err = self.run_tool("cases", "none")
        self.assertEqual((status, out), (2, ""))
        self.assertIn("cases: no theme none; there are ", err)
        status, out, err = self.run_tool("cases", "--program", self.room + "/none", "read")
        self.assertEqual((status, out, err), (2, "", "cases: there is no built program\n"))

    def test_programs_that_answer_nothing(self):
        """One that always says that memory is wanting fails each case of the folder, and one that says nothing all but few."""
        silent = []
        for theme in cases.themes():
            for case in cases.read_cases(os.path.join(cases.FOLDER, f"{theme}.txt")):
                self.assertNotEqual(cases.flaws(case, cases.Ran(7, b"", b"")), [], case.place)
                if not cases.flaws(case, cases.Ran(0, b"", b"")):
                    silent.append(" ".join(case.words))
        self.assertEqual(silent, ["qroute stages"])
