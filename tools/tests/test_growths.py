import os
import shutil
import subprocess
import sys

from tool import TOP, ToolTest

sys.path.insert(0, os.path.join(TOP, "tools", "lib"))
import built

# takes memory three times, and has a way round the second; WRITES says whether it writes something where the third is refused
STAND_IN = """
#include <stdlib.h>
#include <unistd.h>
int main(void) {
    char *first = malloc(10);
    if (!first) return 7;
    char *second = malloc(1000);
    if (!second) second = malloc(10);
    if (!second) return 7;
    char *third = malloc(5);
    if (!third && WRITES && write(1, "x", 1) == 1) return 7;
    if (!third) return 7;
    return write(1, "done\\n", 5) != 5;
}
"""


class Growths(ToolTest):
    def setUp(self):
        super().setUp()
        if shutil.which("cc") is None:
            self.skipTest("there is no C compiler")

    def refused(self, writes):
        source, program = self.file("p.c", STAND_IN), os.path.join(self.room, "p")
        subprocess.run(["cc", "-O0", f"-DWRITES={writes}", "-o", program, source], check=True)
        return self.run_tool("refuse-growths", program)

    def test_each_growth(self):
        status, out, err = self.refused(0)
        self.assertEqual((status, err), (0, ""))
        wanted = "opt: status 0, 3 growths, each refused in turn: 2 end with 7 and nothing written, 1 end as with ample memory"
        self.assertEqual(out.splitlines()[0], wanted)

    def test_a_byte_that_went_out(self):
        status, out, err = self.refused(1)
        self.assertEqual((status, err), (1, ""))
        self.assertIn("wrong: opt, growth 3 refused: status 7, 1 bytes of output, b''\n", out)

    def test_no_program(self):
        status, out, err = self.run_tool("refuse-growths", self.file("p", "no program"))
        self.assertEqual((status, out, err), (2, "", f"refuse-growths: {self.room}/p is no program\n"))

    def test_built(self):
        """Each growth of each command on the built program."""
        program = built.program()
        if program is None:
            self.skipTest("there is no built program")
        status, out, err = self.run_tool("refuse-growths", program, timeout=1200)
        self.assertEqual((status, err), (0, ""), out)
        self.assertEqual(len(out.splitlines()), 19)
        self.assertIn("opt: status 0, ", out)
