import os
import shutil
import subprocess

from tool import TOP, ToolTest

TESTS = """import os
import unittest


class It(unittest.TestCase):
    def test_passes(self):
        self.assertTrue(os.environ["QROUTE"].endswith("out/qroute"))

    def test_fails(self):
        self.assertEqual(1, 2)

    def test_is_skipped(self):
        self.skipTest("no reason")
"""


class Test(ToolTest):
    def setUp(self):
        super().setUp()
        self.file("tools/tests/test_it.py", TESTS)
        for name in ("test", "lib/built.py"):
            os.makedirs(os.path.dirname(os.path.join(self.room, "tools", name)), exist_ok=True)
            shutil.copy(os.path.join(TOP, "tools", name), os.path.join(self.room, "tools", name))

    def run_test(self, *words, **more):
        env = {name: it for name, it in os.environ.items() if name != "QROUTE"} | more
        ran = subprocess.run([os.path.join(self.room, "tools/test"), *words], capture_output=True, text=True, env=env, timeout=60)
        return ran.returncode, ran.stdout.splitlines(), ran.stderr

    def program(self, place="out/qroute"):
        path = self.file(place, "#!/bin/sh\n")
        os.chmod(path, 0o755)
        return path

    def test_a_name_that_is_none(self):
        status, out, err = self.run_tool("test", "nosuch")
        self.assertEqual((status, out, err.count("\n")), (2, "", 1))
        self.assertRegex(err, "^test: no tests of the name nosuch; there are [a-z_ ]*\\bbench [a-z_ ]*\\bbuild case_files certify check_small ")

    def test_what_fails_is_told(self):
        path = self.program()
        status, out, err = self.run_test("it")
        self.assertEqual((status, err, out[0], out[-1]), (1, "", f"the program is {path}", "1 passed, 1 failed"))
        self.assertIn("== test_it.It.test_fails: failed", out)
        self.assertIn("AssertionError: 1 != 2", out)
        self.assertIn("skipped: test_it.It.test_is_skipped: no reason", out)
        self.assertIn("failed: test_it.It.test_fails", out)
        self.assertEqual(self.run_test("it.It.test_passes")[0], 0)
        self.assertEqual(self.run_test("--jobs", "1", "it.It.test_passes")[0], 0)
        self.assertEqual(self.run_test("--jobs", "0", "it.It.test_passes")[0], 2)
        self.assertEqual(self.run_test("it.It.test_nosuch")[1][-1], "0 passed, 1 failed")

    def test_which_program(self):
        gate = self.program("crates/qroute/out/qroute")
        self.assertEqual(self.run_test("it.It.test_passes")[1][0], f"the program is {gate}")
        source = self.file("crates/qroute/src/main.rt", "")
        os.utime(source, (2**32, 2**32))
        self.assertEqual(self.run_test("it.It.test_passes")[1][0], f"the program is {gate}, which is older than a source")
        own = self.program()
        self.assertEqual(self.run_test("it.It.test_passes")[1][0].split(",")[0], f"the program is {own}")
        self.assertEqual(self.run_test("it.It.test_passes", QROUTE=gate)[1][0].split(",")[0], f"the program is {gate}")
        self.assertEqual(self.run_test("it.It.test_passes", QROUTE="/none")[::2], (2, "test: there is no program to test\n"))

    def test_it_builds_if_nothing_is_built(self):
        launcher = self.file("qroute", '#!/bin/sh\necho building >&2\nmkdir -p "${0%/*}/out"\ncp /bin/true "${0%/*}/out/qroute"\n')
        os.chmod(launcher, 0o755)
        self.assertEqual(self.run_test("it.It.test_passes")[::2], (0, "building\n"))
        self.file("qroute", "#!/bin/sh\nexit 70\n")
        os.remove(os.path.join(self.room, "out/qroute"))
        self.assertEqual(self.run_test("it.It.test_passes")[::2], (2, "test: there is no program to test\n"))

    def test_checks(self):
        self.program()
        path = self.file("tools/check-docs", "#!/bin/sh\necho it differs\nexit 1\n")
        os.chmod(path, 0o755)
        status, out, _ = self.run_test("check-docs", "cases")
        self.assertEqual((status, out[-1]), (1, "0 passed, 1 failed"))
        self.assertIn("== check-docs: failed\nit differs\ncheck-docs: status 1", "\n".join(out))
        self.assertIn("skipped: cases: tools/cases isn't here", out)
