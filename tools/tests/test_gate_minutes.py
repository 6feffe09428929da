import importlib.machinery
import importlib.util
import os
import subprocess
import sys

from tool import TOP, ToolTest

BURN = "import sys, time\nwhile time.process_time() < float(sys.argv[1]): pass\n"


def module():
    loader = importlib.machinery.SourceFileLoader("gate_minutes", os.path.join(TOP, "tools/gate-minutes"))
    made = importlib.util.module_from_spec(importlib.util.spec_from_loader("gate_minutes", loader))
    sys.modules["gate_minutes"] = made
    loader.exec_module(made)
    return made


gate = module()
CHECK = ["rattle", "check", "--crate-name", "low"]


def process(parent, own, reaped=0.0, words=(), folder="/repository/crates/low", memory=1.0):
    return gate.Process(parent, own, reaped, memory, list(words), folder)


class GateMinutes(ToolTest):
    def test_parts(self):
        edit, over = "/tmp/rt-edit-7-x", "--incremental"
        for words, folder, wanted in (
            (CHECK, "/repository/crates/low", ("proof", "low")),
            (["python3", "-ISc", "guard", "rattle", "build", "--crate-name", "low", "--test"], "/repository/crates/low", ("tests", "low")),
            ([*CHECK, over, "/tmp/rt-edits-7-y/seed"], edit, ("seed", "low")),
            ([*CHECK, over, "/tmp/rt-edits-7-y/3"], edit, ("edits", "low")),
            (CHECK, edit, ("edits", "low")),
            (["rattle-link", "-o", "out/low_tests", "out/low_tests.o"], "/repository/crates/low", ("tests", "low")),
            (["rattle-link", "-o", "out/top", "out/top.o"], "/repository/crates/top", ("proof", "top")),
            (["sh", "-c", "own", "", "/tmp/rt-run-7-z/bin/low_tests"], "/tmp/rt-run-7-z/data", ("runs", "low")),
            (["/tmp/rt-run-7-z/bin/top.by-rattle"], "/tmp/rt-run-7-z/data", ("runs", "top")),
            (["python3", "/repository/tools/test"], "/repository", ("tools", "")),
            (["as", "out.s"], "/tmp", ("edits", "above")),
        ):
            self.assertEqual(gate.part_of(process(1, 0.0, words=words, folder=folder), ("edits", "above")), wanted, words)

    def test_time_after_the_last_look(self):
        meter = gate.Meter(1)
        root = ["rt", "ci"]
        other = ["rattle", "check", "--crate-name", "top"]
        key, check, copy, second = (1, 0), (2, 5), (3, 6), (4, 7)
        meter.sample({key: process(0, 1.0, words=root), (9, 9): process(0, 50.0, words=CHECK)}, 0)
        meter.sample({key: process(0, 1.0, words=root), check: process(1, 2.0, words=CHECK), copy: process(2, 3.0, words=CHECK, memory=700.0)}, 1)
        # the copy ends with one second more, of which the check is told
        meter.sample({key: process(0, 1.5, words=root), check: process(1, 2.5, 4.0, words=CHECK), second: process(1, 1.0, words=other)}, 2)
        self.assertEqual(meter.shares["proof", "low"].seconds, 6.5)
        # both end, with 0.5 and 0.5 more; and one that was never seen came and went before
        meter.sample({key: process(0, 1.5, 8.5, words=root)}, 3)
        self.assertEqual({it: share.seconds for it, share in meter.shares.items()}, {("rt", ""): 1.5, ("proof", "low"): 7.0, ("proof", "top"): 1.5})
        meter.sample({key: process(0, 1.5, 10.5, words=root)}, 4)
        self.assertEqual(meter.shares["rt", ""].seconds, 3.5)
        # one goes, and its parent is told the time at the next look alone
        third = (5, 8)
        meter.sample({key: process(0, 1.5, 10.5, words=root), third: process(1, 2.0, words=other)}, 5)
        meter.sample({key: process(0, 1.5, 10.5, words=root)}, 6)
        meter.sample({key: process(0, 1.5, 12.75, words=root)}, 7)
        self.assertEqual((meter.shares["proof", "top"].seconds, meter.shares["rt", ""].seconds), (3.75, 3.5))
        share = meter.shares["proof", "low"]
        self.assertEqual((share.begin, share.end, share.memory), (1, 2, 700.0))

    def test_a_run(self):
        burn = self.file("burn.py", BURN)
        # each waits after its work, so that it is looked at also on a machine that is busy
        self.file("burn.py", BURN + "time.sleep(4)\n")
        script = f"{sys.executable} {burn} 0.7 --crate-name low & {sys.executable} {burn} 0.4 --crate-name top --test; wait; exit 3"
        path = os.path.join(self.room, "gate.tsv")
        status, out, err = self.run_tool("gate-minutes", "-o", path, "--seconds", "0.1", "--", "bash", "-c", script, timeout=600)
        self.assertEqual((status, err), (3, ""))
        shares = gate.read(path)
        self.assertAlmostEqual(shares["proof", "low"].seconds, 0.75, delta=0.25)
        self.assertAlmostEqual(shares["tests", "top"].seconds, 0.45, delta=0.25)
        self.assertIn("| `low` | 1 |  |  |  | 1 | 0.0 |\n", out)
        self.assertEqual(self.run_tool("gate-minutes", "--table", path), (0, out, ""))

    def test_the_sum_is_the_systems(self):
        path = os.path.join(self.room, "gate.tsv")
        burn = self.file("burn.py", BURN)
        script = "".join(f"{sys.executable} {burn} 0.2 --crate-name c{i}; " for i in range(4))
        words = [os.path.join(TOP, "tools/gate-minutes"), "-o", path, "--seconds", "0.15", "bash", "-c", script]
        before = os.times()
        subprocess.run(words, capture_output=True, check=True)
        after = os.times()
        spent = sum(after[2:4]) - sum(before[2:4])
        total = sum(it.seconds for it in gate.read(path).values())
        self.assertGreater(total, 0.8)
        self.assertLess(total, spent)

    def test_what_is_not_there(self):
        self.assertEqual(self.run_tool("gate-minutes", "nosuch/command")[::2], (2, "gate-minutes: nosuch/command: No such file or directory\n"))
        self.assertEqual(self.run_tool("gate-minutes", "--table", "/none")[::2], (2, "gate-minutes: /none: No such file or directory\n"))
