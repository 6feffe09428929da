import os
import shutil
import subprocess
import time

from tool import TOP, ToolTest

# Stands for rt: notes its words, and leaves a program where the gate does.
RT = """#!/bin/sh
[ "$*" = ci ] || exit 99
ls >"ROOM/seen"
[ -z "$PROGRAM" ] || { mkdir -p crates/qroute/out; cp /bin/true crates/qroute/out/qroute; }
echo "7 passed, 0 failed"
exit $GATE
"""
# stands for the launcher, which takes the gate's program
LAUNCHER = '#!/bin/sh\n[ "$1" = stages ] && echo "taken ${QROUTE_GATE%%.*}"\n'
TOOLS = '#!/bin/sh\necho "$QROUTE"\nexit $TOOLS\n'


class Gate(ToolTest):
    def setUp(self):
        super().setUp()
        self.top = os.path.join(self.room, "checkout")
        os.makedirs(os.path.join(self.top, ".ci"))
        shutil.copy(os.path.join(TOP, ".ci/run"), os.path.join(self.top, ".ci"))
        for name, text in (("bin/rt", RT.replace("ROOM", self.room)), ("bin/apt-get", "#!/bin/sh\n"), ("checkout/tools/test", TOOLS), ("checkout/qroute", LAUNCHER)):
            os.chmod(self.file(name, text), 0o755)

    def gate(self, gate, tools, program="x"):
        env = {"PATH": f"{self.room}/bin:{os.environ['PATH']}", "GATE": str(gate), "TOOLS": str(tools), "PROGRAM": program}
        ran = subprocess.run([os.path.join(self.top, ".ci/run")], capture_output=True, text=True, env=env, cwd="/", timeout=60)
        self.assertEqual(ran.stderr, "")
        return ran.returncode, ran.stdout.splitlines()

    def test_both_are_run_and_the_first_fault_counts(self):
        program = os.path.join(self.top, "crates/qroute/out/qroute")
        for gate, tools, status in ((0, 0, 0), (0, 1, 1), (1, 0, 1), (2, 1, 2)):
            began = int(time.time())
            found, said = self.gate(gate, tools)
            if gate == 0:
                self.assertIn(int(said.pop(1).removeprefix("taken ")), range(began, int(time.time()) + 1))
            wanted = ["7 passed, 0 failed", program, f"rt ci: status {gate}; tools/test: status {tools}"]
            self.assertEqual((found, said), (status, wanted))

    def test_no_program(self):
        for gate, status in ((0, 1), (2, 2)):
            wanted = ["7 passed, 0 failed", "the gate made no program, so tools/test isn't run"]
            self.assertEqual(self.gate(gate, 0, program=""), (status, wanted))

    def test_nothing_is_changed_before_the_gate(self):
        self.file("checkout/crates/low/out/it", "kept")
        self.gate(0, 0)
        with open(os.path.join(self.room, "seen"), encoding="utf-8") as file:
            self.assertEqual(file.read().split(), ["crates", "qroute", "tools"])
        self.assertTrue(os.path.exists(os.path.join(self.top, "crates/low/out/it")))
