import json
import os
import shutil
import subprocess
import sys

from tool import TOP, ToolTest

COPIED = ["tools", "docs", "devices", "python", "README.md", "CHANGELOG.md", "LICENSE", "NOTICE", "VERSION"]


class Install(ToolTest):
    """A copy of the checkout whose launcher stands for one that has built."""

    def setUp(self):
        super().setUp()
        self.top = os.path.join(self.room, "checkout")
        os.mkdir(self.top)
        for name in COPIED:
            source, target = os.path.join(TOP, name), os.path.join(self.top, name)
            (shutil.copytree if os.path.isdir(source) else shutil.copy)(source, target)
        self.program("exit 0")
        self.prefix = os.path.join(self.room, "prefix")

    def program(self, launcher):
        for name, text in (("qroute", launcher), ("out/qroute", 'echo "it runs" "$@"')):
            path = self.file(f"checkout/{name}", f"#!/bin/sh\n{text}\n")
            os.chmod(path, 0o755)

    def install(self, *words):
        ran = subprocess.run([os.path.join(self.top, "tools/install"), *words], capture_output=True, text=True, timeout=60)
        return ran.returncode, ran.stdout, ran.stderr

    def files(self):
        """All that is there but folders; a link to one is no folder."""
        inside = [(folder, it) for folder, folders, names in os.walk(self.prefix) for it in folders + names]
        paths = sorted(os.path.join(*it) for it in inside)
        return [it for it in paths if os.path.islink(it) or not os.path.isdir(it)]

    def test_puts_and_takes_away(self):
        own = self.file("prefix/share/man/man1/other.1", "mine")
        self.assertEqual(self.install(self.prefix)[0], 0)
        ran = subprocess.run([os.path.join(self.prefix, "bin/qroute"), "opt"], capture_output=True, text=True)
        self.assertEqual(ran.stdout, "it runs opt\n")
        found = self.files()
        for place in ("share/man/man1/qroute.1", "share/zsh/site-functions/_qroute", "share/qroute/devices/ibm_tokyo.toml"):
            self.assertIn(os.path.join(self.prefix, place), found)
        # once more is the same
        self.assertEqual(self.install(self.prefix)[0], 0)
        self.assertEqual(self.files(), found)
        status, out, _ = self.install("--remove", self.prefix)
        self.assertEqual((status, out), (0, f"took away {len(found) - 1} files below {self.prefix}\n"))
        self.assertEqual(self.files(), [own])
        self.assertEqual(os.listdir(self.prefix), ["share"])
        self.assertEqual(self.install("--remove", self.prefix)[0], 1)

    def test_what_python_has_compiled_is_taken_away(self):
        self.install(self.prefix)
        module = next(it for it in self.files() if it.endswith("-packages/qroute/__init__.py"))
        env = {"PYTHONPATH": os.path.dirname(os.path.dirname(module)), "PATH": os.environ["PATH"]}
        subprocess.run([sys.executable, "-c", "import qroute.batch"], env=env, cwd=self.room, check=True)
        folder = os.path.join(os.path.dirname(module), "__pycache__")
        self.assertGreater(len(os.listdir(folder)), 5)
        own = self.file(os.path.join(folder, "mine.cpython-311.pyc"), "mine")
        self.assertEqual(self.install("--remove", self.prefix)[0], 0)
        self.assertEqual(self.files(), [own])

    def test_the_module_finds_the_program_and_the_devices(self):
        self.install(self.prefix)
        site = next(os.path.dirname(os.path.dirname(it)) for it in self.files() if it.endswith("-packages/qroute/__init__.py"))
        script = "import qroute; print(qroute.program(), qroute.Device.named('ibm_tokyo').name)"
        env = {"PYTHONPATH": site, "PATH": os.environ["PATH"]}
        ran = subprocess.run([sys.executable, "-c", script], capture_output=True, text=True, env=env, cwd=self.room)
        wanted = f"{self.prefix}/lib/qroute/qroute {self.prefix}/share/qroute/devices/ibm_tokyo.toml\n"
        self.assertEqual((ran.stdout, ran.stderr), (wanted, ""))

    def test_debian_s_own_python_finds_the_module(self):
        """Of the folders below /usr/local where it looks, one is that of the module, if that is the prefix."""
        debian = "/usr/bin/python3"
        found = subprocess.run([debian, "-c", "import sys; print(*sys.path)"], capture_output=True, text=True) if os.path.exists(debian) else None
        if found is None or "/usr/local/lib" not in found.stdout:
            self.skipTest("there is no Python of Debian")
        subprocess.run([debian, os.path.join(self.top, "tools/install"), self.prefix], capture_output=True, check=True)
        looks = [it.replace("/usr/local", self.prefix) for it in found.stdout.split() if it.startswith("/usr/local/")]
        self.assertTrue(any(os.path.isfile(os.path.join(it, "qroute/__init__.py")) for it in looks), looks)
        script = "import sys; sys.path[:0] = sys.argv[1:]; import qroute; print(qroute.program(), qroute.Device.named('ibm_tokyo').name)"
        ran = subprocess.run([debian, "-B", "-c", script, *looks], capture_output=True, text=True, cwd=self.room, env={"PATH": os.environ["PATH"]})
        wanted = f"{self.prefix}/lib/qroute/qroute {self.prefix}/share/qroute/devices/ibm_tokyo.toml\n"
        self.assertEqual((ran.stdout, ran.stderr), (wanted, ""))
        self.assertEqual(self.install("--remove", self.prefix)[0], 0)
        self.assertEqual(self.files(), [])

    def test_help_leads_to_the_manual(self):
        self.install(self.prefix)
        os.symlink(os.path.join(self.prefix, "bin/qroute"), os.path.join(self.room, "linked"))
        manual = os.path.join(self.prefix, "share/man/man1/qroute.1")
        for command in (os.path.join(self.prefix, "bin/qroute"), os.path.join(self.room, "linked")):
            for words, says in ((["--help"], True), ([], True), (["opt", "--help"], False)):
                ran = subprocess.run([command, *words], capture_output=True, text=True)
                # what the program answers is as it was
                self.assertEqual((ran.returncode, ran.stdout.split()), (0, ["it", "runs", *words]))
                self.assertEqual(ran.stderr, f"qroute: the manual is `man {manual}`\n" if says else "")

    def test_tools_are_put_too(self):
        self.install(self.prefix)
        env = {"PATH": f"{self.prefix}/bin:{os.environ['PATH']}"}

        def run(name, *words, given=""):
            return subprocess.run([name, *words], input=given, capture_output=True, text=True, env=env, cwd=self.room, timeout=60)

        fault = '{"code":12,"fault":"Syntax","place":3,"status":3}'
        self.assertIn("this doesn't fit here", run("qroute-explain", given=fault).stdout)
        self.assertIn("[0, 1],", run("qroute-device", given="[[0, 1]]").stdout)
        for name in ("qroute-draw", "qroute-batch", "qroute-check-small"):
            self.assertEqual(run(name, "--help").returncode, 0, name)
        self.assertFalse(os.path.exists(os.path.join(self.prefix, "bin/qroute-mutate")))
        # a page takes a file that stands beside the tools
        told = {"device": 2, "final": [0, 1], "format": 1, "initial": [0, 1], "phase": 0, "qubits": 2, "swaps": 0}
        told |= {"barriers": 0, "cx_before": 1, "cx_after": 1, "t_before": 0, "t_after": 0}
        program = self.file("p.qasm", 'OPENQASM 2.0;\ninclude "qelib1.inc";\nqreg q[2];\ncx q[0],q[1];\n')
        report, device = self.file("r", json.dumps(told) + "\n"), self.file("d.toml", "qubits = 2\nedges = [[0, 1]]\n")
        page = os.path.join(self.room, "page.html")
        ran = run("qroute-page", program, program, "--report", report, "--device", device, "-o", page)
        self.assertEqual((ran.returncode, ran.stderr, os.path.exists(page)), (0, "", True))

    def test_no_program(self):
        self.program("exit 70")
        self.assertEqual(self.install(self.prefix), (2, "", "install: there is no program to install\n"))
        self.assertFalse(os.path.exists(self.prefix))
