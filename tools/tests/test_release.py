import hashlib
import os
import shutil
import subprocess
import sys
import tarfile
import unittest
import zipfile

from tool import TOP, ToolTest

sys.path.insert(0, os.path.join(TOP, "tools/lib"))
import built
import elf

COPIED = ["tools", "docs", "devices", "python", "examples", "README.md", "CHANGELOG.md", "LICENSE", "NOTICE", "VERSION", "qroute", ".gitignore"]
# a program for x86-64 that needs the C library alone, as the real one
TRUE = "/bin/true"
# Stands for rt: says that all is built, or begins to build; `rt run` makes the program.
RT = """#!/bin/sh
if [ -e out/qroute ]; then echo "$SAYS"; [ "$SAYS" != building ] || sleep 60; exit 3; fi
cp /bin/true out/qroute
[ -z "$DIFFERS" ] || echo more >>out/qroute
exit 3
"""
SAME = "rt: nothing has changed since the last proved build, by out/qroute.stamp, so nothing is checked now"


def has_x86(path):
    try:
        with open(path, "rb") as file:
            return file.read(20)[18:] == b"\x3e\0"
    except OSError:
        return False


class Release(ToolTest):
    """A small checkout with a commit, whose program is another one."""

    def setUp(self):
        super().setUp()
        if not has_x86(TRUE) or shutil.which("dpkg-deb") is None or shutil.which("git") is None:
            self.skipTest("there is no dpkg-deb or git, or this is no x86-64")
        self.top = os.path.join(self.room, "checkout")
        for name in COPIED:
            source, target = os.path.join(TOP, name), os.path.join(self.top, name)
            if os.path.isdir(source):
                shutil.copytree(source, target, ignore=shutil.ignore_patterns("__pycache__", "tests"))
            else:
                shutil.copy(source, target)
        self.file("checkout/crates.txt", "# all\nlow: kit\nother:\nqroute: low  # the program\n")
        for name in ("low/src/lib.rt", "low/specs/A.antt", "low/src/tests.rt", "other/src/lib.rt", "qroute/src/main.rt"):
            self.file(f"checkout/crates/{name}", name)
        for words in (["init", "-q"], ["add", "."], ["-c", "user.name=a", "-c", "user.email=b", "commit", "-qm", "c"]):
            subprocess.run(["git", *words], cwd=self.top, check=True)
        self.kit = os.path.join(self.room, "kit")
        os.chmod(self.file("kit/bin/rt", RT), 0o755)
        self.file("kit/KIT-ID", "kit of rt\n")

    def launched(self):
        """A program that the launcher has built."""
        os.makedirs(os.path.join(self.top, "out"))
        shutil.copy(TRUE, os.path.join(self.top, "out/qroute"))
        self.file("checkout/out/qroute.sources", f"{built.sources_line(self.top)}\nkit of the launcher\n")

    def release(self, *words, says=SAME, differs=""):
        env = os.environ | {"PATH": f"{self.kit}/bin:{os.environ['PATH']}", "SAYS": says, "DIFFERS": differs}
        ran = subprocess.run([os.path.join(self.top, "tools/release"), *words], capture_output=True, text=True, env=env, timeout=120)
        return ran.returncode, ran.stdout, ran.stderr

    def made(self, folder="checkout/release"):
        folder = os.path.join(self.room, folder)
        found = {}
        for name in os.listdir(folder):
            with open(os.path.join(folder, name), "rb") as file:
                found[name] = file.read()
        return found

    def test_what_is_made(self):
        self.launched()
        status, out, err = self.release()
        self.assertEqual((status, err), (0, ""))
        found = self.made()
        self.assertEqual(sorted(os.path.basename(it) for it in out.split()), sorted(found))
        sums = dict(line.split()[::-1] for line in found["SHA256SUMS"].decode().splitlines())
        self.assertEqual(sums, {name: hashlib.sha256(text).hexdigest() for name, text in found.items() if name != "SHA256SUMS"})
        with open(TRUE, "rb") as file:
            program = file.read()
        page = found["BUILT.md"].decode()
        commit = subprocess.run(["git", "rev-parse", "HEAD"], cwd=self.top, capture_output=True, text=True).stdout.strip()
        for it in (commit, "kit of the launcher", hashlib.sha256(program).hexdigest()):
            self.assertIn(it, page)
        self.in_the_archive(program)
        self.in_the_package(program)
        wheel = next(it for it in found if it.endswith(".whl"))
        with zipfile.ZipFile(os.path.join(self.top, "release", wheel)) as archive:
            self.assertEqual(archive.read("qroute/bin/qroute"), program)
        # the same commit and program make the same bytes
        status, _, err = self.release("-o", os.path.join(self.room, "again"))
        self.assertEqual((status, err, self.made("again")), (0, "", found))

    def in_the_archive(self, program):
        with open(os.path.join(self.top, "VERSION"), encoding="utf-8") as file:
            stem = f"qroute-{file.read().strip()}-linux-x86_64"
        with tarfile.open(os.path.join(self.top, "release", f"{stem}.tar.gz")) as archive:
            archive.extractall(self.room)
            self.assertTrue(all(it.uid == it.gid == 0 for it in archive))
        top = os.path.join(self.room, stem)
        with open(os.path.join(top, "qroute"), "rb") as file:
            self.assertEqual(file.read(), program)
        for name in ("docs/qroute.1", "docs/PYTHON.md", "devices/ibm_tokyo.toml", "python/qroute/batch.py", "LICENSE", "NOTICE"):
            self.assertTrue(os.path.isfile(os.path.join(top, name)), name)
        for words in (["tools/draw", "--help"], ["tools/batch", "--help"], ["tools/install", os.path.join(self.room, "prefix")]):
            ran = subprocess.run([os.path.join(top, words[0]), *words[1:]], capture_output=True, text=True)
            self.assertEqual(ran.returncode, 0, ran.stderr)
        self.assertFalse(os.path.exists(os.path.join(top, "tools/release")))

    def in_the_package(self, program):
        path = next(os.path.join(self.top, "release", it) for it in os.listdir(os.path.join(self.top, "release")) if it.endswith(".deb"))
        needs = subprocess.run(["dpkg-deb", "--field", path, "Depends"], capture_output=True, text=True).stdout
        self.assertRegex(needs, r"^libc6 \(>= 2\.\d+\)\n$")
        inside = os.path.join(self.room, "package")
        subprocess.run(["dpkg-deb", "-x", path, inside], check=True)
        with open(os.path.join(inside, "usr/lib/qroute/qroute"), "rb") as file:
            self.assertEqual(file.read(), program)
        self.assertEqual(os.stat(os.path.join(inside, "usr/lib/qroute/qroute")).st_mode & 0o777, 0o755)
        env = {"PATH": f"{inside}/usr/bin:{os.environ['PATH']}", "PYTHONDONTWRITEBYTECODE": "1"}
        ran = subprocess.run(["qroute", "--help"], capture_output=True, text=True, env=env)
        self.assertEqual(ran.stderr, f"qroute: the manual is `man {inside}/usr/share/man/man1/qroute.1.gz`\n")
        script = "import qroute; print(qroute.program(), qroute.Device.named('line_5').qubits())"
        site = os.path.join(inside, "usr/lib/python3/dist-packages")
        ran = subprocess.run([sys.executable, "-c", script], capture_output=True, text=True, env=env | {"PYTHONPATH": site})
        self.assertEqual(ran.stdout, f"{inside}/usr/lib/qroute/qroute 5\n", ran.stderr)
        subprocess.run(["dpkg-deb", "-e", path, os.path.join(self.room, "control")], check=True)
        # the compiled module is taken away with the package
        stub = self.file("stub/rm", '#!/bin/sh\necho "$@"\n')
        os.chmod(stub, 0o755)
        ran = subprocess.run([os.path.join(self.room, "control/prerm")], capture_output=True, text=True, env={"PATH": os.path.dirname(stub)})
        self.assertEqual((ran.returncode, ran.stdout), (0, f"-rf {site.removeprefix(inside)}/qroute/__pycache__\n"))
        ran = subprocess.run(["md5sum", "--check", "--quiet", os.path.join(self.room, "control/md5sums")], capture_output=True, cwd=inside)
        self.assertEqual((ran.returncode, ran.stdout), (0, b""))

    def test_a_program_of_other_sources_is_refused(self):
        said = "release: there is no built program: build it by ./qroute, or run the gate\n"
        self.assertEqual(self.release(), (1, "", said))
        self.launched()
        # tests, and crates that the program doesn't stand on, are no sources of it; status 2 is that of the folder, which can't be made
        nowhere = os.path.join(self.file("file", ""), "folder")
        for name, status in (("low/src/tests.rt", 2), ("other/src/lib.rt", 2), ("low/specs/A.antt", 1)):
            self.file(f"checkout/crates/{name}", "changed")
            subprocess.run(["git", "-c", "user.name=a", "-c", "user.email=b", "commit", "-qam", "d"], cwd=self.top, check=True)
            self.assertEqual(self.release("-o", nowhere)[0], status, name)
        self.assertIn("isn't of these sources", self.release()[2])

    def test_changes_are_refused(self):
        self.launched()
        self.file("checkout/README.md", "changed")
        self.assertEqual(self.release(), (1, "", "release: the clone has changes that no commit has\n"))
        self.assertFalse(os.path.exists(os.path.join(self.top, "release")))

    def test_what_git_ignores_is_refused(self):
        """Git tells no change of it, and the release would have it."""
        self.launched()
        self.file("checkout/.git/info/exclude", "mine*\n*~\n")
        for name in ("devices/mine.toml", "python/qroute/mine.py", "tools/draw~", "docs/mine.md"):
            path = self.file(f"checkout/{name}", "mine = 1\n")
            self.assertEqual(self.release(), (1, "", f"release: no commit has {name}\n"))
            os.remove(path)
        # what isn't packed is nobody's matter
        self.file("checkout/mine", "")
        self.assertFalse(os.path.exists(os.path.join(self.top, "release")))
        self.assertEqual(self.release()[0], 0)

    def test_trying_wants_root(self):
        script = "import os, runpy, sys; os.geteuid = lambda: 1000; sys.argv = sys.argv[1:]; runpy.run_path(sys.argv[0], run_name='__main__')"
        words = [os.path.join(TOP, "tools/try-release"), self.room, "--root", self.room]
        ran = subprocess.run([sys.executable, "-B", "-c", script, *words], capture_output=True, text=True)
        self.assertEqual((ran.returncode, ran.stdout, ran.stderr), (2, "", "try-release: it has to be run by root, for chroot\n"))

    def test_the_program_of_the_gate(self):
        os.makedirs(os.path.join(self.top, "crates/qroute/out"))
        shutil.copy(TRUE, os.path.join(self.top, "crates/qroute/out/qroute"))
        # rt that begins to build is stopped, and nothing is made
        status, _, err = self.release(says="building")
        self.assertEqual((status, "isn't of these sources" in err), (1, True))
        status, _, err = self.release("--twice", differs="x")
        self.assertEqual((status, "a second time isn't the same" in err), (1, True))
        self.assertFalse(os.path.exists(os.path.join(self.top, "release")))
        status, _, err = self.release("--twice")
        self.assertEqual((status, err), (0, ""))
        page = self.made()["BUILT.md"].decode()
        self.assertIn("kit of rt", page)
        self.assertIn("compiled and linked twice", page)
        self.assertIn("\ntools/release --twice\n", page)
        # what was there is there again
        self.assertEqual(os.listdir(os.path.join(self.top, "crates/qroute/out")), ["qroute"])

    def test_a_program_that_was_built_apart(self):
        """Another file with the same bytes is the second build; no other bytes, and not the program itself."""
        self.launched()
        with open(TRUE, "rb") as file:
            text = file.read()
        same, other = self.file("apart/same", text), self.file("apart/other", text + b"\n")
        itself = os.path.join(self.top, "out/qroute")
        for path, status, says in (
            (other, 1, f"release: {other}, which was built apart, isn't the same program\n"),
            (itself, 1, f"release: {itself} is the program itself, and not one that was built apart\n"),
            (f"{self.room}/none", 2, f"release: {self.room}/none: No such file or directory\n"),
        ):
            self.assertEqual(self.release("--twice", path), (status, "", says))
            self.assertFalse(os.path.exists(os.path.join(self.top, "release")))
        status, _, err = self.release("--twice", same)
        self.assertEqual((status, err), (0, ""))
        page = self.made()["BUILT.md"].decode()
        self.assertIn("built apart, in another checkout or on another machine, and was the same", page)
        # who calls what the page says gets the same page
        self.assertIn("\ntools/release --twice PROGRAM\n", page)
        self.assertNotIn("compiled and linked twice", page)

    def test_the_sources_are_those_of_the_launcher(self):
        with open(os.path.join(TOP, "qroute"), encoding="utf-8") as file:
            launcher = file.read()
        functions = []
        for name in ("needed_crates", "find_sources", "sources_line"):
            begins = launcher.index(f"\n{name}() {{\n")
            functions.append(launcher[begins : launcher.index("\n}\n", begins) + 3])
        script = "".join(functions) + "top=$1; sources_line"
        for top in (self.top, TOP):
            ran = subprocess.run(["bash", "-c", script, "bash", top], capture_output=True, text=True)
            self.assertEqual(built.sources_line(top), ran.stdout.strip())


class Needs(unittest.TestCase):
    def test_libraries_of_a_program(self):
        if not has_x86(TRUE):
            self.skipTest("this is no x86-64")
        with open(TRUE, "rb") as file:
            program = file.read()
        self.assertEqual(elf.libraries(program), ["libc.so.6"])
        self.assertRegex(elf.glibc(program), r"^2\.\d+$")


class Shell(unittest.TestCase):
    def test_shellcheck_finds_nothing(self):
        if shutil.which("shellcheck") is None:
            self.skipTest("shellcheck isn't installed, so scripts aren't checked (apt-get install shellcheck)")
        scripts = []
        for folder in (".", ".ci", "tools", "tools/lib", "bench"):
            for name in sorted(os.listdir(os.path.join(TOP, folder))):
                path = os.path.join(TOP, folder, name)
                if os.path.isfile(path):
                    with open(path, "rb") as file:
                        first = file.readline()
                    scripts += [path] if first.startswith(b"#!") and b"sh" in first.split(b"/")[-1] else []
        self.assertGreater(len(scripts), 2)
        ran = subprocess.run(["shellcheck", *scripts], capture_output=True, text=True)
        self.assertEqual(ran.stdout + ran.stderr, "")
