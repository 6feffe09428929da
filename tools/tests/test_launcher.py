import os
import re
import shutil
import subprocess
import time

from tool import TOP, ToolTest

# Stands for rt: notes which crates it proves, with how many jobs, waits or fails as it is told, and builds a program that says
# what it was built of.
FAKE_RT = """#!/bin/bash
here=$(dirname -- "$(readlink -f -- "$0")")/..
[ "$1" = version ] && { cat "$here/kit"; exit; }
name=$(basename -- "$PWD")
echo "$name $3" >>"$here/jobs"
if [ "$1 $2" = "lib --jobs" ]; then
    echo "it is proved"
    if [ "$name" = low ]; then
        echo build >>"$here/builds"
        [ -e "$here/meanwhile" ] && { eval "$(cat "$here/meanwhile")"; rm "$here/meanwhile"; }
        sleep "$(cat "$here/seconds" 2>/dev/null || echo 0)"
    elif [ ! -e ../low/out/rlib/stamp ]; then
        echo "low isn't there"
        exit 1
    fi
    if [ "$name" = top ] && [ -e "$here/fails" ]; then
        echo "one goal is open"
        exit 1
    elif [ "$name" = top ] && [ -e "$here/kills" ]; then
        rm "$here/kills"
        kill -9 $$
    fi
    mkdir -p out/rlib out/incremental
    cat src/lib.rt >out/rlib/stamp
    echo "$PWD" >>out/incremental/rooms
    exit 0
fi
[ "$1 $2 $4 $5" = "run --jobs -- opt" ] || exit 2
[ -e "$here/leaves" ] && { echo "it can't write"; exit 3; }
mkdir -p out
if [ -e "$here/shell" ]; then cp /bin/bash out/qroute; exit 3; fi
{ echo '#!/bin/bash'; echo "echo $(cat src/main.rt)" '"$@"'; } >out/qroute
chmod +x out/qroute
exit 3
"""
CRATES = "# a comment\nlow: kit_crate\nqroute: top low # and more\ntop: low\nother: low\n"


class Launcher(ToolTest):
    gate = ""

    def setUp(self):
        super().setUp()
        self.top = os.path.join(self.room, "checkout")
        self.checkout(self.top)
        self.write("seconds", "0")
        self.write("bin/rt", FAKE_RT)
        os.chmod(os.path.join(self.room, "bin/rt"), 0o755)
        self.write("kit", "kit 1\n")

    def checkout(self, top):
        for crate in ("low", "top", "other", "qroute"):
            os.makedirs(os.path.join(top, "crates", crate, "src"))
            os.makedirs(os.path.join(top, "crates", crate, "specs"))
        self.put(top, "crates.txt", CRATES)
        self.put(top, "crates/qroute/src/main.rt", "one")
        self.put(top, "crates/low/src/lib.rt", "low")
        self.put(top, "crates/low/src/tests.rt", "tests")
        self.put(top, "crates/low/specs/Lib.antt", "specs")
        self.put(top, "crates/top/src/lib.rt", "top")
        self.put(top, "crates/other/src/lib.rt", "other")
        os.makedirs(os.path.join(top, "docs"))
        self.put(top, "docs/qroute.1", ".B qroute opt\n<\n.br\n.B qroute route \\-\\-device\n")
        shutil.copy(os.path.join(TOP, "qroute"), top)
        os.makedirs(os.path.join(top, "tools/lib"))
        for name in ("build", "lib/schedule.py", "lib/sources.py"):
            shutil.copy(os.path.join(TOP, "tools", name), os.path.join(top, "tools", name))

    def put(self, top, name, text):
        with open(os.path.join(top, name), "w", encoding="utf-8") as file:
            file.write(text)

    def write(self, name, text):
        path = os.path.join(self.room, name)
        os.makedirs(os.path.dirname(path), exist_ok=True)
        with open(path, "w", encoding="utf-8") as file:
            file.write(text)

    def builds(self):
        path = os.path.join(self.room, "builds")
        return open(path, encoding="utf-8").read().count("build") if os.path.exists(path) else 0

    def command(self, *words, top=None, before=()):
        path = f"{self.room}/bin:{os.environ['PATH']}"
        top = self.top if top is None else top
        name = os.path.join(os.fsencode(top), b"qroute")
        return [*before, name, *words], {"PATH": path, "HOME": self.room, "QROUTE_JOBS": "3", "QROUTE_GATE": self.gate}

    def launch(self, *words, **more):
        line, env = self.command(*words, **more)
        ran = subprocess.run(line, capture_output=True, env=env, timeout=300, cwd="/")
        return ran.returncode, ran.stdout.decode(), ran.stderr.decode("utf-8", "replace")

    def assert_runs(self, says, builds, **more):
        status, out, err = self.launch("opt", "a word", **more)
        self.assertEqual((status, out, self.builds()), (0, f"{says} opt a word\n", builds), err)
        return err

    def test_builds_once(self):
        err = self.assert_runs("one", 1)
        self.assertIn("qroute: building the program, and proving it first", err)
        self.assertRegex(err, r"qroute: up to 3 crates at a time, 1 minute by what they took before; one process takes up to \d+\.\d GB of memory, all together \d+\.\d, and \d+\.\d are free\n")
        lines = [it.split(", about")[0] for it in err.splitlines() if it.startswith("qroute: crate ")]
        self.assertEqual(lines, [f"qroute: crate {i} of 3, {it}, 0 minutes so far" for i, it in enumerate(("low", "top", "qroute"), 1)])
        self.assertIn("qroute: built in ", err)
        self.assertEqual(self.assert_runs("one", 1), "")

    def test_looks_at_what_it_stands_on(self):
        self.assert_runs("one", 1)
        self.put(self.top, "crates/other/src/lib.rt", "changed")
        self.put(self.top, "crates/low/src/tests.rt", "changed")
        self.put(self.top, "crates.txt", CRATES + "another: low\n")
        self.assert_runs("one", 1)
        for builds, name in enumerate(("crates/low/src/lib.rt", "crates/low/specs/Lib.antt", "crates/top/src/lib.rt"), 2):
            self.put(self.top, name, "changed")
            self.assert_runs("one", builds)
        self.put(self.top, "crates.txt", CRATES.replace("top: low", "top: low other"))
        self.assert_runs("one", 5)

    def test_times_count_for_nothing(self):
        self.assert_runs("one", 1)
        main = os.path.join(self.top, "crates/qroute/src/main.rt")
        later = time.time() + 100_000
        os.utime(main, (later, later))
        self.assert_runs("one", 1)
        self.put(self.top, "crates/qroute/src/main.rt", "two")
        os.utime(main, (0, 0))
        self.assert_runs("two", 2)

    def test_a_failed_build_leaves_the_old_program(self):
        self.assert_runs("one", 1)
        self.put(self.top, "crates/qroute/src/main.rt", "two")
        self.write("fails", "")
        for builds in (2, 3):
            status, out, err = self.launch("opt")
            self.assertEqual((status, out, self.builds()), (70, "", builds))
            self.assertIn("== top: failed (1)\nit is proved\none goal is open\n", err)
            self.assertNotIn("== low", err)
            self.assertIn("qroute: the build failed after ", err)
        # what rt had built is where it was, too
        with open(os.path.join(self.top, "crates/qroute/out/qroute"), encoding="utf-8") as file:
            self.assertIn("echo one", file.read())
        self.put(self.top, "crates/qroute/src/main.rt", "one")
        self.assertEqual(self.assert_runs("one", 3), "")

    def test_what_rt_left_undone_is_no_program(self):
        self.assert_runs("one", 1)
        self.put(self.top, "crates/qroute/src/main.rt", "two")
        # another run of rt has built, and this one fails
        self.write("meanwhile", f"cp {self.top}/crates/qroute/out/qroute.before {self.top}/crates/qroute/out/qroute; touch $here/fails")
        self.assertEqual(self.launch("opt")[:2], (70, ""))
        os.remove(os.path.join(self.room, "fails"))
        # rt can't write
        self.write("leaves", "")
        status, out, err = self.launch("opt")
        self.assertEqual((status, out), (70, ""))
        self.assertIn("== qroute: failed (3)\nit can't write\n", err)

    def jobs(self):
        with open(os.path.join(self.room, "jobs"), encoding="utf-8") as file:
            return file.read().splitlines()

    def test_crates_side_by_side(self):
        # low and other at once, each with a job or two of three, and then top and qroute with all
        self.put(self.top, "crates.txt", CRATES.replace("top: low", "top: low other").replace("other: low", "other:"))
        self.write("bin/rt", FAKE_RT.replace('elif [ ! -e ../low/out/rlib/stamp ]', 'elif [ "$name" = top ] && [ ! -e ../other/out/rlib/stamp ]'))
        self.write("seconds", "1")
        self.assert_runs("one", 1)
        self.assertEqual(sorted(self.jobs()[:2]), ["low 1", "other 2"])
        self.assertEqual(self.jobs()[2:], ["top 3", "qroute 3"])

    def test_a_check_that_was_killed(self):
        self.write("kills", "")
        err = self.assert_runs("one", 1)
        self.assertIn("qroute: the check of top was killed, most likely for want of memory; once more, with nothing beside it\n", err)
        self.assertEqual(self.jobs(), ["low 3", "top 3", "top 1", "qroute 3"])

    def test_what_is_kept(self):
        # each crate is proved in a room of its own, and what is kept goes from room to room
        self.assert_runs("one", 1)
        self.put(self.top, "crates/qroute/src/main.rt", "two")
        self.assert_runs("two", 2)
        with open(os.path.join(self.top, "crates/top/out/incremental/rooms"), encoding="utf-8") as file:
            rooms = file.read().splitlines()
        self.assertEqual(rooms, [os.path.join(self.top, "out/rooms/top/crates/top")] * 2)
        self.assertEqual(os.listdir(os.path.join(self.top, "out/rooms")), [])
        with open(os.path.join(self.top, "crates/top/out/rlib/stamp"), encoding="utf-8") as file:
            self.assertEqual(file.read(), "top")

    def test_rooms_that_a_killed_build_left(self):
        left = "out/rooms/top/crates/top/out"
        for kind in ("incremental", "rlib"):
            os.makedirs(os.path.join(self.top, left, kind))
            self.put(self.top, f"{left}/{kind}/rooms", "left\n")
        self.assert_runs("one", 1)
        with open(os.path.join(self.top, "crates/top/out/incremental/rooms"), encoding="utf-8") as file:
            self.assertEqual(file.read().split("\n")[0], "left")
        self.assertEqual(os.listdir(os.path.join(self.top, "out/rooms")), [])

    def test_what_a_gate_built(self):
        program = os.path.join(self.top, "crates/qroute/out/qroute")
        os.makedirs(os.path.dirname(program))
        self.put(self.top, "crates/qroute/out/qroute", "#!/bin/bash\necho by the gate\n")
        os.chmod(program, 0o755)
        self.gate = "1000"
        # all sources are newer
        self.assertEqual(self.launch("opt"), (70, "", "qroute: the gate's program isn't taken: it isn't there, or a source was written since the gate began\n"))
        self.gate = f"{time.time() + 1}"
        self.assertEqual(self.launch("opt"), (0, "by the gate\n", ""))
        self.gate = ""
        self.assertEqual(self.launch("opt"), (0, "by the gate\n", ""))
        self.assertEqual(self.builds(), 0)
        self.put(self.top, "crates/low/src/lib.rt", "changed")
        self.assert_runs("one", 1)

    def test_words_that_no_command_begins_with(self):
        wanted = (
            f"qroute: these words are no command; the manual is `man {self.top}/docs/qroute.1`\n",
            '{"fault":"Words","status":2}\n',
        )
        for words in ((), ("--help",), ("",), ("op",), ("--", "opt"), ("opt\nroute",)):
            self.assertEqual(self.launch(*words), (2, "", "".join(wanted)))
        self.assertEqual(self.builds(), 0)
        # what is built answers itself
        self.assert_runs("one", 1)
        self.assertEqual(self.launch("--help"), (0, "one --help\n", ""))

    def test_the_commands_of_the_manual(self):
        # the launcher knows those, and the completions name the same
        with open(os.path.join(TOP, "docs/qroute.1"), encoding="utf-8") as file:
            named = re.findall(r"^\.B qroute (\w+)", file.read(), re.MULTILINE)
        with open(os.path.join(TOP, "tools/completions/qroute.bash"), encoding="utf-8") as file:
            completed = re.search(r'compgen -W "([a-z ]+)" -- "\$word"', file.read()).group(1).split()
        self.assertEqual(sorted(named), sorted(completed))

    def test_no_manual(self):
        os.remove(os.path.join(self.top, "docs/qroute.1"))
        self.assertEqual(self.launch("--help")[:2], (0, "one --help\n"))

    def test_another_kit(self):
        self.assert_runs("one", 1)
        self.write("kit", "kit 2\n")
        self.assert_runs("one", 2)

    def test_sources_that_change_during_the_build(self):
        self.write("meanwhile", f"echo two >{self.top}/crates/qroute/src/main.rt")
        err = self.assert_runs("two", 2)
        self.assertIn("the sources changed during the build; building again", err)

    def test_sources_that_were_put_back_during_the_build(self):
        main = f"{self.top}/crates/qroute/src/main.rt"
        self.write("meanwhile", f"echo two >{main}; sleep 0.1; echo -n one >{main}")
        err = self.assert_runs("one", 2)
        self.assertIn("the sources changed during the build; building again", err)

    def test_a_build_whose_launcher_was_killed(self):
        self.write("seconds", "2")
        line, env = self.command("opt", "first")
        first = subprocess.Popen(line, stdout=subprocess.PIPE, stderr=subprocess.PIPE, env=env)
        while self.builds() == 0:
            time.sleep(0.05)
        first.kill()
        self.put(self.top, "crates/qroute/src/main.rt", "two")
        self.write("fails", "")
        status, out, err = self.launch("opt", "second")
        self.assertEqual((status, out), (70, ""))
        self.assertIn("qroute: waiting for a build that another call began\n", err)
        first.communicate(timeout=300)

    def test_a_second_call_waits(self):
        self.write("seconds", "2")
        line, env = self.command("opt", "first")
        first = subprocess.Popen(line, stdout=subprocess.PIPE, stderr=subprocess.PIPE, env=env)
        while self.builds() == 0:
            time.sleep(0.05)
        status, out, err = self.launch("opt", "second")
        self.assertEqual((status, out), (0, "one opt second\n"))
        self.assertEqual(err, "qroute: waiting for a build that another call began\n")
        self.assertEqual(first.communicate(timeout=300)[0], b"one opt first\n")
        self.assertEqual(self.builds(), 1)

    def test_the_plain_name(self):
        self.write("shell", "")
        self.launch("opt")
        self.assertEqual(self.launch("-c", "echo $0")[:2], (0, "qroute\n"))

    def test_a_path_that_is_no_utf_8(self):
        top = os.path.join(os.fsencode(self.room), b"caf\xe9 *\n")
        self.checkout_bytes(top)
        self.assert_runs("one", 1, top=top)
        self.assert_runs("one", 1, top=top)

    def checkout_bytes(self, top):
        shutil.copytree(os.fsencode(self.top), top)

    def test_a_checkout_that_cannot_be_written(self):
        # as another user where this is root, whom no mode stops
        before = ["setpriv", "--reuid=65534", "--clear-groups"] if os.geteuid() == 0 else []
        if before and shutil.which("setpriv") is None:
            self.skipTest("setpriv isn't here")
        os.chmod(self.room, 0o755)
        for folder, _, _ in os.walk(self.top):
            os.chmod(folder, 0o555)
        status, out, err = self.launch("opt", before=before)
        self.assertEqual((status, out), (70, ""))
        self.assertEqual(err, f"qroute: can't write to {self.top}/out, and the program has to be built\n")
        for folder, _, _ in os.walk(self.top):
            os.chmod(folder, 0o755)
        self.assert_runs("one", 1)
        for folder, _, _ in os.walk(self.top):
            os.chmod(folder, 0o555)
        self.assertEqual(self.assert_runs("one", 1, before=before), "")
        for folder, _, _ in os.walk(self.top):
            os.chmod(folder, 0o755)

    def test_a_command_that_is_not_there(self):
        self.assert_runs("one", 1)
        for name in ("bash", "readlink", "sed", "sort", "find", "xargs"):
            os.symlink(shutil.which(name), os.path.join(self.room, "bin", name))
        line, env = self.command("opt")
        ran = subprocess.run(line, capture_output=True, env=env | {"PATH": f"{self.room}/bin"}, timeout=300)
        self.assertEqual((ran.returncode, ran.stdout), (70, b""))
        self.assertEqual(ran.stderr, b"qroute: the command sha256sum isn't there, and the launcher needs it\n")

    def test_no_program_at_all(self):
        os.remove(os.path.join(self.top, "crates/qroute/src/main.rt"))
        status, out, err = self.launch("opt")
        self.assertEqual((status, out), (70, ""))
        self.assertIn("qroute: no program at ", err)
