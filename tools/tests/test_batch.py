import json
import os
import random
import signal
import subprocess
import sys
import time
from concurrent import futures
from unittest import mock

from tool import TOP, ToolTest

sys.path.insert(0, os.path.join(TOP, "python"))
import qroute
from qroute import batch

# Stands for the program: counts its runs, refuses a text with `bad`, is killed by one with `killed`, and kills who runs it by one
# with `parent`, as long as there is no file `well` beside it, and waits at one with `long`; else it writes the text back.
STAND_IN = """#!/bin/sh
room=${0%/*}
read -r first
read -r second
case $second in
*bad*) echo '{"code":44,"fault":"AngleStep","statement":1,"status":3}' >&2; exit 3 ;;
*killed*) [ -e "$room/well" ] || kill -9 $$ ;;
*parent*) [ -e "$room/well" ] || kill -9 $PPID ;;
*long*) [ -e "$room/well" ] || { : >"$room/waits"; sleep 60; } ;;
esac
[ -z "$second" ] || echo run >>"$room/runs"
printf '%s\\n' "$first" "$second"
echo '{"barriers":0,"cx_after":2,"cx_before":1,"device":1,"final":[0],"format":1,"initial":[0],"phase":0,"qubits":1,"swaps":3,"t_after":4,"t_before":5}' >&2
"""
HEAD = "OPENQASM 2.0;\n"
# which Pythons may have Debian's python3-distributed
PYTHONS = (sys.executable, "/usr/bin/python3")


class BatchTest(ToolTest):
    def text(self, path):
        with open(os.path.join(self.room, path), encoding="utf-8") as file:
            return file.read()

    def written(self, out="out"):
        """Each written program by its name, with its text."""
        return {it: self.text(f"{out}/{it}") for it in os.listdir(os.path.join(self.room, out)) if it.endswith(".qasm")}

    def kill_after(self, rows, *words):
        """Runs the tool and kills it as soon as there are so many rows; how many there are then."""
        log = os.path.join(self.room, "out/rows.log")
        words = [os.path.join(TOP, "tools/batch"), *words, "-o", os.path.join(self.room, "out"), "--jobs", "2", "--quiet"]
        ran = subprocess.Popen(words, stdout=subprocess.DEVNULL, stderr=subprocess.DEVNULL, start_new_session=True)
        while ran.poll() is None and (self.text("out/rows.log").count("\n") if os.path.exists(log) else 0) < rows:
            time.sleep(0.005)
        ran.send_signal(signal.SIGKILL)
        ran.wait()
        # the processes of its pool end by themselves
        for _ in range(400):
            if subprocess.run(["pgrep", "-g", str(ran.pid)], capture_output=True).returncode != 0:
                return self.text("out/rows.log").count("\n")
            time.sleep(0.05)
        self.fail("the pool outlives what it was made by")


class Batch(BatchTest):
    """Over a program that stands in for the real one."""

    def setUp(self):
        super().setUp()
        self.stand_in = self.file("stand_in/qroute", STAND_IN)
        os.chmod(self.stand_in, 0o755)
        patch = mock.patch.dict(os.environ, {"QROUTE": self.stand_in})
        patch.start()
        self.addCleanup(patch.stop)
        self.out = os.path.join(self.room, "out")

    def programs(self, **texts):
        """A folder with these programs, by their names without an ending."""
        for name, text in texts.items():
            self.file(f"programs/{name}.qasm", f"{HEAD}{text}\n")
        return os.path.join(self.room, "programs")

    def many(self, count):
        return self.programs(**{f"p{i:04}": "bad" if i % 10 == 3 else f"// {i}" for i in range(count)})

    def rows(self, out="out"):
        return [json.loads(it) for it in self.text(f"{out}/rows.jsonl").splitlines()]

    def runs(self):
        """How many programs were written since the last call."""
        path = os.path.join(self.room, "stand_in/runs")
        count = self.text(path).count("run") if os.path.exists(path) else 0
        self.file("stand_in/runs", "")
        return count

    def batch(self, *words, **more):
        return self.run_tool("batch", "opt", *words, "-o", self.out, **more)

    def test_rows_and_summary(self):
        given = self.programs(b="// b", a="// a", c="bad")
        found = batch.batch(given, self.out, progress=False)
        self.assertEqual((found.programs, found.written, found.refused, found.failed), (3, 2, {"AngleStep": ["c.qasm"]}, {}))
        self.assertEqual((found.swaps, found.cx_before, found.cx_after, found.t_before, found.t_after), (6, 2, 4, 10, 8))
        self.assertFalse(found.is_whole)
        self.assertIn("refused, AngleStep (an angle is no whole multiple of pi/4), 1: c.qasm", found.in_words())
        rows = self.rows()
        self.assertEqual([it["program"] for it in rows], ["a.qasm", "b.qasm", "c.qasm"])
        self.assertEqual((rows[0]["swaps"], rows[0]["initial"]), (3, [0]))
        told = {key: rows[2][key] for key in ("fault", "code", "status", "line", "column")}
        self.assertEqual(told, {"fault": "AngleStep", "code": 44, "status": 3, "line": 2, "column": 1})
        self.assertIn("multiple of pi/4", rows[2]["says"])
        self.assertEqual(self.written(), {it: f"{HEAD}// {it[0]}\n" for it in ("a.qasm", "b.qasm")})
        self.assertEqual(sorted(os.listdir(self.out)), ["a.qasm", "b.qasm", "rows.jsonl", "task.json"])

    def test_what_is_done_is_not_done_again(self):
        given = self.programs(a="// a", b="// b", c="bad", d="killed")
        first = batch.batch(given, self.out, progress=False)
        self.assertEqual((first.failed, self.runs()), ({"NoProgram": ["d.qasm"]}, 2))
        # a refusal would come again, a run that failed may not
        self.file("stand_in/well", "")
        second = batch.batch(given, self.out, progress=False)
        self.assertEqual((second.done_before, second.written, second.failed, self.runs()), (3, 3, {}, 1))
        # another text, and a written program that is gone
        self.programs(a="// another")
        os.remove(os.path.join(self.out, "b.qasm"))
        third = batch.batch(given, self.out, progress=False)
        self.assertEqual((third.done_before, third.written, self.runs()), (2, 3, 2))
        self.assertEqual(self.written()["a.qasm"], f"{HEAD}// another\n")

    def test_killed_and_resumed(self):
        given = self.many(200)
        whole = os.path.join(self.room, "whole")
        batch.batch(given, whole, progress=False, lot=5)
        self.runs()
        done = self.kill_after(1, "opt", given)
        self.assertTrue(0 < done < 200, done)
        # as if it was killed while it wrote a row
        with open(os.path.join(self.out, "rows.log"), "a", encoding="utf-8") as file:
            file.write('{"program":"p0199.q')
        self.runs()
        status, out, err = self.batch(given)
        self.assertEqual((status, err), (1, ""))
        self.assertIn(f"200 programs, {done} of them done before: 180 written, 20 refused, 0 failed", out)
        self.assertLess(self.runs(), 180)
        self.assertEqual(self.text("out/rows.jsonl"), self.text("whole/rows.jsonl"))
        self.assertEqual(self.written(), self.written("whole"))

    def test_parts_of_a_run(self):
        given = self.many(40)
        batch.batch(given, os.path.join(self.room, "whole"), progress=False)
        self.runs()
        for which in (3, 1, 2):
            status, _, _ = self.batch(given, "--shard", f"{which}/3")
            self.assertEqual(status, 1)
            self.assertIn(f"rows-{which}-of-3.jsonl", os.listdir(self.out))
        self.assertEqual(self.runs(), 36)
        status, out, _ = self.batch(given)
        self.assertIn("40 programs, 40 of them done before: 36 written", out)
        self.assertEqual(self.runs(), 0)
        self.assertEqual(self.text("out/rows.jsonl"), self.text("whole/rows.jsonl"))
        self.assertEqual([it for it in os.listdir(self.out) if it.startswith("rows")], ["rows.jsonl"])

    def test_parts_after_the_whole(self):
        """Their rows are the later ones, in tables and in logs."""
        given = self.programs(a="// a", b="// b")
        batch.batch(given, self.out, progress=False)
        self.programs(a="// another a", b="// another b")
        for which in (1, 2):
            batch.batch(given, self.out, shard=(which, 2), progress=False)
        # one of them as if it was killed before its table
        os.rename(os.path.join(self.out, "rows-2-of-2.jsonl"), os.path.join(self.out, "rows-2-of-2.log"))
        self.runs()
        found = batch.batch(given, self.out, progress=False)
        self.assertEqual((found.done_before, found.written, self.runs()), (2, 2, 0))
        self.assertEqual(os.listdir(self.out).count("rows.jsonl"), 1)
        self.assertEqual(self.written(), {it: f"{HEAD}// another {it[0]}\n" for it in ("a.qasm", "b.qasm")})

    def test_any_executor(self):
        with futures.ThreadPoolExecutor(2) as executor:
            found = batch.batch(self.many(30), self.out, executor=executor, lot=4, progress=False)
        self.assertEqual((found.written, len(found.refused["AngleStep"])), (27, 3))

    def test_an_executor_that_dies(self):
        """What it raises comes through, nothing is left for it to do, and what it did is kept."""

        class Dying(futures.Executor):
            asked = []

            def submit(self, call, *words):
                self.asked.append(futures.Future())
                if len(self.asked) == 1:
                    self.asked[0].set_result(call(*words))
                if len(self.asked) == batch.LOTS_AT_ONCE + 1:
                    self.asked[-1].set_exception(futures.BrokenExecutor("it is gone"))
                return self.asked[-1]

        given = self.many(batch.LOTS_AT_ONCE + 9)
        with self.assertRaisesRegex(futures.BrokenExecutor, "it is gone"):
            batch.batch(given, self.out, executor=Dying(), lot=1, progress=False)
        self.assertEqual([it.done() for it in Dying.asked], [True] * (batch.LOTS_AT_ONCE + 1))
        self.assertTrue(all(it.cancelled() for it in Dying.asked[1:-1]))
        self.assertEqual(batch.batch(given, self.out, progress=False).done_before, 1)

    def test_dask(self):
        """A scheduler and two workers of their own processes, as on two machines."""
        python = next((it for it in PYTHONS if os.path.exists(it) and not subprocess.run([it, "-c", "import distributed"], capture_output=True).returncode), None)
        if python is None:
            self.skipTest("Dask isn't installed, so it isn't tried (apt-get install python3-distributed)")
        env = os.environ | {"PYTHONPATH": os.path.join(TOP, "python"), "PYTHONDONTWRITEBYTECODE": "1"}
        told = os.path.join(self.room, "scheduler.json")

        def start(name, *words):
            words = [python, "-m", f"distributed.cli.dask_{name}", "--scheduler-file", told, "--no-dashboard", *words]
            ran = subprocess.Popen(words, env=env, cwd=self.room, stdout=subprocess.DEVNULL, stderr=subprocess.DEVNULL)
            self.addCleanup(ran.wait)
            self.addCleanup(ran.kill)

        start("scheduler", "--port", "0", "--host", "127.0.0.1")
        for _ in range(2):
            start("worker", "--nthreads", "1", "--no-nanny", "--local-directory", self.room)
        script = (
            "import sys; from distributed import Client; from qroute.batch import batch\n"
            "client = Client(scheduler_file=sys.argv[1]); client.wait_for_workers(2)\n"
            "found = batch(sys.argv[2], sys.argv[3], executor=client.get_executor(), lot=3, progress=False)\n"
            "print(found.written, len(client.scheduler_info()['workers']))\n"
        )
        words = [python, "-c", script, told, self.many(60), self.out]
        ran = subprocess.run(words, env=env, cwd=self.room, capture_output=True, text=True, timeout=120)
        self.assertEqual((ran.stdout, ran.returncode), ("54 2\n", 0), ran.stderr)
        batch.batch(self.many(60), os.path.join(self.room, "whole"), progress=False)
        self.assertEqual(self.text("out/rows.jsonl"), self.text("whole/rows.jsonl"))

    def test_names_are_only_names(self):
        names = [b"$(touch pwned).qasm", b"a b'\"\n.qasm", b"\xff.qasm", b"-o.qasm"]
        for name in names:
            self.file(os.path.join("programs", os.fsdecode(name)), f"{HEAD}// it\n")
        status, out, err = self.batch(os.path.join(self.room, "programs"), cwd=self.room)
        self.assertEqual((status, err), (0, ""))
        self.assertEqual(set(map(os.fsencode, self.written())), set(names))
        self.assertEqual({os.fsencode(it["program"]) for it in self.rows()}, set(names))
        self.assertFalse(os.path.exists(os.path.join(self.room, "pwned")))

    def test_folders_files_and_lists(self):
        self.file("programs/a/x.qasm", HEAD)
        self.file("programs/b/x.qasm", HEAD)
        self.file("programs/b/notes.txt", "bad")
        given = os.path.join(self.room, "programs")
        found = batch.batch(given, os.path.join(given, "out"), progress=False)
        self.assertEqual([it["program"] for it in self.rows("programs/out")], ["a/x.qasm", "b/x.qasm"])
        # what was written there is no program of the next run
        self.assertEqual((found.programs, batch.batch(given, os.path.join(given, "out"), progress=False).programs), (2, 2))
        files = [os.path.join(given, it, "x.qasm") for it in "ab"]
        with self.assertRaises(batch.BatchFault) as caught:
            batch.batch(files, self.out)
        self.assertIn("two programs have the name x.qasm", str(caught.exception))
        status, out, err = self.batch("--list", "-", "--json", given=f"{files[0]}\n")
        self.assertEqual((status, json.loads(out)["written"], err), (0, 1, ""))

    def test_programs_that_cannot_be_read(self):
        """A folder is no program, and a file that is gone stops nothing: it is tried again the next time."""
        given = self.programs(a="// a", c="// c")
        os.mkdir(os.path.join(given, "folder.qasm"))
        os.symlink("gone", os.path.join(given, "b.qasm"))
        found = batch.batch(given, self.out, progress=False)
        self.assertEqual((found.programs, found.written, found.failed), (3, 2, {"FileNotFoundError": ["b.qasm"]}))
        row = {"program": "b.qasm", "sha256": None, "fault": "FileNotFoundError", "status": None, "says": "No such file or directory"}
        self.assertEqual(self.rows()[1], row)
        self.file("programs/gone", f"{HEAD}// b\n")
        found = batch.batch(given, self.out, progress=False)
        self.assertEqual((found.programs, found.written, found.failed, found.done_before), (3, 3, {}, 2))

    def test_a_name_with_another_program_s_ending(self):
        """What is being written has no name that a program may have, and a name may be as long as the system takes it."""
        longest = "n" * 250 + ".qasm"
        paths = [self.file(it, f"{HEAD}// {it[0]}\n") for it in ("a.qasm.part", "a.qasm", longest)]
        found = batch.batch(paths, self.out, lot=1, jobs=1, progress=False)
        self.assertEqual((found.written, found.failed), (3, {}))
        self.file("a.qasm", f"{HEAD}// another\n")
        self.assertEqual(batch.batch(paths, self.out, progress=False).written, 3)
        self.assertEqual(sorted(os.listdir(self.out)), ["a.qasm", "a.qasm.part", longest, "rows.jsonl", "task.json"])
        self.assertEqual(self.text("out/a.qasm.part"), f"{HEAD}// a\n")
        # another file that begins as a table does is none
        paths.append(self.file("rows-of-mine.jsonl", f"{HEAD}// r\n"))
        for _ in range(2):
            self.assertEqual(batch.batch(paths, self.out, progress=False).written, 4)
        self.assertEqual(self.text("out/rows-of-mine.jsonl"), f"{HEAD}// r\n")

    def test_names_that_cannot_be_written(self):
        self.file("programs/a.qasm/x.qasm", HEAD)
        given = [os.path.join(self.room, "programs"), self.file("a.qasm", HEAD)]
        own = [self.file(f"own/{it}", HEAD) for it in ("rows.part", "rows-1-of-2.log", "task.json.here")]
        for paths, says in (
            (given, "a.qasm/x.qasm can't be written where a.qasm is a file"),
            *(([it], f"no program can have the name {os.path.basename(it)}, which is one of the folder's own") for it in own),
        ):
            self.assertEqual(self.batch(*paths), (2, "", f"batch: {says}\n"))
        self.assertFalse(os.path.exists(self.out))

    def test_a_pipe_is_no_program(self):
        given = self.programs(a="// a")
        os.mkfifo(os.path.join(given, "b.qasm"))
        self.assertEqual(batch.batch(given, self.out, progress=False).programs, 1)

    def test_whatever_a_run_raises(self):
        """It is the row of one program, which is tried again the next time."""
        given = self.programs(a="// a", b="// b")
        opt = qroute.opt

        def raises(text, **options):
            if b"// b" in text:
                raise OSError(28, "No space left on device")
            return opt(text, **options)

        with mock.patch.object(qroute, "opt", raises), futures.ThreadPoolExecutor(1) as executor:
            found = batch.batch(given, self.out, executor=executor, progress=False)
        self.assertEqual((found.written, found.failed), (1, {"OSError": ["b.qasm"]}))
        self.assertEqual(self.rows()[1]["says"], "[Errno 28] No space left on device")
        found = batch.batch(given, self.out, progress=False)
        self.assertEqual((found.written, found.failed, found.done_before), (2, {}, 1))

    def test_a_process_of_the_pool_that_is_killed(self):
        given = self.programs(a="// a", b="parent")
        status, out, err = self.batch(given, "--jobs", "1", "--quiet")
        self.assertEqual((status, out), (2, ""))
        self.assertRegex(err, "^batch: a process of the pool was killed, by want of memory it may be; .* does what is left\n$")
        self.file("stand_in/well", "")
        self.assertEqual(self.batch(given, "--quiet")[0], 0)
        self.assertEqual(len(self.rows()), 2)

    def test_ways_to_start_a_process(self):
        """Later Pythons have another one than this."""
        script = "import multiprocessing, sys; multiprocessing.set_start_method(sys.argv[1])\nfrom qroute import batch\n"
        script += "print(batch.batch(sys.argv[2], sys.argv[3], jobs=2, lot=1, progress=False).written)\n"
        given = self.programs(a="// a", b="// b", c="// c")
        env = os.environ | {"PYTHONPATH": os.path.join(TOP, "python"), "PYTHONDONTWRITEBYTECODE": "1"}
        for way in ("fork", "spawn", "forkserver"):
            words = [sys.executable, "-c", script, way, given, os.path.join(self.room, way)]
            ran = subprocess.run(words, env=env, capture_output=True, text=True, timeout=60)
            self.assertEqual((ran.stdout, ran.returncode), ("3\n", 0), ran.stderr)

    def test_a_break_of_the_terminal(self):
        given = self.programs(a="long")
        words = [os.path.join(TOP, "tools/batch"), "opt", given, "-o", self.out, "--quiet", "--jobs", "1"]
        # where these tests run in the background, a break is ignored by all that they start
        heeds = {"preexec_fn": lambda: signal.signal(signal.SIGINT, signal.SIG_DFL)}
        ran = subprocess.Popen(words, stdout=subprocess.PIPE, stderr=subprocess.PIPE, text=True, start_new_session=True, **heeds)
        while not os.path.exists(os.path.join(self.room, "stand_in/waits")):
            time.sleep(0.01)
        # nobody waits for the program that runs, which takes a minute
        ran.send_signal(signal.SIGINT)
        out, err = ran.communicate(timeout=30)
        os.killpg(ran.pid, signal.SIGKILL)
        self.assertEqual((ran.returncode, out), (130, ""))
        self.assertEqual(err, "batch: stopped; the rows that were made are kept, and the same line does what is left\n")
        self.file("stand_in/well", "")
        self.assertEqual(self.batch(given, "--quiet")[0], 0)

    def test_a_full_disk(self):
        given = self.programs(a="// a")
        os.mkdir(self.out)
        os.symlink("/dev/full", os.path.join(self.out, "rows.part"))
        self.assertEqual(self.batch(given), (2, "", f"batch: {self.out}/a.qasm: No space left on device\n"))
        self.assertEqual(self.batch(given)[0], 0)
        self.assertEqual(sorted(os.listdir(self.out)), ["a.qasm", "rows.jsonl", "task.json"])

    def test_files_of_the_folder_that_are_damaged(self):
        given = self.programs(a="// a")
        batch.batch(given, self.out, progress=False)
        kept = {it: self.text(f"out/{it}") for it in ("rows.jsonl", "task.json")}
        row = kept["rows.jsonl"]
        other = f"{self.out}/{{}} isn't as it was written; put it right, or take a new folder"
        for name, text, says in (
            ("rows.jsonl", row + "row\n", other),
            ("rows.jsonl", row + "[]\n", other),
            ("rows.jsonl", b"\xff\n", other),
            ("rows.jsonl", row + "{}\n", f"line 2 of {self.out}/{{}} is no row; take it out, and its program is run again"),
            ("task.json", "", other),
            ("task.json", "[]\n", other),
        ):
            self.file(f"out/{name}", text)
            self.assertEqual(self.batch(given), (2, "", f"batch: {says.format(name)}\n"), text)
            self.file(f"out/{name}", kept[name])
        # the end of a table that was cut is no row, and its program is run again
        self.file("out/rows.jsonl", row[:-9])
        self.runs()
        self.assertEqual((self.batch(given)[0], self.runs(), self.text("out/rows.jsonl")), (0, 1, row))

    def test_parts_and_the_whole_at_once(self):
        """Parts may run beside each other, and nothing beside a whole run."""
        given = self.many(4)
        batch.batch(given, self.out, progress=False)
        with open(os.path.join(self.out, "task.json"), "r+", encoding="utf-8") as task:
            batch.fcntl.flock(task, batch.fcntl.LOCK_SH)
            self.assertEqual(self.batch(given)[0], 2)
            self.assertEqual(self.batch(given, "--shard", "1/2")[0], 0)
            batch.fcntl.flock(task, batch.fcntl.LOCK_EX)
            status, _, err = self.batch(given, "--shard", "1/2")
        self.assertEqual((status, err), (2, f"batch: another run is at work in {self.out}: task.json\n"))

    def test_another_program_behind_a_script(self):
        """The command of an installation, and the launcher, are scripts that stay the same."""
        for behind in ("lib/qroute/qroute", "bin/out/qroute"):
            os.makedirs(os.path.dirname(os.path.join(self.room, behind)))
        given = self.programs(a="// a")
        script = self.file("bin/qroute", STAND_IN)
        os.chmod(script, 0o755)
        with mock.patch.dict(os.environ, {"QROUTE": script}):
            sums = [batch.sum_of_program()]
            for behind in ("lib/qroute/qroute", "bin/out/qroute"):
                self.file(behind, "one")
                sums.append(batch.sum_of_program())
            self.assertEqual(len(set(sums)), 3)
            self.assertEqual(self.batch(given)[0], 0)
            self.file("lib/qroute/qroute", "another")
            status, _, err = self.batch(given)
            self.assertEqual((status, "was written with another program;" in err), (2, True))
            wanted = batch.sum_of_program()
        with mock.patch.dict(os.environ, {"QROUTE": "qroute", "PATH": f"{self.room}/bin:{os.environ['PATH']}"}):
            self.assertEqual(batch.sum_of_program(), wanted)

    def test_another_module(self):
        given = self.programs(a="// a")
        batch.batch(given, self.out, progress=False)
        with mock.patch.object(qroute, "__version__", "0.0"), self.assertRaisesRegex(batch.BatchFault, "written with another module;"):
            batch.batch(given, self.out, progress=False)

    def test_no_source_is_written_over(self):
        given = self.programs(a="// a")
        path = os.path.join(given, "a.qasm")
        for words in ([path, "-o", given], [given, "-o", given], [given, "-o", self.room]):
            status, out, err = self.run_tool("batch", "opt", *words)
            self.assertEqual((status, out, err), (2, "", f"batch: {words[0]} is in the folder that is written to\n"))
        self.assertEqual(os.listdir(given), ["a.qasm"])

    def test_a_summary_that_cannot_be_written(self):
        """The programs are written all the same, and the next run has nothing to do."""
        given = self.programs(a="// a")
        script = '"$0" opt "$1" -o "$2" --quiet '
        for redirected, says in ((">/dev/full", "No space left on device"), (">&-", "it is closed"), ("| :", "Broken pipe")):
            words = ["bash", "-c", f"set -o pipefail; trap '' PIPE; {script}{redirected}", os.path.join(TOP, "tools/batch"), given, self.out]
            ran = subprocess.run(words, capture_output=True, text=True, timeout=60)
            self.assertEqual((ran.returncode, ran.stderr), (2, f"batch: standard output: {says}\n"), redirected)
            self.assertEqual(len(self.rows()), 1)

    def test_a_folder_has_one_task(self):
        given = self.programs(a="// a")
        self.assertEqual(self.batch(given)[0], 0)
        status, _, err = self.batch(given, "--spares", "2")
        self.assertEqual((status, err), (2, f"batch: {self.out} has what was written with another options; take a new folder, or remove it\n"))
        with open(os.path.join(self.out, "rows.log"), "a", encoding="utf-8") as log:
            batch.fcntl.flock(log, batch.fcntl.LOCK_EX)
            status, _, err = self.batch(given)
        self.assertEqual((status, err), (2, f"batch: another run is at work in {self.out}: rows.log\n"))

    def test_words(self):
        given = self.programs(a="// a")
        os.mkdir(os.path.join(self.room, "empty"))
        for words, wanted in (
            ([given, "--shard", "3/2"], "3/2 is no I/N with I from 1 to N"),
            ([], "no programs are named"),
            ([os.path.join(self.room, "empty")], f"no file *.qasm is in {self.room}/empty"),
            ([given, os.path.join(self.room, "empty")], f"no file *.qasm is in {self.room}/empty"),
            ([given, "--jobs", "0"], "0 is no whole number above 0"),
            ([given, "--timeout", "nan"], "nan is no number above 0"),
            ([given, "--any-gates", "--within", "inf"], "within is inf, and has to be at least 0"),
            ([os.path.join(self.room, "none.qasm")], "No such file"),
        ):
            status, _, err = self.batch(*words)
            self.assertEqual(status, 2)
            self.assertIn(wanted, err)
        self.assertFalse(os.path.exists(self.out))
        with self.assertRaisesRegex(batch.BatchFault, "no programs are named"):
            batch.batch([], self.out)
        status, _, err = self.run_tool("batch", "route", given, "-o", self.out, "--device", "none")
        self.assertEqual((status, err[:22]), (2, "batch: no device none;"))
        # what no program could be run with is told once, before anything is written
        self.file("stand_in/qroute", "#!/bin/sh\necho '{\"fault\":\"Words\",\"status\":2}' >&2\nexit 2\n")
        status, _, err = self.batch(given, "--spares", "0")
        self.assertEqual((status, err[:13]), (2, "batch: Words:"))
        self.assertFalse(os.path.exists(self.out))

    def test_options_are_those_of_the_module(self):
        asked = batch.parser().parse_args(["route", "x", "-o", "y", "--device", "z", "--tries", "20", "--clean"])
        given = {key: it for key, it in vars(asked).items() if key.startswith("option ") and it}
        self.assertEqual(given, {"option tries": 20, "option clean": True})
        kinds = batch.options_of("opt")
        self.assertEqual([kinds[it] for it in ("keep_barriers", "spares", "within")], [bool, int, float])
        with mock.patch.object(qroute, "opt") as called:
            batch.Task("opt", None, {"spares": 2}).call(b"text")
        called.assert_called_once_with(b"text", spares=2)

    def test_no_document_hands_a_name_to_a_shell(self):
        folders = (TOP, os.path.join(TOP, "docs"))
        pages = [os.path.join(it, name) for it in folders for name in os.listdir(it) if name.endswith((".md", ".1"))]
        self.assertGreater(len(pages), 5)
        for path in pages:
            found = [it for it in self.text(path).splitlines() if "{}" in it and ("sh -c" in it or "eval" in it)]
            self.assertEqual(found, [], path)


class Built(BatchTest):
    """Over the program that the launcher built, where there is one; `QROUTE_PROGRAMS=10000 tools/test batch.Built` takes more programs."""

    COUNT = int(os.environ.get("QROUTE_PROGRAMS", 240))

    def setUp(self):
        super().setUp()
        if not os.access(os.environ.get("QROUTE", os.path.join(TOP, "out/qroute")), os.X_OK):
            self.skipTest("there is no built program")
        for number in range(self.COUNT):
            self.file(f"programs/p{number:06}.qasm", drawn(number))

    def test_killed_and_resumed(self):
        words = ["route", os.path.join(self.room, "programs"), "--device", "ibm_tokyo"]
        whole = self.run_tool("batch", *words, "-o", os.path.join(self.room, "whole"), "--quiet", timeout=3600)
        done = 0
        for _ in range(2):
            before, done = done, self.kill_after(done + self.COUNT // 4, *words)
            self.assertTrue(before < done < self.COUNT, (before, done))
        status, out, err = self.run_tool("batch", *words, "-o", os.path.join(self.room, "out"), "--quiet", timeout=3600)
        self.assertEqual((status, err, whole[0]), (1, "", 1), out)
        refused = len(range(7, self.COUNT, 50))
        self.assertIn(f"{self.COUNT:,} programs, {done:,} of them done before: {self.COUNT - refused:,} written, {refused:,} refused", out)
        self.assertEqual(self.text("out/rows.jsonl"), self.text("whole/rows.jsonl"))
        self.assertEqual(self.written(), self.written("whole"))
        if self.COUNT > 1000:
            print(whole[1])


def drawn(number):
    """A program of 3 to 8 wires and 20 to 120 gates, the same one for the same number; each fiftieth has an angle that is refused."""
    draw = random.Random(number)
    wires = draw.randint(3, 8)
    lines = [HEAD.strip(), 'include "qelib1.inc";', f"qreg q[{wires}];", f"creg c[{wires}];"]
    for _ in range(draw.randint(20, 120)):
        on = draw.sample(range(wires), 2) if draw.random() < 0.4 else [draw.randrange(wires)]
        gate = "cx" if len(on) == 2 else draw.choice(["h", "t", "tdg", "s", "x"])
        lines.append(f"{gate} {','.join(f'q[{it}]' for it in on)};")
    lines += ["rz(0.3) q[0];"] * (number % 50 == 7) + ["measure q -> c;"]
    return "\n".join(lines) + "\n"
