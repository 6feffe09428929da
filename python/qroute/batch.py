"""Many programs at a time: one row of a table each, and what is done is not done again.

    from qroute.batch import batch
    summary = batch("programs", "written", "route", device=qroute.Device.named("ibm_tokyo"))
    print(summary.in_words())

    python -m qroute.batch route programs -o written --device ibm_tokyo       # the same, as tools/batch

The folder has, for each program that was written, a file of its name, and `rows.jsonl`, one line of JSON for each program in
the order of names: `program`, the sha256 of its text, and what the report tells, or `fault`, `status`, `says` and the place for
one that was refused. The rows don't depend on when, where and in which order they were made. A written program is put in its
place at once, as a whole, and its row comes after it. So a run that was stopped, in whatever way, goes on where it was.

The programs are read and written here. What runs elsewhere gets their texts and answers texts, so an executor of other machines
needs this module and the program there, and no folder in common.
"""

from __future__ import annotations

import argparse
import collections.abc
import concurrent.futures
import contextlib
import dataclasses
import errno
import fcntl
import hashlib
import importlib
import inspect
import json
import math
import multiprocessing
import multiprocessing.connection
import os
import pathlib
import re
import shutil
import signal
import subprocess
import sys
import threading
import time
import typing

import qroute

__all__ = ["BatchFault", "Summary", "batch"]

COMMANDS = ("opt", "route", "check")
# How many programs are handed over at a time: one call costs little beside so many programs.
LOT = 25
# How many lots wait at an executor whose width isn't known.
LOTS_AT_ONCE = 64
GOES_ON = "the rows that were made are kept, and the same line does what is left"
# Statuses of refusals, which would come again; the others are of what happened to one run.
REFUSED = (3, 4)
# What the folder that is written to has beside programs: tables, logs, a file that is being written, and what was asked.
ROWS = re.compile(r"rows(-\d+-of-\d+)?\.(jsonl|log|part)")
OWN = re.compile(rf"{ROWS.pattern}|task\.json(\..*)?", re.DOTALL)
Row = dict[str, typing.Any]


class BatchFault(Exception):
    """The batch can't be run as it is asked for; nothing was done."""


def sum_of_program() -> str:
    """The sha256 of the program that is run; of both, if that is a script before it, as an installation's command or a launcher.
    """
    path = pathlib.Path(shutil.which(qroute.program()) or qroute.program()).resolve()
    found = hashlib.sha256(path.read_bytes())
    for behind in (path.parent.parent / "lib/qroute/qroute", path.parent / "out/qroute"):
        if path.is_file() and behind.is_file() and path.read_bytes()[:2] == b"#!":
            found.update(behind.read_bytes())
    return found.hexdigest()


@dataclasses.dataclass(frozen=True)
class Task:
    """What is asked of each program."""

    command: str
    device: qroute.Device | None
    options: dict[str, typing.Any]

    def told(self) -> Row:
        """What a folder keeps of the task, so that no other one is mixed with it."""
        device = hashlib.sha256(self.device.text.encode()).hexdigest() if self.device else None
        options = {key: it for key, it in self.options.items() if key != "timeout"}
        return {"command": self.command, "options": options, "device": device, "program": sum_of_program(), "module": qroute.__version__}

    def call(self, text: bytes) -> qroute.Result | qroute.Checked:
        """What the module answers for one program."""
        words: list[typing.Any] = [text] if self.device is None else [text, self.device]
        found: qroute.Result | qroute.Checked = getattr(qroute, self.command)(*words, **self.options)
        return found


@dataclasses.dataclass(frozen=True)
class Summary:
    """What came of the programs that were asked for, those that were done before among them.

    `refused` has the names of refused programs by the fault, and `failed` of those whose run failed, which are run again next
    time. `done_before` of them were done in an earlier run. `seconds` are those of this run.
    """

    programs: int
    written: int
    refused: dict[str, list[str]]
    failed: dict[str, list[str]]
    swaps: int
    cx_before: int
    cx_after: int
    t_before: int
    t_after: int
    done_before: int
    seconds: float

    @property
    def is_whole(self) -> bool:
        """Whether each program was written."""
        return self.written == self.programs

    def in_words(self, most: int = 10) -> str:
        """Some lines for people; of each fault up to so many names."""
        now = self.programs - self.done_before
        pace = f", {now / self.seconds:,.0f} a second" if now and self.seconds else ""
        refused, failed = (sum(map(len, it.values())) for it in (self.refused, self.failed))
        lines = [
            f"{self.programs:,} programs, {self.done_before:,} of them done before: {self.written:,} written, {refused:,} refused,"
            f" {failed:,} failed, in {self.seconds:,.1f} s{pace}",
            f"{self.swaps:,} swaps, CNOTs {self.cx_before:,} -> {self.cx_after:,}, T {self.t_before:,} -> {self.t_after:,}",
        ]
        for what, found in (("refused", self.refused), ("failed", self.failed)):
            for fault, names in sorted(found.items()):
                more = f" and {len(names) - most:,} more" if len(names) > most else ""
                listed = " ".join(map(printable, names[:most]))
                reason = qroute.SAYS.get(fault, "")
                # some reasons have numbers of each program, which its row tells
                why = f" ({reason})" if reason and "{" not in reason else ""
                lines.append(f"{what}, {fault}{why}, {len(names):,}: {listed}{more}")
        return "\n".join(lines)


def printable(name: str) -> str:
    """A file's name with control characters, and bytes that are no text, as Python writes them."""
    return "".join(it if it.isprintable() else it.encode("unicode_escape").decode() for it in name)


def fault_row(fault: Exception) -> Row:
    """What the row of a program tells that wasn't written."""
    if isinstance(fault, qroute.Fault):
        # `text` and the like are keys of the fault line itself
        told = {"fault": fault.name or type(fault).__name__, "code": fault.code, "status": fault.status, "says": fault.says}
        if isinstance(fault, qroute.Refused):
            told |= {"line": fault.line, "column": fault.column}
        return {key: it for key, it in told.items() if it is not None}
    if isinstance(fault, subprocess.TimeoutExpired):
        return {"fault": "Timeout", "status": None, "says": f"it took longer than {fault.timeout} s"}
    return {"fault": type(fault).__name__, "status": None, "says": str(fault)}


def do_one(task: Task, name: str, text: bytes) -> tuple[Row, str | None]:
    """The row of a program, and the written text if there is one."""
    row: Row = {"program": name, "sha256": hashlib.sha256(text).hexdigest()}
    try:
        found = task.call(text)
    except Exception as fault:
        # whatever it is, of one program or of the machine that ran it, the others go on
        return row | fault_row(fault), None
    if isinstance(found, qroute.Result):
        return row | found.report, found.text
    return row | dataclasses.asdict(found), None


def do_lot(task: Task, lot: list[tuple[str, bytes]]) -> list[tuple[Row, str | None]]:
    """The same of some programs; this is what an executor runs."""
    return [do_one(task, name, text) for name, text in lot]


def programs_in(given: str | os.PathLike[str] | collections.abc.Iterable[str | os.PathLike[str]], out: pathlib.Path) -> dict[str, pathlib.Path]:
    """The path of each program by its name, in the order of names. Of a folder these are the files *.qasm below it, but for those
    of the folder that is written to. Each has its path in the folder as its name, and a file has its own name. Folders of such
    a name are none, and links that lead nowhere are told when they are to be read. A folder without a program is a fault.
    """
    listed = [given] if isinstance(given, (str, os.PathLike)) else list(given)
    found: dict[str, pathlib.Path] = {}
    for path in map(pathlib.Path, listed):
        # a file that isn't there is told before anything is done
        path.stat()
        if out in (path.resolve(), *path.resolve().parents):
            raise BatchFault(f"{printable(str(path))} is in the folder that is written to")
        paths = list(files_below(path, out)) if path.is_dir() else [path]
        if not paths:
            raise BatchFault(f"no file *.qasm is in {printable(str(path))}")
        for it in paths:
            name = it.relative_to(path).as_posix() if path.is_dir() else it.name
            if found.setdefault(name, it) != it:
                raise BatchFault(f"two programs have the name {printable(name)}: {found[name]} and {it}")
            if OWN.fullmatch(name):
                raise BatchFault(f"no program can have the name {printable(name)}, which is one of the folder's own")
    for name in found:
        for above in map(str, pathlib.PurePosixPath(name).parents):
            if above in found or OWN.fullmatch(above):
                raise BatchFault(f"{printable(name)} can't be written where {printable(above)} is a file")
    if not found:
        raise BatchFault("no programs are named")
    return dict(sorted(found.items()))


def files_below(folder: pathlib.Path, out: pathlib.Path) -> collections.abc.Iterator[pathlib.Path]:
    """The files *.qasm below a folder, in order, but for those of the folder that is written to; a pipe, which has no end, is none."""
    for path in sorted(folder.rglob("*.qasm")):
        if (path.is_file() or not path.exists()) and out not in path.resolve().parents:
            yield path


def shard_of(names: dict[str, pathlib.Path], shard: tuple[int, int] | None) -> dict[str, pathlib.Path]:
    """The programs of one of several runs: each N-th one, from the I-th on."""
    if shard is None:
        return names
    which, count = shard
    if not 1 <= which <= count:
        raise BatchFault(f"there is no part {which} of {count}")
    return dict(list(names.items())[which - 1 :: count])


def whole_lines(path: pathlib.Path) -> list[str]:
    """The lines of a file that end; one that was begun when a run was killed doesn't count."""
    try:
        text = path.read_text(encoding="utf-8")
    except FileNotFoundError:
        return []
    except UnicodeDecodeError:
        raise BatchFault(f"{path} isn't as it was written; put it right, or take a new folder") from None
    return text.split("\n")[:-1]


def object_of(text: str, path: pathlib.Path) -> Row:
    """The object that a text of a file is."""
    try:
        found = json.loads(text)
    except ValueError:
        found = None
    if not isinstance(found, dict):
        raise BatchFault(f"{path} isn't as it was written; put it right, or take a new folder")
    return found


def lines_of(path: pathlib.Path) -> dict[str, str]:
    """The lines of a table or a log by the names of their programs."""
    found = {}
    for number, line in enumerate(whole_lines(path), 1):
        name = object_of(line, path).get("program")
        if not isinstance(name, str):
            raise BatchFault(f"line {number} of {path} is no row; take it out, and its program is run again")
        found[name] = line
    return found


def by_age(path: pathlib.Path) -> tuple[bool, bool, str]:
    """Orders tables and logs so that later rows come after earlier ones: a log is later than a table, and a part than the whole."""
    return path.suffix == ".log", path.stem != "rows", path.name


class Folder:
    """What is in the folder that is written to: the rows that are done, and the log to which new ones are added."""

    def __init__(self, path: pathlib.Path, shard: tuple[int, int] | None) -> None:
        self.path = path
        stem = "rows" if shard is None else f"rows-{shard[0]}-of-{shard[1]}"
        self.table, self.log, self.part = (path / f"{stem}.{it}" for it in ("jsonl", "log", "part"))
        self.is_whole = shard is None
        self.lines: dict[str, str] = {}
        self.merged: list[pathlib.Path] = []

    @contextlib.contextmanager
    def open(self, task: Row) -> collections.abc.Iterator[typing.TextIO]:
        """The log, for this run alone; what is done so far is known then."""
        self.path.mkdir(parents=True, exist_ok=True)
        with self.hold_task(task), self.log.open("a", encoding="utf-8") as log:
            self.lock(log)
            # an end of a line that was never finished is cut off
            log.truncate(sum(len(it.encode()) + 1 for it in whole_lines(self.log)))
            for path in sorted((it for it in self.path.iterdir() if ROWS.fullmatch(it.name)), key=by_age):
                if self.is_whole and path not in (self.table, self.log, self.part):
                    self.merged.append(path)
                if path.suffix != ".part":
                    self.lines |= lines_of(path)
            yield log

    def lock(self, file: typing.TextIO, how: int = fcntl.LOCK_EX) -> None:
        """Holds a file for as long as it is open."""
        try:
            fcntl.flock(file, how | fcntl.LOCK_NB)
        except BlockingIOError:
            raise BatchFault(f"another run is at work in {self.path}: {pathlib.Path(file.name).name}") from None

    def hold_task(self, task: Row) -> typing.TextIO:
        """Writes down what is asked; refuses what was asked otherwise before. While the file is open no other run is at work, but for
        other parts of the same one.
        """
        path = self.path / "task.json"
        text = json.dumps(task, sort_keys=True) + "\n"
        if not path.exists():
            # several runs may begin at once, and the first one to put it there has asked
            part = self.path / f"task.json.{os.uname().nodename}.{os.getpid()}"
            part.write_text(text, encoding="utf-8")
            try:
                os.link(part, path)
            except FileExistsError:
                pass
            except OSError:
                # a file system without links
                os.replace(part, path)
            part.unlink(missing_ok=True)
        held = path.open("r+", encoding="utf-8")
        try:
            self.lock(held, fcntl.LOCK_EX if self.is_whole else fcntl.LOCK_SH)
            before = object_of(held.read(), path)
            differs = sorted(key for key in task if before.get(key) != json.loads(text)[key])
            if differs:
                raise BatchFault(f"{self.path} has what was written with another {' and '.join(differs)}; take a new folder, or remove it")
        except BaseException:
            held.close()
            raise
        return held

    def is_done(self, name: str, text: bytes) -> bool:
        """Whether a program with this text needs no further run."""
        if name not in self.lines:
            return False
        row = json.loads(self.lines[name])
        if row["sha256"] != hashlib.sha256(text).hexdigest():
            return False
        if "fault" in row:
            return row["status"] in REFUSED
        return "cx_after" not in row or (self.path / name).is_file()

    def add(self, log: typing.TextIO, done: list[tuple[Row, str | None]]) -> None:
        """Puts written programs in their places, and then their rows into the log."""
        for row, text in done:
            if text is not None:
                path = self.path / row["program"]
                path.parent.mkdir(parents=True, exist_ok=True)
                replace(path, text, self.part)
            self.lines[row["program"]] = json.dumps(row, separators=(",", ":"))
        log.write("".join(self.lines[row["program"]] + "\n" for row, _ in done))
        log.flush()

    def finish(self) -> None:
        """Writes the table, in the order of names, and takes the log away; a whole run takes in the tables of its parts."""
        own = self.lines
        if not self.is_whole:
            mine = lines_of(self.table) | lines_of(self.log)
            own = {name: it for name, it in self.lines.items() if name in mine}
        replace(self.table, "".join(f"{own[name]}\n" for name in sorted(own)), self.part)
        for path in [self.log, *self.merged]:
            path.unlink()


def replace(path: pathlib.Path, text: str, part: pathlib.Path) -> None:
    """Writes a file so that it is there as a whole or not at all; until then it is `part`."""
    try:
        part.write_text(text, encoding="utf-8")
    except OSError as fault:
        with contextlib.suppress(OSError):
            part.unlink()
        raise OSError(fault.errno, fault.strerror, str(path)) from None
    os.replace(part, path)


def summed(lines: collections.abc.Iterable[str], done_before: int, seconds: float) -> Summary:
    """The summary of some rows."""
    rows: list[Row] = [json.loads(it) for it in lines]
    refused: dict[str, list[str]] = {}
    failed: dict[str, list[str]] = {}
    for row in rows:
        if "fault" in row:
            kind = refused if row["status"] in REFUSED else failed
            kind.setdefault(row["fault"], []).append(row["program"])
    well = [row for row in rows if "fault" not in row]
    keys = ("swaps", "cx_before", "cx_after", "t_before", "t_after")
    sums = {key: sum(row.get(key, 0) for row in well) for key in keys}
    return Summary(len(rows), len(well), refused, failed, **sums, done_before=done_before, seconds=seconds)


def lots(
    folder: Folder,
    programs: dict[str, pathlib.Path],
    size: int,
    skip: collections.abc.Callable[[], None],
    lose: collections.abc.Callable[[str, OSError], None],
) -> collections.abc.Iterator[list[tuple[str, bytes]]]:
    """What is left to do, so many programs at a time; `skip` is called for each program that is done, `lose` for each that can't be read."""
    lot: list[tuple[str, bytes]] = []
    for name, path in programs.items():
        try:
            text = path.read_bytes()
        except OSError as fault:
            lose(name, fault)
            continue
        if folder.is_done(name, text):
            skip()
            continue
        lot.append((name, text))
        if len(lot) == size:
            yield lot
            lot = []
    if lot:
        yield lot


def answers(
    executor: concurrent.futures.Executor, task: Task, todo: collections.abc.Iterable[list[tuple[str, bytes]]], most: int
) -> collections.abc.Iterator[list[tuple[Row, str | None]]]:
    """What an executor answers for each lot, as it comes; never more than so many lots are under way."""
    pending: set[concurrent.futures.Future[list[tuple[Row, str | None]]]] = set()
    try:
        for lot in todo:
            pending.add(executor.submit(do_lot, task, lot))
            if len(pending) >= most:
                done, pending = concurrent.futures.wait(pending, return_when=concurrent.futures.FIRST_COMPLETED)
                yield from (it.result() for it in done)
        yield from (it.result() for it in concurrent.futures.as_completed(pending))
    finally:
        # an executor of somebody else goes on, and needn't do what nobody waits for
        for it in pending:
            it.cancel()


def end_with(stop: multiprocessing.connection.Connection) -> None:
    """Ends a process of the pool when the one that asked for it is gone, however that ended, or has said so by `stop`."""
    asker = multiprocessing.parent_process()

    def watch() -> None:
        # in later Pythons the asker isn't what the system takes for the parent
        multiprocessing.connection.wait([stop] if asker is None else [stop, asker.sentinel])
        os._exit(1)

    # a break of the terminal is for the one that hands out the work
    signal.signal(signal.SIGINT, signal.SIG_IGN)
    threading.Thread(target=watch, daemon=True).start()


@contextlib.contextmanager
def pool(jobs: int) -> collections.abc.Iterator[concurrent.futures.Executor]:
    """A pool of processes on this machine; after a fault, or a break of the terminal, they end at once, whatever they are at."""
    stop, said = multiprocessing.Pipe(duplex=False)
    with stop, said:
        found = concurrent.futures.ProcessPoolExecutor(jobs, initializer=end_with, initargs=(stop,))
        try:
            yield found
        except BaseException:
            # each of them sees it, since none reads it
            said.send_bytes(b"end")
            raise
        finally:
            found.shutdown(cancel_futures=True)


class Bar:
    """How far a run is: by tqdm if it is installed, and else in lines, one in five seconds at most."""

    def __init__(self, total: int, is_shown: bool) -> None:
        self.total, self.done, self.is_shown = total, 0, is_shown
        self.begun = self.told = time.monotonic()
        self.tqdm: typing.Any = None
        if is_shown:
            with contextlib.suppress(ImportError):
                self.tqdm = importlib.import_module("tqdm").tqdm(total=total, unit=" programs", file=sys.stderr)

    def add(self, count: int = 1) -> None:
        """So many programs more are done."""
        self.done += count
        if self.tqdm is not None:
            self.tqdm.update(count)
        elif self.is_shown and (time.monotonic() - self.told > 5 or self.done == self.total):
            self.told = time.monotonic()
            print(f"{self.done:,} of {self.total:,} programs in {self.told - self.begun:,.0f} s", file=sys.stderr)

    def close(self) -> None:
        """The run is over."""
        if self.tqdm is not None:
            self.tqdm.close()


def processors() -> int:
    """How many processors this process may use."""
    return len(os.sched_getaffinity(0))


def try_once(task: Task) -> None:
    """Raises what each program would raise, for the words, the device or the program that is run."""
    try:
        task.call(b"OPENQASM 2.0;\n")
    except qroute.Refused:
        # of the text alone
        return
    except TypeError as fault:
        raise BatchFault(f"{task.command} doesn't take this: {fault}") from None


def batch(
    programs: str | os.PathLike[str] | collections.abc.Iterable[str | os.PathLike[str]],
    out: str | os.PathLike[str],
    command: str = "opt",
    *,
    device: qroute.Device | None = None,
    executor: concurrent.futures.Executor | None = None,
    jobs: int | None = None,
    shard: tuple[int, int] | None = None,
    lot: int = LOT,
    progress: bool | None = None,
    **options: typing.Any,
) -> Summary:
    """Runs `opt`, `route` or `check` on each program, and writes the folder `out` with the written programs and the table.

    `programs` is a folder, whose files *.qasm count, or a list of files and folders. `options` are those of the module's function
    of the same name. A program that is refused, or can't be read, has its row and stops nothing. What is done is not done again: a
    program is done if its row is there, for the same text, and its written program too. One whose run failed for another reason
    is run again.

    The work is done by a pool of `jobs` processes, as many as there are processors; or by an `executor` of any kind that stands
    under `concurrent.futures.Executor`, as Dask's `Client.get_executor()`. With `shard=(I, N)` only each N-th program from the
    I-th on is run, so that N runs on any machines with the folders in common do all. After them a run without it does what is
    left and makes one table.

    Raises `BatchFault` if there is no program, if the folder has what was asked otherwise, if two programs have one name, or while
    another run is at work there. Raises `QrouteError` if no program can be run, or the device is refused. What an executor raises, as
    `BrokenExecutor` if a process of the pool was killed, comes through; what was done until then is kept.
    """
    begun = time.monotonic()
    if command not in COMMANDS or (command == "route") != (device is not None):
        raise BatchFault("the command is opt, check, or route with a device")
    task = Task(command, device, options)
    folder = Folder(pathlib.Path(out).resolve(), shard)
    listed = shard_of(programs_in(programs, folder.path), shard)
    try_once(task)
    width = jobs or processors()
    before = [0]
    with folder.open(task.told()) as log:
        bar = Bar(len(listed), sys.stderr.isatty() if progress is None else progress)

        def skip() -> None:
            before[0] += 1
            bar.add()

        def lose(name: str, fault: OSError) -> None:
            told = {"fault": type(fault).__name__, "status": None, "says": fault.strerror}
            folder.add(log, [({"program": name, "sha256": None, **told}, None)])
            bar.add()

        todo = lots(folder, listed, lot, skip, lose)
        with contextlib.nullcontext(executor) if executor else pool(width) as workers:
            for done in answers(workers, task, todo, LOTS_AT_ONCE if executor else 3 * width):
                folder.add(log, done)
                bar.add(len(done))
        bar.close()
        folder.finish()
    return summed((folder.lines[name] for name in listed), before[0], time.monotonic() - begun)


def shard_words(text: str) -> tuple[int, int]:
    """The part that `I/N` names."""
    found = re.fullmatch(r"([1-9]\d*)/([1-9]\d*)", text)
    if found is None or int(found[1]) > int(found[2]):
        raise argparse.ArgumentTypeError(f"{text} is no I/N with I from 1 to N")
    return int(found[1]), int(found[2])


def positive(text: str) -> float:
    """A number above 0."""
    found = float(text)
    if not 0 < found < math.inf:
        raise argparse.ArgumentTypeError(f"{text} is no number above 0")
    return found


def count(text: str) -> int:
    """A whole number above 0."""
    if re.fullmatch(r"0*[1-9]\d{0,8}", text) is None:
        raise argparse.ArgumentTypeError(f"{text} is no whole number above 0")
    return int(text)


def options_of(command: str) -> dict[str, type]:
    """The options that the module's function of this name takes, with the type of each: bool, int, float or str.

    A list of qubits isn't one of them, since it is for programs of one size.
    """
    found = {}
    for name, it in inspect.signature(getattr(qroute, command)).parameters.items():
        if name not in ("text", "device", "initial", "timeout"):
            kind = str(it.annotation)
            found[name] = next((it for it in (bool, int, float) if it.__name__ in kind.split(" | ")), str)
    return found


def parser() -> argparse.ArgumentParser:
    """The words of the command line; the options of a command are those of the module's function."""
    found = argparse.ArgumentParser(
        prog="batch",
        description="Runs qroute on many programs; what is done is not done again.",
        epilog="The folder OUT has the written programs and rows.jsonl, one line of JSON for each program. Status 0 if each program was"
        " written, 1 if some weren't, 2 if the words are wrong, files can't be read or written, or a process of the pool is killed.",
    )
    commands = found.add_subparsers(dest="command", required=True)
    for command in COMMANDS:
        sub = commands.add_parser(command)
        sub.add_argument("programs", nargs="*", metavar="PROGRAM", help="a file, or a folder, whose files *.qasm are taken")
        sub.add_argument("-o", "--out", required=True, metavar="OUT", help="the folder to write to")
        sub.add_argument("--list", metavar="FILE", help="a file with a path on each line; - is standard input")
        sub.add_argument("-j", "--jobs", type=count, metavar="N", help="processes at a time; as many as processors without it")
        sub.add_argument("--shard", type=shard_words, metavar="I/N", help="run each N-th program alone, from the I-th on")
        sub.add_argument("--timeout", type=positive, metavar="SECONDS", help="the most that one program may take")
        sub.add_argument("--quiet", action="store_true", help="don't tell how far it is")
        sub.add_argument("--json", action="store_true", help="the summary as one line of JSON")
        if command == "route":
            sub.add_argument("--device", required=True, metavar="NAME", help="a device that comes with qroute, or a device file, *.toml")
        for name, kind in options_of(command).items():
            word = f"--{name.replace('_', '-')}"
            if kind is bool:
                sub.add_argument(word, dest=f"option {name}", action="store_true")
            else:
                sub.add_argument(word, dest=f"option {name}", type=kind, metavar=name.upper())
    return found


def asked_programs(asked: argparse.Namespace) -> list[str]:
    """The programs that the command line names, in its words and in a list."""
    listed = list(asked.programs)
    if asked.list is not None:
        text = sys.stdin.buffer.read() if asked.list == "-" else pathlib.Path(asked.list).read_bytes()
        listed += [os.fsdecode(it) for it in text.split(b"\n") if it]
    return listed


def device_of(name: str) -> qroute.Device:
    """The device of a name, or of a file."""
    try:
        return qroute.Device.load(name) if name.endswith(".toml") else qroute.Device.named(name)
    except KeyError as fault:
        raise BatchFault(fault.args[0]) from None


def put(text: str) -> None:
    """Writes to standard output past Python's buffer, so that nothing is left to fail at the end."""
    if sys.stdout is None:
        raise OSError(errno.EBADF, "it is closed", "standard output")
    left = text.encode("utf-8", "surrogateescape")
    try:
        while left:
            left = left[os.write(sys.stdout.fileno(), left) :]
    except OSError as fault:
        raise OSError(fault.errno, fault.strerror, "standard output") from None


def reason(fault: Exception) -> str:
    """What a fault is, in one line; one of the system has the name of its file or stream."""
    parts = [fault.filename, fault.strerror] if isinstance(fault, OSError) else [fault]
    return printable(": ".join(str(it) for it in parts if it is not None))


def ended(says: str, status: int) -> int:
    """Says why a command line ended; the status."""
    if sys.stderr is not None:
        print(f"batch: {says}", file=sys.stderr)
    return status


def main(words: list[str] | None = None) -> int:
    """Runs a command line; its status."""
    asked = parser().parse_args(words)
    options = {key.removeprefix("option "): it for key, it in vars(asked).items() if key.startswith("option ") and it is not None and it is not False}
    try:
        device = device_of(asked.device) if asked.command == "route" else None
        summary = batch(
            asked_programs(asked),
            asked.out,
            asked.command,
            device=device,
            jobs=asked.jobs,
            shard=asked.shard,
            progress=False if asked.quiet else None,
            timeout=asked.timeout,
            **options,
        )
        put((json.dumps(dataclasses.asdict(summary)) if asked.json else summary.in_words()) + "\n")
    except (BatchFault, qroute.QrouteError, ValueError, OSError) as fault:
        return ended(reason(fault), 2)
    except concurrent.futures.BrokenExecutor:
        return ended(f"a process of the pool was killed, by want of memory it may be; {GOES_ON}", 2)
    except KeyboardInterrupt:
        return ended(f"stopped; {GOES_ON}", 128 + signal.SIGINT)
    return 0 if summary.is_whole else 1


if __name__ == "__main__":
    sys.exit(main())
