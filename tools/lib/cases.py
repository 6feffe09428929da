"""Given cases: runs of the built program with the bytes that must come out, as the files of `cases/` have them.

`cases/README.md` says what each line of such a file means.
"""

import concurrent.futures
import dataclasses
import difflib
import itertools
import math
import os
import re
import shlex
import subprocess
import tempfile

TOP = os.path.dirname(os.path.dirname(os.path.dirname(os.path.realpath(__file__))))
FOLDER = os.path.join(TOP, "cases")
HEADING = b'OPENQASM 2.0;\ninclude "qelib1.inc";\n'
READERS = ("opt", "check", "stages", "amplitude --from 1 --to 1", "route --device d.toml --trivial")
EACH = (*READERS, "bench --start 1 --gates 1 --device d.toml")
WRITERS = ("opt", "route", "bench")
ENDS = {
    "input": ("folder", "bytes", "bare"),
    "output": ("closed", "full"),
    "report": ("closed", "full"),
}
LINE = re.compile(r"(@[\w.-]+|[#$|!=>~<%{])(\*?)(?: (.*))?$")
RANGES = re.compile(r"(\w+) in (\d+)\.\.(\d+)$|(\d+) times$")
EXPRESSION = re.compile(r"\$\{(.*?)\}")
SECONDS = 300
SHOWN = 30


class Malformed(ValueError):
    """A line of a file of cases that says nothing."""


@dataclasses.dataclass
class Case:
    place: str  # file and line
    name: str
    words: list[str]
    input: bytes = b""
    files: dict[str, bytes] = dataclasses.field(default_factory=dict)
    ends: dict[str, str] = dataclasses.field(default_factory=dict)
    status: int = 0
    output: bytes | None = b""  # None if it isn't compared
    report: bytes | None = b""
    pieces: list[bytes] = dataclasses.field(default_factory=list)
    most: int | None = None
    sizes: dict[str, int] = dataclasses.field(default_factory=dict)


@dataclasses.dataclass
class Ran:
    status: int
    output: bytes
    report: bytes


def join(between: str, parts, form: str = "#") -> str:
    """The parts with a text between them, each in a form in which `#` stands for it."""
    return between.join(form.replace("#", str(it)) for it in parts)


KNOWN = {"__builtins__": {}, "range": range, "join": join}


def read_range(part: str) -> tuple[str, range]:
    """The name and the numbers of `NAME in A..B` or `N times`."""
    found = RANGES.match(part)
    if not found:
        raise Malformed(f"no range: {part}")
    name, begin, end, times = found.groups()
    return name or "", range(int(times)) if times else range(int(begin), int(end))


def made_lines(rule: str) -> list[str]:
    """The lines that `RANGES: TEMPLATE` stands for."""
    head, colon, template = rule.partition(": ")
    if not colon:
        raise Malformed(f"a made line without a colon: {rule}")
    ranges = [read_range(it.strip()) for it in head.split(",") if it.strip()]
    texts = EXPRESSION.split(template)
    if len(texts) == 1:
        return [template] * math.prod(len(it) for _, it in ranges)
    parts = [compile(it, template, "eval") if i % 2 else it for i, it in enumerate(texts)]
    found = []
    for values in itertools.product(*(it for _, it in ranges)):
        names = dict(zip((name for name, _ in ranges), values))
        found.append("".join(it if isinstance(it, str) else str(eval(it, KNOWN, names)) for it in parts))
    return found


def read_lines(block: list[str]) -> dict[str, list[str]]:
    """What the lines of a case say, by their signs."""
    said: dict[str, list[str]] = {}
    for line in block:
        found = LINE.match(line)
        if line.startswith('{"'):
            said.setdefault("{", []).append(line)
        elif found:
            sign, star, rest = found.groups()
            lines = made_lines(rest or "") if star else [rest or ""]
            said.setdefault(sign, []).extend(lines)
        else:
            raise Malformed(f"no sign: {line}")
    return said


def text_of(lines: list[str]) -> bytes:
    """The text of some lines; one that ends with a backslash has no line break."""
    return "".join(it[:-1] if it.endswith("\\") else f"{it}\n" for it in lines).encode()


def headed(text: bytes) -> bytes:
    return text if text.startswith(b"OPENQASM") else HEADING + text


def commands_of(line: str) -> list[list[str]]:
    """The words of each run that a line asks for, the name of the program first."""
    name, *words = shlex.split(line)
    if name not in ("each", "qroute", ""):
        raise Malformed(f"words that don't begin with `qroute`: {line}")
    if name != "each":
        return [[name, *words]]
    found = [["qroute", *it.split()] for it in (EACH if words else READERS)]
    if unknown := set(words) - {it[1] for it in found}:
        raise Malformed(f"no such command for `each`: {' '.join(sorted(unknown))}")
    return [it for it in found if not words or it[1] in words]


def read_ends(lines: list[str], files) -> dict[str, str]:
    found = {}
    for line in lines:
        end, _, how = line.partition(" ")
        if how not in ENDS.get(end, ("folder",)) or end in files:
            raise Malformed(f"no end that fails so: {line}")
        found[end] = how
    return found


def output_of(said, words, status, ends) -> bytes | None:
    """What must come out on standard output."""
    lines = said.get(">", [])
    if lines == ["?"]:
        return None
    text = text_of(lines)
    if words[1:] and words[1] in WRITERS and status in (0, 8) and "output" not in ends:
        return headed(text.replace(b"; ", b";\n"))
    return text


def read_block(block: list[str], place: str) -> list[Case]:
    """The cases that stand between two empty lines: more than one for `$ each`."""
    said = read_lines(block)
    if list(said) == ["#"]:
        return []
    if len(said.get("$", [])) != 1:
        raise Malformed("not one line of words")
    if more := [sign for sign in "=<{" if len(said.get(sign, [])) > 1]:
        raise Malformed(f"more than one line {more[0]}")
    files = {sign[1:]: text_of(lines) for sign, lines in said.items() if sign[0] == "@"}
    files = {name: headed(text) if name.endswith(".qasm") else text for name, text in files.items()}
    ends = read_ends(said.get("!", []), files)
    status = int(said.get("=", ["0"])[0])
    sizes = dict(it.split(" ")[::-1] for it in said.get("%", []))
    given = text_of(said.get("|", []))
    found = []
    for words in commands_of(said["$"][0]):
        found.append(
            Case(
                place,
                said.get("#", said["$"])[0],
                words,
                given if ends.get("input") == "bare" else headed(given),
                files,
                ends,
                status,
                output_of(said, words, status, ends),
                text_of(said["{"]) if "{" in said else None if "~" in said else b"",
                [it.encode() for it in said.get("~", [])],
                int(said["<"][0]) if "<" in said else None,
                {name: int(size) for name, size in sizes.items()},
            )
        )
    return found


def read_cases(path: str) -> list[Case]:
    """The cases of a file."""
    found, block, begins = [], [], 1
    with open(path, encoding="utf-8") as file:
        lines = file.read().split("\n")
    for number, line in enumerate([*lines, ""], 1):
        if line:
            block.append(line)
            continue
        place = f"{os.path.relpath(path, TOP)}:{begins}"
        if block:
            try:
                found += read_block(block, place)
            except (ValueError, SyntaxError, NameError, TypeError) as fault:
                raise Malformed(f"{place}: {fault}") from None
        block, begins = [], number + 1
    return found


def themes() -> list[str]:
    """The names of the files of cases."""
    return sorted(it[: -len(".txt")] for it in os.listdir(FOLDER) if it.endswith(".txt"))


def sizes_of(case: Case, name: str) -> int:
    """How many bytes a text of a case has."""
    texts = {"input": case.input, "output": case.output or b""} | case.files
    return len(texts.get(name, b""))


def put(path: str, text: bytes) -> None:
    with open(path, "wb") as file:
        file.write(text)


def opened(case: Case, end: str, top: str) -> int:
    """A descriptor for a standard stream."""
    how = case.ends.get(end)
    if how == "full":
        return os.open("/dev/full", os.O_WRONLY)
    if how == "folder":
        return os.open(top, os.O_RDONLY)
    if how == "bytes":
        return -1
    path, mode = os.path.join(top, end), os.O_RDONLY if end == "input" else os.O_WRONLY
    return os.open(path, mode)


def feed(process: subprocess.Popen, text: bytes) -> None:
    """A text into the input of a process, byte by byte; no more if nobody reads."""
    with process.stdin as pipe:
        try:
            for it in range(len(text)):
                os.write(pipe.fileno(), text[it : it + 1])
        except BrokenPipeError:
            pass


def start(case: Case, program: str, top: str) -> subprocess.Popen:
    """The program on its streams, in the folder of its files."""
    words = case.words
    if closed := [it for it, end in ((">&-", "output"), ("2>&-", "report")) if case.ends.get(end) == "closed"]:
        program, words = "/bin/sh", ["sh", "-c", f'exec "$@" {" ".join(closed)}', "sh", program, *words[1:]]
    streams = [opened(case, end, top) for end in ENDS]
    try:
        room = os.path.join(top, "room")
        return subprocess.Popen(words, 0, program, *streams, cwd=room)
    finally:
        for it in streams:
            if it >= 0:
                os.close(it)


def run_case(case: Case, program: str) -> Ran:
    """What the program makes of a case."""
    with tempfile.TemporaryDirectory(prefix="case") as top:
        room = os.path.join(top, "room")
        os.mkdir(room)
        for end, text in (("input", case.input), ("output", b""), ("report", b"")):
            put(os.path.join(top, end), text)
        for name, text in case.files.items():
            put(os.path.join(room, name), text)
        for name in set(case.ends) - set(ENDS):
            os.mkdir(os.path.join(room, name))
        process = start(case, program, top)
        if process.stdin:
            feed(process, case.input)
        try:
            process.wait(SECONDS)
        except subprocess.TimeoutExpired:
            process.kill()
            process.wait()
        texts = []
        for end in ("output", "report"):
            with open(os.path.join(top, end), "rb") as file:
                texts.append(file.read())
        return Ran(process.returncode, *texts)


def shown(text: bytes) -> str:
    """A line, its middle left out if it is long."""
    line = text.decode("utf-8", "backslashreplace")
    return line if len(line) <= 400 else f"{line[:200]} .. {len(line)} characters .. {line[-100:]}"


def difference(what: str, wanted: bytes, came: bytes) -> list[str]:
    """The lines in which two texts differ."""
    left, right = wanted.splitlines(True), came.splitlines(True)
    same = sum(1 for _ in itertools.takewhile(lambda it: it[0] == it[1], zip(left, right)))
    begin = max(same - 2, 0)
    left, right = ([shown(it) for it in lines[begin : begin + SHOWN]] for lines in (left, right))
    lines = difflib.unified_diff(left, right, f"{what}, wanted", f"{what}, came", lineterm="")
    return [f"from line {begin + 1} of {what}", *(it.rstrip("\n") for it in lines)]


def flaws(case: Case, ran: Ran) -> list[str]:
    """What is wrong with a run; nothing if it is as the case says."""
    found = []
    for name, size in case.sizes.items():
        if sizes_of(case, name) != size:
            found.append(f"the case itself: {name} has {sizes_of(case, name)} bytes, and not {size}")
    if ran.status != case.status:
        found.append(f"status {ran.status}, and not {case.status}")
    if case.output is not None and ran.output != case.output:
        found += difference("output", case.output, ran.output)
    if case.report is not None and ran.report != case.report:
        found += difference("report", case.report, ran.report)
    for piece in case.pieces:
        if piece not in ran.report:
            found.append(f"report without {piece.decode()}: {shown(ran.report).rstrip()}")
    gates = ran.output.count(b"\n") - 3
    if case.most is not None and gates > case.most:
        found.append(f"{gates} gates, and at most {case.most} are wanted")
    return found


def run_cases(cases: list[Case], program: str, jobs: int | None = None):
    """The cases in their order, each with what is wrong with its run."""
    with concurrent.futures.ThreadPoolExecutor(jobs or os.cpu_count()) as pool:
        yield from zip(cases, pool.map(lambda it: flaws(it, run_case(it, program)), cases))
