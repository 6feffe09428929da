"""Edits that must be refused: what each touches, which of them one check can try together, and what a check's output says of each.

An edit is a file of `must-fail/` or `more-edits/` of a crate, as `rt must-fail` reads it: lines `file:`, `old:`, `new:`.
Nothing here runs a check; `tools/mutate` does.
"""

import collections.abc
import dataclasses
import hashlib
import os
import re

import sources

# what a proof file is told if it cites a name that an edit took away
NAMES = re.compile(r"has no field|is not in scope|is no name|not found in|has no (name|part|definition)|was not admitted")
# what is said of those that stand on a lemma that was refused
HANGING = re.compile(r"\d+ declarations? that depends? on .* not checked: (.*)")
ERROR = re.compile(r"(?:\./)?(proofs/(\S+)/\w+\.antt|\S+\.(?:antt|rt)):(\d+):\d+: error\S*:? (.*)")
NOTE = re.compile(r"note: src/(\S+)\.rt:(\d+):\d+: it is not proved that (.*)")
# lines on which no proof rests: comments, above which an edit may put a function, and imports
BARE = re.compile(r"\s*(//|use )")


class CannotMake(Exception):
    """An edit that doesn't fit the files."""


def read(path: str) -> str:
    with open(path, encoding="utf-8") as file:
        return file.read()


def pairs_of(text: str) -> list[tuple[str, str, str]]:
    """The replacements of an edit: file, old text, new text."""
    file, old, found = "", None, []
    for line in text.split("\n"):
        if line.startswith("file: "):
            file = line[len("file: ") :].strip()
        elif line.startswith("old: "):
            old = line[len("old: ") :]
        elif line.startswith("new:") and old is not None:
            found.append((file, old, line[len("new:") :].removeprefix(" ")))
            old = None
    if not found:
        raise CannotMake("it has no pair of lines `old:` and `new:`")
    return found


@dataclasses.dataclass(frozen=True)
class Place:
    """A function by its layout: its module, the type that it is of, the trait that it is written for, and its name."""

    module: str
    owner: str
    trait: str
    name: str

    def __str__(self) -> str:
        return f"{self.owner}::{self.name}" if self.owner else self.name

    def path(self) -> str:
        """The name by which a check can be asked for it: the end of that which its output has."""
        return f"{self.owner}{self.trait}::{self.name}" if self.owner else f"{self.module}::{self.name}".removeprefix("::")

    def is_named(self, path: str) -> bool:
        """Whether a check's output has this name for the function, or for a closure in it."""
        words = path.replace("+", "").split("::")  # a function that calls itself stands for its cycle, as +f
        if self.owner:
            # a method stands under the module of its type, wherever its `impl` is, and one of a trait under both names in one word
            return (self.owner + self.trait, self.name) in zip(words, words[1:])
        wanted = [*(self.module.split("::") if self.module else []), self.name]
        return words[: len(wanted)] == wanted


def places_of(module: str, text: str) -> list[tuple[Place, int, int]]:
    """The functions of a file of code with their first and last lines."""
    lines = text.split("\n")
    owner, trait, found = "", "", []
    for first, line in enumerate(lines):
        if sources.OPENING.match(line):
            owner, trait = sources.owner_of(line), trait_of(line)
        elif line == "}":
            owner, trait = "", ""
        if head := sources.FUNCTION.match(line):
            place = Place(module, owner if head.group(1) else "", trait if head.group(1) else "", head.group(3))
            found.append((place, first, last_line(lines, first, head.group(1))))
    return found


def trait_of(line: str) -> str:
    """The trait of a line that opens an `impl`, nothing if it is the type's own."""
    while (bare := re.sub(r"<[^<>]*>", "", line)) != line:
        line = bare
    match = re.search(r"\bimpl (?:\w+::)*(\w+) for\b", line)
    return match.group(1) if match else ""


def place_at(module: str, text: str, line: int) -> tuple[Place, int, int] | None:
    """The innermost function that holds a line of a file of code."""
    inside = [it for it in places_of(module, text) if it[1] <= line <= it[2]]
    return inside[-1] if inside else None


def last_line(lines: list[str], first: int, margin: str) -> int:
    """The last line of a function that begins at a line."""
    last = first
    if not lines[first].rstrip().endswith("}"):
        while last + 1 < len(lines) and not re.match(rf"{margin}\}}(;.*)?$", lines[last]):
            last += 1
    return last


@dataclasses.dataclass
class Edit:
    name: str
    pairs: list[tuple[str, str, str]]
    functions: set[Place] = dataclasses.field(default_factory=set)  # those that hold a line of it
    spans: set[tuple[str, int]] = dataclasses.field(default_factory=set)  # file and line
    words: set[str] = dataclasses.field(default_factory=set)  # names that it touches outside of functions
    held: set[str] = dataclasses.field(default_factory=set)  # the words of the functions that it touches


def module_of(file: str) -> str:
    """The module of a file of src/, nothing for the root and for other files."""
    module = file[len("src/") : -len(".rt")].replace("/", "::") if file.startswith("src/") else ""
    return "" if module in ("lib", "main") else module


def touched(folder: str, name: str, text: str) -> Edit:
    """An edit with all that it touches in the crate of this folder as it stands."""
    edit = Edit(name, pairs_of(text))
    made: dict[str, str] = {}
    for file, old, new in edit.pairs:
        if file not in made:
            if not os.path.isfile(os.path.join(folder, file)):
                raise CannotMake(f"there is no file {file}")
            made[file] = read(os.path.join(folder, file))
        if made[file].count(old) != 1:
            raise CannotMake(f"`{old.strip()}` stands {made[file].count(old)} times in {file}")
        touch(edit, file, made[file], old)
        made[file] = made[file].replace(old, new)
    return edit


def touch(edit: Edit, file: str, text: str, old: str) -> None:
    """Notes the function or the words that one replacement touches."""
    line = text[: text.index(old)].count("\n")
    edit.spans.add((file, line))
    if file.endswith(".rt") and (found := place_at(module_of(file), text, line)):
        place, first, last = found
        edit.functions.add(place)
        edit.held |= set(sources.WORD.findall("\n".join(text.split("\n")[first : last + 1])))
    elif not BARE.match(text.split("\n")[line]):
        edit.words |= {it for it in sources.WORD.findall(old) if re.search("[A-Z_]", it)} or {old}


def fits(edit: Edit, group: list[Edit]) -> bool:
    """Whether an edit can stand in a copy beside others."""
    for other in group:
        if edit.functions & other.functions or edit.spans & other.spans or edit.words and other.words:
            return False
        if edit.words & other.held or other.words & edit.held:
            return False
    return True


def grouped(edits: list[Edit]) -> list[list[Edit]]:
    """The edits in as few copies as come of taking each into the first that it fits."""
    groups: list[list[Edit]] = []
    for edit in sorted(edits, key=lambda it: not it.words):
        for group in groups:
            if fits(edit, group):
                group.append(edit)
                break
        else:
            groups.append([edit])
    return groups


def texts_of(folder: str, group: list[Edit]) -> dict[str, str]:
    """The files of a crate with a group of edits made."""
    texts: dict[str, str] = {}
    for edit in group:
        for file, old, new in edit.pairs:
            texts.setdefault(file, read(os.path.join(folder, file)))
            if texts[file].count(old) != 1:
                raise CannotMake(f"`{old.strip()}` doesn't stand once beside the others")
            texts[file] = texts[file].replace(old, new)
    return texts


@dataclasses.dataclass
class Refusal:
    """What a check says of one function, or of one file of proofs or definitions."""

    goals: list[str] = dataclasses.field(default_factory=list)
    by_name: bool = True  # whether nothing but names that are gone is told
    hanging: list[str] = dataclasses.field(default_factory=list)  # goals that weren't judged, since they stand on what was refused
    told: str = ""  # what its own line says

    def add(self, goal: str, by_name: bool) -> None:
        if goal and goal not in self.goals:
            self.goals.append(goal)
        self.by_name = self.by_name and by_name

    def hangs(self) -> bool:
        """Whether no goal was refused itself, and some weren't judged."""
        return bool(self.hanging and not self.goals)


def refusals(crate: str, said: str, code: dict[str, str]) -> tuple[dict[str, Refusal], dict[str, Refusal]]:
    """The functions that a check refused themselves, by module::Type::function, and the files of others that it refused.

    `code` has the text of each module that was checked. A line `no proof: it calls ..` is no refusal: what a caller relies on
    is the contract, which no edit of a body changes.
    """
    functions: dict[str, Refusal] = {}
    files: dict[str, Refusal] = {}
    notes = []
    for line in (it.strip() for it in said.split("\n")):
        if match := ERROR.match(line):
            goal = re.match(r"`([^`]+)`:", match.group(4))
            by_name = bool(NAMES.search(re.sub(r"`[^`]*`", "", match.group(4))))
            if hanging := HANGING.match(match.group(4)):
                if match.group(2):
                    listed = re.sub(r" \([^)]*\)", "", hanging.group(1)).split(", ")
                    functions.setdefault(match.group(2).replace("/", "::"), Refusal()).hanging += listed
            elif match.group(2):
                functions.setdefault(match.group(2).replace("/", "::"), Refusal()).add(goal.group(1) if goal else "", by_name)
            else:
                files.setdefault(match.group(1), Refusal()).add(match.group(4)[:120], by_name)
        elif match := NOTE.match(line):
            notes.append((match.group(1).replace("/", "::"), int(match.group(2)) - 1, re.findall(r"\(`([^`]+)`\)", match.group(3))))
        elif match := re.match(rf"fn {crate}::(\S+): (no proof|not proved)(.*)", line):
            add_told(functions, match.group(1), match.group(3))
    for module, line_number, goals in notes:
        refusal = refusal_at(functions, module, line_number, code.get(module, ""))
        for goal in goals:
            refusal.add(goal, False)
    return functions, files


def add_told(functions: dict[str, Refusal], path: str, told: str) -> None:
    """Notes what the line of a function itself tells."""
    if told.startswith(": it calls") or re.search(r"a call of `[^`]*`, which has no proof", told):
        return
    refusal = functions.setdefault(path, Refusal())
    refusal.told = told.removeprefix(": ")
    if "did not prove" in told:
        for goal in re.findall(r"`([^`]+)`", told.split("did not prove")[1].split(";")[0]):
            refusal.add(goal, False)


def refusal_at(functions: dict[str, Refusal], module: str, line: int, text: str) -> Refusal:
    """The refusal of the function that holds a line, or that begins below it if its attributes do."""
    module = "" if module in ("lib", "main") else module
    found = place_at(module, text, line) or next((it for it in places_of(module, text) if it[1] > line), None)
    if found is None:
        return functions.setdefault(f"{module}, line {line + 1}", Refusal())
    place = found[0]
    path = next((it for it in functions if place.is_named(it)), f"{place.module}::{place}".removeprefix("::"))
    return functions.setdefault(path, Refusal())


@dataclasses.dataclass(frozen=True)
class Refused:
    """What refuses an edit: a function and those of its clauses and goals that aren't proved, or a file of none and what is said of it."""

    where: str
    said: tuple[str, ...]
    is_file: bool = False

    def __str__(self) -> str:
        if self.is_file:
            return f"{self.where}: {', '.join(self.said)}"
        more = f" and {len(self.said) - 4} more" if len(self.said) > 4 else ""
        return f"{', '.join(self.said[:4]) or 'no goal is named'}{more} of `{self.where}`"


@dataclasses.dataclass
class Verdict:
    """What came of an edit: shown, shown by a name alone, not shown, or can't be made; by what, or why."""

    kind: str
    by: tuple[Refused, ...] = ()
    why: str = ""

    def __str__(self) -> str:
        told = "; ".join(map(str, self.by)) or self.why
        return f"{self.kind}: {told}" if told else self.kind


@dataclasses.dataclass
class Checked:
    """A crate as it was checked with edits: its name, the text of each module, and the clauses of its functions."""

    crate: str
    code: dict[str, str]
    clauses: dict[Place, list[str]]

    def place(self, path: str) -> Place | None:
        """The function that a check's output calls so."""
        return next((it for it in self.clauses if it.is_named(path)), None)


def judged(checked: Checked, group: list[Edit], said: str) -> tuple[dict[str, Verdict], list[str]]:
    """The verdict on each edit of a group, and what was refused and is none's."""
    functions, files = refusals(checked.crate, said, checked.code)
    own = {it.name: {path: one for path, one in functions.items() if any(place.is_named(path) for place in it.functions)} for it in group}
    left = {path: one for path, one in functions.items() if one.hangs() or not any(path in it for it in own.values())}
    verdicts = {}
    for edit in group:
        mine = own[edit.name]
        if edit.words or len(group) == 1 and not any(it.goals for it in mine.values()):
            # what stands in no function is refused wherever it is relied on
            verdicts[edit.name] = verdict_of(checked, mine | left, files)
            left, files = {}, {}
        else:
            # what hangs is refused by the edit of what it stands on
            verdicts[edit.name] = verdict_of(checked, {path: one for path, one in mine.items() if not one.hangs()}, {})
    return verdicts, [str(told(checked, *it)) for it in left.items()] + [str(told_of_file(*it)) for it in files.items()]


def verdict_of(checked: Checked, own: dict[str, Refusal], files: dict[str, Refusal]) -> Verdict:
    """The verdict by functions, or if none has a goal by files; what says nothing of a goal shows nothing."""
    named = {path: one for path, one in own.items() if one.goals or one.hanging}
    if named or files:
        judging = [it for it in (*named.values(), *files.values()) if it.goals]
        by = [told(checked, *it) for it in named.items()] or [told_of_file(*it) for it in files.items()]
        return Verdict("shown by a name alone" if judging and all(it.by_name for it in judging) else "shown", tuple(by))
    return Verdict("not shown", why="; ".join(f"`{checked.place(path) or path}` is refused at no goal: {one.told[:160]}" for path, one in own.items()))


def told(checked: Checked, path: str, refusal: Refusal) -> Refused:
    """The clauses of a refused function that its goals stand for, or else the goals."""
    place = checked.place(path)
    said = dict.fromkeys(meant(it, checked.clauses[place] if place else []) for it in refusal.goals + refusal.hanging)
    return Refused(str(place or path), tuple(said))


def told_of_file(path: str, refusal: Refusal) -> Refused:
    """What is said of a file that is of no function."""
    return Refused(path, tuple(refusal.goals[:1]), is_file=True)


def meant(goal: str, clauses: list[str]) -> str:
    """What a goal stands for: a clause by its label, the only clause of a function or of its trait, or what the function needs within."""
    if match := re.match(r"returns\b.*-clause-(\w+)", goal):
        return f"`{match.group(1)}`"
    if re.match(r"returns\b", goal):
        # one goal for all clauses
        return ", ".join(f"`{it}`" for it in clauses if it) or "the clause"
    return f"within, `{goal}`"


def is_judged(said: str) -> bool:
    """Whether a check of a crate, or of some functions, came so far as to judge proofs."""
    return re.search(r"^(logic|only)=", said, re.MULTILINE) is not None


# The table of docs/CLAIMS.md: for each crate at which commit its edits were tried, and what refuses them.

# the longest row that names all edits behind what refuses them; those of the gate are always named
READABLE = 300


@dataclasses.dataclass
class Row:
    """A crate's row: the commit and the sum of its edits when they were tried, how many they were, and its cells."""

    commit: str
    sum: str
    number: int
    by: str  # what refuses them
    rest: str  # those that aren't shown


def sum_of(crate: str, top: str = sources.TOP) -> str:
    """A sum over the names and the texts of a crate's edits, by which a row tells whether they changed."""
    texts = [f"{name}\n{read(os.path.join(top, path))}" for name, path in sources.edit_paths(crate, top).items()]
    return hashlib.sha256("\0".join(texts).encode()).hexdigest()[:8]


def row_of(crate: str, commit: str, summed: str, verdicts: dict[str, Verdict], gates_own: collections.abc.Container[str] = ()) -> Row:
    """The row of what came of all edits of a crate, some of which are the gate's own."""
    rest = [f"`{name}`" + ("" if it.kind == "not shown" else f" ({it.kind})") for name, it in verdicts.items() if it.kind != "shown"]
    row = Row(commit, summed, len(verdicts), refused_by(verdicts, verdicts), ", ".join(rest))
    if len(line_of(crate, row, row.number, summed)) > READABLE:
        row.by = refused_by(verdicts, gates_own)
    return row


def refused_by(verdicts: dict[str, Verdict], named: collections.abc.Container[str]) -> str:
    """The functions that refuse edits, each with its clauses, and behind each clause the edits that are to be named."""
    found: dict[str, dict[str, list[str]]] = {}
    for name, verdict in verdicts.items():
        for one in verdict.by if verdict.kind == "shown" else ():
            # of a goal within a function it is enough that it is one
            said = dict.fromkeys(it.split(", `")[0] for it in one.said if not one.is_file)
            for it in said or ["a goal"]:
                found.setdefault(f"`{one.where}`", {}).setdefault(it, []).append(name)
    alike: dict[str, list[str]] = {}  # functions and files of which the same is to be said
    for where, clauses in found.items():
        alike.setdefault(clauses_of({it: [name for name in names if name in named] for it, names in clauses.items()}), []).append(where)
    return "; ".join(f"{', '.join(those)}: {told}" for told, those in alike.items())


def clauses_of(clauses: dict[str, list[str]]) -> str:
    """Clauses with the edits that they refuse, those of the same edits together."""
    alike: dict[str, list[str]] = {}
    for it, names in clauses.items():
        alike.setdefault(", ".join(f"`{name}`" for name in names), []).append(it)
    return ", ".join(", ".join(those) + (f" ({names})" if names else "") for names, those in alike.items())


def line_of(crate: str, row: Row, number: int, summed: str) -> str:
    """The line of a row, if a crate has so many edits of this sum."""
    tried = f"{row.number} at `{row.commit}`, `{row.sum}`" + ("" if row.sum == summed else f"; changed since, {number} now")
    return "|" + "".join(f" {it} |" if it else " |" for it in (f"`{crate}`", tried, row.by, row.rest))


ROW = re.compile(r"\| `(\w+)` \| (\d+) at `(\w+)`, `(\w+)`.*? \|(?: (\S.*?))? \|(?: (\S.*?))? \|$")


def rows_of(table: str) -> dict[str, Row]:
    """What a table has of crates whose edits were tried."""
    found = (ROW.match(line) for line in table.splitlines())
    return {it.group(1): Row(it.group(3), it.group(4), int(it.group(2)), it.group(5) or "", it.group(6) or "") for it in found if it}


def table_of(rows: dict[str, Row], top: str = sources.TOP) -> str:
    """The table of all crates that have edits; what the rows have nothing of wasn't tried."""
    lines = ["| crate | edits tried | refused by | not shown |", "|---|---|---|---|"]
    for crate in sources.crates(top):
        if number := len(sources.edits(crate, top)):
            summed = sum_of(crate, top)
            row = rows.get(crate)
            if row and row.sum == summed:
                row = dataclasses.replace(row, number=number)
            lines.append(line_of(crate, row, number, summed) if row else f"| `{crate}` | none of {number} | | |")
    return "\n".join(lines)
