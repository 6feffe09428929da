"""What each crate declares, by name: functions, clauses, types, fields, definitions, lemmas, answers and files.

It goes by the layout, as `sources` does. A word that merely stands in a comment, or names a local value, is no declared one.
"""

import collections
import functools
import glob
import os
import re

import sources

ITEM = re.compile(r"\s*(?:pub(?:\(\w+\))? )?(?:const |unsafe )*(?:fn|struct|enum|trait|type|mod|const|static|macro_rules!) (\w+)")
FIELD = re.compile(r"\s+(?:pub(?:\(\w+\))? )?(\w+): [^=]*,$")
VARIANT = re.compile(r"\s+([A-Z]\w*)(?:\(.*\)|\s*\{.*)?,?(?: *//.*)?$")
LABEL = re.compile(r"(?<![\w`])(?:ensures|requires)\*? (\w+) \{")
GHOST = re.compile(r"\s+ghost (\w+)\b")
LOOP = re.compile(r"\s+'(\w+): ")
DEFINED = re.compile(r"(?:(?:abbrev|unfoldable|pub|record|data|syntax|inline|opaque|postulate|mod|ruleset)\b ?)+([^\s(){}:,.]+)")
STATED = re.compile(r"\s*(?:pub )?([^\s:(){},]+) : ")
MEMBER = re.compile(r"  (?:pub )?([^\s:(]+) :")
FILE_WORDS = re.compile(r"[A-Za-z_][\w-]*")
IMPORT = re.compile(r"use ([\w:.]+)(?:::|\.)(?:\{(.*)\}|(\w+))")


def lines_of(path: str) -> list[str]:
    with open(path, encoding="utf-8", errors="replace") as file:
        return file.read().split("\n")


def of_code(lines: list[str]) -> set[str]:
    """The names that a file of code declares."""
    found = set()
    for line in lines:
        if line.lstrip().startswith("//"):
            continue
        for form in (ITEM, FIELD, VARIANT, GHOST, LOOP):
            if match := form.match(line):
                found.add(match.group(1))
        found |= set(LABEL.findall(line)) | set(re.findall(r'"(\w+)"', line))
        found |= set(re.findall(r"\b(\w+): [A-Z&\[]", line)) if re.match(r"\s+[A-Z]\w* \{ ", line) else set()
    return found


def of_text(lines: list[str]) -> set[str]:
    """The names that a file of definitions or of a proof declares."""
    found = set()
    for line in lines:
        if line.startswith("--"):
            continue
        if match := DEFINED.match(line) or STATED.match(line):
            found.add(match.group(1))
    return found


def members_of_text(lines: list[str], found: dict[str, set[str]]) -> None:
    """Adds the fields and constructors of each definition of a file."""
    owner = ""
    for line in lines:
        if match := DEFINED.match(line):
            owner = match.group(1) if re.match(r"(\w+ )*(record|data)\b", line) else ""
        elif owner and (match := MEMBER.match(line)):
            found[owner].add(match.group(1))


def members_of_code(lines: list[str], found: dict[str, set[str]], traits: dict[str, set[str]]) -> None:
    """Adds the fields, variants and methods of each type and trait of a file, the clauses of each function and of each method to
    its owner, and the traits that each type is written for."""
    owner = function = ""
    for line in lines:
        if line.lstrip().startswith("//"):
            continue
        if match := re.match(r"(?:pub(?:\(\w+\))? )?(?:struct|enum|trait) (\w+)", line):
            owner = match.group(1)
        elif sources.OPENING.match(line):
            owner = sources.owner_of(line)
            if match := re.search(r"\bimpl(?:<.*?>)? (?:\w+::)*(\w+)(?:<.*>)? for\b", line):
                traits[owner].add(match.group(1))
        elif line.startswith("}"):
            owner = function = ""
        if match := sources.FUNCTION.match(line):
            function = match.group(3)
            found[owner if match.group(1) else ""].add(function)
        elif owner and not function and (match := FIELD.match(line) or VARIANT.match(line) or GHOST.match(line)):
            found[owner].add(match.group(1))
        if function:
            found[function] |= set(LABEL.findall(line))
            found[owner] |= set(LABEL.findall(line))


def imports_of(lines: list[str], crates: dict[str, list[str]]) -> set[str]:
    """The names that a file takes from libraries of the kit, with those of the libraries."""
    found = set()
    for line in lines:
        match = IMPORT.search(line)
        if match and re.split(r"::|\.", match.group(1).removeprefix("Rattle."))[0] not in [*crates, "crate", "super", "self"]:
            found |= {it.split(" as ")[0].strip() for it in (match.group(2) or match.group(3) or "").split(",")}
            found |= set(FILE_WORDS.findall(match.group(1)))
    return found


class Names:
    """What is declared in each crate, and what the code takes from elsewhere."""

    def __init__(self, top: str = sources.TOP):
        self.crates = sources.crates(top)
        self.of = {it: set() for it in self.crates}
        self.labels = {it: set() for it in self.crates}  # of clauses
        self.members = {it: collections.defaultdict(set) for it in self.crates}
        self.traits: dict[str, set[str]] = collections.defaultdict(set)
        self.taken: set[str] = set()
        self.cited: set[str] = set()  # clauses that proofs cite
        for crate in self.crates:
            for folder, ending, read in (("src", "rt", of_code), ("specs", "antt", of_text), ("proofs", "antt", of_text)):
                for path in glob.glob(f"{top}/crates/{crate}/{folder}/**/*.{ending}", recursive=True):
                    lines = lines_of(path)
                    if folder == "src":
                        self.labels[crate] |= {it for line in lines if not line.lstrip().startswith("//") for it in LABEL.findall(line)}
                        members_of_code(lines, self.members[crate], self.traits)
                    elif folder == "specs":
                        members_of_text(lines, self.members[crate])
                    self.of[crate] |= read(lines) | {os.path.splitext(os.path.basename(path))[0]}
                    self.taken |= imports_of(lines, self.crates)
                    self.cited |= {it for line in lines for it in re.findall(r"\.ensures\.(\w+)", line)} if folder == "proofs" else set()
            self.of[crate] |= set(sources.edits(crate, top))
        # those of the kit's calls
        self.cited -= set().union(*self.labels.values())

    @functools.cache
    def below(self, crate: str) -> frozenset[str]:
        """A crate and those that it stands on."""
        found, waiting = set(), [crate]
        while waiting:
            it = waiting.pop()
            if it in self.crates and it not in found:
                found.add(it)
                waiting += self.crates[it]
        return frozenset(found)

    def members_in(self, crates: frozenset[str] | set[str], owner: str) -> list[set[str]]:
        """The members of what these crates declare under a name; those of a type's traits are its own too."""
        names = [owner, *self.traits.get(owner, ())]
        return [self.members[it][name] for it in crates for name in names if name in self.members[it]]


def twice_defined(top: str = sources.TOP) -> dict[str, list[str]]:
    """The words that two or more files of specs/ define, with these files."""
    found = collections.defaultdict(list)
    for path in sorted(glob.glob("crates/*/specs/**/*.antt", root_dir=top, recursive=True)):
        defined = set()
        for line in lines_of(os.path.join(top, path)):
            if match := re.match(r"(?:(?:abbrev|unfoldable|pub|record|data|inline|opaque)\b ?)+([^\s(){}:,.]+)", line):
                defined.add(match.group(1))
        for word in defined - {"use", "mod"}:
            found[word].append(path)
    return {word: paths for word, paths in sorted(found.items()) if len(paths) > 1}
