"""The sources of the repository as text: functions with their clauses, files of definitions, types.

Nothing here understands the language: it goes by the layout that `rt fmt` keeps, one item at the left margin or in an `impl`
or a `trait`, one `ensures` at the beginning of a line.
"""

import dataclasses
import functools
import glob
import itertools
import os
import re

TOP = os.path.dirname(os.path.dirname(os.path.dirname(os.path.realpath(__file__))))
FUNCTION = re.compile(r"(\s*)(pub(?:\(\w+\))? )?(?:const )?fn (\w+)")
CLAUSE = re.compile(r"(?<![\w`])ensures (?:(\w+) )?\{")
WORD = re.compile(r"\w+")
INLINE_TESTS = re.compile(r"^#\[cfg\(test\)\]\nmod \w+ \{\n.*?^\}", re.MULTILINE | re.DOTALL)
OPENING = re.compile(r"(pub(?:\(\w+\))? )?(impl|trait)\b.*\{$")


@functools.cache
def crates(top=TOP):
    """The crates of the repository with what they stand on, in the order of crates.txt."""
    found = {}
    with open(os.path.join(top, "crates.txt"), encoding="utf-8") as file:
        for line in file:
            line = line.split("#")[0].strip()
            if line:
                name, below = line.split(":")
                found[name.split()[0]] = below.split()
    return found


@functools.cache
def rooms(top=TOP):
    """The rooms with their crates, in the order of crates.txt: a comment of its own above crates is the name of their room."""
    found = {}
    room = ""
    with open(os.path.join(top, "crates.txt"), encoding="utf-8") as file:
        for line in file:
            if line.startswith("#"):
                room = line[1:].strip()
            elif name := line.split("#")[0].split(":")[0].split():
                found.setdefault(room, []).append(name[0])
    return found


def product(top=TOP):
    """The rooms of the product, without the crates that have nothing but tests and what tests share."""
    return {room: listed for room, listed in rooms(top).items() if room != "tests"}


@dataclasses.dataclass
class Function:
    crate: str
    name: str
    owner: str  # the type or the trait that it is a method of, or nothing
    file: str
    line: int
    is_public: bool
    clauses: list  # a clause without a name is ""
    module: str = ""


def owner_of(line):
    """The type of `impl .. for T`, of `impl T`, or the name of a trait."""
    line = re.sub(r"<[^<>]*>", "", re.sub(r"<[^<>]*>", "", line))
    found = re.search(r"\bfor (?:crate::)?([\w:]+)", line) or re.search(r"(?:impl|trait) ((?:\w+::)*\w+)", line)
    return found.group(1).split("::")[-1] if found else ""


def module_of(path):
    """The module of a file, nothing for the root."""
    name = os.path.basename(path)[: -len(".rt")]
    return "" if name in ("lib", "main") else name


def is_test(path, top=TOP):
    """Whether a file of src/ is a module of tests: by its name, or by what the root says of it."""
    if path.endswith("tests.rt"):
        return True
    root = os.path.join(top, os.path.dirname(path), "lib.rt")
    if not os.path.exists(root):
        return False
    with open(root, encoding="utf-8") as file:
        return bool(re.search(rf"^#\[cfg\(test\)\]\nmod {module_of(path)};", file.read(), re.MULTILINE))


@functools.cache
def named(crate, top=TOP):
    """The words that the sources of a crate have, comments left out: those of its code, and those of its tests."""
    code, tests = set(), set()
    for folder, ending in (("src", "rt"), ("specs", "antt"), ("proofs", "antt")):
        for path in glob.glob(f"crates/{crate}/{folder}/**/*.{ending}", root_dir=top, recursive=True):
            with open(os.path.join(top, path), encoding="utf-8") as file:
                text = re.sub(r"(//|--).*", "", file.read())
            module = path.split("/")[3]
            source = path if folder == "src" else f"crates/{crate}/src/{module}.rt"
            if folder != "specs" and is_test(source, top):
                tests |= set(WORD.findall(text))
            else:
                tests |= {word for part in INLINE_TESTS.findall(text) for word in WORD.findall(part)}
                code |= set(WORD.findall(INLINE_TESTS.sub("", text)))
    return code, tests


def is_of_tests(crate, top=TOP):
    """Whether a crate has nothing but tests."""
    paths = glob.glob(f"crates/{crate}/src/**/*.rt", root_dir=top, recursive=True)
    return any(is_test(it, top) for it in paths) and not any(functions_of(crate, it, top) for it in paths if not is_test(it, top))


def only_tested(crate, top=TOP):
    """The crates that only the tests of a crate name, of those that it stands on; none for a crate of tests."""
    code, tests = named(crate, top)
    return [] if is_of_tests(crate, top) else [it for it in crates(top)[crate] if it in tests and it not in code]


def exported(crate, top=TOP):
    """The modules that are public, and the names that the root hands on."""
    modules, names = {""}, set()
    root = os.path.join(top, "crates", crate, "src", "lib.rt")
    if not os.path.exists(root):
        return modules, names
    with open(root, encoding="utf-8") as file:
        text = file.read()
    modules |= set(re.findall(r"^pub mod (\w+);", text, re.MULTILINE))
    for listed in re.findall(r"^pub use [\w:]+?::(\{[^}]*\}|\w+);", text, re.MULTILINE):
        names |= {it.split(" as ")[-1].split("::")[-1].strip() for it in listed.strip("{}").split(",")}
    names.discard("")
    return modules, names


def public_functions(crate, top=TOP):
    """The functions that other crates may call, with clauses."""
    modules, names = exported(crate, top)
    return [
        it
        for it in functions(top)
        if it.crate == crate and it.is_public and it.clauses and (it.module in modules or it.owner in names or it.name in names)
    ]


def first_sentence(said):
    """The first sentence of the lines of a comment, without its full stop."""
    said = said[: said.index("")] if "" in said else said
    return re.split(r"(?<=\.)\s", " ".join(said))[0].rstrip(".")


def doc_sentence(path, line, top=TOP):
    """The first sentence of the comment above a line of code."""
    with open(os.path.join(top, path), encoding="utf-8") as file:
        lines = file.read().split("\n")[: line - 1]
    said = []
    for it in reversed(lines):
        it = it.strip()
        if it.startswith("///"):
            said.insert(0, it[3:].strip())
        elif not it.startswith("#["):
            break
    return first_sentence(said)


def crate_sentence(crate, top=TOP):
    """What a crate is: the first sentence of the comment at the head of its root."""
    for name in ("lib", "main"):
        path = os.path.join(top, "crates", crate, "src", f"{name}.rt")
        if os.path.exists(path):
            with open(path, encoding="utf-8") as file:
                head = itertools.takewhile(lambda it: it.startswith("//!"), file)
                said = first_sentence([it[3:].strip() for it in head])
            # the words that `rt doc` links
            return re.sub(r"\[(`[^`]*`)\]", r"\1", said)
    return ""


def functions_of(crate, path, top=TOP):
    """The functions of one file, with the clauses of their contracts."""
    found = []
    owner = ""
    is_trait = False
    with open(os.path.join(top, path), encoding="utf-8") as file:
        for number, line in enumerate(file, 1):
            if OPENING.match(line.rstrip()):
                owner = owner_of(line)
                is_trait = bool(re.match(r"(pub(?:\(\w+\))? )?trait", line))
            elif line.startswith("}"):
                owner = ""
                is_trait = False
            if match := FUNCTION.match(line):
                is_public = (match.group(2) or "").strip() == "pub" or is_trait
                found.append(Function(crate, match.group(3), owner, path, number, is_public, [], module_of(path)))
            if found and not line.lstrip().startswith("//"):
                found[-1].clauses += [it.group(1) or "" for it in CLAUSE.finditer(line)]
    return found


@functools.cache
def functions(top=TOP):
    found = []
    for crate in crates(top):
        for path in sorted(glob.glob(f"crates/{crate}/src/**/*.rt", root_dir=top, recursive=True)):
            if not is_test(path, top):
                found += functions_of(crate, path, top)
    return found


@dataclasses.dataclass
class Promise:
    owner: str  # the type that the trait is written for
    trait: str
    name: str
    says: str


PROMISE = re.compile(r"    ghost (\w+) = \{ (.*) \};$")
WRITTEN_FOR = re.compile(r"impl(?:<.*?>)? (Pass|Rule|KeepsPairs|MayStay|Shrinks) for (\w+)")


def promises(crate, top=TOP):
    """What the passes and rules of a crate put in for the words that their trait leaves open."""
    found = []
    for path in sorted(glob.glob(f"crates/{crate}/src/**/*.rt", root_dir=top, recursive=True)):
        if is_test(path, top):
            continue
        trait = None
        with open(os.path.join(top, path), encoding="utf-8") as file:
            for line in file:
                if match := WRITTEN_FOR.match(line):
                    trait, owner = match.groups()
                elif line.startswith("}"):
                    trait = None
                elif trait and (match := PROMISE.match(line)) and match.group(2) != "λ _ _ _. Unit {0}":
                    found.append(Promise(owner, trait, *match.groups()))
    return found


def edit_paths(crate, top=TOP):
    """The edits that must be refused with their files: those of the gate, and those that `tools/mutate` alone tries."""
    found = [it for folder in ("must-fail", "more-edits") for it in glob.glob(f"crates/{crate}/{folder}/*.edit", root_dir=top)]
    return {os.path.basename(it)[: -len(".edit")]: it for it in sorted(found, key=os.path.basename)}


def gate_edits(crate, top=TOP):
    """The names of the edits that the gate tries."""
    return [name for name, path in edit_paths(crate, top).items() if "/must-fail/" in path]


def edits(crate, top=TOP):
    """The names of the edits that must be refused."""
    return list(edit_paths(crate, top))


def tracked(top=TOP):
    """All files of the repository but what is built."""
    found = []
    for folder, folders, files in os.walk(top):
        folders[:] = [it for it in folders if it not in ("out", ".git", "__pycache__")]
        found += [os.path.relpath(os.path.join(folder, it), top) for it in files]
    return sorted(found)
