"""Where the built program is, and whether it is of the sources that are there, by what the launcher keeps beside it.

program()          the path of the built program
sources_line()     what the launcher writes down of the sources that a program is built of
stamp(top)         the two lines that it wrote: those sources, and the kit
"""

import glob
import hashlib
import os
import re

TOP = os.path.dirname(os.path.dirname(os.path.dirname(os.path.realpath(__file__))))
PLACES = ("out/qroute", "crates/qroute/out/qroute")


def program() -> str | None:
    """The path of the built program: that of QROUTE in the environment, the launcher's, or the gate's; None if there is none."""
    asked = os.environ.get("QROUTE")
    for it in [asked] if asked else [os.path.join(TOP, it) for it in PLACES]:
        if os.path.isfile(it) and os.access(it, os.X_OK):
            return os.path.abspath(it)
    return None


def needed_crates(top, name="qroute"):
    """The crates that a crate stands on, itself too, each once, with their lines of crates.txt, as the launcher walks them."""
    below = {}
    with open(os.path.join(top, "crates.txt"), encoding="utf-8") as file:
        for line in file:
            head, _, rest = line.rstrip("\n").split("#")[0].partition(":")
            if head.split():
                below[head.split()[0]] = rest
    found, todo = {}, [name]
    for it in todo:
        if it in below and it not in found:
            found[it] = below[it]
            todo += below[it].split()
    return found


def sources(top):
    """The paths of the sources, from the top, but for those called *tests.rt."""
    for name in needed_crates(top):
        for part in ("src", "specs"):
            for path in glob.glob(f"crates/{name}/{part}/**/*", root_dir=top, recursive=True, include_hidden=True):
                if re.search(r"\.(rt|antt)$", path) and not path.endswith("tests.rt") and os.path.isfile(os.path.join(top, path)):
                    yield path


def sources_line(top=TOP):
    """One line for all sources, and for which crates stand on which."""
    lines = [f"{name}:{rest}\n" for name, rest in needed_crates(top).items()]
    for path in sorted(sources(top), key=os.fsencode):
        with open(os.path.join(top, path), "rb") as file:
            lines.append(f"{hashlib.file_digest(file, 'sha256').hexdigest()}  {path}\n")
    return hashlib.sha256("".join(lines).encode()).hexdigest() + "  -"


def stamp(top=TOP):
    """What the launcher wrote down when it built the program: the sources and the kit; two empty lines if it built none."""
    try:
        with open(os.path.join(top, "out/qroute.sources"), encoding="utf-8") as file:
            lines = file.read().split("\n")
    except FileNotFoundError:
        lines = []
    return (*lines, "", "")[:2]
