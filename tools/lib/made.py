"""The parts of the documents that are made from the sources: what stands between two comments of Markdown,

    <!-- made: NAME -->
    <!-- /made -->

is written by `tools/check-docs --mend`. Of the part `claims` all cells but the first are written by hand, and stay with their crate; of
the part `edits` a crate's cells are what `tools/mutate --mend` found, and stay until it tries the crate's edits again.
"""

import os
import re

import edits
import reach
import sources

PART = re.compile(r"<!-- made: (.+?) -->\n(.*?)<!-- /made -->", re.DOTALL)


def call_name(function):
    return f"`{function.owner}::{function.name}`" if function.owner else f"`{function.name}`"


def clause_list(function):
    more = ", and unnamed" if "" in function.clauses else ""
    return ", ".join(f"`{it}`" for it in function.clauses if it) + more


def said_of(function):
    """The first sentence of what is said of a function, as a cell, without the marks of links."""
    return cell(re.sub(r"\[(`[^`]*`)\](\([^)]*\))?", r"\1", sources.doc_sentence(function.file, function.line)))


def clauses(crate):
    """The public calls of a crate, what each gives, and its clauses."""
    lines = []
    listed = sources.public_functions(crate)
    # a clause of these names alone says which value a call gives, and nothing of when
    named = [it for it in listed if set(it.clauses) - {"", "value", "no_faults"}]
    if named:
        lines += ["| call | gives | its clauses |", "|---|---|---|"]
        lines += [f"| {call_name(it)} | {said_of(it)} | {clause_list(it)} |" for it in named]
    promises = sources.promises(crate)
    if promises:
        lines += [""] if lines else []
        lines += ["| what its passes and rules promise by the trait's clauses | |", "|---|---|"]
        lines += [f"| `{it.owner}`, `{it.trait}`: `{it.name}` | `{it.says}` |" for it in promises]
    rest = [call_name(it) for it in listed if it not in named]
    if rest:
        lines += ["", f"{'Besides these, calls' if named else 'Calls'} whose contract is one equation or has no names: {', '.join(rest)}."]
    return "\n".join(lines).strip("\n")


def cell(text):
    """A text as a cell of a table."""
    return text.replace("|", "\\|")


def row(cells):
    """A row of a table."""
    return "|" + "".join(f" {it} |" if it else " |" for it in cells)


def by_room(columns, cells, rooms):
    """A table with a row for each crate, room by room."""
    lines = [row(columns), "|" + "---|" * len(columns)]
    for room, listed in rooms.items():
        lines.append(row([f"**{room}**"] + [""] * (len(columns) - 1)))
        lines += [row([f"`{crate}`", *cells(crate)]) for crate in listed]
    return "\n".join(lines)


def crates():
    """What each crate of the product stands on, and what it is."""
    below = sources.crates()

    def cells(crate):
        tests = sources.only_tested(crate)
        listed = [f"`{it}`" + (" (in tests)" if it in tests else "") for it in below[crate]]
        return ", ".join(listed), cell(sources.crate_sentence(crate))

    return by_room(["crate", "stands on", "what it is"], cells, sources.product())


def written_cells(text):
    """The cells after the first one of each crate's row."""
    found = {}
    for line in text.splitlines():
        cells = [it.strip() for it in re.split(r"(?<!\\)\|", line)[1:-1]]
        if cells and re.fullmatch(r"`\w+`", cells[0]):
            found[cells[0].strip("`")] = cells[1:]
    return found


def claims(old):
    """What is proved of each crate of the product and what isn't: these cells are those of the old text."""
    written = written_cells(old)
    columns = ["crate", "what is proved, by `call`: `clause`", "what isn't"]
    return by_room(columns, lambda crate: written.get(crate, ["", ""]), sources.product())


def reading():
    """What has to be read, in one sentence, and how much of it for the two claims that matter most."""
    found = reach.by_claim()
    sizes = {short: reach.sizes(it) for short, it in found.items()}
    files, lines = sizes[reach.ALL]
    parts = [f"{sizes[short][1]:,} {what}" for short, what in (("unitary", "say what a unitary is"), ("headline", "are the headline's")) if short in sizes]
    return (
        f"To check what is claimed, read that contract and {files} short files of definitions, {lines:,} lines in all"
        + (f" ({', and '.join(parts)})" if parts else "")
        + ": [docs/CLAIMS.md](docs/CLAIMS.md#what-must-be-believed) lists them from the ground up."
    )


# what README.md shows of docs/RESULTS.md and docs/PERFORMANCE.md
SHOWN = ["tof_10", "barenco_tof_10", "vbe_adder_3", "gf2_16_mult"]
AT_A_GLANCE = ["gf2_16_mult", "barenco_tof_10", "tof_10"]
BY_SABRE = ["qft_10", "qft_13", "qft_16", "qft_20"]
ROUTED = ["tof_10", "barenco_tof_10"]
FAST = ["`check` | 65,536 on 20", "`opt` | 65,536 on 20", "`route`, grid of 64", "`route --trace`, grid", "`verify`"]


def result_rows(kind):
    """The cells of the rows of a table of docs/RESULTS.md."""
    with open(os.path.join(sources.TOP, "docs/RESULTS.md"), encoding="utf-8") as file:
        table = re.search(rf"<!-- results: {kind} -->\n(.*?)<!-- /results -->", file.read(), re.DOTALL).group(1)
    return [[cell.strip() for cell in line.strip("|").split("|")] for line in table.splitlines()[2:]]


def results():
    """Some lines of docs/RESULTS.md."""
    rows = {row[0]: row for row in result_rows("opt")}
    lines = ["| `opt` on | gates | by VOQC | T gates | by VOQC |", "|---|---|---|---|---|"]
    for name in SHOWN:
        row = rows[name]
        lines.append(f"| `{name}` | {row[2]} → {row[3]} | {row[5]} | {row[8]} → {row[9]} | {row[11]} |")
    return "\n".join(lines)


def fast():
    """Some rows of the first table of docs/PERFORMANCE.md."""
    with open(os.path.join(sources.TOP, "docs/PERFORMANCE.md"), encoding="utf-8") as file:
        lines = file.read().splitlines()
    first = next(i for i, line in enumerate(lines) if line.startswith("| command |"))
    return [*lines[first : first + 2], *(next(it for it in lines if it.startswith(f"| {start}")) for start in FAST)]


def glance():
    """The results in three lines: T gates, swaps, time."""
    rows = {row[0]: row for row in result_rows("opt")}
    gates = ", ".join(f"`{name}` {rows[name][8]} → {rows[name][9]} (VOQC: {rows[name][11]})" for name in AT_A_GLANCE)
    rows = {row[0]: row for row in result_rows("route") if row[1] == "ibm_tokyo"}
    swaps = ", ".join(f"`{name}` {rows[name][5]} (one try: {rows[name][3]})" for name in ROUTED)
    others = ", ".join(f"`{name}` {rows[name][5]} (SABRE: {rows[name][7]})" for name in BY_SABRE)
    times = [[cell.strip() for cell in line.strip("|").split("|")] for line in fast()[2:]]
    return (
        f"- **T gates**: {gates}.\n"
        f"- **Swaps** on IBM's Tokyo by `--tries 20`: {swaps}; with each phase pi/4 in place of its own {others}.\n"
        f"- **Time** for 65,536 gates: `opt` {times[1][2]} s, `route` on a grid of 64 qubits {times[2][2]} s, on one core."
    )


def part(name, old):
    """What a part says, whose text was another; None for one that nothing makes."""
    whole = {
        "crates": crates,
        "claims": lambda: claims(old),
        "edits": lambda: edits.table_of(edits.rows_of(old)),
        "definitions": lambda: reach.table(reach.by_claim()),
        "reading": reading,
        "results": results,
        "fast": lambda: "\n".join(fast()),
        "glance": glance,
    }
    if name in whole:
        return whole[name]()
    kind, _, crate = name.partition(" of ")
    return clauses(crate) if kind == "clauses" and crate in sources.crates() else None


def mended(text):
    """The text with its parts made again, and the names of those that were stale or that nothing makes."""
    stale = []

    def made(match):
        wanted = part(match.group(1), match.group(2))
        if wanted is None:
            stale.append(f"{match.group(1)} (nothing makes it)")
            return match.group()
        whole = f"<!-- made: {match.group(1)} -->\n{wanted}\n<!-- /made -->"
        if whole != match.group():
            stale.append(match.group(1))
        return whole

    return PART.sub(made, text), stale
