import hashlib
import os
import re
import shutil
import subprocess

from tool import TOP, ToolTest

TOP_LIB = """//! The top call, [`run`], of
//! two lines. More of it.
//!
//! Still more.

ghost use Rattle.low.specs.Words.{IsEven as Even};
ghost use Rattle.low.specs.declared.Kind.{Kind};

/// Runs.
pub fn run<I: Source>(input: &mut I) -> u8
    ensures headline { Even result }
    ensures calm { (k : Kind) → k ≡ k }
{
    0
}
"""
OUTSIDE_LIB = """//! Traits.

pub trait Source: Sink {
    /// Reads.
    fn read(&mut self) -> u8
        ensures bound { true };
}

pub trait Sink {
}

pub trait Shelf {
}
"""
LOW_LIB = """//! Numbers: even | ones.

pub mod laws;
#[cfg(test)]
mod tests;

pub enum Kind {
    One(Part),
}

pub struct Part {
    pub size: u8,
}
"""
LOW_LAWS = """//! Laws.

/// Two is even. It does nothing.
pub fn two_is_even()
    ensures even { IsEven 2 }
{}
"""
WORDS = """-- Even numbers.
--   IsEven n    n is even;  twice n: n and n;  unused: a number
use Rattle.std.specs.Prelude.{ℕ, suc}
use Rattle.low.specs.Ground.{half}

abbrev pub IsEven : ℕ → Type 0
IsEven n = twice (half n) ≡ n

-- not reached by itself, only through IsEven
abbrev pub twice : ℕ → ℕ
twice n = n + n

abbrev pub unused : ℕ
unused = 3
"""
GROUND = """-- Halves.
--   half n    the number before n
use Rattle.std.specs.Prelude.{ℕ}

abbrev pub half : ℕ → ℕ
half 0 = 0
half (suc n) = n
"""
CRATES = """# Each crate.
# the ground
low: itoa
outside_io:
# the rest
qroute_top: low outside_io
qroute: qroute_top
# tests
low_tests: low
"""
README = """# It

Read `low/specs/Words.antt`, as a whole.

<!-- made: claims -->
| `qroute` | it returns | |
| `low` | `two_is_even`: `even` | that `IsEven` is so |
| `outside_io` | `read`: `bound` | |
| `qroute_top` | `run`: `headline`, `calm` | |
<!-- /made -->
"""
ARCHITECTURE = """# Architecture

<!-- made: crates -->
<!-- /made -->
"""


def parts(*names):
    return "".join(f"\n<!-- made: {it} -->\n<!-- /made -->\n" for it in names)


CLAIMS = f"""# Claims
{parts("definitions")}
## Crate by crate

### The ground

#### `low`
{parts("clauses of low")}
#### `outside_io`
{parts("clauses of outside_io")}
### The rest

#### `qroute_top`
{parts("clauses of qroute_top")}
#### `qroute`
{parts("clauses of qroute")}"""


class Documents(ToolTest):
    """A small repository with the scripts in it."""

    def setUp(self):
        super().setUp()
        shutil.copytree(os.path.join(TOP, "tools"), os.path.join(self.room, "tools"))
        for name, text in {
            "crates.txt": CRATES,
            "crates/low/src/lib.rt": LOW_LIB,
            "crates/low/src/laws.rt": LOW_LAWS,
            "crates/low/src/tests.rt": "//! Tests.\nuse itoa::{Buffer};\n",
            "crates/low/specs/Words.antt": WORDS,
            "crates/low/specs/Ground.antt": GROUND,
            "crates/outside_io/src/lib.rt": OUTSIDE_LIB,
            "crates/qroute_top/src/lib.rt": TOP_LIB,
            "crates/qroute/src/main.rt": "//! The program.\n",
            "crates/low_tests/src/lib.rt": "//! Tests of `low`.\n",
            "README.md": README,
            "docs/ARCHITECTURE.md": ARCHITECTURE,
            "docs/CLAIMS.md": CLAIMS,
        }.items():
            self.file(name, text)

    def script(self, name, *words, err="", **more):
        env = {name: it for name, it in os.environ.items() if name != "QROUTE"} | more
        ran = subprocess.run([os.path.join(self.room, "tools", name), *words], capture_output=True, text=True, timeout=60, env=env)
        self.assertEqual(ran.stderr, err)
        return ran.returncode, ran.stdout

    def change(self, name, old, new):
        path = os.path.join(self.room, name)
        with open(path, encoding="utf-8") as file:
            text = file.read()
        self.assertIn(old, text)
        self.file(name, text.replace(old, new, 1))

    def text(self, name):
        with open(os.path.join(self.room, name), encoding="utf-8") as file:
            return file.read()

    def found(self):
        return self.script("check-docs")[1].splitlines()

    def sum_of(self, path):
        """The sum of a crate's only edit."""
        name = os.path.splitext(os.path.basename(path))[0]
        return hashlib.sha256(f"{name}\n{self.text(path)}".encode()).hexdigest()[:8]

    def test_definitions(self):
        out = self.script("definitions")[1]
        rows = [line for line in out.splitlines() if line.startswith("| 1 ") or line.startswith("| 2 ")]
        self.assertEqual(
            rows,
            ["| 1 | `crates/low/specs/Ground.antt` | Halves | 3 |", "| 2 | `crates/low/specs/Words.antt` | Even numbers | 5 of 7 |"],
        )
        self.assertIn("| | 2 files | | 8 of 10 |", out)
        self.assertIn("| all that `run` promises (all) | its contract | 2 | 8 | 2 |", out)
        # a type, and one that its declaration names
        self.assertIn("| `Kind`, `Part` | `crates/low/src/lib.rt` |", out)
        # suc is imported and not used
        self.assertIn("1 of `std`", out)

    def test_parts_are_made(self):
        self.assertIn("docs/CLAIMS.md:1: a part is stale: clauses of low", self.found())
        self.assertEqual(self.script("check-docs", "--mend")[1].splitlines()[-1], "nothing found")
        text = self.text("docs/CLAIMS.md")
        self.assertIn("| `run` | Runs | `headline`, `calm` |", text)
        self.assertIn("| `Source::read` | Reads | `bound` |", text)
        self.assertIn("| `two_is_even` | Two is even | `even` |", text)
        self.assertEqual(self.found(), ["nothing found"])

    def test_tables_of_crates(self):
        self.script("check-docs", "--mend")
        rows = [line for line in self.text("docs/ARCHITECTURE.md").splitlines() if line.startswith("|")]
        self.assertEqual(
            rows,
            [
                "| crate | stands on | what it is |",
                "|---|---|---|",
                "| **the ground** | | |",
                "| `low` | `itoa` (in tests) | Numbers: even \\| ones |",
                "| `outside_io` | | Traits |",
                "| **the rest** | | |",
                "| `qroute_top` | `low`, `outside_io` | The top call, `run`, of two lines |",
                "| `qroute` | `qroute_top` | The program |",
            ],
        )
        # what is written by hand stays with its crate; crates of tests have no row in either
        rows = [line for line in self.text("README.md").splitlines() if line.startswith("|")]
        self.assertEqual(rows[2:4], ["| **the ground** | | |", "| `low` | `two_is_even`: `even` | that `IsEven` is so |"])
        self.assertEqual(rows[-1], "| `qroute` | it returns | |")

    def test_what_only_tests_stand_on(self):
        inside = "#[cfg(test)]\nmod tests {\n    use itoa::{Buffer};\n}\n"
        for name, old, new, wanted in (
            ("crates/low/src/laws.rt", "//! Laws.", "//! Laws of itoa.", "`itoa` (in tests)"),
            ("crates/low/src/laws.rt", "{}", "{ itoa() }", "`itoa`"),
            ("crates/low/specs/Ground.antt", "half 0 = 0", "half 0 = itoa", "`itoa`"),
            ("crates/low/src/tests.rt", "use itoa::{Buffer};", "", "`itoa`"),
            # a module of tests inside another file
            ("crates/outside_io/src/lib.rt", "pub trait Shelf", f"{inside}\npub trait Shelf", "`itoa` (in tests)"),
            # nothing but tests
            ("crates/low/src/laws.rt", self.text("crates/low/src/laws.rt"), "//! Laws.\n", "`itoa`"),
        ):
            before = self.text(name)
            self.change(name, old, new)
            crate = name.split("/")[1]
            self.file("crates.txt", CRATES.replace(f"\n{crate}:", f"\n{crate}: itoa").replace("itoa itoa", "itoa"))
            self.script("check-docs", "--mend")
            self.assertIn(f"| `{crate}` | {wanted} |", self.text("docs/ARCHITECTURE.md"))
            self.file(name, before)

    def test_findings(self):
        self.script("check-docs", "--mend")
        for name, old, new, wanted in (
            ("README.md", "Words.antt`", "Word.antt`", "README.md:3: no file low/specs/Word.antt"),
            ("README.md", ", as a whole.", ". It is short.", "README.md:3: more than one sentence on a line"),
            ("README.md", "as a whole", "as `whole_thing`", "README.md:3: `whole_thing` is declared nowhere"),
            ("README.md", "`even`", "`odd`", "README.md:9: two_is_even has no clause odd"),
            ("README.md", "| it returns |", "| |", "README.md:5: nothing says what is proved of qroute"),
            ("README.md", "| it returns |", f"| {20 * 'it '}returns |", "README.md:5: 21 words on qroute, and at most 20 may be"),
            ("README.md", "| `low` | `two", "| `lower` | `two", "README.md:1: a part is stale: claims"),
            ("README.md", "made: claims", "made: reading", "README.md:1: no part claims"),
            ("docs/ARCHITECTURE.md", "made: crates", "made: reading", "docs/ARCHITECTURE.md:1: no part crates"),
            ("docs/ARCHITECTURE.md", "`low`, `outside_io` | T", "`low` | T", "docs/ARCHITECTURE.md:1: a part is stale: crates"),
            ("docs/CLAIMS.md", "clauses of qroute -", "clauses of low -", "docs/CLAIMS.md:1: no part clauses of qroute"),
            ("crates/outside_io/src/lib.rt", "//! Traits.", "//! Three traits.", "docs/ARCHITECTURE.md:1: a part is stale: crates"),
        ):
            before = self.text(name)
            self.change(name, old, new)
            self.assertIn(wanted, self.found())
            self.file(name, before)
        self.assertEqual(self.found(), ["nothing found"])

    def test_planted_untruths(self):
        """Each is told, and alone: what a check of documents that passes has been shown to find."""
        self.file("crates/low/must-fail/odd.edit", "file: src/laws.rt\nold: {}\nnew: {{}}\n")
        self.file("crates/qroute_top/src/end.rt", "//! An end.\n\nimpl Source for End {\n    fn read(&mut self) -> u8 {\n        0\n    }\n}\n")
        self.file("crates/qroute_top/more-edits/one.edit", "file: src/end.rt\nold: 0\nnew: 1\n")
        bounds = "-- Bounds.\n--   most_qubits, most_operations\nabbrev pub most_qubits : ℕ\nmost_qubits = 256\n"
        self.file("crates/low/specs/Bounds.antt", f"{bounds}abbrev pub most_operations : ℕ\nmost_operations = 65536\n")
        self.file("docs/it.1", "A program has at most 65,536 operations\n")
        self.file(
            "README.md",
            f"{README}\nThe clause `bound` of `Source` says it, `half` and `two_is_even` are of `low`, and {chr(96)}bin/run{chr(96)} is no document's.\n"
            "No chain has more than three crates.\nIt isn't for more than 256 qubits.\n[Definitions](docs/CLAIMS.md#crate-by-crate) stand there.\n\n"
            f"| `unused` | at most | name | where |\n|---|---|---|---|\n| it | 3 | `unused` | `low/specs/Words.antt` |\n{parts('reading')}",
        )
        self.file("docs/CLAIMS.md", CLAIMS.replace("#### `low`\n", "#### `low`\n\nIts law is `two_is_even`, of the definition `IsEven`.\n") + parts("edits"))
        self.script("check-docs", "--mend")
        self.change("docs/CLAIMS.md", "| `low` | none of 1 | | |", "| `low` | 1 at `12345678`, `12345678` | `two_is_even`: `even` (`odd`) | |")
        self.assertIn("docs/CLAIMS.md:1: a part is stale: edits", self.found())
        self.script("check-docs", "--mend")
        row = "| `low` | 1 at `12345678`, `12345678`; changed since, 1 now | `two_is_even`: `even` (`odd`) | |"
        self.assertIn(row, self.text("docs/CLAIMS.md"))
        self.change("docs/CLAIMS.md", "`12345678`; changed since, 1 now", f"`{self.sum_of('crates/low/must-fail/odd.edit')}`")
        summed = self.sum_of("crates/qroute_top/more-edits/one.edit")
        self.change("docs/CLAIMS.md", "`qroute_top` | none of 1 | |", f"`qroute_top` | 1 at `12345678`, `{summed}` | `End::read`: within, `bound` (`one`) |")
        self.assertEqual(self.found(), ["nothing found"])
        plain = "| `unused` | at most | name | where |"
        for name, old, new, wanted in (
            # a clause that was renamed, in the sources
            ("crates/outside_io/src/lib.rt", "ensures bound", "ensures most", "`bound` is no member of `Source`"),
            ("crates/low/src/laws.rt", "ensures even", "ensures halved", "two_is_even has no clause even"),
            # a wrong count, and a figure that was changed
            ("README.md", "than three crates", "than four crates", "it says four, and there are three"),
            ("README.md", "than 256 qubits", "than 255 qubits", "it says 255, and there are 256"),
            ("docs/it.1", "65,536", "65,563", "it says 65,563, and there are 65,536"),
            ("crates/low/specs/Bounds.antt", "most_qubits = 256", "most_qubits = 128", "it says 256, and there are 128"),
            ("README.md", "| it | 3 |", "| it | 4 |", "`unused` is no 4 in low/specs/Words.antt"),
            ("README.md", "8 lines in all", "7 lines in all", "a part is stale: reading"),
            ("crates/low/specs/Words.antt", "unused = 3", "unused = 5", "`unused` is no 3 in low/specs/Words.antt"),
            # a file that is gone, and a definition, a function and a heading with another name
            ("README.md", "`low/specs/Words.antt`, as", "`low/specs/Even.antt`, as", "no file low/specs/Even.antt"),
            ("crates/low/specs/Ground.antt", "abbrev pub half", "abbrev pub halved", "`half` is declared nowhere"),
            ("docs/CLAIMS.md", "Its law is `two_is_even`", "Its law is `two_is_odd`", "`two_is_odd` is declared nowhere"),
            ("README.md", "#crate-by-crate", "#room-by-room", "no heading #room-by-room in docs/CLAIMS.md"),
            # what another crate declares, above this one
            ("docs/CLAIMS.md", "the definition `IsEven`", "the call `run`", "`run` is declared by qroute_top, and not by low or below it"),
            # a word of a comment alone, and a clause that is none
            ("README.md", plain, plain.replace("`unused`", "`returns`"), "`returns` is declared nowhere"),
            ("README.md", "clause `bound`", "clause `half`", "`half` is no member of `Source`"),
            ("README.md", "clause `bound` of `Source` says it", "clause `size` says it", "`size` is no clause"),
            # an edit that another clause or function would refuse, that is gone, that changed, or that is not counted
            ("docs/CLAIMS.md", "`two_is_even`: `even` (", "`two_is_even`: `odd` (", "two_is_even has no clause odd"),
            ("docs/CLAIMS.md", "`two_is_even`: `even` (", "`run`: `even` (", "low has no function run"),
            ("docs/CLAIMS.md", "within, `bound` (", "within, `calm` (", "read has no clause calm"),
            ("docs/CLAIMS.md", "(`odd`)", "(`old`)", "low has no edit old"),
            ("docs/CLAIMS.md", "(`odd`) | |", "| `old` (can't be made) |", "low has no edit old"),
            ("docs/CLAIMS.md", "| 1 at", "| 2 at", "a part is stale: edits"),
            ("crates/low/must-fail/odd.edit", "new: {{}}", "new: {}", "a part is stale: edits"),
            ("README.md", "<!-- made: claims -->", "<!-- made: claim -->", "a part is stale: claim (nothing makes it)"),
        ):
            before = self.text(name)
            self.change(name, old, new)
            found = self.found()
            self.assertTrue(any(wanted in it for it in found), (wanted, found))
            self.file(name, before)
        self.assertEqual(self.found(), ["nothing found"])
        # a count or a limit is mended, in words if it is in words, and with the commas that it has
        self.change("crates/low/specs/Bounds.antt", "most_qubits = 256", "most_qubits = 128")
        self.change("README.md", "than three crates", "than four crates")
        self.script("check-docs", "--mend")
        self.assertIn("No chain has more than three crates.\nIt isn't for more than 128 qubits.\n", self.text("README.md"))
        self.assertEqual(self.found(), ["nothing found"])

    def test_words_that_are_defined_twice(self):
        self.script("check-docs", "--mend")
        self.file("crates/outside_io/specs/Others.antt", "-- Others.\n--   twice\nabbrev pub twice : ℕ\ntwice = 2\n")
        self.assertEqual(self.found(), ["nothing found"])
        self.file("tools/check-docs", re.sub(r"(?m)^MOST_TWICE = \d+$", "MOST_TWICE = 0", self.text("tools/check-docs")))
        self.assertEqual(self.found(), ["specs/: 1 words are defined in two or more files, and at most 0 were: among them twice"])

    def test_lengths(self):
        self.script("check-docs", "--mend")
        readme = self.text("README.md")
        self.file("README.md", readme.replace("<!-- made: claims -->", f"{126 * chr(10)}## Crate by crate\n\n<!-- made: claims -->", 1))
        self.assertEqual(self.found(), ["nothing found"])
        self.file("README.md", readme.replace("<!-- made: claims -->", f"{127 * chr(10)}## Crate by crate\n\n<!-- made: claims -->", 1))
        self.assertEqual(self.found(), ["README.md: 131 lines stand before its table of crates, and at most 130 may"])
        self.file("README.md", readme)
        self.file("docs/GUIDE.md", 6000 * "It is so.\n")
        more = sum(len(self.text(it).splitlines()) for it in ("README.md", "docs/ARCHITECTURE.md", "docs/CLAIMS.md"))
        self.assertEqual(self.found(), [f"documents: they have {6000 + more} lines together, and at most 6000 may be"])
        self.file("docs/GUIDE.md", (6000 - more) * "It is so.\n")
        self.file("docs/ROWS.md", 100 * "It is so.\n")
        self.assertEqual(self.found(), ["nothing found"])

    def test_wording(self):
        self.script("check-docs", "--mend")
        for said, wanted in (
            ("Links are made anew.", ["README.md:3: anew: write again"]),
            ("Want of memory is free.", ["README.md:3: want of memory: write out of memory"]),
            ("Write 'again' (not 'anew').", ["nothing found"]),
        ):
            self.file("README.md", README.replace("Read `low/specs/Words.antt`, as a whole.", said))
            self.script("check-docs", "--mend")
            self.assertEqual(self.found(), wanted)

    def test_order_of_crates(self):
        self.script("check-docs", "--mend")
        claims = self.text("docs/CLAIMS.md")
        low, outside, rest = (claims.index(it) for it in ("#### `low`", "#### `outside_io`", "### The rest"))
        exchanged = claims[:low] + claims[outside:rest] + claims[low:outside] + claims[rest:]
        unheaded = claims.replace("#### `qroute`\n", "")
        for new, line, wanted in (
            (exchanged, "#### `outside_io`", "by crates.txt the next heading is #### `low`"),
            (claims.replace("### The rest\n", ""), "#### `qroute_top`", "by crates.txt the next heading is ### The rest"),
            (claims + "\n### More\n", "### More", "by crates.txt the next heading is none"),
            (unheaded, "# Claims", "no heading #### `qroute`"),
            (unheaded, "<!-- made: clauses of qroute -->", "the part of qroute stands below another heading"),
        ):
            self.file("docs/CLAIMS.md", new)
            self.assertIn(f"docs/CLAIMS.md:{new[: new.index(line)].count(chr(10)) + 1}: {wanted}", self.found())
        self.file("docs/CLAIMS.md", claims)
        self.file("crates.txt", CRATES.replace("low: itoa", "low: outside_io"))
        self.assertIn("crates.txt: low stands above outside_io, on which it stands", self.found())
        self.file("crates.txt", CRATES.replace("# Each crate.\n# the ground\n", ""))
        self.assertIn("crates.txt: low has no room", self.found())

    def test_links_and_bare_paths(self):
        self.script("check-docs", "--mend")
        there = "[a](docs/CLAIMS.md#it-is-a-b_c) [b](#it) [c](docs/CLAIMS.md) [d](docs/CLAIMS.md#it-is-a-b_c-1)\n"
        page = ".IR tools/check\\-docs ,\n\\fIdocs/CLAIMS.md\\fR\n"
        self.file("docs/CLAIMS.md", CLAIMS + "\n## It is, `a` b_c\n\n## It is a b_c\n")
        self.file("docs/it.1", page)
        self.file("README.md", f"{README}\n{there}\n```\n$ tools/definitions < crates/low/src/lib.rt\n# Code\n```\n")
        self.script("check-docs", "--mend")
        self.assertEqual(self.found(), ["nothing found"])
        for name, old, new, wanted in (
            ("README.md", "#it)", "#code)", "README.md:16: no heading #code in README.md"),
            ("README.md", "c-1)", "c-2)", "README.md:16: no heading #it-is-a-b_c-2 in docs/CLAIMS.md"),
            ("README.md", "(docs/CLAIMS.md)", "(CLAIMS.md)", "README.md:16: no file CLAIMS.md for a link"),
            ("README.md", "tools/definitions", "tools/words", "README.md:19: no file tools/words"),
            ("docs/it.1", "check\\-docs", "check\\-words", "docs/it.1:1: no file tools/check-words"),
            ("docs/it.1", "CLAIMS", "CLAIM", "docs/it.1:2: no file docs/CLAIM.md"),
        ):
            self.change(name, old, new)
            self.assertEqual(self.found(), [wanted])
            self.change(name, new, old)

    def test_words_of_heads(self):
        self.script("check-docs", "--mend")
        self.change("crates/low/specs/Ground.antt", "half n    the", "hlf n    the")
        self.change("crates/low/specs/Words.antt", ";  twice n: n and n;  unused: a number", "")
        wanted = ["crates/low/specs/Ground.antt: its head leaves out half", "crates/low/specs/Words.antt: its head leaves out twice unused"]
        self.assertEqual(self.found(), wanted)

    def test_transcripts(self):
        program = "#!/bin/sh\n[ $1 = what ] && echo no command >&2\necho program $1\n"
        for path in (self.file("qroute", "#!/bin/sh\n"), self.file("out/qroute", program), self.file("own/qroute", program.replace("no", "own"))):
            os.chmod(path, 0o755)
        for name in ("examples/a", "devices/a", "bench/a", "docs/made.svg"):
            self.file(name, "<x y='1.2'/>\n")
        body = "$ ./qroute opt\nprogram opt\n$ ./qroute what\nno command\nprogram what\n$ echo \"<x y='1.4'/>\" > docs/made.svg\n"
        self.file("README.md", f"{README}\n```\n{body}```\n")
        self.assertEqual(self.script("check-transcripts"), (0, "nothing differs in 1 transcripts\n"))
        self.change("README.md", "program what", "program that")
        self.change("README.md", "1.4", "7.4")
        status, out = self.script("check-transcripts", "--mend")
        self.assertEqual(status, 1)
        self.assertIn("README.md:12: what comes out is\n", out)
        self.assertIn("docs/made.svg isn't what is written\n", out)
        self.assertEqual(self.script("check-transcripts"), (0, "nothing differs in 1 transcripts\n"))
        # another program, which says `own command`
        self.assertEqual(self.script("check-transcripts", QROUTE=os.path.join(self.room, "own/qroute"))[0], 1)

    def test_a_build_is_told_and_files_are_looked_at_before(self):
        self.file("qroute", "#!/bin/sh\necho building >&2\nexit 70\n")
        os.chmod(os.path.join(self.room, "qroute"), 0o755)
        said = "building\ncheck-transcripts: there is no program to run\n"
        self.assertEqual(self.script("check-transcripts", err=said), (2, ""))
        said = "check-transcripts: there is no file docs/NONE.md\n"
        self.assertEqual(self.script("check-transcripts", "README.md", "docs/NONE.md", err=said), (2, ""))
