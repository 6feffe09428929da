import os
import re
import shutil
import subprocess
import sys

from tool import TOP, ToolTest

LIB = """//! Numbers.

pub const LIMIT: u8 = 3;

/// Two.
pub fn two(n: u8) -> u8
    ensures small { result < 3 }
    ensures even { IsEven result }
{
    2
}

/// Three.
fn three(n: u8) -> u8
    ensures { result ≡ 3 }
{
    LIMIT
}

impl Next for Even {
    fn next(&self) -> Even
        ensures twice { IsTwice result }
    {
        Even { half: self.half + 1 }
    }
}

impl Evens {
    /// The least.
    #[tactic(
        auto,
    )]
    fn next(&self) -> u8
        ensures least { result ≡ 2 }
    {
        'walk: for n in 0..9 {
            return n;
        }
        9
    }
}
"""
# for each text that a check may find, what it says then
SAYS = {
    "    4\n": "note: src/lib.rt:6:1: it is not proved that what it ensures holds (`returns-clause-even`); `search` gave up\n"
    "fn low::two: no proof: expected answers in ./proofs/two/Answers.antt; `search` did not prove `returns-clause-even`",
    "    5\n": "./proofs/two/Answers.antt:3:1: error: `returns-clause-small`: terms differ\nfn low::two: not proved",
    "LIMIT + 0": "fn low::three: no proof: expected answers in ./proofs/three/Answers.antt; `search` did not prove `returns`",
    "u8 = 4;": "fn low::three: no proof: `search` did not prove `returns`\nfn low::uses: no proof: it calls `low::three`, which is not proved",
    "half + 2": "fn low::EvenNext::next: no proof: `search` did not prove `returns-clause-twice`",
    "return 1;": "note: src/lib.rt:35:9: it is not proved that the invariant holds (`walk-preserved`)\nfn low::Evens::next: no proof: `search` did not prove `walk-preserved`",
    "return 2;": "note: src/lib.rt:29:5: it is not proved that what it ensures holds (`returns-then`)\nfn low::Evens::next: no proof: `search` did not prove `returns-then`",
    "return 0;": "fn low::Evens::next: no proof: expected `next_spec` in ./proofs/Evens/next/Proof.antt; the borrow checker does not cover it yet",
    "half + 3": "fn low::EvenNext::next: no proof: the borrow checker's part is not made yet: a call of `low::Evens::next`, which has no proof",
    "sum 3": "./proofs/Sums.antt:7:1: error: `sum-one`: terms differ\n./proofs/Sums.antt:9:5: error: 1 declaration that depends on `sum-one`, which was rejected, was not checked: sums\n"
    "./proofs/two/Answers.antt:3:1: error: 2 declarations that depend on `sums`, which was not admitted, were not checked: small, returns-clause-even (via small)\n"
    "fn low::two: not proved",
    "    6\n": "./proofs/+two/Answers.antt:3:1: error: `returns-clause-even`: terms differ\nfn low::two: not proved",
    "    7\n": "fn low::two: no proof: expected answers in ./proofs/two/Answers.antt; `search` did not prove `three-requires-clause-even`",
    "return n + 0;": "./proofs/Evens/next/Answers.antt:3:1: error: `returns`: `c.n` has no field `is`\nfn low::Evens::next: not proved",
}
RT = """#!{python}
import glob, os, sys
text = "".join(open(it).read() for it in ["src/lib.rt", *glob.glob("specs/*")])
open(sys.argv[sys.argv.index("--stage-times") + 1], "w").write("stage session 2.0 1\\n" + "stage offers 1.25 1\\n" * ("    4\\n" in text))
begun = open("out/incremental/kept").read() if os.path.exists("out/incremental/kept") else ""
only = "".join(" " + it for flag, it in zip(sys.argv, sys.argv[1:]) if flag == "--only")
open("{log}", "a").write("check" + only + begun + "\\n")
os.makedirs("out/incremental", exist_ok=True)
open("out/incremental/kept", "w").write(" after a check")
if "$" in text:
    sys.exit("error: it can't be read")
told = [said for sign, said in {says!r}.items() if sign in text]
print("\\n".join(told + ["logic=not-proved" if told else "logic=proved"]))
"""


class Mutate(ToolTest):
    def setUp(self):
        super().setUp()
        shutil.copytree(os.path.join(TOP, "tools"), os.path.join(self.room, "tools"))
        self.checks = os.path.join(self.room, "checks")
        for name, text in {
            "crates.txt": "low:\nhigh: low\n",
            "HANDLES": "Handles allowed: none.\n",
            "crates/low/src/lib.rt": LIB,
            "crates/high/src/lib.rt": "//! High.\n",
            "docs/CLAIMS.md": "# Claims\n\n<!-- made: edits -->\n<!-- /made -->\n",
            "bin/rt": RT.format(python=sys.executable, log=self.checks, says=SAYS),
        }.items():
            self.file(name, text)
        os.chmod(os.path.join(self.room, "bin/rt"), 0o755)

    def mutate(self, *words):
        """Status, the lines that tell verdicts, and all lines."""
        path = os.path.join(self.room, "bin") + os.pathsep + os.environ["PATH"]
        ran = subprocess.run(
            [sys.executable, os.path.join(self.room, "tools/mutate"), *words],
            capture_output=True,
            text=True,
            timeout=60,
            env=dict(os.environ, PATH=path, TMPDIR=self.room),
        )
        lines = ran.stdout.splitlines()
        return ran.returncode, [it for it in lines if not it.startswith(("copy ", "low:", "high:"))][:-1], lines

    def edit(self, name, old, new, folder="more-edits", crate="low", file="src/lib.rt"):
        self.file(f"crates/{crate}/{folder}/{name}.edit", f"file: {file}\nold: {old}\nnew: {new}\n")

    def number_of_checks(self):
        if not os.path.exists(self.checks):
            return 0
        with open(self.checks, encoding="utf-8") as file:
            return len(file.readlines())

    def test_edits_of_many_functions_take_one_check(self):
        self.edit("four", "    2", "    4", "must-fail")
        self.edit("limit_and_nothing", "    LIMIT", "    LIMIT + 0")
        self.edit("two_more", "half + 1", "half + 2")
        self.edit("one_always", "return n;", "return 1;")
        status, verdicts, lines = self.mutate("--joined", "low")
        self.assertEqual(
            verdicts,
            [
                "four: shown: `even` of `two`",
                "limit_and_nothing: shown: the clause of `three`",
                "one_always: shown: within, `walk-preserved` of `Evens::next`",
                "two_more: shown: `twice` of `Even::next`",
            ],
        )
        self.assertEqual((status, self.number_of_checks()), (0, 1))
        self.assertRegex(lines[1], r"^copy 1: .*: [\d.]+ s, offers 1.2 s by the clock$")
        self.assertRegex(lines[-1], r"^4 edits, 4 shown, 1 checks, \d+ processor seconds$")
        self.assertEqual(self.mutate("--each", "--joined", "low")[1], verdicts)
        self.assertEqual(self.number_of_checks(), 5)

    def test_edits_of_one_function_take_two(self):
        self.edit("four", "    2", "    4")
        self.edit("five", "    2", "    5")
        status, verdicts, _ = self.mutate("--joined", "low")
        self.assertEqual(verdicts, ["five: shown: `small` of `two`", "four: shown: `even` of `two`"])
        self.assertEqual((status, self.number_of_checks()), (0, 2))
        self.assertEqual(self.mutate("--joined", "low", "four")[1], verdicts[1:])

    def test_what_is_proved_all_the_same_is_not_shown(self):
        self.edit("four", "    2", "    4")
        self.edit("nothing", "    LIMIT", "    3")
        status, verdicts, _ = self.mutate("--joined", "low")
        self.assertEqual(verdicts, ["four: shown: `even` of `two`", "nothing: not shown"])
        # it is tried once more, alone
        self.assertEqual((status, self.number_of_checks()), (1, 2))

    def test_what_a_refused_function_is_called_by_is_no_refusal(self):
        self.edit("four_at_most", "LIMIT: u8 = 3;", "LIMIT: u8 = 4;")
        self.file("crates/low/src/lib.rt", LIB + "\nfn uses() {\n    three();\n}\n")
        self.edit("other_use", "    three();", "    three(); three();")
        status, verdicts, _ = self.mutate("--joined", "low")
        self.assertEqual(verdicts, ["four_at_most: shown: the clause of `three`", "other_use: not shown"])
        self.assertEqual(status, 1)

    def test_a_name_that_is_gone_shows_little(self):
        self.edit("sum", "return n;", "return n + 0;")
        self.assertEqual(self.mutate("--joined", "low")[:2], (1, ["sum: shown by a name alone: `least` of `Evens::next`"]))

    def test_what_stands_on_a_refused_lemma(self):
        """The clause is refused of an edit outside of functions, and isn't judged of one in the function beside it."""
        self.file("crates/low/specs/Sums.antt", "sum 2\n")
        self.edit("three", "sum 2", "sum 3", file="specs/Sums.antt")
        self.edit("two_and_nothing", "    2", "    2 + 0")
        status, verdicts, _ = self.mutate("--joined", "low")
        self.assertEqual(verdicts, ["three: shown: within, `small`, `even` of `two`", "two_and_nothing: not shown"])
        self.assertEqual((status, self.number_of_checks()), (1, 2))

    def test_what_a_callee_requires_is_no_clause_of_the_function(self):
        self.edit("seven", "    2", "    7")
        self.assertEqual(self.mutate("--joined", "low")[1], ["seven: shown: within, `three-requires-clause-even` of `two`"])

    def test_a_function_that_calls_itself(self):
        self.edit("six", "    2", "    6")
        self.edit("two_more", "half + 1", "half + 2")
        self.assertEqual(self.mutate("--joined", "low")[:2], (0, ["six: shown: `even` of `two`", "two_more: shown: `twice` of `Even::next`"]))
        self.assertEqual(self.number_of_checks(), 1)

    def test_a_refusal_without_a_goal_shows_nothing(self):
        self.edit("nought", "return n;", "return 0;")
        self.edit("half", "half + 1", "half + 3")
        status, verdicts, _ = self.mutate("--joined", "low")
        why = "`Evens::next` is refused at no goal: expected `next_spec` in ./proofs/Evens/next/Proof.antt; the borrow checker does not cover it yet"
        self.assertEqual(verdicts, ["half: not shown", f"nought: not shown: {why}"])
        self.assertEqual((status, self.number_of_checks()), (1, 3))

    def test_a_goal_at_the_attributes_of_a_function(self):
        self.edit("two", "return n;", "return 2;")
        self.assertEqual(self.mutate("--joined", "low")[:2], (0, ["two: shown: `least` of `Evens::next`"]))

    def test_a_body_that_cannot_be_read_goes_alone(self):
        self.edit("four", "    2", "    4")
        self.edit("unread", "    LIMIT", "    LIMIT $")
        status, verdicts, _ = self.mutate("--joined", "low")
        self.assertEqual(verdicts, ["four: shown: `even` of `two`", "unread: can't be made: error: it can't be read"])
        # both, each, and the crate with the second
        self.assertEqual((status, self.number_of_checks()), (1, 4))

    def test_edits_that_do_not_fit_the_files(self):
        self.edit("seven", "    7", "    8")
        self.edit("no_file", "    2", "    8", file="src/there.rt")
        self.file("crates/low/more-edits/no_pair.edit", "file: src/lib.rt\nold:     2\n")
        status, verdicts, _ = self.mutate("--joined", "low")
        self.assertEqual(
            verdicts,
            [
                "no_file: can't be made: there is no file src/there.rt",
                "no_pair: can't be made: it has no pair of lines `old:` and `new:`",
                "seven: can't be made: `7` stands 0 times in src/lib.rt",
            ],
        )
        self.assertEqual((status, self.number_of_checks()), (1, 0))

    def test_the_table(self):
        head = "| crate | edits tried | refused by | not shown |\n|---|---|---|---|\n"
        kept = "| `high` | 2 at `12345678`, `87654321`{} | `it`: `kept` (`more`, `much`) | |\n"
        self.file("docs/CLAIMS.md", f"# Claims\n\n<!-- made: edits -->\n{head}{kept.format('')}<!-- /made -->\n\nEnd.\n")
        self.edit("more", "//! High.", "//! Higher.", crate="high")
        self.edit("much", "//! High.", "//! Highest.", crate="high")
        self.edit("never", "//! High.", "//! Lower.", crate="high")
        self.edit("four", "    2", "    4")
        self.edit("nothing", "    LIMIT", "    3")
        self.edit("one_always", "return n;", "return 1;", "must-fail")
        self.edit("sum", "half + 1", "half + 1 $")
        for words in (["git", "init", "-q"], ["git", "add", "-A"], ["git", "-c", "user.name=a", "-c", "user.email=a", "commit", "-qm", "All"]):
            subprocess.run(words, cwd=self.room, check=True)
        at = subprocess.run(["git", "rev-parse", "--short=8", "HEAD"], cwd=self.room, capture_output=True, text=True, check=True).stdout.strip()
        self.mutate("--mend", "--joined", "low")
        refused = "`two`: `even` (`four`); `Evens::next`: within (`one_always`)"
        made = rf"\| `low` \| 4 at `{at}`, `(\w{{8}})` \| {re.escape(refused)} \| `nothing`, `sum` \(can't be made\) \|\n"
        changed = re.escape(kept.format("; changed since, 3 now"))
        self.assertRegex(self.claims(), rf"^# Claims\n\n<!-- made: edits -->\n{re.escape(head)}{made}{changed}<!-- /made -->\n\nEnd.\n$")
        # a sum that is the tree's again, and edits that changed after they were tried, as they are read and made again
        summed = re.search(made, self.claims()).group(1)
        self.file("docs/CLAIMS.md", self.claims().replace("| 4 at", "| 5 at"))
        self.edit("nothing", "    LIMIT", "    LIMIT + 3")
        self.mutate("--mend", "--joined", "high")
        self.assertIn(f"| `low` | 5 at `{at}`, `{summed}`; changed since, 4 now | {refused} | `nothing`,", self.claims())
        self.edit("nothing", "    LIMIT", "    3")
        self.mutate("--mend", "--joined", "high")
        self.assertIn(f"| `low` | 4 at `{at}`, `{summed}` | {refused} | `nothing`,", self.claims())

    def test_a_row_of_many_edits_does_not_name_them(self):
        for i in range(8):
            self.edit(f"a_name_of_some_length_with_the_number_{i}", "    2", "    4" if i % 2 else "    5")
        self.edit("one_always", "return n;", "return 1;")
        self.mutate("--mend", "--joined", "low")
        self.assertIn(" | `two`: `small`, `even`; `Evens::next`: within | |\n", self.claims())

    def test_a_row_of_many_edits_names_those_of_the_gate(self):
        for i in range(8):
            self.edit(f"a_name_of_some_length_with_the_number_{i}", "    2", "    4" if i % 2 else "    5")
        self.edit("one_always", "return n;", "return 1;", "must-fail")
        self.mutate("--mend", "--joined", "low")
        self.assertIn(" | `two`: `small`, `even`; `Evens::next`: within (`one_always`) | |\n", self.claims())

    def claims(self):
        with open(os.path.join(self.room, "docs/CLAIMS.md"), encoding="utf-8") as file:
            return file.read()

    def test_all_crates(self):
        self.edit("four", "    2", "    4")
        self.edit("higher", "//! High.", "//! Higher.", crate="high")
        status, verdicts, lines = self.mutate("--all", "--jobs", "2", "--log", os.path.join(self.room, "log"))
        self.assertEqual(sorted(verdicts), ["four: shown: `even` of `two`", "higher: not shown"])
        self.assertEqual(status, 1)
        self.assertEqual(sorted(os.listdir(os.path.join(self.room, "log"))), ["high-1.log", "low-1.log"])
        self.assertTrue(lines[-1].startswith("2 edits, 1 shown, 2 checks, "))

    def test_a_check_begins_with_what_one_before_it_kept(self):
        self.edit("four", "    2", "    4")
        self.edit("five", "    2", "    5")
        self.mutate("--joined", "low")
        self.assertEqual(self.told_checks(), "check two\ncheck two after a check\n")
        # a later run too, unless it takes what was kept elsewhere, and leaves it as it is
        kept = self.file("other/crates/low/out/incremental/kept", " elsewhere")
        for _ in range(2):
            self.mutate("--joined", "low", "four", "--out", os.path.join(self.room, "other"))
            self.assertEqual(self.told_checks(), "check two elsewhere\n")
        with open(kept, encoding="utf-8") as file:
            self.assertEqual(file.read(), " elsewhere")
        self.mutate("--joined", "low", "four")
        self.assertEqual(self.told_checks(), "check two after a check\n")

    def test_the_functions_of_the_edits_alone_are_checked(self):
        self.edit("four", "    2", "    4")
        self.edit("two_more", "half + 1", "half + 2")
        self.file("crates/low/more-edits/one_always.edit", "file: src/lib.rt\nold: /// Three.\nnew: /// Three!\nold: return n;\nnew: return 1;\n")
        elsewhere = ("--out", os.path.join(self.room, "other"))
        self.mutate("--joined", "low", *elsewhere)
        self.assertEqual(self.told_checks(), "check EvenNext::next Evens::next two\n")
        # a constant may be relied on anywhere; and what isn't shown so is tried in the whole crate
        self.edit("limit", "LIMIT: u8 = 3;", "LIMIT: u8 = 4;")
        self.mutate("--joined", "low", *elsewhere)
        self.mutate("--joined", "low", "four", *elsewhere)
        self.edit("nothing", "    LIMIT", "    3")
        self.mutate("--joined", "low", "nothing", *elsewhere)
        self.assertEqual(self.told_checks(), "check\ncheck two\ncheck three\ncheck after a check\n")

    def told_checks(self):
        with open(self.checks, encoding="utf-8") as file:
            told = file.read()
        os.remove(self.checks)
        return told

    def test_words(self):
        self.edit("four", "    2", "    4")
        for words in ([], ["low"], ["--joined"], ["--joined", "lower"], ["--all", "low"], ["--all", "--jobs", "0"], ["--all", "--more"], ["--joined", "low", "six"]):
            self.assertEqual(self.mutate(*words)[0], 2, words)
        # a row is of all edits
        self.assertEqual(self.mutate("--joined", "low", "four", "--mend")[0], 2)
        self.assertEqual(self.mutate("--help")[0], 0)
