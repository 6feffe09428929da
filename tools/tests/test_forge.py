import collections
import importlib.machinery
import importlib.util
import os
import random
import sys
from unittest import mock

from tool import TOP, ToolTest

sys.path.insert(0, os.path.join(TOP, "tools", "lib"))
import built
import forged
import traces

BUILT = built.program()


def forge():
    """The tool as a module."""
    loader = importlib.machinery.SourceFileLoader("forge_tool", os.path.join(TOP, "tools/forge"))
    module = importlib.util.module_from_spec(importlib.util.spec_from_loader(loader.name, loader))
    with mock.patch("streams.run"):
        loader.exec_module(module)
    return module


class Forge(ToolTest):
    def program(self, lines):
        """A program that does what these lines of a shell say."""
        path = self.file("program", f"#!/bin/sh\n{lines}\n")
        os.chmod(path, 0o755)
        return path

    def test_the_built_program(self):
        if BUILT is None:
            self.skipTest("there is no built program")
        status, out, err = self.run_tool("forge", "--count", "200", "--seed", "1000001", BUILT, timeout=600)
        self.assertEqual((status, err), (0, ""), out)
        self.assertRegex(out, r"^200 forged traces \(\d+ yes, \d+ no, \d+ refused\): 0 on which the judges differ\n$")

    def test_true_traces(self):
        """They are right, and have all lines."""
        tool, words = forge(), collections.Counter()
        for seed in range(120):
            trace = forged.drawn(random.Random(seed))
            texts = forged.texts(trace)
            said, verdict = tool.by_checker(texts)
            self.assertEqual(said[0], "yes", seed)
            self.assertTrue(tool.is_right(texts, verdict), seed)
            verdict.power = (verdict.power + 1) % 8
            self.assertFalse(tool.is_right(texts, verdict), seed)
            words.update(it.split(" ")[0] for it in trace.lines)
            words.update(it[:6] for it in trace.lines if it.startswith("rule"))
        for word in [*traces.WORDS, *traces.LATER, *(f"rule {k}" for k in range(1, 8)), "TRACE", "H", "X", "P", "C"]:
            self.assertGreater(words[word], 0, word)

    def test_a_seed_is_one_text(self):
        made = [[forged.texts(forged.altered(dice, forged.drawn(dice))) for dice in [random.Random(it % 20)]] for it in range(40)]
        self.assertEqual(made[:20], made[20:])
        self.assertGreater(len({it[0] for it in made}), 18)

    def test_alterations(self):
        """Each of them makes another trace now and then, and some that are still true."""
        dice = random.Random(5)
        trace = forged.drawn(dice)
        for alter in forged.LINES:
            found = set()
            for _ in range(30):
                lines = list(trace.lines)
                alter(dice, lines)
                found.add(tuple(lines))
            self.assertGreater(len(found - {tuple(trace.lines)}), 1, alter.__name__)
        self.assertGreater(len({forged.statement_altered(dice, trace.source) for _ in range(60)}), 20)

    def test_a_program_that_says_yes_to_all(self):
        status, out, _ = self.run_tool("forge", "--count", "12", "--keep", self.room, self.program("echo yes 0"))
        self.assertEqual(status, 1)
        self.assertRegex(out, r"seed \d+: the program says yes 0, check-trace no \d+\n")
        self.assertRegex(out, r"\n12 forged traces \(12 yes\): \d+ on which the judges differ\n$")
        seed = out.split(":")[0].removeprefix("seed ")
        dice = random.Random(int(seed))
        texts = forged.texts(forged.altered(dice, forged.drawn(dice)))
        for name, data in zip(("source", "target"), texts):
            with open(os.path.join(self.room, f"{seed}_{name}.qasm"), "rb") as file:
                self.assertEqual(file.read(), data)

    def test_a_program_that_says_something_else(self):
        for lines in ("exit 70", "echo yes 8", "echo yes 0; exit 1", """echo '{"fault":"Words","status":2}' >&2; exit 2"""):
            status, out, _ = self.run_tool("forge", "--count", "1", self.program(lines))
            self.assertEqual(status, 1)
            self.assertRegex(out, r"^seed 1: the program says status \d+ b[\"'].*, check-trace \w+ \w+\n1 forged traces \(1 status\)")

    def test_both_judges_wrong(self):
        """A checker that adds the turn where `meet` takes it off: amplitudes tell it."""
        tool, right = forge(), traces.Check.meet

        def meet(check):
            turns = 2 * check.turns
            right(check)
            check.turns += turns

        found = collections.Counter()
        with mock.patch.object(traces.Check, "meet", meet):
            for seed in range(120):
                texts = forged.texts(forged.drawn(random.Random(seed)))
                said, verdict = tool.by_checker(texts)
                found[said[0] == "yes" and tool.is_right(texts, verdict)] += 1
        self.assertGreater(found[False], 3)
        self.assertGreater(found[True], 30)

    def test_words(self):
        for words in (["--count"], ["--count", "x"], ["a", "b"]):
            self.assertEqual(self.run_tool("forge", *words)[:2], (2, ""))
        self.assertEqual(self.run_tool("forge", "--help")[0], 0)
        status, out, err = self.run_tool("forge", os.path.join(self.room, "none"))
        self.assertEqual((status, out, err), (2, "", f"forge: {self.room}/none: No such file or directory\n"))
