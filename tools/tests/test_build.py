import os
import shutil
import subprocess
import sys

from tool import TOP, ToolTest

sys.path.insert(0, os.path.join(TOP, "tools", "lib"))
import schedule
import sources

# a chain of three that takes 100, 10 and 10, and two leaves that take 50 and 60
BELOW = {"a": [], "b": ["a", "kit"], "c": [], "d": [], "top": ["b", "c", "d"], "other": []}
SECONDS = {"a": 100, "b": 10, "c": 50, "d": 60, "top": 10}


def plan(memory=1000.0, below=None, seconds=None):
    weights = {it: schedule.Weight(float(number), memory) for it, number in (seconds or SECONDS).items()}
    return schedule.Plan(below or BELOW, "top", weights)


class Build(ToolTest):
    def test_which_crates_and_their_chains(self):
        it = plan()
        self.assertEqual(it.names, ["a", "b", "c", "d", "top"])
        self.assertEqual(it.chain, {"a": 120.0, "b": 20.0, "c": 60.0, "d": 70.0, "top": 10.0})

    def test_the_longest_chain_first(self):
        it = plan()
        self.assertEqual(list(it.begin([], {}, 2, 9999)), ["a", "d"])
        self.assertEqual(it.begin(["d"], {"a": 1}, 2, 9999), {"c": 1})
        self.assertEqual(it.begin(["c", "d"], {"a": 1}, 2, 9999), {})
        self.assertEqual(it.begin([], {}, 4, 9999), {"a": 1, "d": 1, "c": 2})

    def test_the_last_get_all_processors(self):
        it = plan()
        self.assertEqual(it.begin(["a", "b", "c", "d"], {}, 4, 9999), {"top": 4})
        self.assertEqual(it.begin(["a", "b", "c", "d"], {}, 64, 9999), {"top": schedule.MOST_JOBS})
        # a second job takes 0.6 of the first one's memory
        self.assertEqual(it.begin(["a", "b", "c", "d"], {}, 4, 2300), {"top": 3})
        self.assertEqual(it.begin(["a", "b", "c", "d"], {}, 4, 10), {"top": 1})

    def test_memory(self):
        it = plan()
        self.assertEqual(it.begin([], {}, 4, 2100), {"a": 1, "d": 1})
        # one is begun however little there is
        self.assertEqual(it.begin([], {}, 4, 10), {"a": 1})
        it.weights["d"].memory = 5000.0
        self.assertEqual(it.begin([], {}, 4, 2100), {"a": 1, "c": 1})

    def test_time_to_go(self):
        it = plan()
        self.assertEqual(it.to_go(1, 9999), 230.0)
        # two at a time: a and then b beside d and c, and the top with two jobs
        top = it.seconds("top", 2)
        self.assertEqual(it.to_go(2, 9999), 60 + 50 + top)
        self.assertEqual(it.to_go(2, 9999, ["c", "d"], {"a": (1, 70.0)}), 30 + it.seconds("b", 2) + top)
        self.assertEqual(it.to_go(2, 9999, ["c", "d"], {"a": (1, 70.0)}, pace=2.0), 130 + 2 * (it.seconds("b", 2) + top))
        self.assertEqual(it.to_go(2, 9999, it.names), 0.0)
        self.assertLess(it.seconds("a", 4), it.seconds("a", 2))

    def test_weights(self):
        path = os.path.join(self.room, "weights.tsv")
        self.assertEqual(schedule.read_weights(path), {})
        known = {"a": schedule.Weight(100.0, 900.0), "b": schedule.Weight(20.0, 1200.0)}
        schedule.write_weights(path, known)
        self.assertEqual(schedule.read_weights(path), known)
        # one that is not known takes what those of its size take
        sizes = {"a": 1000, "b": 500, "c": 250}
        self.assertEqual(schedule.weigh(sizes, known, sizes.get)["c"], schedule.Weight(20.0, 1200.0))
        self.assertEqual(schedule.weigh({"c": 1}, {}, lambda _: 5000)["c"].seconds, 5.0)

    def test_the_weights_of_the_repository(self):
        known = schedule.read_weights(os.path.join(TOP, "tools/lib/weights.tsv"))
        self.assertGreater(len(known), 20)
        for name, it in known.items():
            self.assertIn(name, sources.crates())
            self.assertTrue(it.seconds > 0 and it.memory > 0, name)

    def test_weights_of_a_gate(self):
        shutil.copytree(os.path.join(TOP, "tools"), os.path.join(self.room, "tools"), ignore=shutil.ignore_patterns("tests"))
        for name in ("low", "top"):
            os.makedirs(os.path.join(self.room, "crates", name))
        self.file("crates.txt", "low:\nqroute: top\ntop: low\n")
        known = self.file("tools/lib/weights.tsv", "crate\tseconds\tMB\ngone\t5\t100\nlow\t5\t100\ntop\t6\t200\n")
        head = "part\tcrate\tseconds\tbegin\tend\tMB\n"
        table = self.file("gate.tsv", f"{head}proof\tlow\t70.4\t0\t9\t800\ntests\tlow\t99\t0\t9\t900\nproof\ttop\t0.5\t0\t9\t30\nrt\t-\t9\t0\t9\t9\n")
        subprocess.run([os.path.join(self.room, "tools/build"), "--weigh", table], check=True)
        with open(known, encoding="utf-8") as file:
            self.assertEqual(file.read(), "crate\tseconds\tMB\nlow\t70\t800\ntop\t6\t200\n")

    def test_words(self):
        self.assertEqual(self.run_tool("build", "nosuch"), (2, "", "build: no crate nosuch\n"))
        status, out, err = self.run_tool("build", "--model", "1", "4")
        self.assertEqual((status, err), (0, ""))
        minutes = [float(it.split()[2]) for it in out.splitlines()]
        self.assertEqual([it.split(":")[0] for it in out.splitlines()], ["1 processors", "4 processors"])
        self.assertGreater(minutes[0], 2 * minutes[1])
