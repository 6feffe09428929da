"""The router of the built program against the plain routing machine, and the best of its tries: what it writes, its swaps, where wires
stand, and its events."""

import concurrent.futures
import json
import os
import subprocess
import sys

from tool import TOP, ToolTest

sys.path.insert(0, os.path.join(TOP, "tools", "lib"))
import built
import coupling
import machine
import traces
from plain_gates import drawn, gates_in, numbers, parts_in, text_of

# each device by its qubits and edges, and what these cost
DEVICES = {
    "line": (5, [(0, 1), (1, 2), (2, 3), (3, 4)], None),
    "ring": (6, [(0, 1), (2, 1), (2, 3), (4, 3), (4, 5), (5, 0)], None),
    "star": (5, [(0, 1), (0, 2), (0, 3), (0, 4)], None),
    "grid": (6, [(0, 1), (1, 2), (3, 4), (4, 5), (0, 3), (1, 4), (2, 5)], None),
    "ring_of_costs": (5, [(0, 1), (1, 2), (2, 3), (3, 4), (4, 0)], [1, 9, 2, 40, 3]),
    "net_of_costs": (6, [(0, 1), (2, 1), (2, 3), (4, 3), (4, 5), (5, 0), (1, 4)], [7, 1, 1000000, 2, 5, 3, 8]),
}
# as many qubits as there are middles of starts that aren't all next to each other
WIDE = {
    "grid_of_12": (12, [(it, it + 1) for it in range(11) if it % 4 < 3] + [(it + 4, it) for it in range(8)], None),
    "tree_of_costs": (9, [(0, 1), (1, 2), (3, 1), (3, 4), (5, 3), (0, 6), (6, 7), (8, 7)], [3, 1, 1, 50, 2, 7, 1, 4]),
}
TRIED = DEVICES | WIDE
MOST_TRIES = 8
# half of the gates are CNOTs
KINDS = ("H", "X", "P", "C", "C", "C")
EVENTS = {"emit": "emit", "back": "emit", "swap": "swap", "turn": "swap"}


def events_in(text):
    """The events that the trace of a routed program tells."""
    lines = [traces.read(line) for _, line in traces.of_text(text.decode())]
    return [(EVENTS[word], *(told if word in ("emit", "back") else sorted(told))) for word, told in lines if word in EVENTS]


class Routing(ToolTest):
    def setUp(self):
        super().setUp()
        self.program = built.program()
        if self.program is None:
            self.skipTest("there is no built program")
        for name, (size, edges, costs) in TRIED.items():
            self.file(name, coupling.device_text(size, edges, [], costs))

    def ran(self, words, text):
        found = subprocess.run([self.program, *words.split()], input=text, capture_output=True, timeout=60, cwd=self.room)
        self.assertEqual(found.returncode, 0, (words, text, found.stderr))
        return found.stdout, json.loads(found.stderr)

    def is_try(self, device, words, settled, found):
        """Whether a run of the program is this try of the plain machine; its swaps."""
        size, _, costs = TRIED[device]
        source, parts, turns, barriers = settled
        out, report = self.ran(f"route --device {device} {words}", source)
        powers = [(turn + run.turn) % 8 for turn, run in zip(turns, found.runs, strict=True)]
        told = (found.swaps, sum(powers) % 8, found.begins, found.runs[-1].qubits)
        self.assertEqual((report["swaps"], report["phase"], report["initial"], report["final"]), told, (device, words, source))
        self.assertEqual(report.get("cost"), found.cost if costs else None, (device, words, source))
        if "--keep-barriers" in words:
            between = [run.qubits for run in found.runs[:-1]]
            self.assertEqual((report["parts"], report["between"]), (powers, between), (device, words, source))
        stops = [("barrier", *(run.qubits[it] for it in wires)) for wires, run in zip(barriers, found.runs)]
        written = text_of(size, [gate for stop, run in zip([None, *stops], found.runs) for gate in [stop, *run.written] if gate])
        self.assertEqual(out[: len(written)], written, (device, words, source))
        if "--trace" in words:
            self.assertEqual(events_in(out), found.runs[0].events, (device, words, source))
        else:
            self.assertEqual(out, written, (device, words, source))
        return found.swaps

    def is_run(self, device, words, settled, begins):
        """The same of a run from these qubits."""
        return self.is_try(device, words, settled, machine.Try(machine.Device(*TRIED[device]), settled[1], begins))

    def settled(self, wires, found):
        """A program of gates; the gates with the turn that are routed, those that `opt` writes of it, as one part; no barriers."""
        source = text_of(wires, found)
        out, report = self.ran("opt", source)
        return source, [gates_in(out)], [report["phase"]], []

    def parted(self, wires, found):
        """A program of gates and barriers, the gates and turns of its parts, and the wires of its barriers."""
        source = text_of(wires, found)
        out, report = self.ran("opt --keep-barriers", source)
        return source, parts_in(out, wires), report["parts"], [it[1:] for it in found if it[0] == "barrier"]

    def is_routed(self, device, start, exchange):
        """A drawn circuit from each wire's own number, from there with two wires exchanged, and from its layout; and its events."""
        size = DEVICES[device][0]
        settled = self.settled(size, list(drawn(numbers(start), size, 60, KINDS)))
        own, begins = list(range(size)), list(range(size))
        one, other = exchange % size, exchange // size % size
        begins[one], begins[other] = begins[other], begins[one]
        swaps = self.is_run(device, "--trivial --trace", settled, own)
        swaps += self.is_run(device, f"--initial {','.join(map(str, begins))}", settled, begins)
        return swaps + self.is_run(device, "", settled, machine.layout(machine.Device(*DEVICES[device]), settled[1][0]))

    def is_best(self, device, settled, counts, words):
        """Whether the best of so many tries is written, for each of these counts; which try wins."""
        plain = machine.Device(*TRIED[device])
        found = [machine.attempt(plain, settled[1], it) for it in range(max(counts))]
        bests = [machine.best_of(found[:it], plain) for it in counts]
        for count, best in zip(counts, bests):
            self.is_try(device, f"--tries {count} {words}", settled, best)
        return [found.index(it) for it in bests]

    def test_drawn_circuits(self):
        """25 circuits on each device."""
        for i, device in enumerate(DEVICES):
            with concurrent.futures.ThreadPoolExecutor(os.cpu_count()) as pool:
                swaps = pool.map(lambda it: self.is_routed(device, 1000 * i + it, it), range(25))
                self.assertGreater(sum(swaps), 0)

    def test_cnots_on_one_qubit(self):
        """All CNOTs are on one wire, so all of the extended set are on its qubit."""
        rounds = [gate for _ in range(7) for it in (4, 3, 2, 1) for gate in (("C", 0, it), ("H", it))]
        settled = self.settled(5, [*rounds, ("C", 0, 4)])
        self.assertEqual(sum(it[0] == "C" for it in settled[1][0]), 29)
        self.assertGreater(self.is_run("line", "--trivial --trace", settled, list(range(5))), 0)

    def each_wins(self, check, count):
        """So many drawn checks on each device: first tries, later even ones and odd ones win."""
        rows = [(name, 1000 * i + it) for i, name in enumerate(TRIED) for it in range(count)]
        with concurrent.futures.ThreadPoolExecutor(os.cpu_count()) as pool:
            wins = [it for found in pool.map(lambda row: check(*row), rows) for it in found]
        self.assertLessEqual({"first", "even", "odd"}, {"first" if it == 0 else ("even", "odd")[it % 2] for it in wins})

    def tried(self, device, start):
        size = TRIED[device][0]
        wires = size - start % 3
        settled = self.settled(wires, list(drawn(numbers(start), wires, 40 + 10 * (start % 7), KINDS)))
        return self.is_best(device, settled, [1, 2, 3 + start % 2, MOST_TRIES], "--trace")

    def test_best_of_tries(self):
        """Drawn circuits, some with spare wires."""
        self.each_wins(self.tried, 7)

    def tried_in_parts(self, device, start):
        size = TRIED[device][0]
        wires, dice = size - start % 2, numbers(start)
        found = list(drawn(dice, wires, 45, KINDS))
        for _ in range(1 + start % 5):
            on = sorted(range(wires), key=lambda it: next(dice))[: 1 + next(dice) % wires]
            found.insert(next(dice) % len(found), ("barrier", *on))
        return self.is_best(device, self.parted(wires, found), [1, 2, 3, MOST_TRIES - start % 2], "--keep-barriers")

    def test_best_of_tries_in_parts(self):
        """The same with barriers that are kept; along dependences swaps are judged by the gates of later parts, too."""
        self.each_wins(self.tried_in_parts, 6)

    def grows_better(self, device, start):
        """One try is what is written without; of more the best is no worse, in whatever way it is written."""
        size, _, costs = TRIED[device]
        found = list(drawn(numbers(start), size, 120, KINDS))
        found.insert(50, ("barrier", 1, 0))
        source = text_of(size, found)
        for words in ("", "--clean", "--keep-barriers", "--keep-barriers --clean", "--trace"):
            route = f"route --device {device} {words}"
            self.assertEqual(self.ran(f"{route} --tries 1", source), self.ran(route, source), (device, words, source))
        for words in ("", "--keep-barriers"):
            told = [self.ran(f"route --device {device} {words} --tries {it}", source)[1] for it in (1, 2, 5, 20)]
            worth = [it["cost" if costs else "swaps"] for it in told]
            self.assertEqual(worth, sorted(worth, reverse=True), (device, words, source))
            cleaned = self.ran(f"route --device {device} {words} --clean --tries 20", source)[1]
            for key in ("swaps", "initial", "final"):
                self.assertEqual(cleaned[key], told[-1][key], (device, words, source))
        return worth[0] - worth[-1]

    def test_more_tries_are_no_worse(self):
        rows = [(name, 1000 * i + it) for i, name in enumerate(TRIED) for it in range(2)]
        with concurrent.futures.ThreadPoolExecutor(os.cpu_count()) as pool:
            self.assertGreater(sum(pool.map(lambda row: self.grows_better(*row), rows)), 0)
