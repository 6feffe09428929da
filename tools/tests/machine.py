"""The routing machine, and the best of several tries, in the plain way of their definitions in docs/REWRITING.md: each step looks at
all gates that are left."""

import collections
import itertools

from gates import wires_of

MOST_EXTENDED = 20
# how far on the device the middles of two starts that follow each other are apart
STRIDE = 7


class Device:
    """Qubits, edges (control, target), and how far apart two qubits are: by what near pairs cost, 1 each if no costs are listed."""

    def __init__(self, size, edges, costs=None):
        self.size = size
        self.edges = {tuple(it) for it in edges}
        self.has_costs = costs is not None
        self.costs = {}
        for edge, cost in zip(edges, costs or itertools.repeat(1)):
            for pair in (tuple(edge), tuple(edge)[::-1]):
                self.costs[pair] = min(cost, self.costs.get(pair, cost))
        self.distances = self.distances_by(self.costs)

    def distances_by(self, costs):
        """The distance of each two qubits, if near pairs cost this."""
        found = {(a, b): costs.get((a, b), float("inf")) if a != b else 0 for a in range(self.size) for b in range(self.size)}
        for by, a, b in itertools.product(range(self.size), repeat=3):
            found[a, b] = min(found[a, b], found[a, by] + found[by, b])
        return found

    def is_near(self, a, b):
        return (a, b) in self.costs

    def toward(self, a, b):
        """The first qubit by which a shortest walk from a to b goes."""
        return next(it for it in range(self.size) if self.is_near(a, it) and self.distances[it, b] + self.costs[a, it] == self.distances[a, b])

    def start(self, number):
        """Where each wire stands at the start of this number: on its own qubit, or the nearest first about a middle, costs aside."""
        if number == 0:
            return list(range(self.size))
        middle = STRIDE * (number - 1) % self.size
        hops = self.distances_by(dict.fromkeys(self.costs, 1))
        return sorted(range(self.size), key=lambda it: (hops[middle, it], it))


def exchanged(a, b, qubit):
    return {a: b, b: a}.get(qubit, qubit)


def cnots_in(gates):
    return [it for it in gates if it[0] == "C"]


class Dependences:
    """Which CNOTs depend on each: those that are the next ones on one of its wires."""

    def __init__(self, cnots):
        self.on = [[] for _ in cnots]
        self.counts = []
        last = {}
        for place, gate in enumerate(cnots):
            before = {last[it] for it in wires_of(gate) if it in last}
            self.counts.append(len(before))
            for it in before:
                self.on[it].append(place)
            last.update(dict.fromkeys(wires_of(gate), place))

    def met(self, front, most):
        """The first CNOTs whose dependences are all met, if those of the front are met first, and then each in turn."""
        counts, queue, found = list(self.counts), collections.deque(front), []
        while queue:
            for place in self.on[queue.popleft()]:
                counts[place] -= 1
                if counts[place] == 0:
                    found.append(place)
                    queue.append(place)
        return found[:most]


class Machine:
    """A run over some gates, from the qubits on which the wires stand: `written`, `events`, `qubits`, `swaps` and `turn` at its end.

    The extended set is in program order, or along dependences if it is told which gates `follow`.
    """

    def __init__(self, device, gates, qubits, follow=None):
        self.device, self.rest, self.qubits, self.follow = device, list(gates), list(qubits), follow
        self.written, self.events, self.swaps, self.turn = [], [], 0, 0
        self.stalled = 0
        while self.rest:
            place = self.emittable()
            if place is None:
                self.swap(*self.chosen())
            else:
                self.emit(place)

    def is_first(self, place):
        """Whether no gate before it is on one of its wires."""
        wires = set(wires_of(self.rest[place]))
        return all(wires.isdisjoint(wires_of(it)) for it in self.rest[:place])

    def on_device(self, gate):
        return [self.qubits[it] for it in wires_of(gate)]

    def emittable(self):
        """The earliest gate that can be emitted."""
        for place, gate in enumerate(self.rest):
            if self.is_first(place) and (gate[0] != "C" or self.device.is_near(*self.on_device(gate))):
                return place
        return None

    def emit(self, place):
        gate = self.rest.pop(place)
        self.events.append(("emit", place))
        if gate[0] == "C":
            self.stalled = 0
            self.write_cnot(*self.on_device(gate))
        else:
            self.written.append((*gate[:-1], *self.on_device(gate)))

    def write_cnot(self, control, target):
        """A CNOT, or against its edge the other one between four H."""
        if (control, target) in self.device.edges:
            self.written.append(("C", control, target))
            return
        around = [("H", control), ("H", target)]
        self.written += [*around, ("C", target, control), *around]
        self.turn = (self.turn + 4) % 8

    def extended(self, is_front):
        """The CNOTs besides the front layer that swaps are judged by; `is_front` tells of each that is left whether it is one of the layer."""
        cnots = cnots_in(self.rest)
        if self.follow is None:
            return [it for it, is_one in zip(cnots, is_front) if not is_one][:MOST_EXTENDED]
        cnots += cnots_in(self.follow)
        front = [place for place, is_one in enumerate(is_front) if is_one]
        return [cnots[it] for it in Dependences(cnots).met(front, MOST_EXTENDED)]

    def chosen(self):
        """The best swap, or after as many as there are qubits a step of a walk."""
        is_front = [self.is_first(place) for place, it in enumerate(self.rest) if it[0] == "C"]
        front = [self.on_device(it) for it, is_one in zip(cnots_in(self.rest), is_front) if is_one]
        if self.stalled == self.device.size:
            control, target = front[0]
            return control, self.device.toward(control, target)
        self.stalled += 1
        extended = [self.on_device(it) for it in self.extended(is_front)]
        touched = {it for pair in front for it in pair}
        pairs = [it for it in itertools.combinations(range(self.device.size), 2) if self.device.is_near(*it) and touched & set(it)]
        return min(pairs, key=lambda it: (self.score(front, extended, *it), it))

    def total(self, pairs, a, b):
        """The distances of some pairs after a swap."""
        return sum(self.device.distances[exchanged(a, b, it[0]), exchanged(a, b, it[1])] for it in pairs)

    def score(self, front, extended, a, b):
        return 2 * max(1, len(extended)) * self.total(front, a, b) + len(front) * self.total(extended, a, b)

    def swap(self, a, b):
        low, high = min(a, b), max(a, b)
        one, other = (low, high) if (low, high) in self.device.edges else (high, low)
        self.written.append(("C", one, other))
        self.write_cnot(other, one)
        self.written.append(("C", one, other))
        self.events.append(("swap", low, high))
        self.swaps += 1
        self.qubits = [exchanged(a, b, it) for it in self.qubits]


def layout(device, gates, begins=None, follow=None):
    """Where two runs end: one over the gates from where each wire begins, else on the qubit of its number, and one from there over
    them backwards."""
    there = Machine(device, gates, range(device.size) if begins is None else begins, follow)
    return Machine(device, gates[::-1], there.qubits, follow).qubits


def joined(parts):
    return [gate for part in parts for gate in part]


class Try:
    """A run over each part, the first from `begins`, each other from where the one before it ended: `runs`, `swaps` and `cost`."""

    def __init__(self, device, parts, begins, is_along=False):
        self.begins, self.runs, qubits = list(begins), [], begins
        for number, part in enumerate(parts, 1):
            self.runs.append(Machine(device, part, qubits, joined(parts[number:]) if is_along else None))
            qubits = self.runs[-1].qubits
        self.swaps = sum(it.swaps for it in self.runs)
        self.cost = sum(device.costs[it[1:]] for it in cnots_in(joined(run.written for run in self.runs)))


def attempt(device, parts, number):
    """The try of this number: from the layout that is looked for from its start; every second one judges swaps along dependences."""
    is_along = number % 2 == 1
    begins = layout(device, joined(parts), device.start(number), [] if is_along else None)
    return Try(device, parts, begins, is_along)


def best_of(tries, device):
    """The first with the fewest swaps, or on a device with costs with the least cost."""
    return min(tries, key=lambda it: it.cost if device.has_costs else it.swaps)
