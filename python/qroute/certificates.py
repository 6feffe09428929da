"""Traces for what other compilers wrote: why one program is another, found from the two texts alone.

The target is read back onto the source's wires: swaps that a router put in, CNOTs that it reversed, and swaps that it left out
are told from gates of the source by the path sum, in which each H has a set of variables before it. What differs then is
brought together by rewriting both sides, until they are the same but for phases that are one function of the path variables.
`verify` judges what comes out: nothing here has to be believed.
"""

from __future__ import annotations

import collections.abc
import dataclasses
import itertools
import typing

import qroute

from . import qasm, rewriting
from .rewriting import Gate, PathSum, Rewriting, Variables, on_wires, path_sum, same_function, shown, wires_of

MOST_AHEAD = 16  # gates of the source on one wire among which a gate of the target is looked for
MOST_PASSED = 64  # gates of the source on one wire, from the first that wasn't found
MOST_READINGS = 6  # of the target, each with the swaps that the one before it found left out
MOST_REWRITTEN = 3  # readings for which both sides are rewritten
MOST_OF_ONE = 4_096  # gates from which on it is one reading
# levels of rewriting, each with the gates up to which it is tried: none; windows and pairs; X and phases besides; CZ besides
LEVELS = (None, None, 16_384, 8_192)
Pair: typing.TypeAlias = tuple[int, int]


class Uncertified(qroute.QrouteError):
    """No trace was found.

    `which` text has the gate, `source` or `target`; `line` and `column`, from 1, are those of its statement, and `operation` counts
    the gates of that text written out as H, X, P and CNOT, from 1. `wire` is the source's by its name. Each is None if it isn't
    known. `tried` has what was tried, in words.
    """

    def __init__(self, says: str, which: str | None = None, wire: str | None = None) -> None:
        self.says = says
        self.which = which
        self.wire = wire
        self.operation: int | None = None
        self.line: int | None = None
        self.column: int | None = None
        self.tried: list[str] = []
        super().__init__(says)

    def __str__(self) -> str:
        where = [self.which] if self.which else []
        if self.line is not None:
            where += [f"line {self.line}", f"column {self.column}", f"gate {self.operation}"]
        return f"{', '.join(where)}{': ' if where else ''}{self.says}" + (f"; tried: {', '.join(self.tried)}" if self.tried else "")


@dataclasses.dataclass
class Side:
    """One of the two programs: its gates, for each the offset of its statement, and the turn that they are of its operations."""

    which: str
    text: str
    wires: list[str]
    gates: list[Gate]
    offsets: list[int]
    turn: int

    def fault(self, says: str, place: int | None, wire: str | None = None) -> Uncertified:
        """That something fails at the gate at a place."""
        found = Uncertified(says, self.which, wire)
        if place is not None and place < len(self.offsets):
            found.operation = place + 1
            found.line, found.column = qroute.position(self.text.encode("latin-1"), self.offsets[place])
        return found


def gates_of(operation: tuple[typing.Any, ...]) -> tuple[list[Gate], int]:
    """The gates of an operation, and the turn that they are of it."""
    if operation[0] == "CX":
        return [("C", *operation[1:])], 0
    a, b, c, wire = operation[1:]
    # each number but H and X is a phase
    rows: dict[int, tuple[list[typing.Any], int]] = {0: ([b + c], 0), 2: ([c + 4, "H", b], 0), 4: ([c + 4, "X", b], 0), 6: ([c, "H", b + 4], 2)}
    row, turn = rows.get(a, ([c + 6, "H", a, "H", b + 2], 2))
    gates: list[Gate] = [(it, wire) if isinstance(it, str) else ("P", it % 8, wire) for it in row]
    return [it for it in gates if it[:2] != ("P", 0)], turn


def side(which: str, data: bytes) -> Side:
    """A program written out; `Unreadable` if it can't be read."""
    text = qasm.text_of(data)
    try:
        program = qasm.read(text)
        if program.has_gates_behind_measurements():
            raise ValueError("a gate is on a qubit that was measured before")
        found = Side(which, text, program.wires, [], [], 0)
        known: dict[typing.Any, tuple[list[Gate], int]] = {}
        for step in program.steps:
            if step.kind != "gate":
                continue
            key = (id(step.gate), *step.angles)
            if key not in known:
                parts = [gates_of(it) for it in qasm.written(step.gate, step.angles, range(len(step.wires)))]
                known[key] = [gate for gates, _ in parts for gate in gates], sum(turn for _, turn in parts)
            gates, turn = known[key]
            found.gates += [on_wires(it, step.wires) for it in gates]
            found.offsets += [step.offset] * len(gates)
            found.turn += turn
    except qasm.Fault as fault:
        raise qroute.Unreadable(f"the {which}: {fault}", text, fault.offset) from None
    except (ValueError, RecursionError) as fault:
        raise qroute.Unreadable(f"the {which}: {fault}", text, 0) from None
    return found


@dataclasses.dataclass
class Event:
    """What a part of the target is: `emit` or `back` of a gate on the source's wires, `swap` or `turn` of two qubits, or `elide` of two wires.

    `place` is that of its first gate in the target.
    """

    kind: str
    gate: Gate
    place: int

    def gates(self) -> list[Gate]:
        """The gates that it takes of the list."""
        if self.kind == "elide":
            a, b = self.gate
            return [("C", a, b), ("C", b, a), ("C", a, b)]
        return [self.gate] if self.kind in ("emit", "back") else []


class Queues:
    """The gates of a list wire by wire, of which some were found again."""

    def __init__(self, size: int, gates: list[Gate]) -> None:
        self.gates = gates
        self.is_found = bytearray(len(gates))
        self.on: list[list[int]] = [[] for _ in range(size)]
        for place, gate in enumerate(gates):
            for wire in wires_of(gate):
                self.on[wire].append(place)
        self.at = [0] * size

    def front(self, wire: int, count: int) -> list[int]:
        """The places of the next gates on a wire, so many if there are. One that many later ones were found before is given up."""
        on, is_found = self.on[wire], self.is_found
        while self.at[wire] < len(on):
            begins = self.at[wire]
            ahead = [it for it in on[begins : begins + MOST_PASSED] if not is_found[it]]
            if ahead and (len(ahead) >= count or begins + MOST_PASSED >= len(on)):
                return ahead[:count]
            if ahead and len(ahead) >= MOST_PASSED // 4:
                return ahead
            # the next one is found, or waits for too long
            self.at[wire] = begins + 1
        return []

    def find(self, gate: Gate) -> int | None:
        """The place of the same gate, ahead on its wires past what it commutes with."""
        places = []
        for wire in wires_of(gate):
            for place in self.front(wire, MOST_AHEAD):
                if self.gates[place] == gate:
                    places.append(place)
                    break
                if not rewriting.commute(self.gates[place], gate):
                    return None
        return places[0] if places and len(places) == len(wires_of(gate)) and len(set(places)) == 1 else None

    def begins(self, gates: list[Gate]) -> bool:
        """Whether these are the next gates on their wires."""
        for wire in {wire for it in gates for wire in wires_of(it)}:
            wanted = [it for it in gates if wire in wires_of(it)]
            if [self.gates[it] for it in self.front(wire, len(wanted))] != wanted:
                return False
        return True

    def find_further(self, gates: list[Gate]) -> list[int] | None:
        """The places of some gates that stand one after the other on their wires, a little ahead and past whatever else."""
        found: list[int] = []
        for wire in sorted({wire for it in gates for wire in wires_of(it)}):
            ahead = self.front(wire, MOST_AHEAD)
            wanted = [it for it in gates if wire in wires_of(it)]
            there = [self.gates[it] for it in ahead]
            at = next((i for i in range(len(ahead)) if there[i : i + len(wanted)] == wanted), None)
            if at is None:
                return None
            found += ahead[at : at + len(wanted)]
        return found if len(set(found)) == len(gates) else None

    def swap(self, wire: int) -> list[int] | None:
        """The places of three CNOTs that are a swap and the next gates on both of its wires: on this wire, or before its next swap."""
        waiting = [wire]
        for it in waiting:
            ahead = self.front(it, 3)
            gate = self.gates[ahead[0]] if len(ahead) == 3 else ("",)
            if gate[0] != "C" or [self.gates[place] for place in ahead] != triple(*gate[1:]):
                continue
            other = gate[2] if gate[1] == it else gate[1]
            if self.front(other, 3) == ahead:
                return ahead
            if other not in waiting:
                waiting.append(other)
        return None

    def pass_by(self, gate: Gate) -> bool:
        """Marks the same gate as found, if there is one."""
        place = self.find(gate)
        if place is not None:
            self.is_found[place] = 1
        return place is not None


def triple(u: int, v: int) -> list[Gate]:
    return [("C", u, v), ("C", v, u), ("C", u, v)]


def reversed_cnot(control: int, target: int) -> list[Gate]:
    """A CNOT by one the other way round, in the order of `back`."""
    around: list[Gate] = [("H", control), ("H", target)]
    return [*around, ("C", target, control), *around]


def neighbours(size: int, gates: list[Gate]) -> list[int | None]:
    """For each CNOT the gate that is next on both of its wires, if one is."""
    found: list[int | None] = [None] * len(gates)
    near: list[int | None] = [None] * size
    for place in range(len(gates) - 1, -1, -1):
        wires = wires_of(gates[place])
        if len(wires) == 2 and near[wires[0]] == near[wires[1]]:
            found[place] = near[wires[0]]
        for it in wires:
            near[it] = place
    return found


class Reading:
    """The target read back onto the source's wires, from a placement on."""

    def __init__(self, source: Side, target: Side, initial: list[int], edges: set[Pair] | None, is_lenient: bool, is_each_reversed: bool) -> None:
        self.source, self.target = source, target
        self.is_lenient = is_lenient  # whether a swap is the source's own if it has the same one a little further ahead
        self.wires = len(source.wires)
        self.edges = edges
        self.is_each_reversed = is_each_reversed
        self.queues = Queues(self.wires, source.gates)
        self.events: list[Event] = []
        self.initial = initial
        self.names = [0] * len(initial)  # the wire on each qubit; from `wires` on they are spare
        for wire, qubit in enumerate(initial):
            self.names[qubit] = wire
        self.missed = 0  # gates that the source hasn't at their places
        self.after = neighbours(len(initial), target.gates)
        self.of_swaps: set[int] = set()  # CNOTs of swaps that stand apart
        self.ends: set[int] = set()  # the last ones of these
        place = 0
        while place < len(target.gates):
            place += self.read(place)

    def read(self, place: int) -> int:
        """Reads what stands at a place of the target; the number of its gates."""
        gates = self.target.gates
        gate = gates[place]
        if gate[0] == "C" and place not in self.of_swaps:
            u, v = gate[1:]
            for kind, whole in (("swap", triple(u, v)), ("turn", [("C", u, v), *reversed_cnot(v, u), ("C", u, v)])):
                if gates[place : place + len(whole)] == whole and not self.is_own(whole):
                    self.events.append(Event(kind, (u, v), place))
                    self.names[u], self.names[v] = self.names[v], self.names[u]
                    return len(whole)
            self.look_for_swap(place)
        if gate[0] == "H" and self.is_back(place):
            _, u, v = gates[place + 2]
            self.emit("back", ("C", self.names[v], self.names[u]), place)
            return 5
        if max(self.names[it] for it in wires_of(gate)) >= self.wires:
            raise self.target.fault(f"{shown(gate)} is on a spare qubit, and belongs to no swap that stands in one piece", place)
        self.emit("emit", on_wires(gate, self.names), place)
        if place in self.ends:
            self.elide(tuple(self.names[it] for it in gate[1:]), place)
        return 1

    def look_for_swap(self, place: int) -> None:
        """Notes the three CNOTs of a swap that begins here and stands apart: they are gates of the list, which an elided swap follows."""
        gates, found = self.target.gates, [place]
        is_spare = max(self.names[it] for it in gates[place][1:]) >= self.wires
        if is_spare or self.queues.find(on_wires(gates[place], self.names)) is not None:
            return
        for _ in range(2):
            there = self.after[found[-1]]
            _, u, v = gates[found[-1]]
            if there is None or gates[there] != ("C", v, u):
                return
            found.append(there)
        if not self.is_own([gates[it] for it in found]):
            self.of_swaps.update(found)
            self.ends.add(found[-1])

    def is_own(self, gates: list[Gate]) -> bool:
        """Whether the source has these gates of the target, there."""
        if any(self.names[wire] >= self.wires for it in gates for wire in wires_of(it)):
            return False
        there = [on_wires(it, self.names) for it in gates]
        return self.queues.find_further(there) is not None if self.is_lenient else self.queues.begins(there)

    def is_back(self, place: int) -> bool:
        """Whether a reversed CNOT begins here that the source has the right way round."""
        gates = self.target.gates[place : place + 5]
        if len(gates) < 5 or gates[2][0] != "C" or gates != reversed_cnot(gates[2][2], gates[2][1]):
            return False
        _, u, v = gates[2]
        if max(self.names[u], self.names[v]) >= self.wires or self.edges is not None and (v, u) in self.edges:
            return False
        return self.is_each_reversed or self.queues.find(("C", self.names[v], self.names[u])) is not None

    def emit(self, kind: str, gate: Gate, place: int) -> None:
        if place not in self.of_swaps and not self.queues.pass_by(gate):
            if gate_there := self.elided(gate, place):
                gate = gate_there
            else:
                self.missed += 1
                for it in self.queues.find_further([gate]) or []:
                    self.queues.is_found[it] = 1
        self.events.append(Event(kind, gate, place))

    def elided(self, gate: Gate, place: int) -> Gate | None:
        """The gate on the wires where the source has it, if that takes swaps of the source that are left out; they are."""
        queues = self.queues
        found: list[list[int]] = []
        names = list(range(self.wires))
        begun = queues.at[:]
        for _ in range(MOST_AHEAD):
            ahead = next((it for it in map(queues.swap, wires_of(on_wires(gate, names))) if it), None)
            if ahead is None:
                break
            for it in ahead:
                queues.is_found[it] = 1
            found.append(ahead)
            _, a, b = queues.gates[ahead[0]]
            names = [b if it == a else a if it == b else it for it in names]
            if queues.pass_by(on_wires(gate, names)):
                for there in found:
                    self.elide(queues.gates[there[0]][1:], place)
                return on_wires(gate, names)
        for it in (each for ahead in found for each in ahead):
            queues.is_found[it] = 0
        queues.at = begun
        return None

    def elide(self, wires: Gate, place: int) -> None:
        a, b = wires
        self.events.append(Event("elide", wires, place))
        self.names = [b if it == a else a if it == b else it for it in self.names]


@dataclasses.dataclass
class Mismatch:
    """Where two path sums differ: at a place of the read gates, or if that is None, of the source's; and in what.

    If it is in phases alone, `apart` has on how many sets.
    """

    place: int | None
    of_source: int | None
    wire: int
    says: str
    apart: int = 0


class Matching:
    """Gates compared with a path sum, each H by the set before it. If it stands on another wire there, `swaps` has that the two
    wires are exchanged from a place on.
    """

    def __init__(self, wanted: PathSum, size: int, variables: Variables) -> None:
        self.wanted, self.size, self.variables = wanted, size, variables
        self.swaps: list[tuple[int, int, int]] = []
        self.names = list(range(size))  # the wire there of each wire here
        self.at = list(range(size))
        self.labels = [variables.of(wire, 0) for wire in range(size)]
        self.bits = [0] * size
        self.seen = [0] * size
        self.ahead = {sets[0]: wire for wire, sets in enumerate(wanted.before) if sets}
        self.totals: dict[int, int] = {}
        self.of_set: dict[int, tuple[int, int]] = {}

    def exchange(self, one: int, other: int, begins: int) -> None:
        """Exchanges two wires, by their names there."""
        self.swaps.append((begins, one, other))
        x, y = self.at[one], self.at[other]
        self.names[x], self.names[y] = other, one
        self.at[one], self.at[other] = y, x

    def put(self, wire: int, k: int, begins: int) -> None:
        on = self.labels[wire]
        self.totals[on] = self.totals.get(on, 0) + k
        self.of_set.setdefault(on, (begins, self.names[wire]))

    def hadamard(self, wire: int, begins: int) -> Mismatch | None:
        name, on = self.names[wire], self.labels[wire]
        sets = self.wanted.before[name]
        if self.seen[name] == len(sets) or sets[self.seen[name]] != on:
            other = self.ahead.get(on)
            if other is None:
                return Mismatch(begins, None, name, "the source has no H on this sum of path variables")
            self.exchange(name, other, begins)
            name, sets = other, self.wanted.before[other]
        self.seen[name] += 1
        self.ahead.pop(on, None)
        if self.seen[name] < len(sets):
            self.ahead[sets[self.seen[name]]] = name
        self.labels[wire] = self.variables.of(name, self.seen[name])
        if self.bits[wire]:
            self.put(wire, 4, begins)
        self.bits[wire] = 0
        return None

    def walk(self, gates: list[Gate], since: list[int]) -> Mismatch | None:
        """Compares gates, which begin at such places; the first mismatch."""
        labels, bits = self.labels, self.bits
        for gate, begins in zip(gates, since):
            wire = gate[-1]
            if gate[0] == "C":
                labels[wire] ^= labels[gate[1]]
                bits[wire] ^= bits[gate[1]]
            elif gate[0] == "X":
                bits[wire] ^= 1
            elif gate[0] == "P":
                self.put(wire, -gate[1] if bits[wire] else gate[1], begins)
            elif mismatch := self.hadamard(wire, begins):
                return mismatch
        return self.at_end() or self.of_phases()

    def at_end(self) -> Mismatch | None:
        for name, sets in enumerate(self.wanted.before):
            if self.seen[name] < len(sets):
                return Mismatch(None, self.wanted.hadamards[name][self.seen[name]], name, "the target has no such H")
        ends = {on: wire for wire, on in enumerate(self.labels)}
        for name, (on, bit) in enumerate(self.wanted.last):
            if on not in ends or self.bits[ends[on]] != bit:
                return Mismatch(None, None, name, "no qubit of the target ends with what this wire ends with")
        for name, (on, _) in enumerate(self.wanted.last):
            if self.names[ends[on]] != name:
                self.exchange(self.names[ends[on]], name, -1)
        return None

    def of_phases(self) -> Mismatch | None:
        wanted = self.wanted.totals
        apart = [on for on, k in wanted.items() if self.totals.get(on, 0) % 8 != k]
        apart += [on for on, k in self.totals.items() if k % 8 and on not in wanted]
        if not apart:
            return None
        on = apart[0]
        place, wire = self.of_set.get(on, (None, 0))
        k = self.totals.get(on, 0) % 8
        if on not in wanted:
            return Mismatch(place, None, wire, f"phases on one parity come to {k} pi/4, and in the source to none", len(apart))
        says = f"phases on one parity come to {k} pi/4 in the target, and in the source to {wanted[on]} pi/4"
        return Mismatch(place, None if place is not None else self.wanted.of_set[on], wire, says, len(apart))


def with_swaps(events: list[Event], swaps: list[tuple[int, int, int]]) -> list[Event]:
    """The events with swaps that are left out, each before the event of a gate, -1 being the end; later gates are on the wires exchanged."""
    of_gate = [number for number, it in enumerate(events) for _ in it.gates()]
    placed: list[tuple[int, int, int]] = []
    names = list(range(256))
    last = [0] * len(names)  # the event before which the last swap on a wire stands
    for begins, one, other in swaps:
        number = max(len(events) if begins < 0 else of_gate[begins], last[one], last[other])
        last[one] = last[other] = number
        placed.append((number, one, other))
    placed = sorted(placed, key=lambda it: it[0])
    placed.reverse()
    found = []
    for number, it in enumerate([*events, Event("", (), events[-1].place if events else 0)]):
        while placed and placed[-1][0] == number:
            _, one, other = placed.pop()
            found.append(Event("elide", (one, other), it.place))
            names = [other if name == one else one if name == other else name for name in names]
        if it.kind in ("emit", "back"):
            found.append(dataclasses.replace(it, gate=on_wires(it.gate, names)))
        elif it.kind == "elide":
            found.append(dataclasses.replace(it, gate=tuple(names[wire] for wire in it.gate)))
        elif it.kind:
            found.append(it)
    return found


class Failure(Exception):
    """A reading that doesn't fit, and how far of the target it got."""

    def __init__(self, fault: Uncertified, reach: int) -> None:
        super().__init__(str(fault))
        self.fault = fault
        self.reach = reach


class Certificate:
    """The trace of a target, once the source and one reading of it are brought together at a level of rewriting."""

    def __init__(self, source: Side, target: Side, settled: Rewriting, level: int, reading: Reading) -> None:
        self.source, self.target, self.settled = source, target, settled
        self.initial, self.events = reading.initial, reading.events
        size = len(source.wires)
        variables = Variables(size)
        wanted = path_sum(size, settled.listed(), variables)
        reach: int | None = -1
        for _ in range(MOST_READINGS):
            self.gates = [gate for it in self.events for gate in it.gates()]
            self.read = settle(size, self.gates, level)
            matching = Matching(wanted, size, variables)
            mismatch = matching.walk(self.read.listed(), self.read.since_listed())
            if not matching.swaps or mismatch is not None and reach == (reach := mismatch.place):
                break
            self.events = with_swaps(self.events, matching.swaps)
        else:
            mismatch = mismatch or Mismatch(None, None, 0, "swaps that are left out can't be placed")
        self.word = "sums" if mismatch is None else "phases"
        if mismatch is not None and not (mismatch.apart and same_function(size, settled.listed(), self.read.listed(), mismatch.apart)):
            raise self.failure(mismatch)
        self.turn = path_sum(size, self.read.listed(), variables).constant - wanted.constant

    def failure(self, mismatch: Mismatch) -> Failure:
        wire = self.source.wires[mismatch.wire] if self.source.wires else None
        if mismatch.place is not None:
            of_gate = [it.place for it in self.events for _ in it.gates()]
            place = of_gate[mismatch.place]
            return Failure(self.target.fault(mismatch.says, place, wire), place)
        place_there = None if mismatch.of_source is None else self.settled.since_listed()[mismatch.of_source]
        return Failure(self.source.fault(mismatch.says, place_there, wire), len(self.target.gates))

    def lines(self) -> list[str]:
        """The lines of the trace."""
        order = self.order()
        steps = self.steps() if order is None else []
        places = rewriting.Places(len(self.gates)) if order else None
        found = []
        turn = self.source.turn + self.settled.turn + self.turn - self.read.turn - self.target.turn
        at = 0
        for it in self.events:
            count = len(it.gates())
            first = places.of(order[at]) if places and order and count else 0
            for taken in range(at, at + count):
                if places and order:
                    places.take(order[taken])
            at += count
            turn += 4 * (it.kind in ("back", "turn"))
            found.append(f"{it.kind} {first}" if count else f"{it.kind} {it.gate[0]} {it.gate[1]}")
        edition = 2 if any(it.startswith(("phases", "goal", "elide")) for it in (*steps, *found)) else 1
        return [f"TRACE {edition}", *steps, " ".join(["place", *map(str, self.initial)]), *found, f"end {turn % 8}"]

    def steps(self) -> list[str]:
        """The lines above `place`: from the source to its settled form, from there to that of the target, and on to the target's gates."""
        wanted, read = self.settled.listed(), self.read.listed()
        between = [] if wanted == read else rewriting.listed_lines(self.word, read)
        return [*self.settled.in_order(), *between, *self.read.in_reverse()]

    def order(self) -> list[int] | None:
        """The place in the source of each gate that is read, if both lists are the same wire by wire, and nothing was rewritten."""
        if self.settled.in_order() or self.read.in_order() or len(self.gates) != len(self.source.gates):
            return None
        queues = Queues(len(self.source.wires), self.source.gates)
        found = []
        for gate in self.gates:
            places = {place for wire in wires_of(gate) for place in queues.front(wire, 1)}
            place = places.pop() if len(places) == 1 else None
            if place is None or self.source.gates[place] != gate:
                return None
            queues.is_found[place] = 1
            found.append(place)
        return found


def settle(size: int, gates: list[Gate], level: int) -> Rewriting:
    """The gates, settled at a level of rewriting."""
    found = Rewriting(size, gates)
    if level == 1:
        found.sweep()
    if level == 2:
        found.settle()
    if level > 2:
        found.settle_further()
    return found


class Guess:
    """Where the wires begin, by the first CNOTs: those of the target, told by the qubit where each of its wires begins, in turn.

    If one of the two wires is known, the source's next CNOT on it tells the other. If none is, it is the first CNOT of the source
    with the same gates before it.
    """

    def __init__(self, source: Side, target: Side) -> None:
        self.gates = token_gates(source)
        self.pairs, self.firsts = of_pairs(len(source.wires), self.gates)
        self.at = [0] * len(source.wires)  # as many CNOTs of each wire were met
        self.wire_of: dict[int, int] = {}
        self.qubit_of: dict[int, int] = {}
        self.before: list[list[Gate]] = [[] for _ in target.wires]
        for gate in token_gates(target):
            if gate[0] == "C":
                self.meet(*gate[1:])
            else:
                self.before[gate[-1]].append(gate[:-1])
        self.of_singles()

    def join(self, qubit: int, wire: int) -> None:
        if qubit not in self.wire_of and wire not in self.qubit_of:
            self.wire_of[qubit], self.qubit_of[wire] = wire, qubit

    def meet(self, u: int, v: int) -> None:
        """Takes in a CNOT of the target."""
        if u not in self.wire_of and v not in self.wire_of:
            self.begin(u, v)
        for qubit, other in ((u, v), (v, u)):
            if (pair := self.next_pair(self.wire_of.get(qubit))) is not None:
                self.join(other, pair[1] if pair[0] == self.wire_of[qubit] else pair[0])
        wires = [self.wire_of[it] for it in (u, v) if it in self.wire_of]
        for wire in wires if len(wires) == 2 else []:
            if set(self.next_pair(wire) or ()) == set(wires):
                self.at[wire] += 1

    def next_pair(self, wire: int | None) -> Gate | None:
        """Control and target of the source's next CNOT on a wire."""
        if wire is None or self.at[wire] == len(self.pairs[wire]):
            return None
        return self.gates[self.pairs[wire][self.at[wire]][0]][1:]

    def begin(self, u: int, v: int) -> None:
        """Takes the first CNOT of the source on wires that aren't known, best with the same gates before it."""
        left = [self.gates[it][1:] for it in self.firsts]
        left = [it for it in left if it[0] not in self.qubit_of and it[1] not in self.qubit_of]
        same = [it for it in left if [self.pairs[wire][0][1] for wire in it] == [self.before[u], self.before[v]]]
        for wires in (same or left)[:1]:
            self.join(u, wires[0])
            self.join(v, wires[1])

    def of_singles(self) -> None:
        """Wires without a CNOT are told by their gates."""
        singles = of_singles(self.gates, [wire for wire in range(len(self.at)) if wire not in self.qubit_of])
        for qubit, gates in enumerate(self.before):
            if qubit not in self.wire_of and gates and singles.get(tuple(gates)):
                self.join(qubit, singles[tuple(gates)].pop(0))

    def placement(self) -> list[int]:
        """The qubit of each wire; those that nothing tells have the qubits that are left."""
        left = [qubit for qubit in range(len(self.before)) if qubit not in self.wire_of]
        return [self.qubit_of[wire] if wire in self.qubit_of else left.pop(0) for wire in range(len(self.at))]


def of_singles(gates: list[Gate], wires: list[int]) -> dict[tuple[Gate, ...], list[int]]:
    """Wires by their gates, in order."""
    on: dict[int, list[Gate]] = {wire: [] for wire in wires}
    for gate in gates:
        if gate[-1] in on:
            on[gate[-1]].append(gate[:-1])
    found: dict[tuple[Gate, ...], list[int]] = {}
    for wire, its in on.items():
        found.setdefault(tuple(its), []).append(wire)
    return found


def token_gates(program: Side) -> list[Gate]:
    """The gates of a program without swaps that stand in one piece, and reversed CNOTs as one gate, on wires told by where they begin."""
    names = list(range(len(program.wires)))
    found: list[Gate] = []
    place = 0
    while place < len(program.gates):
        gate = program.gates[place]
        ahead = program.gates[place : place + 7]
        count = 1
        if gate[0] == "C":
            u, v = gate[1:]
            swaps = (triple(u, v), [("C", u, v), *reversed_cnot(v, u), ("C", u, v)])
            count = next((len(it) for it in swaps if ahead[: len(it)] == it), 1)
            if count > 1:
                names[u], names[v] = names[v], names[u]
        elif gate[0] == "H" and len(ahead) > 4 and ahead[2][0] == "C" and ahead[:5] == reversed_cnot(ahead[2][2], ahead[2][1]):
            gate, count = ("C", ahead[2][2], ahead[2][1]), 5
        if count != 3 and count != 7:
            found.append(on_wires(gate, names))
        place += count
    return found


def of_pairs(size: int, gates: list[Gate]) -> tuple[list[list[tuple[int, list[Gate]]]], list[int]]:
    """For each wire its CNOTs, each with what stands before it on that wire since the last one; and the CNOTs that are first on both wires."""
    found: list[list[tuple[int, list[Gate]]]] = [[] for _ in range(size)]
    before: list[list[Gate]] = [[] for _ in range(size)]
    firsts = []
    for place, gate in enumerate(gates):
        if gate[0] != "C":
            before[gate[-1]].append(gate[:-1])
            continue
        if not found[gate[1]] and not found[gate[2]]:
            firsts.append(place)
        for wire in gate[1:]:
            found[wire].append((place, before[wire]))
            before[wire] = []
    return found, firsts


def placements(source: Side, target: Side, initial: collections.abc.Iterable[int] | None) -> dict[str, list[int]]:
    """Where the wires may begin, in words and as a qubit for each of the target's wires."""
    size, qubits = len(source.wires), len(target.wires)
    if size > qubits:
        raise Uncertified(f"{size} wires of the source don't fit on the target's {qubits} qubits", "target")
    if initial is not None:
        given = list(initial)
        if len(given) != size or len(set(given)) != size or not set(given) <= set(range(qubits)):
            raise ValueError(f"where wires begin is {size} different qubits below {qubits}, one for each wire of the source")
        firsts = {"the given qubits": given}
    else:
        firsts = {"wire i on qubit i": list(range(size)), "wires by the first CNOTs": Guess(source, target).placement()}
    found: dict[str, list[int]] = {}
    for name, on in firsts.items():
        whole = [*on, *sorted(set(range(qubits)) - set(on))]
        if whole not in found.values():
            found[name] = whole
    return found


def readings(source: Side, target: Side, begins: dict[str, list[int]], edges: set[Pair] | None) -> tuple[list[Reading], list[Failure]]:
    """The target read from each placement, those with the fewest gates that the source hasn't first; and what can't be read.

    If one has none, it is the only one.
    """
    found: list[Reading] = []
    failures = []
    for on in begins.values():
        for flags in itertools.product((False, True), repeat=2):
            try:
                reading = Reading(source, target, on, edges, *flags)
            except Uncertified as fault:
                failures.append(Failure(fault, (fault.operation or 1) - 1))
                continue
            if reading.missed == 0:
                return [reading], failures
            if not any((it.initial, it.events) == (on, reading.events) for it in found):
                found.append(reading)
    return sorted(found, key=lambda it: it.missed), failures


def certify(
    source: str | bytes,
    target: str | bytes,
    initial: collections.abc.Iterable[int] | None = None,
    device: qroute.Device | None = None,
) -> str:
    """The target's text with a trace by which `verify` can tell that it is the source, whoever made it; a trace that it has is left out.

    `initial` has the qubit on which each of the source's wires begins; without it wire i is tried on qubit i, and then what the first
    CNOTs of both programs tell. With a device H, H, CNOT, H, H is taken for a reversed CNOT only where its edge isn't there.

    It may fail and raises `Uncertified` then, though the target may be right. What it gives needn't be believed: `verify` judges it.

    >>> source = 'OPENQASM 2.0; include "qelib1.inc"; qreg q[2]; cz q[0],q[1];'
    >>> found = certify(source, source.replace("q[0],q[1]", "q[1],q[0]"))
    >>> bool(qroute.verify(source, found))
    True
    """
    data = qroute.as_bytes(target)
    one, other = side("source", qroute.as_bytes(source)), side("target", data)
    begins = placements(one, other, initial)
    edges = None if device is None else {(it[0], it[1]) for it in device.edges()}
    found, failures = readings(one, other, begins, edges)
    size = max(len(one.gates), len(other.gates))
    limit: list[str] = []
    for level, most in enumerate(LEVELS):
        if most is not None and size > most:
            limit = [f"no rewriting beyond level {level - 1}, as one side has {size:,} gates"]
            break
        settled = settle(len(one.wires), one.gates, level)
        for reading in found if level == 0 else found[: 1 if size > MOST_OF_ONE else MOST_REWRITTEN]:
            try:
                lines = Certificate(one, other, settled, level, reading).lines()
            except Failure as failure:
                failures.append(failure)
                continue
            return with_trace(data, lines)
    fault = max(failures, key=lambda it: it.reach).fault
    fault.tried = [f"{name} ({','.join(map(str, on[: len(one.wires)]))})" for name, on in begins.items()] + limit
    raise fault


def with_trace(data: bytes, lines: list[str]) -> str:
    """A text and, after its last line, a trace in place of its own."""
    text = data.decode("utf-8", "surrogateescape")
    kept = [it for it in text.split("\n") if not it.startswith("//!")]
    if kept[-1] == "":
        kept.pop()
    whole = "".join(f"{it}\n" for it in (*kept, *(f"//!{it}" for it in lines)))
    if len(whole) > qroute.MOST_BYTES_OF_TARGET:
        raise Uncertified(f"the target with its trace is longer than {qroute.MOST_BYTES_OF_TARGET:,} bytes", "target")
    return whole
