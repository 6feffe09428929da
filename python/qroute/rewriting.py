"""Lists of gates that are rewritten by lines of traces, and path sums told apart by drawn numbers.

Gates are `("H", q)`, `("X", q)`, `("P", k, q)` and `("C", control, target)`. docs/REWRITING.md defines the lines and their turns,
and `verify` judges what comes out: nothing here has to be believed.
"""

from __future__ import annotations

import collections
import collections.abc
import dataclasses
import itertools
import random
import typing

Gate: typing.TypeAlias = tuple[typing.Any, ...]
Edit: typing.TypeAlias = tuple[int, Gate | None]

MOST_STEPS = 200  # gates that are passed in search of a partner
MOST_ROUNDS = 12
NEAR = 6  # gates before a change, on each of its wires, at which is looked again
TURN_OF_PAIR = {"H": 6, "X": 4, "C": 0, "P": 0}
BITS = 96  # of a drawn number
MOST_TRIPLES = 6_000_000  # of independent sets, times six, that are looked at


def wires_of(gate: Gate) -> Gate:
    return gate[1:] if gate[0] == "C" else gate[-1:]


def shown(gate: Gate) -> str:
    """A gate as a line of a trace spells it."""
    return " ".join(map(str, gate))


def on_wires(gate: Gate, names: collections.abc.Sequence[int]) -> Gate:
    """The gate on the wires that stand at the places of its own."""
    wires = wires_of(gate)
    return (*gate[: len(gate) - len(wires)], *(names[it] for it in wires))


def commute(one: Gate, other: Gate) -> bool:
    """Whether two gates commute, by the table of pairs."""
    kinds = one[0] + other[0]
    if kinds in ("PP", "XX"):
        return True
    if kinds == "CC":
        return bool(one[1] != other[2] and one[2] != other[1])
    if kinds == "CP" or kinds == "PC":
        cx, phase = (one, other) if one[0] == "C" else (other, one)
        return bool(phase[-1] != cx[2])
    if kinds == "CX" or kinds == "XC":
        cx, flip = (one, other) if one[0] == "C" else (other, one)
        return bool(flip[-1] != cx[1])
    return set(wires_of(one)).isdisjoint(wires_of(other))


class Places:
    """Numbers from 0 on of which some go, and how many of those that are left stand before each."""

    def __init__(self, size: int) -> None:
        self.tree = [i & -i for i in range(size + 1)]

    def of(self, number: int) -> int:
        place = 0
        while number:
            place += self.tree[number]
            number &= number - 1
        return place

    def take(self, number: int) -> None:
        number += 1
        while number < len(self.tree):
            self.tree[number] -= 1
            number += number & -number


class Variables:
    """A drawn number for each variable of path sums, by its wire and its count of H: sums of them tell sets apart."""

    def __init__(self, size: int, bits: int = BITS) -> None:
        self.dice = random.Random(size)
        self.bits = bits
        self.drawn: list[list[int]] = [[] for _ in range(size)]

    def of(self, wire: int, count: int) -> int:
        while len(self.drawn[wire]) <= count:
            self.drawn[wire].append(self.dice.getrandbits(self.bits))
        return self.drawn[wire][count]


@dataclasses.dataclass
class PathSum:
    """What gates do along their paths: for each wire the set before each H, and the last label with its bit; for each set what
    stands on it; and a constant. `of_set` has the first gate of each set, `hadamards` the place of each H.
    """

    before: list[list[int]]
    last: list[tuple[int, int]]
    totals: dict[int, int]
    constant: int
    of_set: dict[int, int]
    hadamards: list[list[int]]


def path_sum(size: int, gates: collections.abc.Sequence[Gate], variables: Variables) -> PathSum:
    labels = [variables.of(wire, 0) for wire in range(size)]
    bits = [0] * size
    found = PathSum([[] for _ in range(size)], [], {}, 0, {}, [[] for _ in range(size)])
    totals = found.totals
    for place, gate in enumerate(gates):
        wire = gate[-1]
        if gate[0] == "C":
            labels[wire] ^= labels[gate[1]]
            bits[wire] ^= bits[gate[1]]
        elif gate[0] == "P":
            totals[labels[wire]] = totals.get(labels[wire], 0) + (-gate[1] if bits[wire] else gate[1])
            found.constant += gate[1] if bits[wire] else 0
            found.of_set.setdefault(labels[wire], place)
        elif gate[0] == "X":
            bits[wire] ^= 1
            found.constant += 2
        else:
            found.before[wire].append(labels[wire])
            found.hadamards[wire].append(place)
            labels[wire] = variables.of(wire, len(found.before[wire]))
            if bits[wire]:
                totals[labels[wire]] = totals.get(labels[wire], 0) + 4
                found.of_set.setdefault(labels[wire], place)
            bits[wire] = 0
    found.totals = {it: k % 8 for it, k in totals.items() if k % 8}
    found.last = list(zip(labels, bits))
    return found


def same_function(size: int, old: collections.abc.Sequence[Gate], new: collections.abc.Sequence[Gate], apart: int) -> bool:
    """Whether two lists, on whose sets as many totals are apart, have the same path sum but for the phases, and these come to the
    same for all values of the variables. If that takes too long it is taken for a no.
    """
    # of so many sets the numbers are independent if the sets are
    variables = Variables(size, apart + BITS)
    one, other = (path_sum(size, it, variables) for it in (old, new))
    if (one.before, one.last) != (other.before, other.last):
        return False
    totals = {on: other.totals.get(on, 0) - one.totals.get(on, 0) for on in {**one.totals, **other.totals}}
    return vanish({on: k for on, k in totals.items() if k % 8})


def vanish(totals: dict[int, int]) -> bool:
    """Whether what stands on some sets comes to nothing modulo 8 for all values of the variables.

    Each set is a sum of independent ones among them, and so its value is the sum of theirs, less twice that of their pairs and four
    times that of their triples: of these none may be left, modulo 8, 4 and 2.
    """
    rows: dict[int, tuple[int, int]] = {}  # by its greatest bit a sum of independent sets, and which ones it is of
    left: collections.Counter[tuple[int, ...]] = collections.Counter()
    count = steps = 0
    for on, k in totals.items():
        of = 0
        while on and (row := rows.get(on.bit_length())):
            on ^= row[0]
            of ^= row[1]
        if on:
            rows[on.bit_length()] = on, of ^ 1 << count
            of = 1 << count
            count += 1
        parts = [it for it in range(of.bit_length()) if of >> it & 1]
        steps += len(parts) ** 3
        if steps > MOST_TRIPLES:
            return False
        for length in (1, 2, 3):
            for chosen in itertools.combinations(parts, length):
                left[chosen] += k
    return all(k % (16 >> len(chosen)) == 0 for chosen, k in left.items())


@dataclasses.dataclass
class Stretch:
    """Lines, and the gates that they begin with. If they are backwards, they lead from the later list to the earlier one."""

    gates: list[Gate]
    lines: list[str]
    is_backwards: bool

    def told(self, is_goal: bool) -> list[str]:
        """The lines, as those of a goal or as they are."""
        return [*listed_lines("goal", self.gates), *self.lines, "meet"] if is_goal else self.lines


class Folding:
    """Gates of which X go to the ends of their wires, and what stands on a set to where the set first comes up."""

    def __init__(self, size: int) -> None:
        self.variables = Variables(size)
        self.labels = [0] * size
        self.seen = [0] * size
        self.flips = [0] * size
        self.of_x = [0] * size  # since when a wire is flipped
        self.new: list[tuple[Gate, int]] = []
        self.totals: dict[int, int] = {}
        self.at: dict[int, int] = {}  # the place of the phase on a set
        self.fresh = [0] * size  # where the label of each wire changed last
        self.constant = 0  # of the path sum of the gates that were taken
        for wire in range(size):
            self.change(wire, self.variables.of(wire, 0), 0)

    def put(self, wire: int, k: int, begins: int) -> None:
        """Puts a phase on the label of a wire."""
        on = self.labels[wire]
        if on not in self.at:
            self.at[on] = len(self.new)
            self.new.append((("P", 0, wire), begins))
        self.totals[on] = (self.totals.get(on, 0) + k) % 8

    def change(self, wire: int, label: int, begins: int) -> None:
        self.labels[wire] = label
        self.fresh[wire] = len(self.new)
        self.put(wire, 0, begins)

    def take(self, gate: Gate, begins: int) -> None:
        """Takes the next gate, which begins at a place of the first list."""
        wire = gate[-1]
        if gate[0] == "P":
            self.put(wire, -gate[1] if self.flips[wire] else gate[1], begins)
            self.constant += gate[1] if self.flips[wire] else 0
        elif gate[0] == "X":
            self.flips[wire] ^= 1
            self.of_x[wire] = begins
            self.constant += 2
        elif gate[0] == "C":
            self.flips[wire] ^= self.flips[gate[1]]
            self.of_x[wire] = max(self.of_x[wire], self.of_x[gate[1]])
            self.new.append((gate, begins))
            self.change(wire, self.labels[wire] ^ self.labels[gate[1]], begins)
        else:
            self.seen[wire] += 1
            self.new.append((gate, begins))
            self.change(wire, self.variables.of(wire, self.seen[wire]), begins)
            self.put(wire, 4 * self.flips[wire], begins)
            self.flips[wire] = 0

    def written(self) -> tuple[list[Gate], list[int]]:
        """The gates, and where each begins. If a wire ends with a set that first comes up elsewhere, a Z stays at its end."""
        totals, new = self.totals, self.new
        ends = [wire for wire, on in enumerate(self.labels) if totals[on] >= 4 and self.at[on] != self.fresh[wire]]
        for wire in ends:
            totals[self.labels[wire]] -= 4
        for on, place in self.at.items():
            new[place] = (("P", totals[on], new[place][0][2]), new[place][1])
        new = [it for it in new if it[0][:2] != ("P", 0)]
        new += [(("P", 4, wire), self.of_x[wire]) for wire in ends]
        new += [(("X", wire), self.of_x[wire]) for wire, flip in enumerate(self.flips) if flip]
        return [it for it, _ in new], [it for _, it in new]


class Rewriting:
    """A list of gates, the lines that led to it from the first one, and their turn.

    A gate has a slot, which stays its own; `since` has the place in the first list at which it begins.
    """

    def __init__(self, size: int, gates: collections.abc.Sequence[Gate]) -> None:
        self.size = size
        self.turn = 0
        self.stretches: list[Stretch] = []
        self.load(list(gates), list(range(len(gates))))
        self.begin(False)

    def begin(self, is_backwards: bool) -> None:
        """What follows is another stretch, from the gates that stand now."""
        self.stretches.append(Stretch(self.listed(), [], is_backwards))
        self.lines = self.stretches[-1].lines

    def load(self, gates: list[Gate], since: list[int]) -> None:
        self.gates: list[Gate | None] = list(gates)
        self.since = since
        self.places = Places(len(gates))
        self.before: dict[tuple[int, int], int] = {}
        self.after: dict[tuple[int, int], int] = {}
        last: dict[int, int] = {}
        for slot, gate in enumerate(gates):
            for wire in wires_of(gate):
                if wire in last:
                    self.before[slot, wire] = last[wire]
                    self.after[last[wire], wire] = slot
                last[wire] = slot

    def listed(self) -> list[Gate]:
        return [it for it in self.gates if it is not None]

    def since_listed(self) -> list[int]:
        return [since for since, it in zip(self.since, self.gates) if it is not None]

    def take(self, slot: int) -> None:
        gate, self.gates[slot] = self.gates[slot], None
        self.places.take(slot)
        for wire in wires_of(typing.cast(Gate, gate)):
            before, after = self.before.pop((slot, wire), None), self.after.pop((slot, wire), None)
            if before is not None:
                self.after.pop((before, wire))
            if after is not None:
                self.before.pop((after, wire))
            if before is not None and after is not None:
                self.after[before, wire], self.before[after, wire] = after, before

    def gate_after(self, slot: int, wire: int) -> tuple[int, Gate]:
        """The next gate on a wire, and its slot; an empty one if there is none."""
        after = self.after.get((slot, wire))
        return (-1, ()) if after is None else (after, typing.cast(Gate, self.gates[after]))

    # windows and pairs

    def window(self, slot: int) -> tuple[int, int, list[Edit], int] | None:
        """The rule of the window that begins with this H, the slot where it begins, its edits and its turn."""
        gate = self.gates[slot]
        if gate is None or gate[0] != "H":
            return None
        wire = gate[1]
        second, middle = self.gate_after(slot, wire)
        if not middle or middle[0] == "H":
            return None
        if middle[0] == "C":
            return self.surrounded(second)
        third, last = self.gate_after(second, wire)
        if last == gate:
            return self.turned(slot, second, middle, third)
        if not last or middle[0] != "P" or middle[1] not in (2, 6) or last[0] != "C" or last[2] != wire:
            return None
        k = middle[1]
        fourth, behind = self.gate_after(third, wire)
        if behind != ("P", 8 - k, wire):
            return None
        fifth, end = self.gate_after(fourth, wire)
        if end != gate:
            return None
        return 6 if k == 2 else 7, slot, [(slot, None), (second, ("P", 8 - k, wire)), (fourth, ("P", k, wire)), (fifth, None)], 6

    def turned(self, first: int, second: int, middle: Gate, third: int) -> tuple[int, int, list[Edit], int] | None:
        wire = middle[-1]
        if middle[0] == "X":
            return 4, first, [(first, None), (second, ("P", 4, wire)), (third, None)], 4
        if middle[1] == 4:
            return 3, first, [(first, None), (second, ("X", wire)), (third, None)], 0
        if middle[1] in (2, 6):
            phase = ("P", 8 - middle[1], wire)
            return 1 if middle[1] == 2 else 2, first, [(first, phase), (second, ("H", wire)), (third, phase)], 6 if middle[1] == 2 else 0
        return None

    def surrounded(self, slot: int) -> tuple[int, int, list[Edit], int] | None:
        """The same of a CNOT with four H around it."""
        _, control, target = typing.cast(Gate, self.gates[slot])
        around = [it.get((slot, wire), -1) for it in (self.before, self.after) for wire in (control, target)]
        if min(around) < 0 or any(self.gates[it] != ("H", wire) for it, wire in zip(around, (control, target) * 2)):
            return None
        return 5, min(around), [(slot, ("C", target, control)), *((it, None) for it in around)], 4

    def partner(self, slot: int) -> int | None:
        """The slot of the gate that cancels or merges with this one past those between."""
        gate = typing.cast(Gate, self.gates[slot])
        wires = wires_of(gate)
        near = [self.after.get((slot, wire)) for wire in wires]
        for _ in range(MOST_STEPS):
            left = [it for it in near if it is not None]
            if not left:
                return None
            first = min(left)
            other = typing.cast(Gate, self.gates[first])
            if gate[0] == other[0] and wires == wires_of(other):
                return first
            if not commute(gate, other):
                return None
            near = [self.after.get((first, wire)) if it == first else it for wire, it in zip(wires, near)]
        return None

    def pair(self, slot: int) -> tuple[str, list[Edit], int] | None:
        """The line for a gate and its partner, its edits and its turn."""
        gate, other = typing.cast(Gate, self.gates[slot]), self.partner(slot)
        if other is None:
            return None
        at = f"{self.places.of(slot)} {self.places.of(other)}"
        k = (gate[1] + typing.cast(Gate, self.gates[other])[1]) % 8 if gate[0] == "P" else 0
        if k:
            return f"join {at}", [(slot, ("P", k, gate[-1])), (other, None)], 0
        return f"both {at}", [(slot, None), (other, None)], TURN_OF_PAIR[gate[0]]

    def step(self, slot: int, is_whole: bool) -> list[int]:
        """Does what can be done with the gate of a slot; the slots at which is looked again."""
        gate = self.gates[slot]
        if gate is None or gate[0] == "H" and not is_whole:
            return []
        found = self.window(slot)
        if found is not None:
            return self.rule(found)
        pair = self.pair(slot)
        if pair is None:
            return []
        line, edits, turn = pair
        self.lines.append(line)
        self.turn += turn
        return self.edit(edits)

    def edit(self, edits: list[Edit]) -> list[int]:
        """Makes some edits; the slots near them."""
        near = set()
        begins = min(self.since[it] for it, _ in edits)
        for slot, gate in edits:
            for wire in wires_of(typing.cast(Gate, self.gates[slot])):
                at: int | None = slot
                for _ in range(NEAR):
                    if at is None:
                        break
                    near.add(at)
                    at = self.before.get((at, wire))
            if gate is not None:
                self.gates[slot] = gate
                self.since[slot] = min(self.since[slot], begins)
        for slot, gate in edits:
            if gate is None:
                self.take(slot)
        return sorted(near)

    def sweep(self, is_whole: bool = True) -> None:
        """Rewrites windows and pairs until none is found; if it isn't whole, pairs of other gates than H alone."""
        for _ in range(MOST_ROUNDS):
            before = len(self.lines)
            waiting = collections.deque(range(len(self.gates)))
            is_waiting = bytearray(b"\1" * len(self.gates))
            while waiting:
                slot = waiting.popleft()
                is_waiting[slot] = 0
                for it in self.step(slot, is_whole):
                    if not is_waiting[it]:
                        is_waiting[it] = 1
                        waiting.appendleft(it)
            if len(self.lines) == before:
                return

    def in_order(self) -> list[str]:
        """The lines from the first list to this one."""
        return [line for it in self.stretches for line in it.told(it.is_backwards)]

    def in_reverse(self) -> list[str]:
        """The lines from this list to the first one."""
        return [line for it in reversed(self.stretches) if it.lines for line in it.told(not it.is_backwards)]

    # all gates at once

    def fold(self) -> bool:
        """X go to the ends of their wires, and what stands on a set to where the set first comes up; whether that changed anything."""
        old = self.listed()
        folded = Folding(self.size)
        for gate, begins in zip(old, self.since_listed()):
            folded.take(gate, begins)
        new, since = folded.written()
        if new == old:
            return False
        self.lines += listed_lines("sums", new)
        self.turn += 2 * sum(folded.flips) - folded.constant
        self.load(new, since)
        return True

    def settle(self) -> None:
        """Windows, pairs, X, phases and corners until nothing changes."""
        for _ in range(MOST_ROUNDS):
            self.sweep()
            if not self.fold() and not self.lift() and not self.corner():
                return

    def settle_further(self) -> None:
        """The same, and the H of each CZ stand on the odd one of its wires; phases pass it on both of them.

        First no H goes but for two between CZ, so that each CZ is still seen.
        """
        for is_whole in (False, True):
            for _ in range(MOST_ROUNDS // 2):
                before = self.listed()
                for is_odd in (False, True):
                    self.orient(is_odd)
                    self.join_fans()
                    self.sweep(is_whole)
                    self.fold()
                    if self.lift():
                        self.fold()
                if is_whole:
                    self.settle()
                if self.listed() == before:
                    break

    def join_fans(self) -> None:
        """CZ that follow each other with their H on one wire lose the two H between."""
        gates = self.listed()
        ends: dict[int, int] = {}
        slots = [slot for slot, it in enumerate(self.gates) if it is not None]
        for fan in fans_of(gates):
            wire = gates[fan[0]][2]
            first, last = self.before[slots[fan[0]], wire], self.after[slots[fan[-1]], wire]
            if self.before.get((first, wire), -1) == ends.get(wire):
                self.pair_goes(ends[wire], first)
            ends[wire] = last

    def pair_goes(self, one: int, other: int) -> None:
        """Two H that follow each other go."""
        self.lines.append(f"both {self.places.of(one)} {self.places.of(other)}")
        self.turn += TURN_OF_PAIR["H"]
        self.take(one)
        self.take(other)

    def insert(self, chunks: dict[int, list[list[Gate]]]) -> list[int]:
        """Puts palindromes, each of which cancels from within, before the gates at some places; the slot of each gate then.

        They are told backwards: the lines lead from the list with them to the one without.
        """
        gates, since = self.listed(), self.since_listed()
        new: list[Gate] = []
        begins: list[int] = []
        lines: list[str] = []
        slots: list[int] = []
        for place in range(len(gates) + 1):
            for palindrome in chunks.get(place, []):
                new += palindrome
                begins += [since[min(place, len(gates) - 1)]] * len(palindrome)
                for i in range(len(palindrome) // 2 - 1, -1, -1):
                    lines.append(f"both {place + i} {place + i + 1}")
                    self.turn -= TURN_OF_PAIR[palindrome[i][0]]
            if place < len(gates):
                slots.append(len(new))
                new.append(gates[place])
                begins.append(since[place])
        self.load(new, begins)
        self.begin(True)
        self.lines += lines
        self.begin(False)
        return slots

    def lift(self) -> bool:
        """Each phase of 4 or more leaves 4 of it behind, which goes as Z and X to the ends of the wires; whether there was one.

        It begins with gates as `fold` leaves them. Before each gate that a Z passes stand two, one of which passes: Z, H becomes
        H, H, Z, H, and H, X by rule 3; past a CNOT from its target it is an X between H past the reversed CNOT from its control.
        """
        gates = self.listed()
        places = self.to_lift()
        if not places:
            return False
        chunks: dict[int, list[list[Gate]]] = {}
        for place in places:
            wire = gates[place][-1]
            h, x, z = ("H", wire), ("X", wire), ("P", 4, wire)
            if gates[place] == h:
                chunks.setdefault(place, []).append([z, h, h, z])
            else:
                control = ("H", gates[place][1])
                chunks.setdefault(place, []).extend([[h, x, h, h, x, h], [control, control]])
                chunks.setdefault(place + 1, []).extend([[control, control], [h, h]])
        slots = self.insert(chunks)
        passed = []
        for place in places:
            slot = slots[place]
            if gates[place][0] == "H":
                self.rule(self.window(slot - 2))
            else:
                self.rule(self.window(slot - 8))
                self.rule(self.surrounded(slot))
                passed.append(slot)
        if passed:
            self.pass_on(passed)
        return True

    def pass_on(self, slots: list[int]) -> None:
        """The X before the controls of some CNOTs, which stand between H on both wires, go past these, and become Z."""
        old = self.listed()
        moved = {slot: self.places.of(slot) for slot in slots}
        at = set(moved.values())
        new: list[Gate] = []
        since: list[int] = []
        begins = self.since_listed()
        ends = []
        for place, gate in enumerate(old):
            if place + 2 in at:
                continue  # the X, which stands before the H on the target and the CNOT
            new.append(gate)
            since.append(begins[place])
            if place in at:
                ends.append(len(new) - 1)
                new += [("X", gate[1]), ("X", gate[2])]
                since += [begins[place]] * 2
        variables = Variables(self.size)
        self.turn += path_sum(self.size, new, variables).constant - path_sum(self.size, old, variables).constant
        self.lines += listed_lines("sums", new)
        self.load(new, since)
        slots = self.insert({end + 1 + i: [[("H", new[end][1 + i])] * 2] for end in ends for i in range(2)})
        for end in ends:
            for i in (1, 2):
                self.rule(self.window(slots[end + i] - 1))
            self.rule(self.surrounded(slots[end]))

    def to_lift(self) -> list[int]:
        """The places of the H and the CNOTs that a Z passes, from the wire of the H or from that of the target."""
        flips, zs = [0] * self.size, [0] * self.size
        found = []
        for place, gate in enumerate(self.listed()):
            wire = gate[-1]
            if gate[0] == "C":
                if zs[wire]:
                    found.append(place)
                flips[wire] ^= flips[gate[1]]
                zs[gate[1]] ^= zs[wire]
            elif gate[0] == "P":
                zs[wire] ^= (-gate[1] if flips[wire] else gate[1]) % 8 >> 2
            elif gate[0] == "H":
                if zs[wire]:
                    found.append(place)
                flips[wire], zs[wire] = zs[wire], flips[wire]
        return found

    def corner(self) -> bool:
        """Reverses each CNOT with three H beside it, which leaves one H at the fourth place; whether there was one."""
        gates = self.gates
        chunks: dict[int, list[list[Gate]]] = {}
        found, used = [], set()
        for slot, gate in enumerate(gates):
            if gate is None or gate[0] != "C":
                continue
            around = [it.get((slot, wire), -1) for it in (self.before, self.after) for wire in gate[1:]]
            are_h = [it >= 0 and typing.cast(Gate, gates[it])[0] == "H" and it not in used for it in around]
            if sum(are_h) == 3:
                used.update(around)
                missing = are_h.index(False)
                place = self.places.of(slot)
                chunks.setdefault(place + missing // 2, []).append([("H", gate[1 + missing % 2])] * 2)
                found.append(place)
        if not found:
            return False
        slots = self.insert(chunks)
        for place in found:
            self.rule(self.surrounded(slots[place]))
        return True

    def rule(self, found: tuple[int, int, list[Edit], int] | None) -> list[int]:
        """Rewrites a window; the slots at which is looked again."""
        if found is None:
            raise AssertionError("no window where one was made")
        rule, first, edits, turn = found
        self.lines.append(f"rule {rule} {self.places.of(first)}")
        self.turn += turn
        return self.edit(edits)

    def orient(self, is_odd: bool) -> bool:
        """Reverses CNOTs of CZ, so that the H of each stand on the odd one of its wires, or on the even one; whether it reversed one.

        Wires with a CZ between them are even and odd in turn, as far as that is possible. Of two that aren't, the greater counts as odd.
        """
        gates = self.listed()
        fans = fans_of(gates)
        odd = in_turn(self.size, [gates[it] for fan in fans for it in fan])
        rank = [(odd[wire], wire) for wire in range(self.size)]
        return self.reverse(fans, [it for fan in fans for it in fan if (rank[gates[it][1]] > rank[gates[it][2]]) == is_odd])

    def reverse(self, fans: list[list[int]], places: list[int]) -> bool:
        """Reverses the CNOTs at some places, which are of CZ, between H put in beside them, by rule 5; whether there was one."""
        gates, wrong = self.listed(), set(places)
        parted = {two: gates[two][2] for fan in fans for one, two in zip(fan, fan[1:]) if one in wrong or two in wrong}
        chunks: dict[int, list[list[Gate]]] = {}
        for place in sorted({*parted, *wrong}):
            if place in parted:
                chunks.setdefault(place, []).append([("H", parted[place])] * 2)
            if place in wrong:
                for it in (place, place + 1):
                    chunks.setdefault(it, []).append([("H", gates[place][1])] * 2)
        if not places:
            return False
        slots = self.insert(chunks)
        for place in sorted(wrong):
            self.rule(self.surrounded(slots[place]))
        return True


def listed_lines(word: str, gates: collections.abc.Sequence[Gate]) -> list[str]:
    """The line that lists gates behind it, and their lines."""
    return [f"{word} {len(gates)}", *map(shown, gates)]


def fans_of(gates: list[Gate]) -> list[list[int]]:
    """The places of the CNOTs between two H on their targets, if nothing else stands there on the wire: each is a CZ with these H."""
    found = []
    opened: dict[int, list[int]] = {}  # since an H the CNOTs onto its wire, if nothing else came
    for place, gate in enumerate(gates):
        wire = gate[-1]
        if gate[0] == "C":
            opened.pop(gate[1], None)
            if wire in opened:
                opened[wire].append(place)
        elif gate[0] == "H" and opened.get(wire):
            found.append(opened.pop(wire))
        elif gate[0] == "H":
            opened[wire] = []
        else:
            opened.pop(wire, None)
    return found


def in_turn(size: int, pairs: list[Gate]) -> list[int]:
    """For each wire 0 or 1, which change along the CNOTs as far as that is possible; the least of those that hang together has 0."""
    near: list[set[int]] = [set() for _ in range(size)]
    for _, one, other in pairs:
        near[one].add(other)
        near[other].add(one)
    found = [-1] * size
    for wire in range(size):
        if found[wire] < 0:
            found[wire] = 0
            waiting = [wire]
            for it in waiting:
                for other in sorted(near[it]):
                    if found[other] < 0:
                        found[other] = 1 - found[it]
                        waiting.append(other)
    return found
