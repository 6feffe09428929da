"""Traces: lines that say, step by step, why one program realises another; and a check of them.

`of_text` finds the lines of a trace in a program's text, `lines_of` in a file of its own. `checked` says what they prove, or
the first line that doesn't apply, and why. It is written from the definition in docs/REWRITING.md ('Traces'), one method
for each word that a line begins with, and shares nothing with the program.
"""

import dataclasses
import re

import gates as gate_lists
import qasm
import streams

LINE = re.compile(r"([A-Za-z]+)((?: (?:0|[1-9][0-9]{0,9}))*)")
MOST = 2**32
MOST_SHOWN = 80  # characters of a line
COUNTED = {"H": 1, "X": 1, "P": 2, "C": 2}  # the numbers of a gate
ABOVE, BEHIND = "above `place`", "behind `place`"
# where a line may stand, and how many numbers it has; `place` has one for each qubit
WORDS = {
    "rule": (ABOVE, 2),
    "both": (ABOVE, 2),
    "join": (ABOVE, 2),
    "sums": (ABOVE, 1),
    "place": (ABOVE, None),
    "emit": (BEHIND, 1),
    "back": (BEHIND, 1),
    "swap": (BEHIND, 2),
    "turn": (BEHIND, 2),
    "end": (BEHIND, 1),
}
# the lines that came with the second edition
LATER = {
    "part": (ABOVE, 3),
    "phases": (ABOVE, 1),
    "goal": (ABOVE, 1),
    "meet": (ABOVE, 0),
    "elide": (BEHIND, 1),
}
EDITIONS = {1: WORDS, 2: WORDS | LATER}
# H, a gate, H on one wire: the gate between, what comes in place of the three, and the turn
TURNED = {
    1: (("P", 2), [("P", 6), ("H",), ("P", 6)], 6),
    2: (("P", 6), [("P", 2), ("H",), ("P", 2)], 0),
    3: (("P", 4), [None, ("X",), None], 0),
    4: (("X",), [None, ("P", 4), None], 4),
}
# H, P(k), a CNOT, P(8 - k), H on the CNOT's target: the k
CONJUGATED = {6: 2, 7: 6}


class Stop(Exception):
    """Why a line doesn't apply."""


@dataclasses.dataclass
class Held:
    """What is held while a goal is rewritten: the gates before it with their turns, and the goal's gates as they were given."""

    gates: list
    turns: int
    goal: list


@dataclasses.dataclass
class Verdict:
    """A trace's power and the qubits on which the wires begin and end; or the line at which it stops, what stands there (None if it is
    missing), and why it stops.
    """

    power: int | None = None
    line: int | None = None
    stood: str | None = None
    why: str = ""
    initial: tuple | None = None
    final: list | None = None

    def in_words(self):
        if self.line is None:
            return f"yes {self.power}"
        if self.stood is None:
            return f"no, line {self.line}: {self.why}"
        stood = streams.printable(self.stood[:MOST_SHOWN]) + (".." if len(self.stood) > MOST_SHOWN else "")
        return f"no, line {self.line}: `{stood}` doesn't apply: {self.why}"


def lines_of(text):
    """The lines of a text; the last one may end with it."""
    found = text.split("\n")
    return found if found[-1] else found[:-1]


def of_text(text):
    """The lines of the trace that a program's text holds, each with the offset where it begins."""
    offset = 0
    for line in lines_of(text):
        if line.startswith("//!"):
            yield offset + 3, line[3:]
        offset += len(line) + 1


def read(line):
    """The word and the numbers of a line."""
    match = LINE.fullmatch(line)
    if line.endswith("\r"):
        raise Stop("the carriage return at its end is a part of it")
    if match is not None:
        numbers = [int(it) for it in match.group(2).split()]
        if all(it < MOST for it in numbers):
            return match.group(1), numbers
    raise Stop("a line is a word and numbers below 2^32, each without leading zeros and behind one space")


def side(path, text):
    """A program as `checked` wants it: how many wires it has, and its operations."""
    program, operations = qasm.written_out(path, text)
    return len(program.wires), operations


def checked(source, target, lines):
    """What a trace says of two programs, each its number of wires and its operations."""
    lines = list(lines)
    check = Check(source, target, lines)
    try:
        while check.power is None:
            check.step()
    except Stop as why:
        stood = lines[check.done] if check.done < len(lines) else None
        return Verdict(None, check.done + 1, stood, str(why))
    return Verdict(check.power, initial=check.begins, final=check.now)


class Check:
    """What the lines of a trace have led to so far."""

    def __init__(self, source, target, lines):
        self.lines = lines
        self.done = 0  # as many lines applied
        self.words = None  # those of the trace's edition, which its first line names
        self.held = None  # after `goal` what is held
        self.wires, operations = source
        listed, self.turns = gate_lists.expanded(operations)
        self.list = gate_lists.Gates(listed)
        self.qubits, operations = target
        self.target, self.target_turns = gate_lists.expanded(operations)
        self.written = []  # the gates that were appended
        self.begins = self.now = None  # after `place` the qubit of each wire, there and now
        self.power = None  # after `end` what is proved

    def step(self):
        """The next line."""
        if self.done == len(self.lines):
            missing = "`meet`" if self.held else "`end`" if self.done else "`TRACE 1` or `TRACE 2`"
            raise Stop(f"the trace ends before {missing}")
        word, numbers = read(self.lines[self.done])
        if self.done == 0 or word == "TRACE":
            if self.done or word != "TRACE" or numbers not in ([1], [2]):
                raise Stop("the first line, and no other, is `TRACE 1` or `TRACE 2`")
            if numbers == [2] and not any(it.startswith(tuple(LATER)) for it in self.lines):
                raise Stop("no line came with the second edition, so the first one is `TRACE 1`")
            self.words = EDITIONS[numbers[0]]
            self.done = 1
            return
        if word not in self.words:
            if word in LATER:
                raise Stop(f"`{word}` is a line of `TRACE 2`, and the first line is `TRACE 1`")
            raise Stop(f"no line of a trace begins with `{word}`")
        where, count = self.words[word]
        if (where == ABOVE) != (self.now is None):
            raise Stop(f"`{word}` stands {where}" if word != "place" else "`place` stands once")
        if count not in (None, len(numbers)):
            raise Stop(f"`{word}` has {count or 'no'} number{'' if count == 1 else 's'}")
        # `sums`, `part`, `phases` and `goal` take the lines of their gates besides
        more = getattr(self, word)(*numbers)
        self.done += 1 + (more or 0)

    def slot(self, place):
        if place >= len(self.list):
            raise Stop(f"there is no place {place} in a list of length {len(self.list)}")
        return self.list.places.at(place)

    def gate(self, slot):
        return self.list.gates[slot]

    def at(self, slot):
        """A gate with its place, in words."""
        return f"{gate_lists.shown(self.gate(slot))} at place {self.list.places.of(slot)}"

    # lines above `place`

    def rule(self, k, i):
        first = self.slot(i)
        if k not in (*TURNED, 5, *CONJUGATED):
            raise Stop("the rules are 1 to 7")
        if k in TURNED:
            made = self.turned(first, *TURNED[k])
        elif k == 5:
            made = self.surrounded(first)
        else:
            made = self.conjugated(first, CONJUGATED[k])
        if made is None:
            wire = gate_lists.wires_of(self.gate(first))[0]
            there = ", ".join(gate_lists.shown(self.gate(it)) for it in self.list.follow(first, wire, 5))
            raise Stop(f"no window of rule {k} begins at place {i}: from there on wire {wire} has {there}")
        edits, turn = made
        for slot, gate in edits:
            if gate is None:
                self.list.take(slot)
            else:
                self.list.put(slot, gate)
        self.turns += turn

    def turned(self, first, middle, new, turn):
        """The edits of H, `middle`, H on one wire, and the turn; None if they don't stand there."""
        wire = self.gate(first)[-1]
        slots = self.list.follow(first, wire, 3)
        if [self.gate(it) for it in slots] != [("H", wire), (*middle, wire), ("H", wire)]:
            return None
        return [(slot, it and (*it, wire)) for slot, it in zip(slots, new)], turn

    def surrounded(self, first):
        """The same for a CNOT with four H around it, of which the first one stands here."""
        slots = self.list.follow(first, self.gate(first)[-1], 2)
        if self.gate(first)[0] != "H" or len(slots) < 2 or self.gate(slots[1])[0] != "C":
            return None
        middle = slots[1]
        _, control, target = self.gate(middle)
        around = [it.get((middle, wire)) for it in (self.list.before, self.list.behind) for wire in (control, target)]
        if None in around or [self.gate(it) for it in around] != [("H", control), ("H", target)] * 2 or first != min(around):
            return None
        return [(middle, ("C", target, control))] + [(it, None) for it in around], 4

    def conjugated(self, first, k):
        """The same for H, P(k), a CNOT, P(8 - k), H on the CNOT's target."""
        wire = self.gate(first)[-1]
        slots = self.list.follow(first, wire, 5)
        there = [self.gate(it) for it in slots]
        if len(there) < 5 or there[:2] + there[3:] != [("H", wire), ("P", k, wire), ("P", 8 - k, wire), ("H", wire)]:
            return None
        if there[2][0] != "C" or there[2][2] != wire:
            return None
        return [(slots[0], None), (slots[1], ("P", 8 - k, wire)), (slots[3], ("P", k, wire)), (slots[4], None)], 6

    def pair(self, i, j, wanted):
        """The slots of two gates that cancel or merge, and what is left of them."""
        if i >= j:
            raise Stop(f"place {j} isn't behind place {i}")
        first, second = self.slot(i), self.slot(j)
        left = gate_lists.cancelled(self.gate(first), self.gate(second))
        if left is None:
            raise Stop(f"{self.at(first)} and {self.at(second)} neither cancel nor merge")
        if left[0] != wanted:
            says = "cancel with nothing left" if left[0] == "both" else f"merge to P({left[1]})"
            raise Stop(f"{self.at(first)} and {self.at(second)} {says}")
        for slot in self.list.between(first, second):
            if not gate_lists.commute(self.gate(first), self.gate(slot)):
                raise Stop(f"{self.at(first)} doesn't commute with {self.at(slot)}, which stands between")
        return first, second, left[1]

    def both(self, i, j):
        first, second, turn = self.pair(i, j, "both")
        self.list.take(first)
        self.list.take(second)
        self.turns += turn

    def join(self, i, j):
        first, second, k = self.pair(i, j, "join")
        self.list.put(first, ("P", k, self.gate(first)[-1]))
        self.list.take(second)

    def sums(self, count):
        new = self.gates_behind(count)
        self.turns += self.turn_to(self.list.listed(), new, "the path sum of the list")
        self.list = gate_lists.Gates(new)
        return count

    def phases(self, count):
        new = self.gates_behind(count)
        self.turns += self.turn_to(self.list.listed(), new, "the path function of the list", gate_lists.differences_as_functions)
        self.list = gate_lists.Gates(new)
        return count

    def part(self, i, j, count):
        if i > j:
            raise Stop(f"place {j} is before place {i}")
        if j > len(self.list):
            raise Stop(f"there is no place {j - 1} in a list of length {len(self.list)}")
        new = self.gates_behind(count)
        old = self.list.listed()
        self.turns += self.turn_to(old[i:j], new, "the path sum of " + (f"places {i} to {j - 1}" if i < j else "no gates"))
        self.list = gate_lists.Gates(old[:i] + new + old[j:])
        return count

    def goal(self, count):
        if self.held is not None:
            raise Stop("a goal is sought already, until `meet`")
        new = self.gates_behind(count)
        self.held = Held(self.list.listed(), self.turns, new)
        self.list, self.turns = gate_lists.Gates(new), 0
        return count

    def meet(self):
        if self.held is None:
            raise Stop("no goal is sought")
        found = self.list.listed()
        for i, (one, other) in enumerate(zip(found, self.held.gates)):
            if one != other:
                raise Stop(f"{gate_lists.shown(one)} stands at place {i} of the goal, and {gate_lists.shown(other)} is held there")
        if len(found) != len(self.held.gates):
            raise Stop(f"the goal has become {len(found)} gates, and {len(self.held.gates)} are held")
        self.list, self.turns = gate_lists.Gates(self.held.goal), self.held.turns - self.turns
        self.held = None

    def turn_to(self, old, new, what, differences=gate_lists.differences):
        """The turn from gates to others that don't differ by their path sums."""
        bits = {}
        before = gate_lists.path_sum(self.wires, old, bits)
        its = gate_lists.path_sum(self.wires, new, bits)
        for why in differences(before, its, bits):
            raise Stop(f"its gates haven't {what}: {why}")
        return its.constant - before.constant

    def gates_behind(self, count):
        """The gates of so many lines after this one."""
        begins = self.done + 1
        if begins + count > len(self.lines):
            raise Stop(f"fewer lines stand behind it, {len(self.lines) - begins}")
        return [self.gate_of(it) for it in range(begins, begins + count)]

    def gate_of(self, index):
        """The gate of a line after `sums`, `part`, `phases` or `goal`."""
        try:
            word, numbers = read(self.lines[index])
        except Stop:
            word, numbers = None, []
        gate = (word, *numbers)
        if COUNTED.get(word) != len(numbers) or not gate_lists.is_fine(gate, self.wires):
            raise Stop(f"line {index + 1}, `{self.lines[index]}`, is no gate on wires below {self.wires}")
        return gate

    def place(self, *qubits):
        if self.held is not None:
            raise Stop("a goal is sought, until `meet`")
        if self.wires > self.qubits:
            raise Stop(f"{self.wires} wires of the source don't fit on the qubits of the target ({self.qubits})")
        if sorted(qubits) != list(range(self.qubits)):
            raise Stop(f"its numbers aren't those below {self.qubits}, each once")
        self.begins, self.now = qubits, list(qubits)

    # lines after `place`

    def first(self, i):
        """The slot of the gate at a place, no gate before it being on a wire of it."""
        slot = self.slot(i)
        for wire in gate_lists.wires_of(self.gate(slot)):
            if (slot, wire) in self.list.before:
                raise Stop(f"{self.at(slot)} has {self.at(self.list.before[slot, wire])} before it, on wire {wire}")
        return slot

    def emit(self, i):
        gate = self.list.take(self.first(i))
        on = [self.now[it] for it in gate_lists.wires_of(gate)]
        self.written.append((*gate[: len(gate) - len(on)], *on))

    def back(self, i):
        slot = self.first(i)
        if self.gate(slot)[0] != "C":
            raise Stop(f"{self.at(slot)} is no CNOT")
        _, control, target = self.list.take(slot)
        self.written += turned_cnot(self.now[control], self.now[target])
        self.turns += 4

    def elide(self, i):
        slots = [self.first(i)]
        if self.gate(slots[0])[0] != "C":
            raise Stop(f"{self.at(slots[0])} is no CNOT")
        _, control, target = self.gate(slots[0])
        for wanted in (("C", target, control), ("C", control, target)):
            found = {self.list.behind.get((slots[-1], wire)) for wire in (control, target)}
            slot = found.pop()
            if found or slot is None or self.gate(slot) != wanted:
                raise Stop(f"{self.at(slots[-1])} hasn't {gate_lists.shown(wanted)} next to it on both wires")
            slots.append(slot)
        for slot in slots:
            self.list.take(slot)
        self.exchange(self.now[control], self.now[target])

    def exchange(self, u, v):
        if u == v or max(u, v) >= self.qubits:
            raise Stop(f"{u} and {v} aren't two different qubits below {self.qubits}")
        at_u, at_v = self.now.index(u), self.now.index(v)
        self.now[at_u], self.now[at_v] = v, u

    def swap(self, u, v):
        self.exchange(u, v)
        self.written += [("C", u, v), ("C", v, u), ("C", u, v)]

    def turn(self, u, v):
        self.exchange(u, v)
        self.written += [("C", u, v), *turned_cnot(v, u), ("C", u, v)]
        self.turns += 4

    def end(self, power):
        if self.done + 1 < len(self.lines):
            raise Stop("lines stand behind it")
        if len(self.list):
            raise Stop(f"the list isn't empty: it begins with {self.at(self.slot(0))}")
        for i, (one, other) in enumerate(zip(self.written, self.target), 1):
            if one != other:
                raise Stop(f"gate {i} of the target is {gate_lists.shown(other)}, and {gate_lists.shown(one)} was appended")
        if len(self.written) != len(self.target):
            raise Stop(f"gates of the target: {len(self.target)}; appended: {len(self.written)}")
        wanted = (self.turns - self.target_turns) % 8
        if power != wanted:
            raise Stop(f"all turns together are {wanted}")
        self.power = power


def turned_cnot(control, target):
    """A CNOT by one the other way round, up to w^4."""
    around = [("H", control), ("H", target)]
    return [*around, ("C", target, control), *around]

