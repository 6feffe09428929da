"""The passes of `opt` in the plain way of their definitions in docs/REWRITING.md: each step looks at the whole list.

A pass takes a number of wires and a list of gates, and gives another list, its turn, and the steps as a trace tells them.
"""

import dataclasses

import gates as gate_lists
import resynthesis
from gates import wires_of


@dataclasses.dataclass
class Passed:
    gates: list
    turn: int = 0
    steps: list = dataclasses.field(default_factory=list)

    def then(self, wires, rule):
        """The same with what a pass makes of it."""
        more = rule(wires, self.gates)
        return Passed(more.gates, (self.turn + more.turn) % 8, self.steps + more.steps)


def summed(wires, old, new):
    """A list with the same path sum: one step, or none if it is the same list."""
    if new == old:
        return Passed(new)
    constants = [gate_lists.path_sum(wires, it, {}).constant for it in (old, new)]
    return Passed(new, (constants[1] - constants[0]) % 8, [f"sums {len(new)}", *map(gate_lists.shown, new)])


def propagated(wires, gates):
    """NOT propagation: X goes to the end of its wire."""
    flags, found, turn = [False] * wires, [], 0
    for gate in gates:
        wire = gate[-1]
        if gate[0] == "X":
            turn += 4 * flags[wire]
            flags[wire] = not flags[wire]
        elif gate[0] == "C":
            found.append(gate)
            if flags[gate[1]]:
                turn += 2 + 4 * flags[wire]
                flags[wire] = not flags[wire]
        elif not flags[wire]:
            found.append(gate)
        elif gate[0] == "H":
            found += [gate, ("P", 4, wire)]
            flags[wire] = False
            turn += 6
        else:
            found.append(("P", 8 - gate[1], wire))
            turn += 8 - gate[1]
    passed = summed(wires, gates, found + [("X", it) for it in range(wires) if flags[it]])
    assert passed.turn == turn % 8, gates
    return passed


def next_on(gates, place, wire, step=1):
    """The place of the next gate on a wire, or with -1 of the last one before; None if there is none."""
    place += step
    while 0 <= place < len(gates):
        if wire in wires_of(gates[place]):
            return place
        place += step
    return None


# H, a gate, H on one wire: the gate between, what comes in place of the three, and the turn
TURNED = {
    1: (("P", 2), [("P", 6), ("H",), ("P", 6)], 6),
    2: (("P", 6), [("P", 2), ("H",), ("P", 2)], 0),
    3: (("P", 4), [None, ("X",), None], 0),
    4: (("X",), [None, ("P", 4), None], 4),
}


def window(gates, place):
    """The number of the window that begins at a place, what comes for each of its places, and the turn; None if none begins there."""
    if gates[place][0] != "H":
        return None
    wire = gates[place][1]
    places = [place]
    while len(places) < 5 and (following := next_on(gates, places[-1], wire)) is not None:
        places.append(following)
    there = [gates[it] for it in places]
    for rule, (middle, new, turn) in TURNED.items():
        if there[1:3] == [(*middle, wire), ("H", wire)]:
            return rule, {at: it and (*it, wire) for at, it in zip(places, new)}, turn
    if len(there) > 1 and there[1][0] == "C":
        return surrounded(gates, place, places[1])
    for rule, k in ((6, 2), (7, 6)):
        if there[1:2] + there[3:] == [("P", k, wire), ("P", 8 - k, wire), ("H", wire)] and there[2][0] == "C" and there[2][2] == wire:
            return rule, {places[0]: None, places[1]: ("P", 8 - k, wire), places[3]: ("P", k, wire), places[4]: None}, 6
    return None


def surrounded(gates, place, middle):
    """The window of a CNOT with four H around it, if it begins at a place."""
    _, control, target = gates[middle]
    around = [next_on(gates, middle, wire, step) for step in (-1, 1) for wire in (control, target)]
    if None in around or any(gates[it][0] != "H" for it in around) or min(around) != place:
        return None
    return 5, {middle: ("C", target, control), **{it: None for it in around}}, 4


def reduced(_wires, gates):
    """Hadamard reduction: every window, from the first place to the last, again until none is left."""
    passed, is_changed = Passed(list(gates)), True
    while is_changed:
        is_changed, place = False, 0
        while place < len(passed.gates):
            found = window(passed.gates, place)
            if found is None:
                place += 1
                continue
            rule, edits, turn = found
            passed.gates = [it for it in (edits.get(at, gate) for at, gate in enumerate(passed.gates)) if it is not None]
            passed.turn = (passed.turn + turn) % 8
            passed.steps.append(f"rule {rule} {place}")
            is_changed = True
    return passed


def partner(gates, place):
    """The first later gate that cancels or merges with one, if it commutes with all between."""
    for later in range(place + 1, len(gates)):
        if gate_lists.cancelled(gates[place], gates[later]):
            return later
        if not gate_lists.commute(gates[place], gates[later]):
            return None
    return None


def cancelled(_wires, gates):
    """Cancellation: walks over all places, until one changes nothing."""
    passed, is_changed = Passed(list(gates)), True
    listed = passed.gates
    while is_changed:
        is_changed, place = False, 0
        while place < len(listed):
            later = partner(listed, place)
            if later is None:
                place += 1
                continue
            how, number = gate_lists.cancelled(listed[place], listed.pop(later))
            if how == "both":
                listed.pop(place)
                passed.turn = (passed.turn + number) % 8
            else:
                listed[place] = ("P", number, listed[place][-1])
            passed.steps.append(f"{how} {place} {later}")
            is_changed = True
    return passed


def merged(wires, gates):
    """Rotation merging: of the phases on one set of variables the earliest stays, with the sum of all."""
    labels = [(frozenset([it]), False) for it in range(wires)]
    variables, totals, on, found = wires, {}, [], []
    for gate in gates:
        wire = gate[-1]
        variables_of, bit = labels[wire]
        on.append((variables_of, bit))
        if gate[0] == "C":
            added, turned = labels[gate[1]]
            labels[wire] = (variables_of ^ added, bit ^ turned)
        elif gate[0] == "X":
            labels[wire] = (variables_of, not bit)
        elif gate[0] == "P":
            totals[variables_of] = (totals.get(variables_of, 0) + (-gate[1] if bit else gate[1])) % 8
        else:
            labels[wire] = (frozenset([variables]), False)
            variables += 1
    for gate, (variables_of, bit) in zip(gates, on):
        if gate[0] != "P":
            found.append(gate)
        elif total := totals.pop(variables_of, 0):
            found.append(("P", 8 - total if bit else total, gate[2]))
    return summed(wires, gates, found)


def resynthesised(wires, gates):
    return summed(wires, gates, resynthesis.rewritten(wires, gates))


def round_of(wires, passed):
    for it in (propagated, reduced, cancelled, merged):
        passed = passed.then(wires, it)
    return passed


def rounds_of(wires, gates):
    """Rounds as long as each leaves fewer gates."""
    kept = round_of(wires, Passed(list(gates)))
    while len((following := round_of(wires, kept)).gates) < len(kept.gates):
        kept = following
    return kept


def optimised(wires, gates):
    """Rounds, resynthesis, and then the last three passes as long as two of them leave fewer gates."""
    kept = rounds_of(wires, gates).then(wires, resynthesised)
    while True:
        first = kept.then(wires, reduced)
        kept = first.then(wires, cancelled).then(wires, merged)
        if len(kept.gates) >= len(first.gates):
            return kept
