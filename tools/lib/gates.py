"""Gates as traces tell them, `("H", q)`, `("X", q)`, `("P", k, q)` and `("C", control, target)`, and what may be done to them.

`expanded` makes them of operations, `commute` and `cancelled` are the tables of pairs, `Gates` is a list whose places stay
known while gates go, `path_sum` is what a list does along its paths, and `differences` and `differences_as_functions` compare
two of them. All of it is written from the definitions in docs/REWRITING.md, in the plain way.
"""

import dataclasses


def shown(gate):
    """A gate as a line of a trace spells it."""
    return " ".join(map(str, gate))


def wires_of(gate):
    return gate[1:] if gate[0] == "C" else gate[-1:]


def is_fine(gate, size):
    """Whether a gate may stand on so many wires."""
    wires = wires_of(gate)
    return max(wires) < size and len(set(wires)) == len(wires) and (gate[0] != "P" or 0 < gate[1] < 8)


def gates_of(operation):
    """The gates of an operation, and the turn that they are of it."""
    if operation[0] == "CX":
        return [("C", *operation[1:])], 0
    a, b, c, wire = operation[1:]
    # each number but H and X is a phase
    rows = {0: ([b + c], 0), 2: ([c + 4, "H", b], 0), 4: ([c + 4, "X", b], 0), 6: ([c, "H", b + 4], 2)}
    row, turn = rows.get(a, ([c + 6, "H", a, "H", b + 2], 2))
    gates = [(it, wire) if isinstance(it, str) else ("P", it % 8, wire) for it in row]
    return [it for it in gates if it[:2] != ("P", 0)], turn


def expanded(operations):
    """The gates of operations, and all their turns together."""
    found, turn = [], 0
    for it in operations:
        gates, more = gates_of(it)
        found += gates
        turn += more
    return found, turn % 8


def commute(one, other):
    """Whether two gates may be exchanged, by the table of pairs."""
    if not set(wires_of(one)) & set(wires_of(other)):
        return True
    first, second = sorted((one, other))
    match first[0], second[0]:
        case ("P", "P") | ("X", "X"):
            return True
        case ("C", "C"):
            return first[1] != second[2] and first[2] != second[1]
        case ("C", "P"):
            return second[-1] != first[2]
        case ("C", "X"):
            return second[-1] != first[1]
    return False


def cancelled(one, other):
    """What is left of two neighbours: `("both", turn)` if it is nothing, `("join", k)` if it is P(k), else None."""
    if one[0] != other[0] or wires_of(one) != wires_of(other):
        return None
    if one[0] == "P":
        k = (one[1] + other[1]) % 8
        return ("join", k) if k else ("both", 0)
    return "both", {"H": 6, "X": 4, "C": 0}[one[0]]


def pair_left(gates):
    """The places of two gates that cancel or merge past those between them; None if no two do."""
    listed = Gates(gates)
    for place, gate in enumerate(gates):
        for other in listed.behind_it(place):
            if cancelled(gate, gates[other]):
                return place, other
            if not commute(gate, gates[other]):
                break
    return None


class Places:
    """Numbers from 0 on of which some go: which is at a place among those that are left, and the place of each.

    Each entry i of `tree` counts those that are left of the numbers below i, as far back as the lowest bit of i says, so a
    place is found in as many steps as the length has bits.
    """

    def __init__(self, size):
        self.left = size
        self.tree = [i & -i for i in range(size + 1)]

    def at(self, place):
        found, step = 0, 1 << len(self.tree).bit_length()
        while step:
            if found + step < len(self.tree) and self.tree[found + step] <= place:
                found += step
                place -= self.tree[found]
            step //= 2
        return found

    def of(self, number):
        place = 0
        while number:
            place += self.tree[number]
            number -= number & -number
        return place

    def take(self, number):
        self.left -= 1
        number += 1
        while number < len(self.tree):
            self.tree[number] -= 1
            number += number & -number


class Gates:
    """A list from which gates go. A gate has a slot, which stays its own; a place is the number of gates before it."""

    def __init__(self, gates):
        self.gates = list(gates)  # by slot; None if it went
        self.places = Places(len(self.gates))
        self.before, self.behind = {}, {}  # of a slot and one of its gate's wires, the nearest slots on that wire
        last = {}
        for slot, gate in enumerate(self.gates):
            for wire in wires_of(gate):
                if wire in last:
                    self.before[slot, wire] = last[wire]
                    self.behind[last[wire], wire] = slot
                last[wire] = slot

    def __len__(self):
        return self.places.left

    def listed(self):
        return [it for it in self.gates if it is not None]

    def follow(self, slot, wire, count):
        """A slot and the next ones on a wire, so many in all, or fewer if the wire ends."""
        found = [slot]
        while len(found) < count and (found[-1], wire) in self.behind:
            found.append(self.behind[found[-1], wire])
        return found

    def between(self, first, last):
        """The slots between two that are on a wire of the first one's gate."""
        for wire in wires_of(self.gates[first]):
            slot = self.behind.get((first, wire))
            while slot is not None and slot < last:
                yield slot
                slot = self.behind.get((slot, wire))

    def behind_it(self, slot):
        """The slots after one that are on a wire of its gate, in order."""
        near = {wire: self.behind.get((slot, wire)) for wire in wires_of(self.gates[slot])}
        while left := [it for it in near.values() if it is not None]:
            first = min(left)
            yield first
            near = {wire: self.behind.get((first, wire)) if it == first else it for wire, it in near.items()}

    def put(self, slot, gate):
        """Another gate on the same wires in the place of one."""
        self.gates[slot] = gate

    def take(self, slot):
        """A gate goes, and is given."""
        gate, self.gates[slot] = self.gates[slot], None
        self.places.take(slot)
        for wire in wires_of(gate):
            before, behind = self.before.pop((slot, wire), None), self.behind.pop((slot, wire), None)
            if before is not None:
                del self.behind[before, wire]
            if behind is not None:
                del self.before[behind, wire]
            if before is not None and behind is not None:
                self.behind[before, wire], self.before[behind, wire] = behind, before
        return gate


@dataclasses.dataclass
class PathSum:
    """What a list of gates does along its paths.

    A variable is a wire with a number: 0 is the wire's input, and k its k-th H. A set of variables is a whole number with a
    bit for each, the bits being dealt out as variables come up.
    """

    counts: list  # for each wire how many H are on it
    sets: dict  # for each H, by its variable, the set before it
    last: list  # for each wire its last label, a set and a bit
    totals: dict  # what stands on each set, modulo 8, if that isn't 0
    constant: int


def path_sum(size, gates, bits):
    """The path sum of gates on so many wires; `bits` has the bit of each variable, and gets those that are new."""

    def own(*variable):
        return 1 << bits.setdefault(variable, len(bits))

    labels = [(own(wire, 0), 0) for wire in range(size)]
    seen = [0] * size
    found = PathSum(seen, {}, labels, {}, 0)

    def put(on, k):
        found.totals[on] = (found.totals.get(on, 0) + k) % 8

    for gate in gates:
        wire = gate[-1]
        on, bit = labels[wire]
        if gate[0] == "C":
            added, turned = labels[gate[1]]
            labels[wire] = (on ^ added, bit ^ turned)
        elif gate[0] == "X":
            labels[wire] = (on, 1 - bit)
            found.constant += 2
        elif gate[0] == "P":
            put(on, -gate[1] if bit else gate[1])
            found.constant += gate[1] if bit else 0
        else:
            seen[wire] += 1
            found.sets[wire, seen[wire]] = on
            labels[wire] = (own(wire, seen[wire]), 0)
            put(labels[wire][0], 4 * bit)
    found.totals = {on: k for on, k in found.totals.items() if k}
    return found


def odd_parities(size, operations):
    """On how many sets an odd number stands at the end: to so few T gates operations on so many wires come by merging."""
    return sum(k % 2 for k in path_sum(size, expanded(operations)[0], {}).totals.values())


def said(on, bits, more=()):
    """A set of variables in words, as a sum with what else there is."""
    names = named(on, bits)
    return " + ".join([*names[:4], *[".."] * (len(names) > 4), *more])


def named(on, bits):
    """The variables of a set, in words."""
    return [f"H {k} of wire {wire}" if k else f"wire {wire}" for (wire, k), it in bits.items() if on >> it & 1]


def differences(old, new, bits):
    """Where two path sums aren't the same, in words."""
    yield from differences_besides(old, new, bits)
    for on in {**old.totals, **new.totals}:
        if old.totals.get(on) != new.totals.get(on):
            yield f"phases of {new.totals.get(on, 0)} on {said(on, bits)} in place of {old.totals.get(on, 0)}"


def differences_as_functions(old, new, bits):
    """The same, where phases may stand on other sets if they come to the same for all values of the variables."""
    yield from differences_besides(old, new, bits)
    ones = values_apart(old, new)
    if ones is not None:
        *names, last = named(ones, bits)
        where = f"{', '.join(names)} and {last} alone are" if names else f"{last} alone is"
        yield f"phases of {phase_at(new, ones)} in place of {phase_at(old, ones)} where {where} 1"


def differences_besides(old, new, bits):
    """Where they differ besides the phases."""
    for wire, (one, other) in enumerate(zip(old.counts, new.counts)):
        if one != other:
            yield f"{other} H on wire {wire} in place of {one}"
    for (wire, k), on in new.sets.items():
        if on != old.sets.get((wire, k), on):
            yield f"H {k} of wire {wire} on {said(on, bits)} in place of {said(old.sets[wire, k], bits)}"
    for wire, (one, other) in enumerate(zip(old.last, new.last)):
        if one != other:
            (before, bit), (its, turned) = one, other
            yield f"{said(its, bits, ['1'] * turned)} at the end of wire {wire} in place of {said(before, bits, ['1'] * bit)}"


def phase_at(found, ones):
    """What stands on the sets of a path sum together, modulo 8, where these variables are 1 and the others 0."""
    return sum(k for on, k in found.totals.items() if (on & ones).bit_count() % 2) % 8


def values_apart(old, new):
    """At most three variables that tell the phases of two path sums apart if they are 1 and the others 0; None if nothing does.

    It is enough to look at as many variables as there are independent sets among those on which a difference d stands, chosen so
    that they give these sets whatever values. On them a parity is the sum of its variables less twice that of its pairs and four
    times that of its triples, modulo 8. So the differences vanish exactly if the d of the sets with a variable come to 0
    modulo 8, of those with two variables to 0 modulo 4, and of those with three to 0 modulo 2.
    """
    left = {on: (new.totals.get(on, 0) - old.totals.get(on, 0)) % 8 for on in {**old.totals, **new.totals}}
    left = {on: d for on, d in left.items() if d}
    rows = {}  # by its greatest variable
    for on in left:
        while on and (lead := on.bit_length() - 1) in rows:
            on ^= rows[lead]
        if on:
            rows[lead] = on
    leads = sorted(rows)
    # sets as bits: those with each of the variables, and those whose d has each bit
    with_lead = [sum(1 << i for i, on in enumerate(left) if on >> lead & 1) for lead in leads]
    digits = [sum(1 << i for i, d in enumerate(left.values()) if d >> bit & 1) for bit in range(3)]

    def choices(count, among, begin=0):
        """Choices of so many of the variables, with the sets among some that have all of these, if there is one."""
        if count == 0:
            yield 0, among
            return
        for i in range(begin, len(leads)):
            if its := among & with_lead[i]:
                for ones, both in choices(count - 1, its, i + 1):
                    yield ones | 1 << leads[i], both

    for count, modulus in ((1, 8), (2, 4), (3, 2)):
        for ones, among in choices(count, (1 << len(left)) - 1):
            if sum((among & it).bit_count() << bit for bit, it in enumerate(digits)) % modulus:
                return ones
    return None
