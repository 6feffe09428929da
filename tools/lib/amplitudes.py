"""Whether one list of operations is another by exact amplitudes, its wires on qubits of their own, and up to a power of w."""

import dataclasses
import itertools

import exact

MOST_WIRES = 12
# changes of values of all basis states that are tried of a larger program, and how many are tried
MOST_CHANGES = 1_000_000
MOST_TRIED = 16


@dataclasses.dataclass
class Part:
    """Operations of the source, what is written for them, the placements before and after that, and the power of exp(i pi/4)."""

    source: list
    target: list
    begins: list
    ends: list
    phase: int


def renamed(operations, name):
    """The operations with their wires under other names."""
    return [(it[0], name[it[1]], name[it[2]]) if it[0] == "CX" else (*it[:4], name[it[4]]) for it in operations]


def moving(size, wires, part):
    """The wires that must be looked at: the source's, and the spare ones that move or are touched."""
    touched = {qubit for it in part.target for qubit in (it[1:] if it[0] == "CX" else it[4:])}
    return [
        wire
        for wire in range(size)
        if wire < wires or part.begins[wire] != part.ends[wire] or part.begins[wire] in touched
    ]


class Comparison:
    """Both sides of a part on the same wires: those of the source first, then spare ones.

    The first `free` of them start at any state, the others at zero.
    """

    def __init__(self, part, kept, free):
        self.size = len(kept)
        self.free = free
        self.source = part.source
        self.phase = part.phase
        number = {part.begins[wire]: i for i, wire in enumerate(kept)}
        # A qubit bears the number of the wire that begins there.
        self.target = renamed(part.target, number)
        self.ends = [number[part.ends[wire]] for wire in kept]

    def brought_back(self, state):
        """The state of the output, with each wire where it began."""
        values = [exact.ZERO] * len(state.values)
        for i in range(len(values)):
            j = sum(1 << self.ends[wire] for wire in range(self.size) if i >> wire & 1)
            values[i] = state.values[j]
        state.values = values
        return state

    def differs(self, make):
        """The first amplitude that differs from the same state on, with both values; None if there is none."""
        left = make().run(self.source)
        right = self.brought_back(make().run(self.target))
        i = exact.first_difference(left, right, self.phase)
        if i is None:
            return None
        wanted = exact.shown(exact.turned(left.values[i], self.phase), left.halvings)
        return i, wanted, exact.shown(right.values[i], right.halvings)

    def first(self, is_whole):
        """What differs: basis state, amplitude, and both values."""
        if not is_whole and self.differs(lambda: exact.mixed(self.free, self.size - self.free)) is None:
            return None
        for index in range(2**self.free):
            found = self.differs(lambda index=index: exact.basis(self.size, index))
            if found is not None:
                return (index, *found)
        return None

    def brought_from(self, index):
        """The index of a state of the output, with each wire where it began."""
        return sum(1 << wire for wire in range(self.size) if index >> self.ends[wire] & 1)

    def to_try(self):
        """The basis states that are tried one by one: all, or some if there are too many."""
        if self.free <= MOST_WIRES:
            return exact.each_scattered(self.free)
        return itertools.islice(exact.scattered(self.free), MOST_TRIED)

    def tried(self):
        """How many basis states were tried, as many as the work allows, and what differs of the first that does."""
        left, count = MOST_CHANGES, 0
        for begins in self.to_try():
            try:
                source = exact.Sparse(begins, left).run(self.source)
                target = exact.Sparse(begins, source.left).run(self.target)
            except exact.Overgrown:
                break
            left, count = target.left, count + 1
            found = {self.brought_from(i): value for i, value in target.values.items()}
            for i in sorted(source.values.keys() | found.keys()):
                wanted = exact.turned(source.values.get(i, exact.ZERO), self.phase)
                got = found.get(i, exact.ZERO)
                if exact.rooted_often(wanted, target.halvings) != exact.rooted_often(got, source.halvings):
                    return count, (begins, i, exact.shown(wanted, source.halvings), exact.shown(got, target.halvings))
        return count, None
