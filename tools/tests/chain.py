"""Unitary programs on many wires, compared from a drawn state in which each wire is by itself, so that no term of it is 0.

The source is run, then the gates of the target are undone, the last first, and what was drawn has to come back, up to a phase.
Two programs that aren't the same up to a global phase differ so on almost every such state: if each came back, then with one
and the same phase, since they are joined, and the programs would be the same, since they span all states.

A state is a chain of tensors, one for each wire, joined by bonds (a matrix-product state in right-canonical form), and each bond is as wide
as what is entangled across it. The order of wires in the chain isn't fixed: two neighbours change places where that leaves
less entanglement between them, so a swap of two qubits, however it is written, costs nothing once its last gate is undone.
"""

import cmath
import math

import numpy

import simulation

# singular values from which on a bond is cut; what is cut away in all is added up, and counts as a difference
CUT = 1e-11
# by how much entanglement has to fall for two neighbours to change places
GAIN = 1e-6


class TooWide(Exception):
    """A bond is wider than there is room for."""


def drawn_wire(dice):
    """A state of one wire, of which neither part is small."""
    angle = dice.uniform(0.5, 1.0)
    return numpy.array([math.cos(angle), cmath.exp(1j * dice.uniform(0, 2 * math.pi)) * math.sin(angle)])


class Chain:
    """A state of wires; one that isn't named so far is at zero, and joins the chain where a gate first finds it."""

    WIDEST = 64

    def __init__(self, states):
        """Each wire in a state of its own, by a dict."""
        self.order = list(states)
        # axes: bond to the left, wire, bond to the right
        self.sites = [numpy.array(it, dtype=complex).reshape(1, 2, 1) for it in states.values()]
        # singular values of the bond to the left of each
        self.left = [numpy.ones(1) for _ in states]
        self.lost = 0.0
        self.widest = 1

    def run(self, gates):
        for matrix, wires in gates:
            self.apply(matrix, wires)

    def rename(self, names):
        self.order = [names[it] for it in self.order]

    def apply(self, matrix, wires):
        for i, wire in enumerate(wires):
            if wire not in self.order:
                self.join(wire, wires[i - 1] if i else next((it for it in wires if it in self.order), None))
        # a matrix is a list of columns
        matrix = numpy.array(matrix, dtype=complex).T
        if len(wires) == 1:
            at = self.order.index(wires[0])
            self.sites[at] = numpy.einsum("ab,lbr->lar", matrix, self.sites[at])
            return
        first = self.gather(wires)
        block = self.block(first, len(wires))
        now = self.order[first : first + len(wires)]
        # axis j of the block is now[j]; of a matrix's index the first wire is the lowest bit, which is its last axis
        size = len(wires)
        tensor = matrix.reshape([2] * (2 * size))
        axes = [now.index(wire) + 1 for wire in reversed(wires)]
        moved = numpy.tensordot(tensor, block, (range(size, 2 * size), axes))
        # its axes are the wires, the last one first, and then the bonds
        back = [size] + [size - 1 - wires.index(it) for it in now] + [size + 1]
        self.split(first, moved.transpose(back))
        self.settle(range(first, first + size + 1))

    def join(self, wire, neighbour):
        """Puts a wire at zero into the chain, behind its neighbour."""
        at = self.order.index(neighbour) + 1 if neighbour in self.order else len(self.order)
        values = self.left[at] if at < len(self.left) else numpy.ones(1)
        site = numpy.zeros((len(values), 2, len(values)), dtype=complex)
        site[:, 0, :] = numpy.eye(len(values))
        self.order.insert(at, wire)
        self.sites.insert(at, site)
        self.left.insert(at, values)

    def gather(self, wires):
        """Brings wires side by side, and says where the first is."""
        while True:
            places = sorted(self.order.index(it) for it in wires)
            gap = next((i for i in range(len(places) - 1) if places[i + 1] > places[i] + 1), None)
            if gap is None:
                return places[0]
            # the upper ones come down by one, or the lower ones go up, as leaves less between
            up = self.exchanged(places[gap])
            down = self.exchanged(places[gap + 1] - 1)
            if gap == 0 and (up[0] < down[0] or len(places) > 2):
                self.exchange(places[gap], up)
            else:
                self.exchange(places[gap + 1] - 1, down)

    def block(self, first, count):
        found = self.sites[first]
        for i in range(first + 1, first + count):
            found = numpy.tensordot(found, self.sites[i], 1)
        return found

    def split(self, first, block):
        """Puts a block of some wires back, as tensors of one each."""
        for j in range(block.ndim - 3, 0, -1):
            block, self.sites[first + j], self.left[first + j], lost = self.cut(first, block)
            self.note(first + j, lost)
        self.sites[first] = block

    def note(self, at, lost):
        self.lost += lost
        self.widest = max(self.widest, len(self.left[at]))
        if self.widest > self.WIDEST:
            raise TooWide

    def cut(self, first, block):
        """Takes the last wire off a block: the rest of it, the wire's tensor, the bond's singular values, and the norm of what is cut away."""
        *before, two, right = block.shape
        weighted = self.left[first].reshape(-1, *[1] * (block.ndim - 1)) * block
        values, last = singular(weighted.reshape(-1, two * right))
        kept = int((values > CUT).sum())
        lost = float(numpy.linalg.norm(values[kept:]))
        last = last[:kept]
        rest = block.reshape(-1, two * right) @ last.conj().T
        return rest.reshape(*before, len(last)), last.reshape(-1, two, right), values[:kept], lost

    def exchanged(self, at):
        """What the bond between two neighbours, and the two, would be if they changed places, with the entanglement first."""
        block = self.block(at, 2).transpose(0, 2, 1, 3)
        rest, last, values, lost = self.cut(at, block)
        return entanglement(values), rest, last, values, lost

    def exchange(self, at, found):
        _, self.sites[at], self.sites[at + 1], self.left[at + 1], lost = found
        self.order[at], self.order[at + 1] = self.order[at + 1], self.order[at]
        self.note(at + 1, lost)

    def settle(self, places):
        """Neighbours change places as long as that leaves less between them; the bonds to look at first are to the left of these places."""
        waiting = [it for it in places if 0 < it < len(self.order)]
        while waiting:
            at = waiting.pop()
            if len(self.left[at]) == 1:
                continue
            found = self.exchanged(at - 1)
            if found[0] < entanglement(self.left[at]) - GAIN:
                self.exchange(at - 1, found)
                waiting += [it for it in (at - 1, at + 1) if 0 < it < len(self.order) and it not in waiting]

    def apart(self, states):
        """How far the state is from one in which each wire is by itself, up to a global phase."""
        along, away = numpy.ones(1, dtype=complex), 0.0
        for wire, site in zip(self.order, self.sites):
            state = states.get(wire, numpy.array([1, 0]))
            other = numpy.array([-state[1].conjugate(), state[0].conjugate()])
            part = numpy.tensordot(along, site, 1)
            away += numpy.linalg.norm(other.conj() @ part) ** 2
            along = state.conj() @ part
        return math.sqrt(away) + abs(1 - abs(along[0])) + self.lost


def singular(matrix):
    """The singular values of a matrix, and the right ones of its vectors."""
    turned = matrix
    for seed in range(20):
        try:
            return numpy.linalg.svd(turned, full_matrices=False)[1:]
        except numpy.linalg.LinAlgError:
            # LAPACK sometimes doesn't come to an end on a matrix of low rank; a turn from the left changes nothing that is asked for
            square = numpy.random.default_rng(seed).normal(size=(len(matrix), len(matrix)))
            turned = numpy.linalg.qr(square)[0] @ matrix
    raise numpy.linalg.LinAlgError


def entanglement(values):
    weights = values**2 / (values @ values)
    return float(-(weights * numpy.log(weights)).sum())


def drawn_input(size, few, dice):
    """States of wires by themselves, and gates from these to the state in which programs are compared.

    Either each wire is in a drawn state, or with `few` only two are: then each of the others has a drawn value, to which none, one, or
    both of the two are added. So there are four terms, of which each two differ on about half of all wires."""
    if not few:
        return {it: drawn_wire(dice) for it in range(size)}, []
    turned = dice.sample(range(size), min(2, size))
    states = {it: drawn_wire(dice) if it in turned else numpy.eye(2, dtype=complex)[dice.getrandbits(1)] for it in range(size)}
    added = [(simulation.controlled(simulation.X), [it, to]) for it in turned for to in range(size) if to not in turned and dice.random() < 0.5]
    return states, added


def compared(source, target, initial, final, states, before):
    """How far two lists of gates, as matrices and wires, are apart between placements, from such a state."""
    chain = Chain(states)
    chain.run(before)
    chain.run(source)
    chain.rename(final)
    chain.run(undone(target))
    chain.run(undone([(matrix, [initial[it] for it in wires]) for matrix, wires in before]))
    return chain.apart({initial[wire]: it for wire, it in states.items()})


def undone(gates):
    return ((simulation.inverse(matrix), wires) for matrix, wires in reversed(gates))


def to_the_measurements(statements):
    """The gates of a program that measures at its end alone, as matrices and wires, and which wire each classical bit reads."""
    gates, reads = [], {}
    for it in statements:
        if it[0] == "measure" and it[1] not in reads.values() and it[2] not in reads:
            reads[it[2]] = it[1]
        elif it[0] == "gate" and not set(it[2]) & set(reads.values()):
            gates.append((it[1], list(it[2])))
        else:
            raise ValueError(f"{it[0]} after a measurement, or a reset or condition")
    return gates, reads


def apart(source, target, size, initial, final, seed=0, may_be_few=True):
    """How far statements on so many wires, and those that became of them on qubits, are apart between placements; 2 if other bits are measured.

    They are compared from a state none of whose terms is 0; or where that is too wide, and `may_be_few`, from five of four terms each.
    One of these five shows another phase of one sum of wires with a chance of 3/4, and the five miss it with one of 1/1024."""
    dice = simulation.drawn(seed)
    source, reads = to_the_measurements(source)
    target, ends = to_the_measurements(target)
    if ends != {bit: final[wire] for bit, wire in reads.items()}:
        return 2.0
    try:
        return compared(source, target, initial, final, *drawn_input(size, False, dice))
    except TooWide:
        if not may_be_few:
            raise
    worst = 0.0
    for _ in range(5):
        worst = max(worst, compared(source, target, initial, final, *drawn_input(size, True, dice)))
        if worst > 1e-3:
            break
    return worst
