"""Swaps that a router wrote, found again in a program: three CNOTs on a pair of qubits with nothing of it between.

If an edge has one direction the one in the middle is reversed by H on both qubits, before it and after it.
"""

import dataclasses


@dataclasses.dataclass
class Swap:
    steps: list  # the numbers of its steps
    pair: tuple


class Chains:
    """The steps of a program, with the next one on each wire."""

    def __init__(self, steps):
        self.steps = steps
        self.next = {}  # of a step and one of its wires
        last = {}
        for i, step in enumerate(steps):
            for wire in step.wires:
                if wire in last:
                    self.next[last[wire], wire] = i
                last[wire] = i

    def cnot(self, at, pair, turned=False):
        """Whether a step is a CNOT on a pair, from the first to the second, or with `turned` the other way."""
        wires = list(reversed(pair)) if turned else list(pair)
        return at is not None and self.steps[at].name in ("cx", "CX") and self.steps[at].wires == wires

    def after(self, places, pair):
        """The steps after those on the two wires, one for each."""
        return [self.next.get((at, wire)) for at, wire in zip(places, pair)]

    def swap_at(self, first):
        """The swap that begins at a step; None if none does."""
        step = self.steps[first]
        if step.kind != "gate" or len(step.wires) != 2:
            return None
        pair = tuple(step.wires)
        if not self.cnot(first, pair):
            return None
        middle = self.after([first, first], pair)
        if middle[0] is not None and middle[0] == middle[1] and self.cnot(middle[0], pair, True):
            last = self.after(middle, pair)
            if last[0] == last[1] and self.cnot(last[0], pair):
                return Swap([first, middle[0], last[0]], pair)
        found, at = [first], [first, first]
        for _ in range(2):
            before = self.after(at, pair)
            if None in before or any(self.steps[it].name != "h" for it in before):
                return None
            at = self.after(before, pair)
            if at[0] != at[1] or not self.cnot(at[0], pair):
                return None
            found += [*before, at[0]]
        return Swap(found, pair)


def found(steps):
    """The swaps among the steps of a program, none with a step of another, the first ones first."""
    chains, taken, result = Chains(steps), set(), []
    for i in range(len(steps)):
        swap = chains.swap_at(i) if i not in taken else None
        if swap is not None and taken.isdisjoint(swap.steps):
            taken.update(swap.steps)
            result.append(swap)
    return result


def placements(swaps, initial):
    """The placement after each swap, the first one before all."""
    found = [list(initial)]
    for swap in swaps:
        exchange = dict([swap.pair, swap.pair[::-1]])
        found.append([exchange.get(it, it) for it in found[-1]])
    return found


def told(steps, report):
    """The swaps of a routed program, if they are those of its report: so many, from the placement at first to the one at the end."""
    result = found(steps)
    is_so = len(result) == report["swaps"] and placements(result, report["initial"])[-1] == report["final"]
    return result if is_so else None
