"""Placements without a swap: each two wires with a CNOT between them stand on neighbours.

Whether there is one is the question whether the pairs of a program are a part of the device's graph, which takes long at worst.
So a search ends after some steps. `networkx` looks for it if it is installed, else a search of this module.
"""

from __future__ import annotations

import collections.abc
import dataclasses
import re
import typing

import qroute

Graph: typing.TypeAlias = dict[int, set[int]]

CX = re.compile(r"cx \w+\[(\d+)\],\w+\[(\d+)\];")
MOST_STEPS = 300_000


class LimitCame(Exception):
    """The search has taken all its steps."""


@dataclasses.dataclass(frozen=True)
class Layout:
    """What a search for a placement without a swap found.

    Entry i of `placement` is the qubit of wire i; it is None if none was found. `is_settled` is False if the limit on steps came
    first, so that there may be one. `by` is what searched, `networkx` or `backtracking`, or `count` if the device has fewer qubits
    than the program.
    """

    placement: tuple[int, ...] | None
    is_settled: bool
    by: str


def graph_of(pairs: collections.abc.Iterable[collections.abc.Sequence[int]]) -> Graph:
    """The neighbours of each that is in a pair."""
    found: Graph = {}
    for one, other in pairs:
        found.setdefault(one, set()).add(other)
        found.setdefault(other, set()).add(one)
    return found


def order_of(wires: Graph) -> list[int]:
    """The wires, each the one with the most partners among those before it, then with the most at all."""
    waiting = dict.fromkeys(sorted(wires), 0)
    order = []
    while waiting:
        wire = max(waiting, key=lambda it: (waiting[it], len(wires[it])))
        del waiting[wire]
        order.append(wire)
        for it in wires[wire] & waiting.keys():
            waiting[it] += 1
    return order


def by_backtracking(wires: Graph, qubits: Graph, steps: int) -> dict[int, int] | None:
    """The first placement in this order of wires, and of qubits by their numbers."""
    order = order_of(wires)
    at: dict[int, int] = {}

    def choices(wire: int) -> collections.abc.Iterator[int]:
        near = [qubits[at[it]] for it in wires[wire] if it in at]
        free = set.intersection(*near) if near else set(qubits)
        return iter(sorted(it for it in free - set(at.values()) if len(qubits[it]) >= len(wires[wire])))

    open_choices: list[collections.abc.Iterator[int]] = []
    while len(at) < len(order):
        if len(open_choices) == len(at):
            steps -= 1
            if steps < 0:
                raise LimitCame
            open_choices.append(choices(order[len(at)]))
        qubit = next(open_choices[-1], None)
        if qubit is not None:
            at[order[len(at)]] = qubit
            continue
        open_choices.pop()
        if not at:
            return None
        del at[order[len(at) - 1]]
    return at


def by_networkx(networkx: typing.Any, wires: Graph, qubits: Graph, steps: int) -> dict[int, int] | None:
    """The first placement that `networkx` finds."""
    from networkx.algorithms import isomorphism

    class Counted(isomorphism.GraphMatcher):  # type: ignore[misc]
        left = steps

        def syntactic_feasibility(self, qubit: int, wire: int) -> bool:
            self.left -= 1
            if self.left < 0:
                raise LimitCame
            return bool(super().syntactic_feasibility(qubit, wire))

    graphs = [networkx.Graph({it: sorted(near) for it, near in sorted(one.items())}) for one in (qubits, wires)]
    for found in Counted(*graphs).subgraph_monomorphisms_iter():
        return {wire: qubit for qubit, wire in found.items()}
    return None


def searched(wires: Graph, qubits: Graph, steps: int) -> tuple[dict[int, int] | None, bool, str]:
    """A placement of the wires that have CNOTs, whether the question is settled, and what searched."""
    try:
        import networkx
    except ImportError:
        networkx = None
    by = "backtracking" if networkx is None else "networkx"
    try:
        if networkx is None:
            return by_backtracking(wires, qubits, steps), True, by
        return by_networkx(networkx, wires, qubits, steps), True, by
    except LimitCame:
        return None, False, by


def whole(at: dict[int, int], size: int, qubits: int) -> tuple[int, ...]:
    """The placement of all wires: those without CNOTs are on the qubits that are left, in turn."""
    left = iter(sorted(set(range(qubits)) - set(at.values())))
    return tuple(at[it] if it in at else next(left) for it in range(size))


def perfect_layout(
    text: str | bytes,
    device: qroute.Device,
    *,
    keep_barriers: bool = False,
    steps: int = MOST_STEPS,
    timeout: float | None = None,
) -> Layout:
    """Looks for a placement by which `route(text, device, initial=..)` needs no swap, in at most so many steps.

    The CNOTs are those of the program that `opt` writes, as `route` has them, with its barriers if they are kept. Nothing is
    proved of the search; a placement that it finds can be tried by `route`. Refusals are raised as by `opt`, and then, of the
    device, as by `route`.

    >>> text = 'OPENQASM 2.0; include "qelib1.inc"; qreg q[3]; cx q[0],q[2]; t q[2]; cx q[2],q[1];'
    >>> device = qroute.Device.of([(0, 1), (1, 2), (2, 3)], both=True)
    >>> found = perfect_layout(text, device)
    >>> found.is_settled, qroute.route(text, device, initial=found.placement).swaps
    (True, 0)
    """
    made = qroute.opt(text, keep_barriers=keep_barriers, timeout=timeout)
    qroute.route("OPENQASM 2.0;", device, timeout=timeout)
    wires = graph_of((int(it[1]), int(it[2])) for it in CX.finditer(made.text))
    count = device.qubits()
    if made.qubits > count:
        return Layout(None, True, "count")
    at, is_settled, by = searched(wires, graph_of(it[:2] for it in device.edges()), steps)
    return Layout(None if at is None else whole(at, made.qubits, count), is_settled, by)
