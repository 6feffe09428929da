"""What a program costs: gates by name, depths, and on a device with costs the estimated success.

A gate on more than one wire counts as its body has it, written out to CNOTs and gates on one wire. Each of these takes one step
on its wires. A T gate is a gate on one wire with an odd multiple of pi/4 for its phase. A barrier lets nothing past on the wires
that it names.
"""

from __future__ import annotations

import collections.abc
import dataclasses
import math
import tomllib
import typing

import qroute

from . import declarations, qasm

UNITS = 100_000  # a cost is -ln(1 - error) in units of 1/100,000
MOST_COST = 1_000_000


@dataclasses.dataclass(frozen=True)
class Metrics:
    """Counts of a program. `names` counts the statements by the gate's name; the others count gates written out.

    `success` is the product of what each CNOT succeeds with, on a device with costs, else None.
    """

    gates: int
    cx: int
    t: int
    depth: int
    cx_depth: int
    t_depth: int
    names: dict[str, int]
    success: float | None = None


class Depth:
    """The longest way through gates that count."""

    def __init__(self, size: int) -> None:
        self.steps = [0] * size

    def take(self, wires: collections.abc.Sequence[int], count: int) -> None:
        if len(wires) == 1:
            self.steps[wires[0]] += count
        elif wires:
            most = max(self.steps[it] for it in wires) + count
            for it in wires:
                self.steps[it] = most

    def most(self) -> int:
        return max(self.steps, default=0)


def written_out(gate: qasm.Gate, angles: list[typing.Any], wires: list[int]) -> collections.abc.Iterator[tuple[qasm.Gate, list[typing.Any], list[int]]]:
    """A gate written out to CNOTs and gates on one wire; an opaque gate is one."""
    waiting = [iter([(gate, angles, wires)])]
    while waiting:
        piece = next(waiting[-1], None)
        if piece is None:
            waiting.pop()
        elif piece[0] is qasm.CX or len(piece[2]) == 1 or piece[0].is_opaque:
            yield piece
        else:
            waiting.append(qasm.body_of(*piece))


def is_t(gate: qasm.Gate, angles: list[typing.Any]) -> bool:
    """Whether a gate on one wire with exact angles takes a T gate."""
    if gate.is_opaque:
        return False
    found = []
    for inner, values, _ in qasm.applied(gate, angles, [0]):
        if inner is qasm.U:
            turns = [qasm.eighths(it) for it in values]
            if None in turns:
                return False
            found.append(("U", *turns, 0))
    return bool(qasm.t_count(found) > 0)


def of(text: str, cost: int | None = None) -> Metrics:
    """The metrics of a program's text; `cost` is the sum of what its CNOTs cost on its device. A qasm.Fault if it can't be read."""
    program = qasm.read(text, most=qasm.MOST_ITEMS, whole=True, known=declarations.TABLE)
    return of_program(program, None if cost is None else math.exp(-cost / UNITS))


def of_program(program: qasm.Program, success: float | None = None) -> Metrics:
    """The metrics of a program that was read; a qasm.Fault if an angle of a body has no value."""
    depth, cx_depth, t_depth = (Depth(len(program.wires)) for _ in range(3))
    names: dict[str, int] = {}
    gates = cx = t = 0
    known: dict[typing.Any, list[tuple[list[int], bool, bool]]] = {}
    for step in program.steps:
        if step.kind == "barrier":
            for it in (depth, cx_depth, t_depth):
                it.take(step.wires, 0)
            continue
        names[step.name] = names.get(step.name, 0) + 1
        if step.kind != "gate":
            continue
        key = (id(step.gate), *step.angles)
        if key not in known:
            parts = written_out(step.gate, step.angles, list(range(len(step.wires))))
            with qasm.placed(step.offset):
                known[key] = [(on, gate is qasm.CX, len(on) == 1 and is_t(gate, values)) for gate, values, on in parts]
        for on, is_cx, is_odd in known[key]:
            wires = [step.wires[it] for it in on]
            gates, cx, t = gates + 1, cx + is_cx, t + is_odd
            for it, count in ((depth, 1), (cx_depth, is_cx), (t_depth, is_odd)):
                it.take(wires, int(count))
    return Metrics(gates, cx, t, depth.most(), cx_depth.most(), t_depth.most(), dict(sorted(names.items())), success)


def cost_of(error: float) -> int:
    """The cost in a device file of a CNOT with this rate of errors: -ln(1 - error) in units of 1/100,000, from 1 to 1,000,000."""
    if error >= 1:
        return MOST_COST
    return max(1, min(MOST_COST, round(-math.log1p(-error) * UNITS)))


def success_on(program: qasm.Program, device: qroute.Device) -> float | None:
    """What the CNOTs of a program on a device's qubits succeed with together, by the costs of its edges; None without costs.

    A pair of qubits costs what its cheapest edge costs. A KeyError for a CNOT on no edge, a qasm.Fault for an angle without a value.
    """
    table = tomllib.loads(device.text)
    if table.get("format", 1) != 2:
        return None
    costs: dict[frozenset[int], int] = {}
    for a, b, cost in table["edges"]:
        pair = frozenset((a, b))
        costs[pair] = min(cost, costs.get(pair, cost))
    total = 0
    for step in program.steps:
        if step.kind == "gate":
            with qasm.placed(step.offset):
                pieces = list(written_out(step.gate, step.angles, step.wires))
            total += sum(costs[frozenset(wires)] for gate, _, wires in pieces if gate is qasm.CX)
    return math.exp(-total / UNITS)
