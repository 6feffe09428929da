"""Between pytket and `qroute`: a circuit routed for an architecture, or rewritten with fewer gates.

    from qroute.pytket import route_circuit
    routed, begins, ends = route_circuit(circuit, architecture)

Written for pytket's documented interface, and tried with a small stand-in of the names that it uses; it wasn't run with pytket
itself. Only this file imports pytket. What is refused is an exception of `qroute`. Both circuits are the same up to a global
phase.
"""

from __future__ import annotations

import typing

from pytket.architecture import Architecture
from pytket.circuit import Circuit, Node, Qubit
from pytket.qasm import circuit_from_qasm_str, circuit_to_qasm_str

import qroute

__all__ = ["device_of", "opt_circuit", "route_circuit"]


def nodes_of(architecture: Architecture) -> list[Node]:
    """The nodes of an architecture, in the order in which the device's qubits have their numbers."""
    return sorted(architecture.nodes)


def device_of(architecture: Architecture) -> qroute.Device:
    """The device of an architecture; a CNOT may have each of its edges in both directions, as pytket means it."""
    numbers = {node: number for number, node in enumerate(nodes_of(architecture))}
    return qroute.Device.of([(numbers[a], numbers[b]) for a, b in architecture.coupling], len(numbers), both=True)


def route_circuit(circuit: Circuit, architecture: Architecture, **options: typing.Any) -> tuple[Circuit, dict[Qubit, Node], dict[Qubit, Node]]:
    """The circuit on the nodes of an architecture, and the node where each of its qubits begins and ends.

    Options are those of `qroute.route`.
    """
    nodes = nodes_of(architecture)
    found = qroute.route(circuit_to_qasm_str(circuit), device_of(architecture), **options)
    routed = circuit_from_qasm_str(found.text)
    routed.rename_units(dict(zip(sorted(routed.qubits), nodes)))
    wires = sorted(circuit.qubits)
    begins, ends = ({wire: nodes[it] for wire, it in zip(wires, places)} for places in (found.initial, found.final))
    return routed, begins, ends


def opt_circuit(circuit: Circuit, **options: typing.Any) -> Circuit:
    """The circuit on its own qubits, with fewer gates. Options are those of `qroute.opt`."""
    found = qroute.opt(circuit_to_qasm_str(circuit), **options)
    written = circuit_from_qasm_str(found.text)
    written.rename_units(dict(zip(sorted(written.qubits), sorted(circuit.qubits))))
    return written
