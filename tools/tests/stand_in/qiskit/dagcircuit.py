"""A circuit as passes have it; here it is a circuit with other names."""

import typing

from qiskit.circuit import Clbit, QuantumCircuit, Qubit


class DAGCircuit:
    def __init__(self, circuit: QuantumCircuit) -> None:
        self.circuit = circuit
        self.qubits: list[Qubit] = circuit.qubits
        self.clbits: list[Clbit] = circuit.clbits
        self.qregs = {it.name: it for it in circuit.qregs}
        self.cregs = {it.name: it for it in circuit.cregs}
        self.name: str = circuit.name
        self.metadata: dict[str, typing.Any] = circuit.metadata
        self.global_phase = circuit.global_phase

    def count_ops(self) -> dict[str, int]:
        return self.circuit.count_ops()
