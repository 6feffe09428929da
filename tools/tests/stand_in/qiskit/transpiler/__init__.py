"""The transpiler: layouts, maps, targets and the manager of passes."""

from __future__ import annotations

import dataclasses
import typing

from qiskit.circuit import QuantumCircuit, Qubit
from qiskit.converters import circuit_to_dag, dag_to_circuit
from qiskit.transpiler.basepasses import PropertySet, TransformationPass

__all__ = ["CouplingMap", "InstructionProperties", "Layout", "PassManager", "PassManagerConfig", "Target", "TranspileLayout"]


class CouplingMap:
    def __init__(self, couplinglist: typing.Sequence[tuple[int, int]]) -> None:
        self.edges = [tuple(it) for it in couplinglist]

    def get_edges(self) -> list[tuple[int, ...]]:
        return self.edges

    def size(self) -> int:
        return 1 + max(max(it) for it in self.edges)


@dataclasses.dataclass
class InstructionProperties:
    duration: float | None = None
    error: float | None = None


Properties = dict[tuple[int, ...] | None, InstructionProperties | None]


class Target:
    def __init__(self, num_qubits: int | None, gates: dict[str, Properties]) -> None:
        self.num_qubits, self.gates = num_qubits, gates

    @property
    def operation_names(self) -> list[str]:
        return list(self.gates)

    def __getitem__(self, name: str) -> Properties:
        return self.gates[name]


class Layout:
    def __init__(self, input_dict: dict[Qubit, int]) -> None:
        self.virtual = dict(input_dict)

    def get_virtual_bits(self) -> dict[Qubit, int]:
        return self.virtual

    def __getitem__(self, bit: Qubit) -> int:
        return self.virtual[bit]

    def compose(self, other: Layout, qubits: list[Qubit]) -> Layout:
        return Layout({bit: other[qubits[index]] for bit, index in self.virtual.items()})


@dataclasses.dataclass
class TranspileLayout:
    initial_layout: Layout
    input_qubit_mapping: dict[Qubit, int]
    final_layout: Layout | None
    _input_qubit_count: int
    _output_qubit_list: list[Qubit]

    def initial_index_layout(self) -> list[int]:
        return [self.initial_layout[it] for it, _ in sorted(self.input_qubit_mapping.items(), key=lambda it: it[1])]

    def routing_permutation(self) -> list[int]:
        if self.final_layout is None:
            return list(range(len(self._output_qubit_list)))
        return [self.final_layout[it] for it in self._output_qubit_list]

    def final_index_layout(self) -> list[int]:
        moved = self.routing_permutation()
        return [moved[it] for it in self.initial_index_layout()[: self._input_qubit_count]]


@dataclasses.dataclass
class PassManagerConfig:
    coupling_map: CouplingMap | None = None
    target: Target | None = None
    basis_gates: list[str] | None = None
    translation_method: str | None = None


class PassManager:
    def __init__(self, passes: typing.Sequence[TransformationPass] = ()) -> None:
        self.passes = list(passes)
        self.property_set = PropertySet()

    def __iadd__(self, other: PassManager) -> PassManager:
        self.passes += other.passes
        return self

    def run(self, circuit: QuantumCircuit) -> QuantumCircuit:
        dag = circuit_to_dag(circuit)
        for it in self.passes:
            it.property_set = self.property_set
            dag = it.run(dag)
        written = dag_to_circuit(dag)
        if self.property_set["layout"] is not None:
            written._layout = TranspileLayout(
                self.property_set["layout"],
                self.property_set["original_qubit_indices"],
                self.property_set["final_layout"],
                len(circuit.qubits),
                written.qubits,
            )
        return written
