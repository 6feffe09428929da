"""Circuits: bits, registers, gates with Qiskit's matrices, and lists of instructions."""

from __future__ import annotations

import cmath
import dataclasses
import math
import typing


class Qubit:
    pass


class Clbit:
    pass


class Register:
    def __init__(self, size: int, name: str, kind: type) -> None:
        self.name = name
        self.bits: list[typing.Any] = [kind() for _ in range(size)]

    def __iter__(self) -> typing.Iterator[typing.Any]:
        return iter(self.bits)

    def __len__(self) -> int:
        return len(self.bits)

    def __getitem__(self, index: int) -> typing.Any:
        return self.bits[index]


class QuantumRegister(Register):
    def __init__(self, size: int, name: str = "q") -> None:
        super().__init__(size, name, Qubit)


class ClassicalRegister(Register):
    def __init__(self, size: int, name: str = "c") -> None:
        super().__init__(size, name, Clbit)


Matrix = list[list[complex]]
HALF = 1 / math.sqrt(2)


def diagonal(angle: float) -> Matrix:
    return [[1, 0], [0, cmath.exp(1j * angle)]]


def permuted(images: list[int]) -> Matrix:
    """The matrix that takes basis state x to images[x]; bit i of a state is that of qubit i."""
    return [[1 if images[x] == y else 0 for x in range(len(images))] for y in range(len(images))]


FIXED: dict[str, tuple[int, Matrix]] = {
    "id": (1, [[1, 0], [0, 1]]),
    "h": (1, [[HALF, HALF], [HALF, -HALF]]),
    "x": (1, [[0, 1], [1, 0]]),
    "y": (1, [[0, -1j], [1j, 0]]),
    "z": (1, diagonal(math.pi)),
    "s": (1, diagonal(math.pi / 2)),
    "sdg": (1, diagonal(-math.pi / 2)),
    "t": (1, diagonal(math.pi / 4)),
    "tdg": (1, diagonal(-math.pi / 4)),
    "sx": (1, [[(1 + 1j) / 2, (1 - 1j) / 2], [(1 - 1j) / 2, (1 + 1j) / 2]]),
    "cx": (2, permuted([0, 3, 2, 1])),
    "swap": (2, permuted([0, 2, 1, 3])),
    "ccx": (3, permuted([0, 1, 2, 7, 4, 5, 6, 3])),
}


class Gate:
    """A gate, a barrier or a measurement."""

    def __init__(self, name: str, num_qubits: int, params: list[float]) -> None:
        self.name, self.num_qubits, self.params = name, num_qubits, params

    def to_matrix(self) -> Matrix:
        if self.name == "rz":
            half = self.params[0] / 2
            return [[cmath.exp(-1j * half), 0], [0, cmath.exp(1j * half)]]
        if self.name == "p":
            return diagonal(self.params[0])
        return FIXED[self.name][1]


class Instruction(typing.NamedTuple):
    operation: Gate
    qubits: tuple[Qubit, ...]
    clbits: tuple[Clbit, ...]


@dataclasses.dataclass
class Found:
    index: int


class QuantumCircuit:
    def __init__(self, *regs: typing.Any, name: str | None = None, global_phase: float = 0, metadata: dict[str, typing.Any] | None = None) -> None:
        self.qubits: list[Qubit] = []
        self.clbits: list[Clbit] = []
        self.qregs: list[QuantumRegister] = []
        self.cregs: list[ClassicalRegister] = []
        self.name, self.metadata = name or "circuit", metadata or {}
        self.global_phase = global_phase
        self.data: list[Instruction] = []
        self._layout: typing.Any = None
        if all(isinstance(it, int) for it in regs):
            regs = tuple(kind(it) for kind, it in zip((QuantumRegister, ClassicalRegister), regs))
        for reg in regs:
            if isinstance(reg, QuantumRegister):
                self.qregs.append(reg)
            elif isinstance(reg, ClassicalRegister):
                self.cregs.append(reg)
            for bit in reg:
                if bit not in self.bits_like(bit):
                    self.bits_like(bit).append(bit)

    @property
    def layout(self) -> typing.Any:
        return self._layout

    def find_bit(self, bit: Qubit | Clbit) -> Found:
        return Found(self.bits_like(bit).index(bit))

    def bits_like(self, bit: Qubit | Clbit) -> list[typing.Any]:
        if isinstance(bit, Qubit):
            return self.qubits
        return self.clbits

    def append(self, operation: Gate, qargs: typing.Sequence[typing.Any], cargs: typing.Sequence[typing.Any] = ()) -> None:
        qubits = tuple(self.qubits[it] if isinstance(it, int) else it for it in qargs)
        clbits = tuple(self.clbits[it] if isinstance(it, int) else it for it in cargs)
        self.data.append(Instruction(operation, qubits, clbits))

    def gate(self, name: str, *qubits: int, params: typing.Sequence[float] = ()) -> None:
        """Stands for the methods `h`, `cx` and their like."""
        self.append(Gate(name, len(qubits), list(params)), qubits)

    def barrier(self, *qubits: int) -> None:
        listed = qubits or tuple(range(len(self.qubits)))
        self.append(Gate("barrier", len(listed), []), listed)

    def measure(self, qubit: int, clbit: int) -> None:
        self.append(Gate("measure", 1, []), [qubit], [clbit])

    def count_ops(self) -> dict[str, int]:
        names = [it.operation.name for it in self.data]
        return {it: names.count(it) for it in names}
