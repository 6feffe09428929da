"""Stages that plugins share."""

import typing

from qiskit.dagcircuit import DAGCircuit
from qiskit.transpiler import PassManager, Target
from qiskit.transpiler.basepasses import TransformationPass


class Translation(TransformationPass):
    """Stands for the translation to a basis; it leaves everything as it is, and tells that it was asked."""

    def __init__(self, *asked: typing.Any) -> None:
        super().__init__()
        self.asked = asked

    def run(self, dag: DAGCircuit) -> DAGCircuit:
        return dag


def generate_translation_passmanager(target: Target | None, basis_gates: list[str] | None = None, method: str = "translator") -> PassManager:
    return PassManager([Translation(target, basis_gates, method)])
