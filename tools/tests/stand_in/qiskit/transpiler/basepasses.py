"""What a pass is."""

import typing

from qiskit.dagcircuit import DAGCircuit


class PropertySet(dict[str, typing.Any]):
    def __missing__(self, key: str) -> None:
        return None


class TransformationPass:
    def __init__(self) -> None:
        self.property_set = PropertySet()

    def run(self, dag: DAGCircuit) -> DAGCircuit:
        raise NotImplementedError
