"""Devices."""

from pytket.circuit import Node


class Architecture:
    def __init__(self, connections: list[tuple[Node, Node]]) -> None:
        self.coupling = connections

    @property
    def nodes(self) -> list[Node]:
        return list({it for pair in self.coupling for it in pair})
