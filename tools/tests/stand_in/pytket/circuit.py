"""Circuits, as their texts, and their units."""

from __future__ import annotations

import typing


class UnitID(tuple[typing.Any, ...]):
    def __new__(cls, name: str, *index: int) -> UnitID:
        listed: list[typing.Any] = [name, index]
        return super().__new__(cls, listed)


class Qubit(UnitID):
    pass


class Node(Qubit):
    pass


class Circuit:
    def __init__(self, text: str, qubits: list[Qubit]) -> None:
        self.text, self.qubits = text, qubits

    def rename_units(self, names: typing.Mapping[Qubit, Qubit]) -> bool:
        self.qubits = [names[it] for it in self.qubits]
        return True
