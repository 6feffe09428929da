"""Texts of circuits."""

import re

from pytket.circuit import Circuit, Qubit


def circuit_to_qasm_str(circuit: Circuit) -> str:
    return circuit.text


def circuit_from_qasm_str(text: str) -> Circuit:
    found = re.findall(r"^qreg (\w+)\[(\d+)\];", text, re.MULTILINE)
    return Circuit(text, [Qubit(name, i) for name, size in found for i in range(int(size))])
