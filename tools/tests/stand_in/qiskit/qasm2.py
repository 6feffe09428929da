"""Texts in OpenQASM 2.0, as far as the tests have them.

As Qiskit's own, `dumps` refuses control flow, and `loads` knows the gates of `qelib1.inc` and those that it is told of.
"""

import dataclasses
import math
import re
import typing

from qiskit.circuit import ClassicalRegister, Gate, QuantumCircuit, QuantumRegister


class QASM2ExportError(Exception):
    pass


class QASM2ParseError(Exception):
    pass


@dataclasses.dataclass(frozen=True)
class CustomInstruction:
    name: str


STANDARD = "u3 u2 u1 cx id x y z h s sdg t tdg rx ry rz cz cy ch ccx crz cu1 cu3 barrier measure reset".split()
LEGACY_CUSTOM_INSTRUCTIONS = tuple(map(CustomInstruction, [*STANDARD, "p", "u", "sx", "sxdg", "cp", "csx", "swap", "cswap", "rxx", "rzz"]))


def dumps(circuit: QuantumCircuit) -> str:
    lines = ["OPENQASM 2.0;", 'include "qelib1.inc";']
    lines += [f"qreg {it.name}[{len(it)}];" for it in circuit.qregs] + [f"creg {it.name}[{len(it)}];" for it in circuit.cregs]
    names = {bit: f"{reg.name}[{i}]" for reg in [*circuit.qregs, *circuit.cregs] for i, bit in enumerate(reg)}
    for it in circuit.data:
        if it.operation.name == "if_else":
            raise QASM2ExportError("OpenQASM 2 cannot represent control flow: if_else")
        on = ",".join(names[bit] for bit in it.qubits)
        angles = f"({','.join(map(angle_text, it.operation.params))})" if it.operation.params else ""
        reads = f" -> {names[it.clbits[0]]}" if it.clbits else ""
        lines.append(f"{it.operation.name}{angles} {on}{reads};")
    return "\n".join(lines) + "\n"


def angle_text(angle: float) -> str:
    """As Qiskit writes angles: a fraction of pi where it is one."""
    parts = angle / math.pi * 16
    return f"{round(parts)}*pi/16" if abs(parts - round(parts)) < 1e-9 else repr(angle)


def loads(text: str, *, custom_instructions: typing.Iterable[CustomInstruction] = ()) -> QuantumCircuit:
    known = {*STANDARD, *(it.name for it in custom_instructions)}
    statements = [it.strip() for it in re.sub(r"//[^\n]*", "", text).split(";")]
    qregs = {it[1]: QuantumRegister(int(it[2]), it[1]) for it in map(re.compile(r"qreg (\w+)\[(\d+)\]").fullmatch, statements) if it}
    cregs = {it[1]: ClassicalRegister(int(it[2]), it[1]) for it in map(re.compile(r"creg (\w+)\[(\d+)\]").fullmatch, statements) if it}
    circuit = QuantumCircuit(*qregs.values(), *cregs.values())
    bits = qregs | cregs
    for statement in statements:
        word, _, rest = statement.partition(" ")
        if word in ("OPENQASM", "include", "qreg", "creg", ""):
            continue
        word, _, given = word.removesuffix(")").partition("(")
        if word not in known:
            raise QASM2ParseError(f"'{word}' is not defined in this scope")
        named = [bits[name][int(index)] for name, index in re.findall(r"(\w+)\[(\d+)\]", rest)]
        reads = named[1:] if word == "measure" else []
        qubits = named[:1] if word == "measure" else named
        circuit.append(Gate(word, len(qubits), [float(it) for it in given.split(",") if it]), qubits, reads)
    return circuit
