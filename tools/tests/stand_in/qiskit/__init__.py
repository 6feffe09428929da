"""Stands in for Qiskit in tests: the names that `qroute.qiskit` uses, written after Qiskit's documentation, and no more."""

from qiskit.circuit import ClassicalRegister, Clbit, Gate, QuantumCircuit, QuantumRegister, Qubit

__all__ = ["ClassicalRegister", "Clbit", "Gate", "QuantumCircuit", "QuantumRegister", "Qubit"]
