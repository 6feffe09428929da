"""Between circuits and what passes have."""

from qiskit.circuit import QuantumCircuit
from qiskit.dagcircuit import DAGCircuit


def circuit_to_dag(circuit: QuantumCircuit) -> DAGCircuit:
    return DAGCircuit(circuit)


def dag_to_circuit(dag: DAGCircuit) -> QuantumCircuit:
    return dag.circuit
