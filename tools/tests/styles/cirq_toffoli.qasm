// In the form in which Cirq's to_qasm writes programs; written by hand from that form, and not its output.
// Generated from Cirq v1.3.0

OPENQASM 2.0;
include "qelib1.inc";


// Qubits: [q(0), q(1), q(2)]
qreg q[3];


x q[0];
h q[1];
ccx q[0],q[1],q[2];

// Gate: CCZ
h q[2];
ccx q[0],q[1],q[2];
h q[2];
cswap q[0],q[1],q[2];
