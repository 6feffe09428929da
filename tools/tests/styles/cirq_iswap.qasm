// In the form in which Cirq's to_qasm writes programs; written by hand from that form, and not its output.
// Generated from Cirq v1.3.0

OPENQASM 2.0;
include "qelib1.inc";


// Qubits: [q(0), q(1)]
qreg q[2];


h q[0];

// Gate: ISWAP
cx q[0],q[1];
h q[0];
cx q[1],q[0];
rz(pi*0.5) q[0];
cx q[1],q[0];
rz(pi*-0.5) q[0];
h q[0];
cx q[0],q[1];
