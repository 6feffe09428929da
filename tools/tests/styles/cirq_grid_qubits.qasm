// In the form in which Cirq's to_qasm writes programs; written by hand from that form, and not its output.
// Generated from Cirq v1.3.0

OPENQASM 2.0;
include "qelib1.inc";


// Qubits: [q(0, 0), q(0, 1), q(1, 0), q(1, 1)]
qreg q[4];


h q[0];
cx q[0],q[1];
cx q[0],q[2];
cz q[2],q[3];
rx(pi*0.123) q[3];
swap q[1],q[3];
