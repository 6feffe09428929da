// In the form in which Cirq's to_qasm writes programs; written by hand from that form, and not its output.
// Generated from Cirq v1.3.0

OPENQASM 2.0;
include "qelib1.inc";


// Qubits: [q(0), q(1)]
qreg q[2];


id q[0];
x q[0];
y q[1];
z q[0];
rz(pi*1.0) q[1];
cx q[1],q[0];
