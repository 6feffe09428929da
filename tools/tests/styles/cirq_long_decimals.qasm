// In the form in which Cirq's to_qasm writes programs; written by hand from that form, and not its output.
// Generated from Cirq v1.3.0

OPENQASM 2.0;
include "qelib1.inc";


// Qubits: [q(0), q(1)]
qreg q[2];


u3(pi*0.3333333333,pi*0.1666666667,pi*1.8333333333) q[0];
cx q[0],q[1];
rz(pi*0.2500000000) q[1];
rx(pi*0.0000012345) q[0];
cx q[0],q[1];
