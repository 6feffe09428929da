// In the form in which Cirq's to_qasm writes programs; written by hand from that form, and not its output.
// Generated from Cirq v1.3.0

OPENQASM 2.0;
include "qelib1.inc";


// Qubits: [q(0), q(1), q(2)]
qreg q[3];


h q[0];
rz(pi*0.25) q[0];
cx q[0],q[1];
rz(pi*-0.25) q[1];
cx q[0],q[1];
rz(pi*0.25) q[1];
rz(pi*0.125) q[0];
cx q[0],q[2];
rz(pi*-0.125) q[2];
cx q[0],q[2];
rz(pi*0.125) q[2];
h q[1];
h q[2];
