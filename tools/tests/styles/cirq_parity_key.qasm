// In the form in which Cirq's to_qasm writes programs; written by hand from that form, and not its output.
// Generated from Cirq v1.3.0

OPENQASM 2.0;
include "qelib1.inc";


// Qubits: [q(0), q(1), q(2)]
qreg q[3];
creg m0[1];  // Measurement: parity check
creg m1[1];  // Measurement: 1st


cx q[0],q[2];
cx q[1],q[2];
measure q[2] -> m0[0];
ry(pi*0.1) q[0];
measure q[0] -> m1[0];
