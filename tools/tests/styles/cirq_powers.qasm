// In the form in which Cirq's to_qasm writes programs; written by hand from that form, and not its output.
// Generated from Cirq v1.3.0

OPENQASM 2.0;
include "qelib1.inc";


// Qubits: [q(0), q(1)]
qreg q[2];


rx(pi*0.5) q[0];
ry(pi*-0.25) q[1];
rz(pi*0.125) q[0];
sx q[1];
sxdg q[0];
s q[0];
t q[1];
sdg q[1];
tdg q[0];
