// In the form in which Cirq's to_qasm writes programs; written by hand from that form, and not its output.
// Generated from Cirq v1.3.0

OPENQASM 2.0;
include "qelib1.inc";


// Qubits: [alice, bob, msg]
qreg q[3];
creg m_alice[1];  // Measurement: alice
creg m_msg[1];  // Measurement: msg


ry(pi*0.2) q[2];
h q[0];
cx q[0],q[1];
cx q[2],q[0];
h q[2];
measure q[2] -> m_msg[0];
measure q[0] -> m_alice[0];
cx q[0],q[1];
cz q[2],q[1];
